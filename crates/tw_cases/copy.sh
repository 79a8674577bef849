#!/bin/sh
# Brings data/ up to date with examples/ and with what README.md and docs/ show: each `$ ./tw ..` in a block of code, and
# its output below it. CI runs the cases of data/ and reads nothing outside of it, so run this after an edit of those.
# With an argument it writes into that new folder instead: ./dev twins --check compares it with data/.
cd "$(dirname "$0")/../.." || exit 1
data=${1:-crates/tw_cases/data}

# Replaces the name of a file after a command by the options that `tw` makes of it. Blanks and backslashes in quotes become escapes of cases.
as_input() {
    awk 'BEGIN { FS = OFS = "\047" } /^\$ / { for (i = 2; i <= NF; i += 2) { gsub(/\\/, "\\x5c", $i); gsub(/ /, "\\x20", $i) } } { print }' "$1" | sed -E '/^\$ /{
        s#^\$ \./tw asm ([^ :<]+\.tw)( |$)#$ ./tw asm < \1\2#
        s#^\$ \./tw asm ([^ :<]+\.twn)([^|]*[^| ])?#$ ./tw asm --names\2 < \1#
        s#^\$ \./tw ([a-z]+) ([^ :<]+\.twn?)([^|]*[^| ])?( \| .*)?$#$ ./tw \1 --text\3 < \2\4#
        s#^\$ \./tw ([a-z]+) ([^ :<]+\.(hex|history))([^|]*[^| ])?( \| .*)?$#$ ./tw \1\4 < \2\5#
    }' >"$data/as_input" && mv "$data/as_input" "$1"
}

[ $# -gt 0 ] || rm -rf "$data"
mkdir "$data" && cp -R examples "$data/examples" && rm "$data/examples/README.md" || exit 1
awk -f tools/program/shown.awk -v folder="$data" README.md docs/*.md
as_input "$data/shown.txt"
as_input "$data/examples/sessions.txt"
as_input "$data/examples/orders.txt"
printf '$ ./tw check < examples/store_seven.hex\nnonsense\n' > "$data/control.txt"
