#!/bin/sh
# SPDX-License-Identifier: Apache-2.0
# Checks a program, and lists which files NAME.in of a folder have no answer in RESULTS that fits: KEY on the first line, then a NAME a line.
#
#   todo.sh TW PROGRAM INPUTS RESULTS [OPTION OF TW RUN..]
#
# Ends with 1 if the program is refused, which standard error then says, and with 66 if TW, PROGRAM or a file of inputs is missing, or a
# file's name has a line end.
[ $# -ge 4 ] || { echo "usage: todo.sh TW PROGRAM INPUTS RESULTS [OPTION OF TW RUN..]" >&2; exit 2; }
tw=$(command -v "$1") && [ -f "$tw" ] && [ -x "$tw" ] || { echo "todo.sh: there is no program $1" >&2; exit 66; }
program=$2 inputs=$3 results=$4
[ -r "$program" ] || { echo "todo.sh: $program can't be read" >&2; exit 66; }
shift 4
text=''
case $program in
    *.[tT][wW] | *.[tT][wW][nN]) text=--text && set -- --text "$@" ;;
esac
answer=$("$tw" check $text <"$program") || { printf '%s\n' "$answer" >&2; exit 1; }
[ -n "$(find "$inputs" -maxdepth 1 -name '*.in' -print -quit)" ] || { echo "there is no file $inputs/NAME.in" >&2; exit 66; }
[ -z "$(find "$inputs" -maxdepth 1 -name '*
*.in' -print -quit)" ] || { echo "todo.sh: the name of a file in $inputs has a line end" >&2; exit 66; }
key=$("$(dirname "$(readlink -f "$0")")/key.sh" "$tw" "$program" "$@") || exit
echo "$key"
(cd "$inputs" && find . -maxdepth 1 -name '*.in' -print0 | sort -z | xargs -0 sha256sum --zero --) | tr '\0' '\n' |
    KEY=$key RESULTS=$results awk '
        BEGIN { key = ENVIRON["KEY"]; results = ENVIRON["RESULTS"] } # -v reads a backslash as an escape
        {
            hash = $1; sub(/^[^ ]+ [ *]\.\//, ""); sub(/\.in$/, "")
            file = results "/" $0 ".status"; line = ""
            getline line <file; close(file)
            if (substr(line, index(line, " ") + 1) != key " " hash) print
        }'
