#!/bin/sh
# SPDX-License-Identifier: Apache-2.0
# Sums of the sources from which a crate is built: crates.txt's lines of the crate and of those below it, and their folders src,
# specs and proofs. Other scripts read this file for its functions, which want `root` to be set. As a command:
#
#   script/sources.sh CRATE      prints two sums, of all of these and of the code alone (crates.txt and src)
#   script/sources.sh            prints the sum of all crates' sources

# The lines of crates.txt of the crates below this one, itself among them, lowest first; of every crate if there is no name.
lines_of_crates() {
    awk -F: -v top="$1" '
        { sub(/#.*/, ""); sub(/[ \t]+$/, ""); line[NR] = $0; split($1, name, " "); crate[NR] = name[1]; if (name[1] != "") uses[name[1]] = $2 }
        function visit(crate, deps, i) {
            if (!(crate in uses) || seen[crate]++) return
            for (i = split(uses[crate], deps, " "); i > 0; i--) visit(deps[i])
        }
        END {
            if (top != "") visit(top); else for (each in uses) seen[each]
            for (i = 1; i <= NR; i++) if (crate[i] in seen) print line[i]
        }' "$root/crates.txt"
}

# The folders of a crate's sources and of those below it.
folders_of_sources() {
    lines_of_crates "$1" | sed 's/[: ].*//' | while read -r below; do
        for part in src specs proofs; do
            [ ! -d "$root/crates/$below/$part" ] || echo "crates/$below/$part"
        done
    done
}

# A line `SUM  FILE` for each source file of a crate and of those below it, in the order of their names.
sums_of_files() {
    lines_of_crates "$1" | sha256sum | sed 's/-$/crates.txt/'
    # (names of crates have no blanks)
    # shellcheck disable=SC2046
    (cd "$root" && find $(folders_of_sources "$1") -type f -print0 | LC_ALL=C sort -z | xargs -0 sha256sum)
}

sum_of_input() {
    sha256sum | cut -d ' ' -f 1
}

# Two words: the sum of a crate's sources, and the sum of its code alone.
sums_of_crate() {
    of_files=$(sums_of_files "$1")
    printf '%s ' "$(printf '%s\n' "$of_files" | sum_of_input)"
    printf '%s\n' "$of_files" | grep -v '  crates/[^/]*/\(specs\|proofs\)/' | sum_of_input
}

case ${0##*/} in
    sources.sh)
        root=$(dirname "$(dirname "$(readlink -f "$0")")")
        if [ -n "$1" ]; then
            sums_of_crate "$1"
        else
            sums_of_files '' | sum_of_input
        fi ;;
esac
