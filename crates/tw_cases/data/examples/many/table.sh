#!/bin/sh
# SPDX-License-Identifier: Apache-2.0
# Prints a line for each run of a folder of results: its name, its status, and the lines of its report in one; then how many runs have each
# status. Runs without an answer have no line.
#
#   table.sh RESULTS
for file in "$1"/*.status; do
    [ -e "$file" ] || continue
    name=${file%.status}
    read -r status _ <"$file"
    printf '%s\t%s\t%s\n' "$(basename "$name")" "$status" "$(tr '\n' ';' <"$name.out")"
done | awk -F '\t' '
    { print; count[$2]++ }
    END { for (status in count) print "status " status ": " count[status] | "sort" }'
