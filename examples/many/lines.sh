#!/bin/sh
# SPDX-License-Identifier: Apache-2.0
# Runs one program on some lines of a file of inputs, a JSON array a line, and prints a JSON line for each, with its number in the file.
#
#   lines.sh TW PROGRAM INPUTS FIRST LAST [OPTION OF TW RUN..]
#   seq 1 10000 1000000 | parallel -k 'lines.sh tw sum.twn inputs.jsonl {} $(({} + 9999))' >results.jsonl
#
# TW is the built program, and PROGRAM assembly text if its name ends in .tw or .twn, else hex text. The status is that of `tw run --each`: 0 if all lines are
# run, 1 if one is rejected. A line before FIRST is passed as a blank one, which is counted and skipped. A program with a line `inputs` of its own
# is rejected, as by `tw check`: with a blank after it, that line begins no inputs.
[ $# -ge 5 ] || { echo "usage: lines.sh TW PROGRAM INPUTS FIRST LAST [OPTION OF TW RUN..]" >&2; exit 2; }
tw=$1 program=$2 inputs=$3 first=$4 last=$5
shift 5
[ -r "$program" ] && [ -r "$inputs" ] || { echo "lines.sh: $program or $inputs can't be read" >&2; exit 66; }
case $program in
    *.[tT][wW] | *.[tT][wW][nN]) set -- --text "$@" ;;
esac
{ LC_ALL=C sed 's/^inputs[[:space:]]*$/& /' "$program" && printf '\ninputs\n' && awk -v first="$first" -v last="$last" 'NR > last { exit } { print NR < first ? "" : $0 }' "$inputs"; } |
    "$tw" run --each "$@"
