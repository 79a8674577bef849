#!/bin/sh
# SPDX-License-Identifier: Apache-2.0
# Runs one program on one file of inputs, an input a line, and writes its report to RESULT.out and its status to RESULT.status.
#
#   one.sh TW PROGRAM INPUTS RESULT [-- OPTION OF TW RUN..]
#
# TW is the program, such as an installed tw, which needs only the C library. PROGRAM is assembly text if its name ends in .tw or
# .twn, else hex text. RESULT.status is written last and in one step: the status, then a hash of version, program and options, then a hash of
# the inputs. If it is there with the same hashes, nothing runs. The variable TW_KEY may give the first hash. A program with a line `inputs` of its
# own is refused, as by `tw check`.
#
# Ends with 0 if the run gave an answer (0 quiet, 1 refused, 2 an input refused, 3 stuck, 4 limit). Otherwise it ends with the status of the run,
# which may be tried again (5 out of memory, 7 a read or write failed, above 128 killed). It ends with 66 if a file can't be read.
[ $# -ge 4 ] || { echo "usage: one.sh TW PROGRAM INPUTS RESULT [-- OPTION OF TW RUN..]" >&2; exit 2; }
tw=$1 program=$2 inputs=$3 result=$4
shift 4
[ "$1" != -- ] || shift
[ -r "$program" ] && [ -r "$inputs" ] || { echo "one.sh: $program or $inputs can't be read" >&2; exit 66; }
case $program in
    *.[tT][wW] | *.[tT][wW][nN]) set -- --text "$@" ;;
esac
key=${TW_KEY:-$("$(dirname "$(readlink -f "$0")")/key.sh" "$tw" "$program" "$@")} || exit
data=$(sha256sum <"$inputs") && data=${data%% *} || exit 66
if [ -e "$result.status" ] && read -r known <"$result.status" && [ "${known#* }" = "$key $data" ]; then
    exit 0
fi
rm -f "$result.status"
# With a blank after it a program's own line `inputs` begins no inputs.
{ LC_ALL=C sed 's/^inputs[[:space:]]*$/& /' "$program" && printf '\ninputs\n' && cat "$inputs"; } | "$tw" run --inputs "$@" >"$result.part"
status=$?
case $status in
    [01234]) ;;
    *) exit "$status" ;;
esac
mv "$result.part" "$result.out" && echo "$status $key $data" >"$result.status.part" && mv "$result.status.part" "$result.status"
