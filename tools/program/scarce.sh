#!/bin/sh
# Runs each case of a session that is short of memory in a process of its own, on one processor. The first threads of the process end before the
# next ones begin, so that `malloc` makes one arena for them, as it does by chance on a busy machine. Prints what differs, and ends with
# `N passed, M failed`; it fails if one does.
#
#   ./dev scarce [TIMES]
#
# It needs a C compiler and taskset.
root=$(readlink -f "$0") && root=${root%/tools/*}
rows=$root/crates/tw_cases/stdin
# shellcheck source=tools/common/report.sh
. "$root/tools/common/report.sh"
program=$("$root/script/pick.sh" tw_cases) || exit
cc -O2 -shared -fPIC -o "$room/one_arena.so" "$root/tools/program/one_arena.c" -ldl || exit
# The first processor that this process may use.
first=$(taskset -cp $$ | sed 's/.*: //; s/[-,].*//') || exit
for _ in $(seq "${1:-1}"); do
    for name in $(sed -n 's/^\(long_[a-z_]*\) | scarce .*/\1/p' "$rows"); do
        grep -E "^let |^$name " "$rows" >"$room/rows"
        LD_PRELOAD=$room/one_arena.so taskset -c "$first" "$program" <"$room/rows" >"$room/log" 2>&1
        [ "$(cat "$room/log")" = "1 cases as wanted" ]
        report $? "$name"
    done
done
summary && [ "$passed" -gt 0 ]
