#!/bin/sh
# SPDX-License-Identifier: Apache-2.0
# Prints how many seconds of processor time a run of a program takes at most, by the bounds of `tw check --bounds`, before it runs.
#
#   bound.sh TW PROGRAM [LIMIT]
#
# The limit bounds a program that has no bounds, or more than LIMIT events. Then no event does more instructions than the greatest
# budget. Each instruction and each event counts as twice the dearest that the program may have: of ints; of texts, if it has some; READI of the
# longest text, or a search in it, if it has that (./dev prices measures them). So most runs take a small part of it.
[ $# = 2 ] || [ $# = 3 ] || { echo "usage: bound.sh TW PROGRAM [LIMIT]" >&2; exit 2; }
tw=$1 program=$2 limit=${3:-1000000} text=''
case $program in
    *.[tT][wW] | *.[tT][wW][nN]) text=--text ;;
esac
answer=$("$tw" check $text --bounds <"$program") || { printf '%s\n' "$answer" >&2; exit 1; }
listing=$("$tw" disasm $text <"$program") || exit
work=ints
case $listing in *text*READI* | *READI*text*) work=numbers ;; *text*) work=texts ;; esac
case $answer in *"
searches "*) work=searches ;; esac
case $work in
    ints) instructions=50000000 events=100000 ;;
    texts) instructions=2000000 events=10000 ;;
    numbers) instructions=50000 events=10000 ;;
    searches) instructions=20000 events=10000 ;;
esac
printf '%s\n' "$answer" | awk -v limit="$limit" -v instructions="$instructions" -v events="$events" '
    $1 == "proc" && $5 > greatest { greatest = $5 }
    $1 == "bound" { bound[$2] = $3 }
    END {
        made = bound["events"]
        if (made !~ /^[0-9]+$/ || made > limit) made = limit
        done = bound["instructions"]
        if (done !~ /^[0-9]+$/ || done > limit * greatest) done = limit * greatest
        print int(done / instructions + made / events) + 1
    }'
