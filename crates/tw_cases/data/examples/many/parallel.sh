#!/bin/sh
# SPDX-License-Identifier: Apache-2.0
# Runs one program on each file NAME.in of a folder by GNU parallel: on this machine, or on those that its options name.
#
#   parallel.sh TW PROGRAM INPUTS RESULTS [OPTION OF PARALLEL..] [-- OPTION OF TW RUN..]
#   parallel.sh tw sum.twn inputs results --sshlogin 8/one.example,16/two.example -- --limit 100000
#
# Each run writes NAME.out and NAME.status to RESULTS as it ends (one.sh says what they hold), so what is done stays, however this ends.
# Called again, it runs what has no answer for this version, program, options and inputs. RESULTS/log has a line a run, with its time.
# Programs are copied to other machines once, each file of inputs for its run; nothing stays there.
[ $# -ge 4 ] || { echo "usage: parallel.sh TW PROGRAM INPUTS RESULTS [OPTION OF PARALLEL..] [-- OPTION OF TW RUN..]" >&2; exit 2; }
here=$(dirname "$(readlink -f "$0")")
tw=$(command -v "$1") && [ -f "$tw" ] && [ -x "$tw" ] || { echo "parallel.sh: there is no program $1" >&2; exit 66; }
[ -r "$2" ] && [ -r "$3" ] || { echo "parallel.sh: $2 or $3 can't be read" >&2; exit 66; }
tw=$(readlink -f "$tw") program=$(readlink -f "$2") inputs=$(readlink -f "$3") results=$4
shift 4
mkdir -p "$results" && results=$(readlink -f "$results") || exit

# The options before `--` are for parallel; each of those after it is quoted for the shell that parallel starts.
count=$# passed='' options=''
while [ "$count" -gt 0 ]; do
    word=$1 count=$((count - 1))
    shift
    if [ -n "$passed" ]; then
        options="$options '$(printf %s "$word" | sed "s/'/'\\\\''/g")'"
    elif [ "$word" = -- ]; then
        passed=yes
    else
        set -- "$@" "$word"
    fi
done
todo=$(eval "\"\$here/todo.sh\" \"\$tw\" \"\$program\" \"\$inputs\" \"\$results\" $options") || exit
printf '%s\n' "$todo" | sed 1d >"$results/list"
key=$(printf '%s\n' "$todo" | sed -n 1p)
[ -s "$results/list" ] || exit 0

cd "$results" || exit
quote() {
    printf "'%s'" "$(printf %s "$1" | sed "s/'/'\\\\''/g")"
}
case " $* " in
    *" -S"* | *" --sshlogin"* | *" --slf"*)
        set -- "$@" --workdir "yuglemit.$(uname -n).$$" --basefile "$(dirname "$tw")/./$(basename "$tw")" --basefile "$here/./one.sh" --cleanup \
            --basefile "$(dirname "$program")/./$(basename "$program")" --transferfile "$inputs/./{}.in" --return {}.out --return {}.status
        command="./one.sh ./$(quote "$(basename "$tw")") ./$(quote "$(basename "$program")") ./{}.in ./{}" ;;
    *) command="$(quote "$here/one.sh") $(quote "$tw") $(quote "$program") $(quote "$inputs")/./{}.in ./{}" ;;
esac
parallel --joblog "$results/log" --retries 3 "$@" "TW_KEY=$key $command -- $options" :::: "$results/list" &
child=$!
trap 'kill -TERM "$child"' INT TERM HUP
wait "$child"
status=$?
while kill -0 "$child" 2>/dev/null; do # a signal ended the wait: parallel ends after the runs that it has begun
    wait "$child"
    status=$?
done
exit "$status"
