#!/bin/sh
# SPDX-License-Identifier: Apache-2.0
# Runs one program on each file NAME.in of a folder as one job array of Slurm, several files a job.
#
#   array.sh TW PROGRAM INPUTS RESULTS [FILES A JOB] [OPTION OF SBATCH..] [-- OPTION OF TW RUN..]
#   array.sh tw sum.twn inputs results 100 --partition=short -- --limit 100000
#
# All four are where each machine sees them. Each run writes NAME.out and NAME.status to RESULTS (one.sh says what they hold). Called again
# once the array is through, it runs what has no answer for this version, program, options and inputs. A job's time is what bound.sh
# prints for its runs, and a minute. The number of jobs keeps to the cluster's MaxArraySize, and a job's time to the partition's limit.
[ $# -ge 4 ] || { echo "usage: array.sh TW PROGRAM INPUTS RESULTS [FILES A JOB] [OPTION OF SBATCH..] [-- OPTION OF TW RUN..]" >&2; exit 2; }
here=$(dirname "$(readlink -f "$0")")
tw=$(command -v "$1") && [ -f "$tw" ] && [ -x "$tw" ] || { echo "array.sh: there is no program $1" >&2; exit 66; }
[ -r "$2" ] && [ -r "$3" ] || { echo "array.sh: $2 or $3 can't be read" >&2; exit 66; }
tw=$(readlink -f "$tw") program=$(readlink -f "$2") inputs=$(readlink -f "$3") results=$4
shift 4
each=100
case $1 in
    '' | *[!0-9]*) ;;
    *) each=$1 && shift ;;
esac
mkdir -p "$results" && results=$(readlink -f "$results") || exit

# The options of sbatch go to a list that the shell reads again, and those of tw run stay.
sbatch='' partition='' limit=1000000 before=''
while [ $# -gt 0 ] && [ "$1" != -- ]; do
    case $before$1 in
        --partition=* | -p=*) partition=${1#*=} ;;
        -p?*) partition=${1#-p} ;;
    esac
    [ "$before" != "-p " ] && [ "$before" != "--partition " ] || partition=$1
    case $1 in -p | --partition) before="$1 " ;; *) before='' ;; esac
    sbatch="$sbatch '$(printf %s "$1" | sed "s/'/'\\\\''/g")'"
    shift
done
[ "$1" != -- ] || shift
before=''
for word; do
    [ "$before" != --limit ] || limit=$word
    case $word in --limit=*) limit=${word#*=} ;; esac
    before=$word
done

todo=$("$here/todo.sh" "$tw" "$program" "$inputs" "$results" "$@") || exit
printf '%s\n' "$todo" | sed 1d >"$results/list"
# It is in the command that eval reads.
# shellcheck disable=SC2034
key=$(printf '%s\n' "$todo" | sed -n 1p)
runs=$(wc -l <"$results/list")
[ "$runs" -gt 0 ] || exit 0
seconds=$("$here/bound.sh" "$tw" "$program" "$limit") || exit

# The minutes that the partition allows: the limit is `infinite`, or [DAYS-]HOURS:MINUTES:SECONDS, or MINUTES:SECONDS.
allowed=$(sinfo -h ${partition:+-p "$partition"} -o '%P %l' | awk -v named="$partition" '
    (named != "" || $1 ~ /\*$/) && $2 ~ /:/ {
        days = 0; time = $2
        if (split($2, parts, "-") == 2) { days = parts[1]; time = parts[2] }
        n = split(time, parts, ":")
        print days * 1440 + (n == 3 ? parts[1] * 60 + parts[2] : parts[1]); exit
    }')
largest=$(scontrol show config | awk '$1 == "MaxArraySize" { print $3 - 1 }')
fit=$(awk -v seconds="$seconds" -v allowed="$allowed" 'BEGIN { print allowed == "" ? 0 : int((allowed - 1) * 60 / seconds) }')
[ "$fit" -eq 0 ] || [ "$each" -le "$fit" ] || each=$fit
least=$(((runs + ${largest:-1000} - 1) / ${largest:-1000}))
[ "$each" -ge "$least" ] || each=$least
[ "$each" -le "$runs" ] || each=$runs
minutes=$((each * seconds / 60 + 1))
if [ -n "$allowed" ] && [ "$minutes" -gt "$allowed" ]; then
    echo "array.sh: $each runs may take $minutes minutes, the partition allows $allowed; what has no answer then runs when this is called again" >&2
    minutes=$allowed
fi
rm -f "$results"/slurm-*.log
eval "sbatch --array=1-$(((runs + each - 1) / each)) --ntasks=1 --cpus-per-task=1 --time=$minutes --output=\"\$results/slurm-%a.log\" $sbatch \
    \"\$here/job.sh\" \"\$here\" \"\$tw\" \"\$program\" \"\$inputs\" \"\$results\" \"\$each\" \"\$key\" \"\$@\""
