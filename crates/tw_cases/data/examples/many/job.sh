#!/bin/sh
# SPDX-License-Identifier: Apache-2.0
# Makes the runs of one job of an array that array.sh submits: so many names of RESULTS/list, one after another.
here=$1 tw=$2 program=$3 inputs=$4 results=$5 each=$6 TW_KEY=$7
export TW_KEY
shift 7
first=$(((SLURM_ARRAY_TASK_ID - 1) * each + 1))
sed -n "$first,$((first + each - 1))p" "$results/list" |
    while IFS= read -r name; do
        "$here/one.sh" "$tw" "$program" "$inputs/$name.in" "$results/$name" -- "$@" </dev/null || echo "$name: status $?"
    done
