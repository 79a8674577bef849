# SPDX-License-Identifier: Apache-2.0
"""Runs one job's share of a folder of inputs, and writes it to RESULTS in one step. The jobs' tables together are the whole one.

    sbatch --array=0-9 --wrap='python3 slurm_array.py PROGRAM INPUTS RESULTS'
    cat RESULTS/*.table | sort
"""

import os
import pathlib
import sys

import folder
import yuglemit

if __name__ == "__main__":
    program = yuglemit.load(pathlib.Path(sys.argv[1]))
    job, jobs = int(os.environ["SLURM_ARRAY_TASK_ID"]), int(os.environ["SLURM_ARRAY_TASK_COUNT"])
    made = pathlib.Path(sys.argv[3]) / f"{job}.table"
    with open(made.with_suffix(".part"), "w", encoding="utf-8") as file:
        folder.table(program, folder.read(program, sys.argv[2])[job::jobs], file=file)
    os.replace(file.name, made)
