# SPDX-License-Identifier: Apache-2.0
"""Runs a program on a folder of inputs, in processes of this machine: processes.py PROGRAM INPUTS >TABLE

If a process dies, its runs are made again in this one. For programs that may be the cause leave `on_broken` out."""

import pathlib
import sys
from concurrent.futures import ProcessPoolExecutor

import folder
import yuglemit

if __name__ == "__main__":
    program = yuglemit.load(pathlib.Path(sys.argv[1]))
    with ProcessPoolExecutor() as pool:
        folder.table(program, folder.read(program, sys.argv[2]), pool, on_broken="here")
