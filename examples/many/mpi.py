# SPDX-License-Identifier: Apache-2.0
"""Runs a program on a folder of inputs, over MPI: mpiexec -n 17 python3 -m mpi4py.futures mpi.py PROGRAM INPUTS >TABLE"""

import pathlib
import sys

import folder
import yuglemit
from mpi4py.futures import MPIPoolExecutor

if __name__ == "__main__":
    program = yuglemit.load(pathlib.Path(sys.argv[1]))
    with MPIPoolExecutor() as pool:
        folder.table(program, folder.read(program, sys.argv[2]), pool)
