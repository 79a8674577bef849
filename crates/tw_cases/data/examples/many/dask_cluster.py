# SPDX-License-Identifier: Apache-2.0
"""Runs a program on a folder of inputs, on the workers of a Dask scheduler: dask_cluster.py PROGRAM INPUTS tcp://HOST:8786 >TABLE"""

import pathlib
import sys

import folder
import yuglemit
from dask.distributed import Client

if __name__ == "__main__":
    program = yuglemit.load(pathlib.Path(sys.argv[1]))
    with Client(sys.argv[3]) as client:
        folder.table(program, folder.read(program, sys.argv[2]), client)
