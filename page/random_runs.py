# SPDX-License-Identifier: Apache-2.0
"""Prints random programs with inputs and layouts, each as a line of JSON: random_runs.py SEED COUNT"""
import json
import random
import sys
from pathlib import Path

sys.path.insert(0, str(Path(__file__).resolve().parent.parent))
from tools.fuzz import make
from tools.fuzz.common import RunTest
from tools.fuzz.oracle.bounds import needs

for number in range(int(sys.argv[2])):
    chance = random.Random(f"page {sys.argv[1]} {number}")
    program = make.program(chance)
    test = RunTest(program, tuple(make.inputs_of(chance, program)), make.layout(chance, needs(program)))
    print(json.dumps({"number": number, "hex": test.hex, "words": test.words, "layout": test.layout}))
