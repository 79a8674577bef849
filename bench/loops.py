# SPDX-License-Identifier: Apache-2.0
"""Times commands in turn. Prints the least processor time of each loop, and its ratio to lua's, then that of a round."""

from __future__ import annotations

import os
import resource
import subprocess
import sys
import tempfile

ROUNDS = 2_000_000
TIMES = 9
LUA = "lua5.4, two adds and a compare, 20 million turns"
LOOPS = {
    "jobs, two adds, a compare and END, 20 million turns": "adds_20.hex",
    "jobs, five local instructions, 20 million turns": "five_20.hex",
    "jobs, SHOW CAT READI LEN ADD, a million turns": "text.hex",
}
SMALL_TASKS = {
    "a round: task, drafts, frame, job, run, shut": "empty.hex",
    "the same with two ints and two INT": "two_ints.hex",
    "the same with a text and TEXT": "one_text.hex",
}


def seconds(command: list[str]) -> float:
    """Returns the processor time of a command, whose output is dropped. A run that isn't quiet ends the measurement."""
    before = resource.getrusage(resource.RUSAGE_CHILDREN)
    ran = subprocess.run(command, stdin=subprocess.DEVNULL, stdout=subprocess.DEVNULL, check=False)
    if ran.returncode:
        sys.exit(f"loops: {command[0]} ended with status {ran.returncode}")
    after = resource.getrusage(resource.RUSAGE_CHILDREN)
    return after.ru_utime + after.ru_stime - before.ru_utime - before.ru_stime


def least_of(commands: dict[str, list[str]]) -> dict[str, float]:
    """Returns the least processor time of each command, all run in turn."""
    least = {name: float("inf") for name in commands}
    for _ in range(TIMES):
        for name, command in commands.items():
            least[name] = min(least[name], seconds(command))
    return least


def time_loops(program: str, here: str) -> None:
    """Prints the time of each loop without that of a run of nothing."""
    commands = {LUA: ["lua5.4", os.path.join(here, "loop.lua"), "20000"]}
    commands |= {name: [program, "run", "--in-turn", os.path.join(here, file)] for name, file in LOOPS.items()}
    with tempfile.NamedTemporaryFile("w", suffix=".tw") as nothing:
        nothing.write("proc control\nregs\nRET\n")
        nothing.flush()
        least = least_of(commands | {"": [program, "run", "--in-turn", nothing.name]})
    start = least.pop("")
    for name, used in least.items():
        own = used if name == LUA else used - start
        print(f"{own:7.3f} s  {own / least[LUA]:5.2f}  {name}")


def time_rounds(fuzz: str, here: str) -> None:
    """Prints the time of a round of small tasks."""
    commands = {}
    for name, file in SMALL_TASKS.items():
        with open(os.path.join(here, file), encoding="utf-8") as digits:
            commands[name] = [fuzz, "steps", digits.read().strip(), str(ROUNDS)]
    for name, used in least_of(commands).items():
        print(f"{used / ROUNDS * 1e9:7.0f} ns        {name}")


def main(program: str, here: str, fuzz: str) -> None:
    time_loops(program, here)
    if os.access(fuzz, os.X_OK):
        time_rounds(fuzz, here)
    else:
        print("rounds of small tasks are left out: tw_fuzz isn't built")


if __name__ == "__main__":
    try:
        main(*sys.argv[1:])
    except OSError as fault:
        sys.exit(f"loops: {fault}")
