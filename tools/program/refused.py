"""Runs a command once for each request for memory that it makes, with that request refused, and for each thread. It has to end with `memory` and
status 5, or as it does otherwise. Prints how often each command ended in which way, and ends with `N passed, M failed`.

    ./dev refused              some commands on examples
    ./dev refused --most 60    the first 60 requests of each

The runtime's own requests are among those that are counted. It needs a C compiler.
"""

import argparse
import os
import re
import subprocess
import tempfile
from collections import Counter
from pathlib import Path
from typing import NamedTuple

from tools import ROOT
from tools.common.program import program

# The last line that is allowed, also if a request that was refused wasn't necessary.
ENDS = re.compile(r'status 5, memory|status 0, (?:quiet|order same|at line \d+ .*)|status 0, \{"(?:events|line":4,|bounds).*')
PIPELINE, BARRIER = ROOT / "examples/pipeline.tw", ROOT / "examples/barrier.twn"
LINES = "[39]\n[40]\n[41]\n[42]\n"


class Command(NamedTuple):
    """A command, its standard input, and what is refused of it: memory, threads or both."""

    words: str
    given: str
    kinds: tuple[str, ...] = ("memory",)


def commands() -> tuple[Command, ...]:
    """Returns the commands that are tried."""
    text, barrier, both = PIPELINE.read_text(encoding="utf-8"), BARRIER.read_text(encoding="utf-8"), ("memory", "thread")
    return (
        Command("run --text int:39", text), Command("run --text --json int:39", text), Command("check --text --order", text),
        Command("check --text --order --places --bounds=all", barrier), Command("check --text --order --places --bounds=all --json", barrier),
        Command("run --text --workers 4 int:39", text, ("thread",)), Command("run --text --order int:39", text),
        Command("run --text --json --order --in-turn int:39", text), Command("run --text --seconds 100 int:39", text, both),
        Command("run --text --in-turn --seconds 100 int:39", text), Command("run --text --each --jobs 4", f"{text}inputs\n{LINES}", both),
        Command(f"run {PIPELINE} --each - --jobs 4", LINES, both), Command(f"run {PIPELINE} --each - --jobs 4 --seconds 100", LINES, both),
    )


def refusing(room: Path, kind: str, number: int, command: Command) -> tuple[int, str]:
    """Runs a command with the request of a number refused; returns how many requests it made, and its status with the last line."""
    count = room / "count"
    count.unlink(missing_ok=True)
    named = {**os.environ, "KIND": kind, "REFUSE": str(number), "REPORT": str(count), "LD_PRELOAD": str(room / "refuse.so")}
    done = subprocess.run([program(), *command.words.split()], input=command.given.encode(), env=named, capture_output=True, check=False)
    made = count.read_text(encoding="ascii").strip() if count.exists() else ""
    last = done.stdout.decode(errors="replace").splitlines()[-1:]
    return int(made or 0), f"status {done.returncode}, {''.join(last)}"


def ends_of(room: Path, kind: str, command: Command, most: int) -> Counter[str]:
    """Returns how often a command ended in which way, with each of its requests refused."""
    ends: Counter[str] = Counter()
    for number in range(1, most + 1):
        made, end = refusing(room, kind, number, command)
        if made < number:
            break
        ends[end] += 1
    return ends


def main(words: list[str]) -> int:
    """Tries all commands; returns an exit status. A command that makes no request, such as a static program's, fails."""
    parser = argparse.ArgumentParser(description="Refuses each request for memory and threads.")
    parser.add_argument("--most", type=int, default=100_000, metavar="N", help="the first N requests of each command")
    most, passed, failed = parser.parse_args(words).most, 0, 0
    with tempfile.TemporaryDirectory() as name:
        room = Path(name)
        subprocess.run(["cc", "-O2", "-shared", "-fPIC", "-o", str(room / "refuse.so"), str(Path(__file__).with_name("refuse.c")), "-ldl"], check=True)
        for command, kind in [(command, kind) for command in commands() for kind in command.kinds]:
            ends = ends_of(room, kind, command, most)
            print(f"{command.words}, {kind}: {ends.total()} requests, each refused once", flush=True)
            for end, count in ends.most_common():
                is_well = bool(ENDS.fullmatch(end))
                passed, failed = passed + count * is_well, failed + count * (not is_well)
                print(f"{count:8} {'' if is_well else 'FAILED '}{end:.150}")
            failed += not ends
    print(f"{passed} passed, {failed} failed")
    return 1 if failed or not passed else 0
