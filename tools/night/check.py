"""Runs what CI runs of the harnesses, in five minutes of two processors. Prints what fails, with its log, and what is left out.

    ./dev check              all
    ./dev check NAME..       these
    ./dev check --sources    those of the sources, which test no program
    ./dev check --built      those that test programs and the library
    ./dev check --times      prints a line for each, too

What is tested is the release, or what is built here (script/pick.sh). Of more than two processors one stays free, since some harnesses measure
time. The seed of the fuzz tests is the sum of what they test: the same before a commit, after it and in CI."""

import os
import tempfile
from pathlib import Path

from tools import ROOT
from tools.common.program import LIBRARY, PROGRAM, describe, for_package
from tools.harnesses import TOOLS, Tool, named
from tools.night import record
from tools.night.runner import FAILED, LEFT_OUT, Ended, Runner, heed_signals, status_of, total


def jobs(processors: int) -> int:
    """Returns how many harnesses are run at once."""
    return max(2, processors - 1)


def seed() -> str:
    """Returns the sum of the sources that the fuzz tests test, and of their own."""
    return record.sum_of(next(tool for tool in TOOLS if tool.name.startswith("fuzz_")))


def chosen(words: list[str]) -> list[Tool]:
    """Returns the harnesses that arguments name, or all of CI."""
    rows = [tool for tool in TOOLS if tool.is_harness and tool.in_ci]
    if words in (["--sources"], ["--built"]):
        return [tool for tool in rows if bool(tool.tests) == (words == ["--built"])]
    return named(words) or rows


def report(ended: Ended, logs: Path, prints_all: bool) -> None:
    """Prints what a reader has to know of a harness."""
    if ended.outcome == FAILED:
        print((logs / f"{ended.tool.name}.log").read_text(encoding="utf-8", errors="replace"), end="")
    if ended.outcome == FAILED or prints_all:
        print(ended.line(), flush=True)
    elif ended.outcome == LEFT_OUT or ended.parts:
        print(f"left out: {ended.tool.name}: {', '.join(ended.parts) or ended.text}", flush=True)


def main(words: list[str]) -> int:
    """Runs them; returns an exit status."""
    prints_all = "--times" in words
    tools = chosen([word for word in words if word != "--times"])
    environment: dict[str, str] = {}
    if any(tool.tests for tool in tools):
        print(f"tests {describe(PROGRAM)} and {describe(LIBRARY)}", flush=True)
        environment = for_package()
    with tempfile.TemporaryDirectory() as name:
        logs = Path(name)
        runner = Runner(ROOT, logs, {"seed": seed()}, float(os.environ.get("PATIENCE", "1")), environment=environment)
        runner.say = lambda ended: report(ended, logs, prints_all)
        heed_signals(runner)
        ended = runner.run_all(tools, jobs(len(os.sched_getaffinity(0))))
    print(total(ended))
    return status_of(ended)
