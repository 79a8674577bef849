"""Runs harnesses in a clean clone of what is committed, and the fuzz tests with the date as seed. Prints a line for each, with its time, its
processor time and its last line. What crashes, takes longer than its limit, or counts fewer than its least has failed.

    ./dev night              those of each night, tonight's shard of seven, and those that failed in the night before
    ./dev night --all        all, whole
    ./dev night --quick      a small part of each
    ./dev night NAME..       these; `fuzz` is each of its kinds. With --quick a part of them
    ./dev night --jobs 1     one after another; else so many at once as there are processors but one, those that measure one after another
    SECONDS_A_KIND=120 SEED=7 COUNT=20000 ./dev night fuzz    bounds each kind's time; another seed, another count
    PATIENCE=5 ./dev night   each limit is five times as long, for a machine that does other things too

Program and libraries are what script/pick.sh finds: the first lines say which they are. A harness is left out if what it needs isn't installed.
Logs are kept in out/night, a folder for each run, with `summary` and `results`. Exit status 1 if something failed, or nothing passed."""

import argparse
import datetime
import json
import os
import shutil
import subprocess
import sys
from pathlib import Path

from tools import ROOT
from tools.common.program import ARCHIVE, LIBRARY, NOTHING, PROGRAM, describe, for_package, found
from tools.harnesses import TOOLS, Tool, named
from tools.night import check, record
from tools.night.runner import FAILED, Ended, Runner, heed_signals, status_of, total

NIGHTS = ROOT / "out" / "night"
# Where a build puts what a clone needs, and by which name script/pick.sh finds it.
BUILT = {PROGRAM: "crates/tw_main/out/tw_main", LIBRARY: "crates/tw_embed/out/libyuglemit.so", ARCHIVE: "crates/tw_embed/out/libyuglemit.a",
         "tw_cases": "crates/tw_cases/out/tw_cases", "tw_host_cases": "crates/tw_host_cases/out/tw_host_cases"}


def make_clone(clone: Path, tools: list[Tool]) -> None:
    """Makes the clone, with what is built here of that which is tested; it is newer than its sources there."""
    subprocess.run(["git", "clone", "-q", str(ROOT), str(clone)], check=True)
    for name in tested_by(tools):
        path, it = BUILT[name], found(name)
        if it.kind not in ("same", "same_code"):
            (clone / path).parent.mkdir(parents=True, exist_ok=True)
            shutil.copy(it.path, clone / path)
            (clone / path).chmod(0o755)


def failed_before() -> list[str]:
    """Returns which harnesses failed in the run before."""
    last = sorted(NIGHTS.glob("*/results"))[-1:]
    return [row["name"] for path in last for row in map(json.loads, path.read_text(encoding="utf-8").splitlines()) if row["outcome"] == FAILED]


def chosen(names: list[str], is_all: bool, day: int) -> list[Tool]:
    """Returns the harnesses of these names, or of a night."""
    again = [] if names else failed_before()
    return named(names) or [tool for tool in TOOLS if tool.is_harness and (is_all or tool.shard in (None, day % 7) or tool.name in again)]


def runner_of(folder: Path, logs: Path, whole: bool) -> Runner:
    """Returns what runs harnesses, as the environment says."""
    usual = {"SEED": str(datetime.date.today()), "COUNT": "100000", "SECONDS_A_KIND": "60"}
    given = {name.split("_")[0].lower(): os.environ.get(name) or value for name, value in usual.items()}
    return Runner(folder, logs, given, float(os.environ.get("PATIENCE", "1")), whole)


def keep(ended: Ended, logs: Path, whole: bool) -> None:
    """Prints the line of a harness, and keeps it with what the record takes of it."""
    print(ended.line(), flush=True)
    with (logs / "summary").open("a", encoding="utf-8") as file:
        file.write(ended.line() + "\n")
    with (logs / "results").open("a", encoding="utf-8") as file:
        file.write(json.dumps(record.result_of(ended, whole)) + "\n")


def tested_by(tools: list[Tool]) -> list[str]:
    """Returns what harnesses test, each once."""
    return list(dict.fromkeys(name for tool in tools for name in tool.tests.split()))


def head(tools: list[Tool], runner: Runner) -> None:
    """Prints and keeps what is tested. Exits if there is nothing."""
    tested = tested_by(tools)
    lines = [f"tests {describe(name)}" for name in tested]
    print("".join(line + "\n" for line in lines), end="", flush=True)
    if LIBRARY in tested:
        runner.environment = for_package()
    (runner.logs / "summary").write_text("".join(line + "\n" for line in lines), encoding="utf-8")


def run(tools: list[Tool], runner: Runner, jobs: int) -> int:
    """Runs harnesses, and returns an exit status."""
    runner.say = lambda ended: keep(ended, runner.logs, runner.whole)
    heed_signals(runner)
    ended = runner.run_all(tools, jobs)
    print(f"{total(ended)}; seed {runner.given['seed']}, logs in {runner.logs}")
    return status_of(ended)


def run_here(words: list[str]) -> int:
    """Runs these harnesses whole, in this folder; returns an exit status."""
    tools = named(words or ["without a name"])
    logs = NIGHTS / f"{datetime.datetime.now():%Y-%m-%dT%H%M%S}-{os.getpid()}"
    logs.mkdir(parents=True)
    runner = runner_of(ROOT, logs, True)
    head(tools, runner)
    return run(tools, runner, 1)


def main(words: list[str]) -> int:
    """Runs a night; returns an exit status."""
    parser = argparse.ArgumentParser(prog="./dev night", description=__doc__, formatter_class=argparse.RawDescriptionHelpFormatter)
    parser.add_argument("--quick", action="store_true")
    parser.add_argument("--all", action="store_true")
    parser.add_argument("--jobs", type=int, default=check.jobs(len(os.sched_getaffinity(0))))
    parser.add_argument("names", nargs="*")
    given = parser.parse_args(words)
    tools = chosen(given.names, given.all or given.quick, datetime.date.today().toordinal())
    if changed := subprocess.run(["git", "-C", str(ROOT), "status", "--porcelain", "-uno"], capture_output=True, text=True, check=True).stdout:
        print(f"commit first; a night tests what is committed:\n{changed}", file=sys.stderr)
        return NOTHING
    logs = NIGHTS / f"{datetime.datetime.now():%Y-%m-%dT%H%M%S}-{os.getpid()}"
    logs.mkdir(parents=True)
    runner = runner_of(logs / "clone", logs, not given.quick)
    head(tools, runner)
    make_clone(logs / "clone", tools)
    try:
        return run(tools, runner, max(1, given.jobs))
    finally:
        shutil.rmtree(logs / "clone")
