"""Runs a program in several layouts and orders of events, and says whether its outputs and its end are the same. What is run in threads is replayed on
the reference machine, with the same report and status; and nothing may be on standard error, such as late wakes.

    ./dev orders FILE [INPUT..]           with these inputs, and other options of `tw run`
    ./dev orders --examples               each run of examples/sessions.txt, a line for each; which are rejected it says, too
    ./dev orders --runs 100 FILE ..       so many runs in threads, with changing layouts; else 20
    ./dev orders --seeds 100 FILE ..      so many runs in turn in the order of a seed, for each of seven layouts; else 20
    ./dev orders --limit 100000 FILE ..   the most events of a run; else 10,000
    ./dev orders --load 100               runs bench/load.tw so many times, with the most threads. All runs have to write the same

Each layout is run in turn, also in the orders of the seeds 1, 2 and so on. In threads the order differs from run to run. Printed are the reports that
were found, each with how often it came and the first command that printed it. The lines of a stuck run's circle don't count, since they have numbers
of rules. A run that `--limit` ended doesn't count, either.

Exit status 1 if runs differ; of the examples, if they do although no insertion is by a right that may be a copy. 2 if a run is rejected or isn't
replayed alike, 4 if all reached the limit.
"""

import argparse
import hashlib
import subprocess
import sys
from collections import Counter
from collections.abc import Iterator
from dataclasses import dataclass, field
from pathlib import Path

from tools import ROOT
from tools.common import sessions
from tools.common.program import program
from tools.fuzz.oracle.code import decode
from tools.fuzz.kinds.orders import order_line

# Engines, servers and workers.
LAYOUTS = [(1, 1, 1), (1, 1, 2), (2, 1, 1), (2, 2, 2), (1, 4, 16), (4, 1, 3), (4, 4, 16)]
SAME, DIFFERENT, REJECTED, LIMITED = 0, 1, 2, 4
QUIET, STUCK, LIMIT = 0, 3, 4


@dataclass
class Found:
    """The reports of runs that ended by themselves, each with how often it came and the first command; and how many reached the limit."""

    reports: dict[str, int] = field(default_factory=dict)
    firsts: dict[str, str] = field(default_factory=dict)
    limited: int = 0

    def add(self, report: str, command: str) -> None:
        self.reports[report] = self.reports.get(report, 0) + 1
        self.firsts.setdefault(report, command)

    @property
    def status(self) -> int:
        return LIMITED if not self.reports else DIFFERENT if len(self.reports) > 1 else SAME

    @property
    def summary(self) -> str:
        return {LIMITED: "no run ended by itself", DIFFERENT: "DIFFERENT", SAME: "the same in all orders"}[self.status]

    def lines(self) -> Iterator[str]:
        for report, times in self.reports.items():
            yield f"{times} runs, first {self.firsts[report]}:"
            yield from (f"    {line}" for line in report.splitlines())
        if self.limited:
            yield f"{self.limited} runs reached the limit"
        yield self.summary


class Rejected(Exception):
    """A run that didn't begin, or whose replay differs."""


def actors(engines: int, servers: int, workers: int) -> list[str]:
    """Returns the options of a layout."""
    return [f"--engines={engines}", f"--servers={servers}", f"--workers={workers}"]


@dataclass(frozen=True)
class Orders:
    """How a program is run: by which program, how often in threads and by seeds, and up to how many events."""

    program: Path
    runs: int
    seeds: int
    limit: int

    def options(self) -> Iterator[list[str]]:
        """Yields the options of each run."""
        for layout in LAYOUTS:
            yield ["--in-turn", *actors(*layout)]
            yield from (["--in-turn", f"--seed={seed}", *actors(*layout)] for seed in range(1, self.seeds + 1))
        yield from (actors(number % 4 + 1, number // 4 % 4 + 1, (number * 5 + number // 16) % 16 + 1) for number in range(self.runs))

    def call(self, words: list[str], data: str = "") -> subprocess.CompletedProcess[str]:
        return subprocess.run([self.program, *words], input=data, stdout=subprocess.PIPE, stderr=subprocess.PIPE, text=True, check=False, cwd=ROOT)

    def report(self, path: str, options: list[str], words: list[str]) -> tuple[int, str]:
        """Makes a run, and replays it if it is in threads; returns its status and its report."""
        trace = [] if "--in-turn" in options else ["--trace"]
        done = self.call(["run", path, f"--limit={self.limit}", *trace, *options, *words])
        events, end, report = done.stdout.partition("\nend\n") if trace else ("", "", done.stdout)
        if end and done.returncode != LIMIT:
            again = self.call(["replay", path, "--events=-", *options, *words], events + end)
            if done.stderr or (done.returncode, report) != (again.returncode, again.stdout):
                raise Rejected(f"{' '.join(options)}: run {done.returncode}, replay {again.returncode}; {report}, {again.stdout}{done.stderr}")
        if done.returncode not in (QUIET, STUCK, LIMIT) and not done.stdout.startswith("refused O03"):
            raise Rejected(f"status {done.returncode}: {done.stdout}{done.stderr}")
        return done.returncode, report

    def compare(self, path: str, words: list[str]) -> Found:
        """Runs a program with these inputs in each way. A layout that lacks actors which the program names is left out."""
        found = Found()
        for options in self.options():
            status, report = self.report(path, options, words)
            if status in (QUIET, STUCK):
                found.add(without_circle(report), " ".join(["tw", "run", path, *options, *words]))
            found.limited += status == LIMIT
        return found

    def rule(self, path: str) -> str:
        """Returns what the rule of `check --order` says of a program."""
        bytes_of = Path(ROOT, path).read_text(encoding="utf-8") if path.endswith(".hex") else self.call(["asm", path]).stdout
        return order_line(decode(bytes.fromhex(bytes_of)))


def without_circle(report: str) -> str:
    """Returns the outputs and the end of a report."""
    lines = report.splitlines()
    end = next(place for place, line in enumerate(lines) if line == "quiet" or line.startswith("stuck "))
    return "\n".join(lines[: end + 1])


def compare_example(orders: Orders, path: str, inputs: tuple[str, ...]) -> bool:
    """Prints the line of an example, and what differs; returns whether that is as its rule says."""
    found = orders.compare(path, [*inputs])
    rule = orders.rule(path)
    print(f"{path} {' '.join(inputs)}: {rule}; {found.summary}", flush=True)
    is_well = found.status != DIFFERENT or rule != "order same"
    if not is_well:
        print("\n".join(found.lines()))
    return is_well


def compare_examples(orders: Orders) -> int:
    """Compares each example; those that sessions.txt shows as rejected have to be, and no others. Ends with `N passed, M failed`."""
    passed = failed = 0
    for path, inputs, is_refused in sessions.runs():
        try:
            is_well = compare_example(orders, str(path.relative_to(ROOT)), inputs) and not is_refused
        except Rejected as why:
            is_well = is_refused
            if not is_well:
                print(f"{path.name} {' '.join(inputs)} is rejected: {why}")
        passed, failed = passed + is_well, failed + (not is_well)
    print(f"{passed} passed, {failed} failed")
    return DIFFERENT if failed or not passed else SAME


def load(orders: Orders, times: int) -> int:
    """Makes a large run many times, and prints how often it ended in which way; returns an exit status."""
    ends: Counter[str] = Counter()
    for _ in range(times):
        ran = orders.call(["run", "bench/load.tw", "--limit=1000000", *actors(4, 4, 16)])
        lines = ran.stdout.splitlines() or [""]
        ends[f"status {ran.returncode}, {len(lines)} lines, the last {lines[-1]}, checksum {hashlib.sha256(ran.stdout.encode()).hexdigest()[:16]}, errors '{ran.stderr}'"] += 1
    for end, count in ends.most_common():
        print(f"{count} {end}")
    is_well = len(ends) == 1 and lines[1:] and (ran.returncode, lines[-1], ran.stderr) == (QUIET, "quiet", "")
    print(f"{times if is_well else 0} passed, {0 if is_well else times} failed")
    return SAME if is_well else DIFFERENT


def main(words: list[str]) -> int:
    parser = argparse.ArgumentParser(usage="./dev orders [--runs N] [--seeds N] [--limit N] FILE [INPUT..] | --examples | --load N")
    parser.add_argument("--examples", action="store_true")
    for option, usual in (("--runs", 20), ("--seeds", 20), ("--limit", 10_000), ("--load", 0)):
        parser.add_argument(option, type=int, default=usual)
    parser.add_argument("file", nargs="?")
    given, words = parser.parse_known_args(words)
    orders = Orders(Path(program()), given.runs, given.seeds, given.limit)
    if given.examples:
        return compare_examples(orders)
    if given.load:
        return load(orders, given.load)
    if given.file is None:
        parser.error("a FILE, --examples or --load")
    try:
        found = orders.compare(str(Path(given.file).resolve()), words)
    except Rejected as why:
        print(why, file=sys.stderr)
        return REJECTED
    print("\n".join(found.lines()))
    return found.status
