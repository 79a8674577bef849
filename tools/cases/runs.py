"""Runs cases by programs of crates/, on several processors, and shows what differs.

A program reads lines, and prints a line for each case that differs. After each case it is sent a line that it complains of, so that
its complaint says that the case is done.
"""

import contextlib
import os
import re
import subprocess
import sys
import threading
import time
from collections.abc import Callable
from concurrent.futures import ThreadPoolExecutor, as_completed
from dataclasses import dataclass
from pathlib import Path
from typing import IO

from tools.cases.files import Book, Case, lets_of

# A case that takes longer has failed.
MOST_SECONDS = 900.0
# Cases that are sent together: those that take less than this each, and so many bytes at most, which fit into a pipe.
SHORT_SECONDS = 0.1
MOST_TOGETHER = 16
MOST_BYTES = 32_000
# Cases of this prefix take long, and longer by an unverified build.
LONG = "long_"


@dataclass
class Program:
    """The program of a crate that runs cases."""

    path: Path
    is_unverified: bool


@dataclass
class Result:
    """The program's output for a case, and how long it took."""

    case: Case
    said: str
    seconds: float

    @property
    def got(self) -> str | None:
        """Returns what came in place of the expected output, if the program printed that."""
        lead = f"{self.case.name}: wanted {self.case.wanted}, got "
        return self.said[len(lead):] if self.said.startswith(lead) else None

    @property
    def is_expected(self) -> bool:
        """Returns whether the case is as expected. A control is if the program prints its complaint."""
        expected = "" if self.case.complaint is None else f"{self.case.name}: {self.case.complaint}"
        return self.said == expected


class Runner:
    """A process of the program. It is started anew if it ends, since then the case that it ran has failed."""

    def __init__(self, program: Path, folder: Path, book: Book) -> None:
        self.program, self.folder, self.book = program, folder, book
        self.process: subprocess.Popen[bytes] | None = None
        self.named: set[str] = set()
        self.marks = self.silent = 0

    def start(self) -> subprocess.Popen[bytes]:
        if self.process is None:
            self.named, self.silent = set(), 0
            settings = {**os.environ, "ASAN_OPTIONS": "detect_leaks=0"}
            pipe = subprocess.PIPE
            self.process = subprocess.Popen([self.program], stdin=pipe, stdout=pipe, stderr=subprocess.DEVNULL, cwd=self.folder, env=settings)
        return self.process

    def finish(self) -> None:
        """Ends the process, which prints how many cases were as expected; this must be the number of those of which it printed nothing."""
        if self.process is not None:
            said, _ = self.process.communicate()
            if said.decode(errors="replace") != f"{self.silent} cases as wanted\n":
                raise RuntimeError(f"the program ended with {said[-200:]!r}, though {self.silent} cases printed nothing")
            self.process = None

    def stop(self) -> None:
        if self.process is not None:
            self.process.kill()
            with self.process, contextlib.suppress(BrokenPipeError):
                self.process.wait()
            self.process = None

    def text_of(self, case: Case) -> bytes:
        """Returns the lines of a case: the bytes that it names, the case, and the line that asks for a complaint."""
        self.marks += 1
        rows = [made.row for made in lets_of(self.book, case.given, self.named)]
        return "\n".join([*rows, case.row, f"let mark_{self.marks}", ""]).encode()

    def run(self, cases: list[Case]) -> list[Result]:
        process = self.start()
        texts = [(case, self.text_of(case), self.marks) for case in cases]
        results: list[Result] = []
        began = time.monotonic()
        watch = threading.Timer(MOST_SECONDS, process.kill)
        watch.start()
        try:
            self.send(process, b"".join(text for _, text, _ in texts))
            for case, _, mark in texts:
                said = self.said_before(process.stdout, mark)
                if said is None:
                    self.stop()
                    return [*results, Result(case, f"{case.name}: the program stopped, or took longer than {MOST_SECONDS:.0f} s", 0.0)]
                now = time.monotonic()
                results.append(Result(case, said, now - began))
                self.silent += not said
                began = now
        finally:
            watch.cancel()
        return results

    def send(self, process: subprocess.Popen[bytes], text: bytes) -> None:
        assert process.stdin is not None
        with contextlib.suppress(BrokenPipeError):
            process.stdin.write(text)
            process.stdin.flush()

    def said_before(self, stream: IO[bytes] | None, mark: int) -> str | None:
        """Returns what the program printed before a mark, or nothing if it ended."""
        assert stream is not None
        lead = f"let mark_{mark}: ".encode()
        said = b""
        for line in iter(stream.readline, b""):
            if line.startswith(lead):
                return said.decode(errors="replace").removesuffix("\n")
            said += line
        return None


class Times:
    """How long cases took on this machine, kept in a file, so that the longest are begun first."""

    def __init__(self, path: Path) -> None:
        self.path = path
        text = path.read_text(encoding="utf-8") if path.exists() else ""
        self.seconds = {name: float(number) for name, number in re.findall(r"^(\w+) ([0-9]+\.[0-9]+)$", text, re.M)}

    def of(self, case: Case) -> float:
        return self.seconds.get(case.name, MOST_SECONDS if case.name.startswith(LONG) else 0.0)

    def note(self, results: list[Result]) -> None:
        self.seconds.update((result.case.name, result.seconds) for result in results)

    def keep(self) -> None:
        text = "".join(f"{name} {seconds:.3f}\n" for name, seconds in sorted(self.seconds.items()))
        with contextlib.suppress(OSError):
            self.path.parent.mkdir(parents=True, exist_ok=True)
            self.path.write_text(text, encoding="utf-8")


def batches_of(cases: list[Case], times: Times) -> list[list[Case]]:
    """Returns the cases in batches of one crate, the longest first and alone."""
    order = sorted(sorted(cases, key=lambda case: case.crate), key=times.of, reverse=True)
    batches: list[list[Case]] = []
    size = 0
    for case in order:
        size += 2 * len(case.row)
        is_short = batches and batches[-1][0].crate == case.crate and times.of(batches[-1][0]) < SHORT_SECONDS
        fits = is_short and len(batches[-1]) < MOST_TOGETHER and size < MOST_BYTES
        if not fits:
            batches.append([])
            size = 2 * len(case.row)
        batches[-1].append(case)
    return batches


def run_all(cases: list[Case], times: Times, make: Callable[[str], Runner], jobs: int, report: Callable[[list[Result]], None]) -> list[Result]:
    """Runs cases in so many threads, each with processes of its own, and reports each batch as it is done."""
    runners: list[Runner] = []
    own = threading.local()

    def run(batch: list[Case]) -> list[Result]:
        """Runs a batch. Cases that a program didn't reach, since it stopped, are run by its next process."""
        crate = batch[0].crate
        if not hasattr(own, crate):
            setattr(own, crate, make(crate))
            runners.append(getattr(own, crate))
        results: list[Result] = []
        while len(results) < len(batch):
            results += getattr(own, crate).run(batch[len(results):])
        return results

    with ThreadPoolExecutor(jobs) as threads:
        batches = [threads.submit(run, batch) for batch in batches_of(cases, times)]
        try:
            for done in as_completed(batches):
                report(done.result())
            for runner in runners:
                runner.finish()
        except BaseException:
            threads.shutdown(wait=False, cancel_futures=True)
            for runner in runners:
                runner.stop()
            raise
    return [result for done in batches for result in done.result()]


# --- What is shown


class Progress:
    """Writes on a terminal how many cases are done."""

    def __init__(self, count: int) -> None:
        self.count, self.done, self.failed = count, 0, 0
        self.began = self.last = time.monotonic()
        self.is_shown = sys.stderr.isatty()

    def __call__(self, results: list[Result]) -> None:
        self.done += len(results)
        self.failed += sum(not result.is_expected for result in results)
        now = time.monotonic()
        if self.is_shown and now - self.last > 0.5:
            self.last = now
            sys.stderr.write(f"\rtw: {self.done} of {self.count} cases, {self.failed} failed, {now - self.began:.0f} s ")
            sys.stderr.flush()

    def close(self) -> None:
        if self.is_shown:
            sys.stderr.write("\r\x1b[K")
            sys.stderr.flush()


def first_difference(left: str, right: str) -> int:
    """Returns the first column at which two texts differ."""
    return next((column for column, (one, other) in enumerate(zip(left, right)) if one != other), min(len(left), len(right)))


def window(text: str, column: int, width: int) -> tuple[str, int]:
    """Returns the part of a line that has a column and fits a width, and where the column is in it."""
    if len(text) <= width:
        return text, column
    start = max(0, min(column - width // 2, len(text) - width))
    lead = ".." if start else ""
    part = lead + text[start + len(lead):start + width]
    return (part if start + width >= len(text) else part[:-2] + ".."), column - start


def side_by_side(wanted: list[str], got: list[str], width: int) -> list[str]:
    """Returns the lines of two texts beside each other, with a mark below the first column that differs."""
    half = max(20, (width - 9) // 2)
    shown = [f"    {'expected':<{half}} | got"]
    is_marked = False
    for index in range(max(len(wanted), len(got))):
        left = wanted[index] if index < len(wanted) else ""
        right = got[index] if index < len(got) else ""
        differs = left != right or (index < len(wanted)) != (index < len(got))
        column = first_difference(left, right)
        one, place = window(left, column, half)
        other, other_place = window(right, column, half)
        shown.append(f"  {'>' if differs else ' '} {one:<{half}} | {other}".rstrip())
        if differs and not is_marked:
            is_marked = True
            shown.append(f"    {'^':>{place + 1}}{' ' * (half - place - 1)}   {'^':>{other_place + 1}}")
    return shown


def shown_failure(result: Result, width: int) -> str:
    """Returns what is printed of a failed case."""
    case = result.case
    lines = [f"FAILED {case.name}, {case.place}", f"    {case.words}", f"    {case.kind}"[:width]]
    if result.got is not None and case.complaint is None:
        lines += side_by_side(case.wanted.split(" / "), result.got.split(" / "), width)
    elif case.complaint is not None:
        lines += side_by_side(case.complaint.split("\n"), result.said.removeprefix(case.name + ": ").split("\n"), width)
    else:
        lines.append("    " + result.said.removeprefix(case.name + ": "))
    return "\n".join([*lines, f"    ./tw test {case.name}    runs it alone", ""])
