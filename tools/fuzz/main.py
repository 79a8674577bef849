"""Fuzz tests of the library and the program: ./dev fuzz KIND SEED COUNT [--seconds N]

    ./dev fuzz --list                    lists the kinds
    ./dev fuzz run 1 1000                makes 1000 tests of a kind, the same ones each time
    ./dev fuzz all 2026-11-27 100000     makes tests of each kind
    ./dev fuzz run 1 1000 --seconds 30   ends after so many seconds
    ./dev fuzz run 1 1000 --only 17      makes test 17 alone

A test that fails is shrunk and printed as a case, which can go into cases/. The status is 1 if a test failed, or a call crashed or took too long.
"""

import argparse
import ctypes
import multiprocessing
import random
import sys
import time
import traceback
from collections import Counter
from dataclasses import dataclass
from typing import Any

from tools.common.processes import fields_of, seconds_in
from tools.fuzz.kinds import calls, each, handles, inputs, orders, reached, runs, texts, verify
from tools.fuzz.library import Library
from tools.fuzz.common import Corpus, Failure, Kind, FuzzTest

KINDS: dict[str, Kind] = {
    "check": Kind("budgets, needs and bounds against their definitions, and runs within them", runs.make_check),
    "bounds": Kind("programs with bounds, run to their end with the bounds as limit and caps; which bounds are reached", reached.make_bounds),
    "run": Kind("runs in turn and in threads against the machine, and their replays", runs.make_run),
    "each": Kind("lines of inputs against a run of each, in turn and in threads", each.make_each),
    "names": Kind("symbolic assembly against the program's bytes, its expansion, and other names", texts.make_names),
    "asm": Kind("texts in many forms against the program's bytes; damaged texts", texts.make_asm),
    "decode": Kind("changed bytes against a second decoder", texts.make_decode),
    "args": Kind("arguments: a status of the documents, by library and program alike, in any order", calls.make_args),
    "library": Kind("the library's calls: buffers of each size, verdicts, threads", calls.make_library),
    "handles": Kind("programs that are loaded once, their runs and outputs", handles.make_handles),
    "verify": Kind("the verifier against a search of all paths", verify.make_verify),
    "orders": Kind("programs in random orders of events: those whose insertions go by no copy have one result", orders.make_orders),
    "history": Kind("changed traces, each event against the machine", runs.make_history),
    "traces": Kind("the lines of a trace: which have the form of an event", inputs.make_trace_lines),
    "inputs": Kind("the forms of inputs, as arguments and as lines, and which fit main", inputs.make_inputs),
    "stats": Kind("statistics against counting the trace", runs.make_stats),
}
# A kind ends after so many failures. A test may take so many seconds of processors, or so many by the clock: a machine that does other things too is
# no fault. Shrinking may take so many more.
MOST_FAILURES = 3
CALL_SECONDS = 120
CLOCK_SECONDS = 1800
SHRINK_SECONDS = 20.0


@dataclass
class Shared:
    """The state that the process that makes tests leaves to the one that watches it."""

    test: Any
    failed: Any
    marks: Any

    @classmethod
    def fresh(cls) -> "Shared":
        return cls(multiprocessing.Value(ctypes.c_int64, -1), multiprocessing.Value(ctypes.c_int64, 0), multiprocessing.Array(ctypes.c_char, 1000))


def fault_of(test: FuzzTest, library: Library) -> str | None:
    """Returns what is wrong with a test; an exception of the oracle is wrong too."""
    try:
        return test.fault(library)
    except Exception:
        return "the oracle failed: " + traceback.format_exc(limit=-4)


def shrunk(failure: Failure, library: Library, seconds: float) -> Failure:
    """Makes a failing test smaller, as long as it fails."""
    end = time.monotonic() + seconds
    kind_of_fault = failure.why.split(":")[0]
    goes_on = True
    while goes_on and time.monotonic() < end:
        goes_on = False
        for other in failure.test.smaller():
            why = fault_of(other, library)
            if why is not None and why.split(":")[0] == kind_of_fault:
                failure.test, failure.why, failure.steps = other, why, failure.steps + 1
                goes_on = True
                break
            if time.monotonic() > end:
                break
    return failure


def show_progress(kind: str, number: int, count: int) -> None:
    if sys.stderr.isatty():
        print(f"\r{kind} {number} of {count} ", end="" if number < count else "\r\x1b[K", file=sys.stderr, flush=True)


def make_tests(kind: str, seed: str, numbers: range, seconds: float, shared: Shared) -> None:
    """Makes tests, and prints those that fail."""
    library = Library()
    corpus = Corpus(library)
    end = time.monotonic() + seconds
    marks: Counter[str] = Counter()
    for number in numbers:
        if time.monotonic() > end or shared.failed.value >= MOST_FAILURES:
            break
        shared.test.value = number
        if number % 64 == 0:
            show_progress(kind, number, numbers.stop)
        test = KINDS[kind].make(random.Random(f"{kind} {seed} {number}"), corpus)
        why = fault_of(test, library)
        if why is not None:
            shared.failed.value += 1
            print("\n".join(shrunk(Failure(kind, seed, number, test, why), library, SHRINK_SECONDS).lines()), flush=True)
        marks.update(test.marks)
    show_progress(kind, numbers.stop, numbers.stop)
    shared.marks.value = "".join(f", {mark} {times}" for mark, times in marks.items()).encode()


def used_by(number: int) -> float:
    """Returns the processor seconds of a process; 0 if it has ended."""
    try:
        return seconds_in(fields_of(number))
    except OSError:
        return 0.0


def watch(process: Any, shared: Shared) -> str | None:
    """Waits for the process that makes tests; returns how it ended if that isn't by itself."""
    seen, since, before = -1, time.monotonic(), 0.0
    while process.is_alive():
        process.join(0.2)
        used = used_by(process.pid)
        if shared.test.value != seen:
            seen, since, before = shared.test.value, time.monotonic(), used
        if used - before > CALL_SECONDS or time.monotonic() - since > CLOCK_SECONDS:
            process.kill()
            process.join()
            return f"takes more than {CALL_SECONDS} s of processors, or {CLOCK_SECONDS} by the clock"
    return None if process.exitcode == 0 else f"crashed, exit status {process.exitcode}"


def run_kind(kind: str, seed: str, numbers: range, seconds: float) -> bool:
    """Makes the tests of a kind in a process of their own, prints a summary line, and returns whether all is well."""
    shared = Shared.fresh()
    begin = time.monotonic()
    process = multiprocessing.Process(target=make_tests, args=(kind, seed, numbers, seconds, shared))
    process.start()
    why = watch(process, shared)
    made = shared.test.value - numbers.start + 1
    if why is not None:
        print(f"{kind} {seed}, test {shared.test.value}: {why}; ./dev fuzz {kind} {seed} 1 --only {shared.test.value} makes it alone")
    failed = shared.failed.value + (why is not None)
    print(f"{kind:<8} {made} tests, {failed} failed, {time.monotonic() - begin:.1f} s{shared.marks.value.decode()}", flush=True)
    return not failed


def parsed(words: list[str]) -> argparse.Namespace:
    parser = argparse.ArgumentParser(prog="./dev fuzz", description=__doc__, formatter_class=argparse.RawDescriptionHelpFormatter)
    parser.add_argument("--list", action="store_true", help="list the kinds")
    parser.add_argument("kind", nargs="?", choices=[*KINDS, "all"])
    parser.add_argument("seed", nargs="?", default="1")
    parser.add_argument("count", nargs="?", type=int, default=1000)
    parser.add_argument("--seconds", type=float, default=1e9, help="of each kind, at most")
    parser.add_argument("--only", type=int, help="the number of one test")
    found = parser.parse_args(words)
    if not found.list and found.kind is None:
        parser.error("expected a kind, or --list")
    return found


def main(words: list[str]) -> int:
    given = parsed(words)
    if given.list:
        for name, found in KINDS.items():
            print(f"{name:<8} {found.about}")
        return 0
    well = True
    for kind in KINDS if given.kind == "all" else [given.kind]:
        numbers = range(max(1, given.count)) if given.only is None else range(given.only, given.only + 1)
        well &= run_kind(kind, given.seed, numbers, given.seconds)
    return 0 if well else 1
