"""Checks that `tw run --seconds N` and Ctrl-C stop runs: ./dev seconds

Runs that take minutes are stopped after a second and not before: in turn, by a seed, in threads, on a terminal; and a line of --each, while the
others have their own ends. The same again beside busy processes, two for each processor. On a busy machine a run waits while time passes, so
the limit of each run is in processor time, and only the quickest of some runs has to end soon by the clock. A signal ends such a run at once. Ctrl-C
at a terminal stops a run of ./tw, which prints its report.
A session of the library has no clock: it rejects the option.
"""

import contextlib
import json
import os
import pty
import resource
import signal
import subprocess
import sys
import tempfile
import time
from collections.abc import Callable, Iterator, Sequence
from dataclasses import dataclass
from functools import partial

from tools import ROOT
from tools.common.program import package, program
from tools.common.terminal import read_to_end
from tools.cases.json_cases import TIMED, UNCHECKED, faults, validators
from tools.program.stream import Wrong, expect, heed_signals, made

# Each turn joins texts 5,000 times, which takes a millisecond or more, and starts the next one, as many as the input says.
TURNS = (
    "proc control closed int write int\nregs int\nGET v0 d0\nDROPR d0\nPUT 1 0 any 1 0\nRET\n\nproc control write int val int\nregs int int int text\n"
    "JEQ v0 v1 done\nINT v2 -1\nADD v0 v0 v2 +0\nREPEAT 5\nREPEAT 1000\n" f'TEXT v3 "{"a" * 64}"\n' "CAT v3 v3 v3 +0\nEND\nEND\nPUT 1 0 any 0 0\nRET\ndone:\nSTORE d0 v0\nRET\n")
# As many turns as the most events allow.
MANY = 240_000
MOST_EVENTS = "--limit=1000000"
STOPPED = "out 0 unset\nstopped\n"
TRIES = 5
# After so many seconds a process isn't waited for any longer.
PATIENCE = 120.0


@dataclass(frozen=True)
class Window:
    """How many seconds a command takes by the clock, at least each time and at most in one of the tries, and at most of processors each time."""

    least: float
    most: float
    used: float


# A run of one second, with one turn more, and with what precedes and follows the run.
A_SECOND = Window(1.0, 3.0, 2.0)


@dataclass(frozen=True)
class Ran:
    """A command's status, its output, its seconds by the clock, and those of processors."""

    status: int
    output: str
    took: float
    used: float


def used_so_far() -> float:
    """Returns the processor time of the children that were waited for."""
    usage = resource.getrusage(resource.RUSAGE_CHILDREN)
    return usage.ru_utime + usage.ru_stime


def run(words: Sequence[str], given: bytes = b"", stderr: int = subprocess.DEVNULL) -> Ran:
    """Runs a command to its end."""
    before, begun = used_so_far(), time.monotonic()
    try:
        done = subprocess.run(words, input=given, stdout=subprocess.PIPE, stderr=stderr, timeout=PATIENCE, check=False)
    except subprocess.TimeoutExpired as late:
        raise Wrong(f"no end after {PATIENCE} seconds") from late
    return Ran(done.returncode, done.stdout.decode(), time.monotonic() - begun, used_so_far() - before)


def in_time(window: Window, make: Callable[[], Ran]) -> Ran:
    """Returns a run that lasts as long as it has to."""
    quickest = float("inf")
    for _ in range(TRIES):
        ran = make()
        if ran.took < window.least:
            raise Wrong(f"over after {ran.took:.3f} seconds, before {window.least}")
        if ran.used > window.used:
            raise Wrong(f"{ran.used:.3f} seconds of processor time")
        if ran.took < window.most:
            return ran
        quickest = min(quickest, ran.took)
    raise Wrong(f"the quickest of {TRIES} runs took {quickest:.3f} seconds")


def command(turns: str, *words: str) -> list[str]:
    """Returns the command of a run that takes minutes."""
    return [program(), "run", turns, f"int:{MANY}", MOST_EVENTS, *words]


def reported(*words: str, seconds: str = "1", window: Window = A_SECOND) -> Callable[[str], None]:
    """A run is stopped, and its report says so."""
    def check(turns: str) -> None:
        ran = in_time(window, lambda: run(command(turns, "--seconds", seconds, *words)))
        expect("status and report", (ran.status, ran.output), (4, STOPPED))
    return check


def stopped_answer(text: str) -> dict[str, object]:
    """Returns the object of a stopped run, with its own events and instructions. Checks that it fits the schema, if the module jsonschema is there."""
    found = json.loads(text)
    schemas = validators()
    expect("faults by the schema", faults(schemas, "run", found) if schemas else [], [])
    events = int(found["events"])
    if events >= 1_000_000:
        raise Wrong(f"{events} events")
    return {"events": events, "instructions": int(found["instructions"]), "kinds": ["unset"], "outputs": [None], "status": TIMED}


def in_json(turns: str) -> None:
    """The object of a stopped run has all members, and no order, since another run may end."""
    ran = in_time(A_SECOND, lambda: run(command(turns, "--in-turn", "--json", "--seconds", "1")))
    expect("status and object", (ran.status, json.loads(ran.output)), (4, stopped_answer(ran.output)))
    ordered = run(command(turns, "--in-turn", "--json", "--seconds", "1", "--order"))
    expect("status and object", (ordered.status, json.loads(ordered.output)), (4, stopped_answer(ordered.output) | {"order": None}))


def on_terminal(turns: str) -> None:
    """A run in threads that prints its progress is stopped, too."""
    ours, theirs = pty.openpty()
    try:
        ran = in_time(Window(3.0, 6.0, 4.5), lambda: run(command(turns, "--seconds", "3"), stderr=theirs))
    finally:
        os.close(theirs)
        printed = read_to_end(ours)
    expect("status and report", (ran.status, ran.output), (4, STOPPED))
    if " events so far" not in printed or not printed.endswith("\r\x1b[K"):
        raise Wrong(f"progress is {printed!r}")


# The object of a line that asks for no turns, without its number.
QUICK: dict[str, object] = {"events": 9, "instructions": 7, "kinds": ["int"], "outputs": [0], "status": "quiet"}


def each(jobs: int, least: float) -> Callable[[str], None]:
    """Two of five lines are stopped, each after its own second; the others have their ends. Without other jobs that takes two seconds."""
    def check(turns: str) -> None:
        words = [program(), "run", turns, "--each", "-", "--jobs", str(jobs), MOST_EVENTS, "--seconds", "1"]
        lines = b"[0]\n[%d]\n[0]\n[%d]\n[0]\n" % (MANY, MANY)
        ran = in_time(Window(least, 6.0, 4.0), lambda: run(words, lines))
        answers = ran.output.splitlines()
        expect("lines", len(answers), 5)
        wanted = [(stopped_answer(answers[line - 1]) if line in (2, 4) else QUICK) | {"line": line} for line in range(1, 6)]
        expect("status and answers", (ran.status, list(map(json.loads, answers))), (4, wanted))
    return check


def by_signal(number: signal.Signals, *words: str) -> Callable[[str], None]:
    """A signal ends a run whose time is limited, and nothing is written."""
    def check(turns: str) -> None:
        process = subprocess.Popen(command(turns, "--seconds", "100000", *words), stdout=subprocess.PIPE, preexec_fn=heed_signals)
        time.sleep(0.3)
        process.send_signal(number)
        output, _ = process.communicate(timeout=PATIENCE)
        expect("status and output", (process.returncode, output), (-number, b""))
    return check


def typed(turns: str, *words: str) -> tuple[int, str]:
    """Runs ./tw at a terminal, at which Ctrl-C is typed. Returns the status and what the terminal shows."""
    _, *others = command(turns, *words)
    process, ours = pty.fork()
    if process == 0:
        heed_signals()
        os.execv(ROOT / "tw", ["tw", *others])
    time.sleep(2.5)
    os.write(ours, b"\x03")
    shown = read_to_end(ours)
    _, status = os.waitpid(process, 0)
    return os.waitstatus_to_exitcode(status), shown


def by_keyboard(*words: str) -> Callable[[str], None]:
    """Ctrl-C at a terminal stops a run, which prints its report."""
    def check(turns: str) -> None:
        status, shown = typed(turns, "--quiet", *words)
        expect("status", status, 130)
        if "out 0 unset\n" not in shown or "stopped" not in shown:
            raise Wrong(f"the terminal shows {shown!r}")
    return check


def unreached(turns: str) -> None:
    """A run that ends in time is as without the option."""
    runs: tuple[list[str], ...] = ([], ["--in-turn"], ["--json", "--in-turn"], ["--trace", "--in-turn"])
    for words in runs:
        plain = [program(), "run", turns, "int:2", *words]
        expect(f"{words}", run([*plain, "--seconds", "4294967295"]).output, run(plain).output)


# ---- The library


# The text of a session, which has no clock.
CLOCKLESS = "command line refused\n--seconds needs the command tw: the library has no clock, and is stopped by flags\n"


def session(words: list[str], text: str) -> tuple[int, str]:
    """Holds a session of the library. Returns its status and its text."""
    status, answer = package().session(words, text.encode())
    return int(status), answer.decode()


def clockless(_: str) -> None:
    """A session rejects the option, before a run and before lines."""
    expect("a run", session(["run", "--text", "--seconds", "100", "int:0"], TURNS), (2, CLOCKLESS))
    expect("lines", session(["run", "--text", "--each", "--seconds", "100"], f"{TURNS}inputs\n[0]\n"), (2, CLOCKLESS))


def rejected(turns: str) -> None:
    """A session and the command reject the same numbers."""
    for words in (["--seconds"], ["--seconds", "0"], ["--seconds", "4294967296"], ["--seconds", "1.5000"], ["--seconds", "1", "--seconds", "1"]):
        ran = run([program(), "run", *words, turns, "int:0"])
        expect(f"command {words}", (ran.status, ran.output), (2, "command line refused\n"))
        expect(f"session {words}", session(["run", "--text", *words, "int:0"], TURNS), (2, "command line refused\n"))


# ---- All checks

Check = Callable[[str], None]
# These are made beside a load, too.
CHECKS: dict[str, Check] = {
    "in turn": reported("--in-turn"), "by a seed": reported("--in-turn", "--seed", "7"), "in threads": reported(),
    "in many threads": reported("--engines", "4", "--servers", "4", "--workers", "16"),
    "each line": each(1, 2.0), "each line, 4 jobs": each(4, 1.0),
}
QUIET_CHECKS: dict[str, Check] = {
    "JSON": in_json, "on a terminal": on_terminal, "unreached": unreached, "decimals": reported("--in-turn", seconds="0.2", window=Window(0.2, 2.0, 1.2)),
    "Ctrl-C": by_keyboard(), "Ctrl-C in turn": by_keyboard("--in-turn"), "a session": clockless, "rejected": rejected,
    "SIGTERM": by_signal(signal.SIGTERM), "SIGINT": by_signal(signal.SIGINT), "SIGHUP in turn": by_signal(signal.SIGHUP, "--in-turn"),
}


@contextlib.contextmanager
def load() -> Iterator[None]:
    """Keeps two processes busy for each processor."""
    busy = [subprocess.Popen([sys.executable, "-c", "while True: pass"]) for _ in range(2 * (os.cpu_count() or 1))]
    try:
        yield
    finally:
        for process in busy:
            process.kill()
            process.wait()


def main(words: list[str]) -> int:
    with tempfile.NamedTemporaryFile("w", suffix=".tw") as turns:
        turns.write(TURNS)
        turns.flush()
        quiet = made({what: partial(check, turns.name) for what, check in (CHECKS | QUIET_CHECKS).items()})
        with load():
            loaded = made({f"{what}, beside a load": partial(check, turns.name) for what, check in CHECKS.items()})
    if not validators():
        print(UNCHECKED)
    passed, failed = quiet[0] + loaded[0], quiet[1] + loaded[1]
    print(f"{passed} passed, {failed} failed")
    return int(failed > 0)
