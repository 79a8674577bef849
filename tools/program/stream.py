"""Checks that `tw run --each` answers each line as soon as it is read: ./dev stream [--short]

Writes a line, waits for its answer, and writes the next, with one job and with four, also lines with ids. Sends bytes that aren't UTF-8, and ends the process by signals.
Without --short also sends lines of 16 MiB, and has 100 MB of lines read in bounded memory.
"""

import json
import os
import select
import signal
import subprocess
import sys
import tempfile
import time
from collections.abc import Mapping
from functools import partial
from pathlib import Path
from typing import IO, Callable

from tools.common.program import program

ECHO = "proc control closed int write int\nregs int\nGET v0 d0\nDROPR d0\nSTORE d1 v0\nRET\n"
# Echoes its input after some 20 million instructions.
SLOW = ECHO.replace("regs int\n", "regs int int\n").replace("STORE", "REPEAT 20\nREPEAT 1000\nREPEAT 1000\nADD v1 v0 v0 +0\nEND\nEND\nEND\nSTORE")
MOST = 16_777_216
WAIT = 60.0
FEW = 2  # after so many checks that fail no more are made, since each may wait a minute
# More than the program's own memory and the longest line, and much less than all lines.
MEMORY = 64_000_000


class Wrong(Exception):
    """An answer that isn't the expected one."""


def expect(what: str, got: object, expected: object) -> None:
    if got != expected:
        raise Wrong(f"{what}: {got!r:.300}, expected {expected!r:.300}")


def answer(line: int, value: int) -> dict[str, object]:
    """Returns the object of a line with this integer."""
    return {"line": line, "events": 5, "instructions": 4, "kinds": ["int"], "outputs": [value], "status": "quiet"}


def error(line: int, code: str) -> dict[str, object]:
    """Returns the object of a line with an error of this code."""
    return {"line": line, "error": {"code": code, "lines": [f"refused {code}"]}, "status": "refused"}


def heed_signals() -> None:
    """Lets signals end the process again. A shell starts what runs in the background with them ignored, and a child inherits that."""
    for number in (signal.SIGINT, signal.SIGTERM, signal.SIGHUP):
        signal.signal(number, signal.SIG_DFL)


class Stream:
    """A process that answers lines."""

    def __init__(self, tw: str, program: Path, jobs: int) -> None:
        self.process = subprocess.Popen(
            [tw, "run", str(program), "--each", "-", "--jobs", str(jobs)], stdin=subprocess.PIPE, stdout=subprocess.PIPE, stderr=subprocess.PIPE,
            preexec_fn=heed_signals)
        self.rest = b""

    def pipe(self, it: IO[bytes] | None) -> IO[bytes]:
        assert it is not None
        return it

    def send(self, text: bytes) -> None:
        stdin = self.pipe(self.process.stdin)
        stdin.write(text)
        stdin.flush()

    def receive(self) -> dict[str, object]:
        """Returns the next answer, which has to come without another line."""
        stdout = self.pipe(self.process.stdout)
        until = time.monotonic() + WAIT
        while b"\n" not in self.rest:
            if not select.select([stdout], [], [], max(0.0, until - time.monotonic()))[0]:
                raise Wrong("no answer came")
            more = os.read(stdout.fileno(), 65536)
            if not more:
                raise Wrong(f"the process ended after {self.rest!r}")
            self.rest += more
        first, self.rest = self.rest.split(b"\n", 1)
        found: dict[str, object] = json.loads(first)
        return found

    def close(self) -> int:
        """Ends the input, and returns the status."""
        self.pipe(self.process.stdin).close()
        expect("output after the last answer", self.rest + self.pipe(self.process.stdout).read(), b"")
        return self.process.wait(WAIT)

    def signal(self, number: signal.Signals) -> int:
        self.process.send_signal(number)
        return self.process.wait(WAIT)


def one_by_one(tw: str, program: Path, jobs: int) -> None:
    """Each line is answered before the next is written."""
    stream = Stream(tw, program, jobs)
    for number in range(1, 201):
        stream.send(b"[%d]\n" % (number * 7))
        expect("answer", stream.receive(), answer(number, number * 7))
    expect("status", stream.close(), 0)


def with_ids(tw: str, program: Path, jobs: int) -> None:
    """The answer to a line with an id has it, also if the line is rejected."""
    stream = Stream(tw, program, jobs)
    stream.send(b'{"id": 7, "inputs": [3]}\n{"inputs": [4], "id": "seven"}\n[5]\n')
    expect("answer", stream.receive(), answer(1, 3) | {"id": 7})
    expect("answer", stream.receive(), answer(2, 4) | {"id": "seven"})
    expect("answer", stream.receive(), answer(3, 5))
    stream.send(b'{"id": 1.5, "inputs": 6}\n')
    rejected = stream.receive()
    expect("rejected line", (rejected["line"], rejected["id"], rejected["status"]), (4, 1.5, "refused"))
    expect("status", stream.close(), 1)


def in_pieces(tw: str, program: Path, jobs: int) -> None:
    """A line may come in pieces, several at once, blank, and the last one without a line feed."""
    stream = Stream(tw, program, jobs)
    for piece in (b"[", b"1", b"2]", b"\n[3]\n\n  \n[4]\n[5"):
        stream.send(piece)
        time.sleep(0.05)
    for number, value in ((1, 12), (2, 3), (5, 4)):
        expect("answer", stream.receive(), answer(number, value))
    stream.send(b"6]")
    stream.pipe(stream.process.stdin).close()
    expect("last answer", stream.receive(), answer(6, 56))
    expect("status", stream.process.wait(WAIT), 0)


def wrong_lines(tw: str, program: Path, jobs: int) -> None:
    """A line with a fault is answered with its number, and the others run."""
    stream = Stream(tw, program, jobs)
    stream.send(b"[1]\n[\"\xff\"]\n[\n[]\n[2]\n")
    expect("answer", stream.receive(), answer(1, 1))
    expect("bytes", stream.receive(), error(2, "H03"))
    no_json = {"lines": ["inputs refused", "line 3, column 2: this is no JSON"]}
    expect("JSON", stream.receive(), {"line": 3, "error": no_json, "status": "refused"})
    expect("inputs", stream.receive()["line"], 4)
    expect("answer", stream.receive(), answer(5, 2))
    expect("status", stream.close(), 1)


def threads_of(process: int) -> int:
    """Returns how many threads a process has now."""
    return len(list(Path(f"/proc/{process}/task").iterdir()))


def in_threads(tw: str, program: Path, jobs: int) -> None:
    """Lines are answered in as many threads as --jobs says, beside that of the observer."""
    slow = program.with_name("slow.tw")
    slow.write_text(SLOW, encoding="ascii")
    stream = Stream(tw, slow, jobs)
    stream.send(b"[1]\n" * 3 * jobs)
    most = 0
    while not select.select([stream.pipe(stream.process.stdout)], [], [], 0.001)[0]:
        most = max(most, threads_of(stream.process.pid))
    for number in range(1, 3 * jobs + 1):
        expect("outputs", stream.receive()["outputs"], [1])
        most = max(most, threads_of(stream.process.pid))
    if not jobs <= most <= jobs + 1:
        raise Wrong(f"{most} threads")
    expect("status", stream.close(), 0)


def long_lines(tw: str, program: Path, jobs: int) -> None:
    """A line of 16 MiB is read, and one of a byte more is an error."""
    stream = Stream(tw, program, jobs)
    for number, size in ((1, MOST), (3, MOST + 1), (5, 3 * MOST)):
        stream.send(b"[8]" + b" " * (size - 3) + b"\n[9]\n")
        expect("long line", stream.receive(), answer(number, 8) if size == MOST else error(number, "H02"))
        expect("next line", stream.receive(), answer(number + 1, 9))
    expect("status", stream.close(), 1)


def by_signal(number: signal.Signals) -> Callable[[str, Path, int], None]:
    """A signal ends the process; the answers before it are there."""
    def check(tw: str, program: Path, jobs: int) -> None:
        stream = Stream(tw, program, jobs)
        stream.send(b"[1]\n")
        expect("answer", stream.receive(), answer(1, 1))
        expect("status", stream.signal(number), -number)
        expect("output", stream.pipe(stream.process.stdout).read(), b"")
    return check


def write_many_lines(path: Path) -> None:
    """Writes 100 MB of lines."""
    with open(path, "wb") as file:
        for number in range(1000):
            file.write(b"[%d]%s\n" % (number, b" " * 100_000))


def in_memory(tw: str, program: Path, jobs: int) -> None:
    """100 MB of lines are answered in bounded memory."""
    script = ("import resource, subprocess, sys\nsubprocess.run(sys.argv[1:], stdout=subprocess.DEVNULL, check=True)\n"
              "print(resource.getrusage(resource.RUSAGE_CHILDREN).ru_maxrss * 1024)\n")
    lines = program.with_name("lines")
    write_many_lines(lines)
    words = [sys.executable, "-c", script, tw, "run", str(program), "--each", str(lines), "--jobs", str(jobs)]
    most = int(subprocess.run(words, capture_output=True, check=True, text=True).stdout)
    if most > MEMORY:
        raise Wrong(f"{most} bytes of memory")


Check = Callable[[str, Path, int], None]
CHECKS: dict[str, Check] = {
    "one by one": one_by_one, "with ids": with_ids, "in pieces": in_pieces, "wrong lines": wrong_lines, "threads": in_threads,
    "SIGTERM": by_signal(signal.SIGTERM), "SIGINT": by_signal(signal.SIGINT),
}
LARGE_CHECKS: dict[str, Check] = {"long lines": long_lines, "memory": in_memory}


def made(checks: Mapping[str, Callable[[], None]], few: float = float("inf")) -> tuple[int, int]:
    """Makes checks, prints why one fails, and returns how many pass and how many fail; after so many that fail no more are made."""
    passed = failed = 0
    for what, check in checks.items():
        if failed < few:
            try:
                check()
                passed += 1
            except Wrong as why:
                print(f"{what}: {why}", flush=True)
                failed += 1
    return passed, failed


def main(words: list[str]) -> int:
    checks = CHECKS if "--short" in words else CHECKS | LARGE_CHECKS
    if words not in ([], ["--short"]):
        print(__doc__, file=sys.stderr)
        return 2
    with tempfile.TemporaryDirectory() as name:
        echo = Path(name) / "echo.tw"
        echo.write_text(ECHO, encoding="ascii")
        named = {f"{what}, {jobs} jobs": partial(check, program(), echo, jobs) for what, check in checks.items() for jobs in (1, 4)}
        passed, failed = made(named, FEW)
    print(f"{passed} passed, {failed} failed")
    return int(failed > 0)
