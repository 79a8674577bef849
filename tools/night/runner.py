"""Runs harnesses, and judges each by its exit status and by the number of things that it says have passed."""

import importlib.util
import os
import re
import shutil
import signal
import subprocess
import sys
import threading
import time
from collections.abc import Callable, Iterable, Mapping
from dataclasses import dataclass, field
from pathlib import Path
from typing import NamedTuple

from tools.common.processes import used_in_session
from tools.harnesses import Run, Tool

OK, FAILED, LEFT_OUT = "ok", "FAILED", "left out"
# The last line that counts what passed, also in a test run of Python's.
COUNT = re.compile(r"^(?:\w+ +)?(?:Ran )?(\d+) (?:passed|same|shown|as wanted|killed|noticed|rejected|checked|tests?\b)", re.M)
# The line of a part that was left out, or of Python's tests that were skipped.
PART = re.compile(r"^(?:left out: |OK (?=\())(.*)", re.M)
# A harness that hasn't used its limit of processors may take so many times as long by the clock: the machine does other things too.
LATE = 3
# Among the arguments of a harness, a variable for it.
VARIABLE = re.compile(r"\b([A-Z]+)=(\d+)")


class Ended(NamedTuple):
    """How a harness ended: how many seconds it took and used of processors, what it counted, its last line or why it failed, and what it left out."""

    tool: Tool
    outcome: str
    seconds: float
    used: float
    passed: int
    text: str
    parts: tuple[str, ...] = ()

    def line(self) -> str:
        """Returns the line of a summary."""
        took = f"{self.seconds:.0f} s, {self.used:.0f} used" if self.outcome != LEFT_OUT else ""
        return f"{self.outcome:<8} {self.tool.name:<16} {took:<16} {self.text:.150}{''.join(f'; left out: {part}' for part in self.parts)}"


def missing(needs: str) -> str | None:
    """Returns the first command or module of these that isn't installed."""
    for need in needs.split():
        kind, _, name = need.rpartition(":")
        if not (importlib.util.find_spec(name) if kind else shutil.which(name)):
            return name
    return None


def count_in(log: str) -> int | None:
    """Returns the last number of what passed in a log."""
    counts = COUNT.findall(log)
    return int(counts[-1]) if counts else None


def last_line(log: str) -> str:
    """Returns the last line that counts what passed, else the last that isn't empty."""
    lines = [line for line in log.splitlines() if line.strip()]
    return next((line for line in reversed(lines) if COUNT.match(line)), lines[-1] if lines else "it says nothing")


def fault_of(run: Run, status: int, log: str) -> str | None:
    """Returns why a run isn't a pass, or nothing."""
    count = count_in(log)
    if status:
        return f"status {status}; {last_line(log)}"
    if run.least and (count or 0) < run.least:
        return f"at least {run.least} have to pass; {last_line(log)}"
    return None


@dataclass
class Runner:
    """Where harnesses are run, with which words in place of @seed and others, where their logs are, and how much longer each may take."""

    folder: Path
    logs: Path
    given: Mapping[str, str]
    patience: float = 1.0
    whole: bool = False
    environment: Mapping[str, str] = field(default_factory=dict)
    say: Callable[[Ended], None] = lambda ended: print(ended.line(), flush=True)
    running: set[int] = field(default_factory=set)

    def form(self, tool: Tool) -> Run:
        """Returns the run of a harness that is made here: the whole one or the short one, or the one that it has."""
        found = (tool.whole or tool.short) if self.whole else (tool.short or tool.whole)
        assert found
        return found

    def command(self, tool: Tool) -> list[str]:
        """Returns a harness's command, without its variables."""
        words = [re.sub(r"@(\w+)", lambda found: self.given[str(found[1])], word) for word in self.form(tool).words.split() if not VARIABLE.match(word)]
        if tool.file.startswith("./"):
            return [*([sys.executable, "-B"] if tool.file.endswith(".py") else []), tool.file, *words]
        return [sys.executable, "-B", "dev", tool.name, *words]

    def wait(self, process: subprocess.Popen[bytes], limit: float) -> tuple[int, float, bool]:
        """Waits for a process group; returns its status, the seconds of processors that it used, and whether it took too long."""
        end, late = time.monotonic() + limit, False
        while True:
            found, state, usage = os.wait4(process.pid, os.WNOHANG)
            if found:
                process.returncode = os.waitstatus_to_exitcode(state)
                return process.returncode, usage.ru_utime + usage.ru_stime, late
            over = time.monotonic() - end
            if over > 0:
                late = used_in_session(process.pid) > limit or over > (LATE - 1) * limit
                if late:
                    os.killpg(process.pid, signal.SIGKILL)
            time.sleep(0.05 if over < 0 or late else 1)

    def run(self, tool: Tool) -> Ended:
        """Runs a harness."""
        need = missing(tool.needs)
        if need:
            return Ended(tool, LEFT_OUT, 0, 0, 0, f"{need} isn't installed")
        run, limit, path = self.form(tool), tool.limit * self.patience, self.logs / f"{tool.name}.log"
        begun = time.monotonic()
        with path.open("wb") as file:
            process = subprocess.Popen(
                self.command(tool), cwd=self.folder, stdin=subprocess.DEVNULL, stdout=file, stderr=subprocess.STDOUT, start_new_session=True,
                env={**os.environ, "PYTHONDONTWRITEBYTECODE": "1", **self.environment, **dict(VARIABLE.findall(run.words))},
            )
            self.running.add(process.pid)
            status, used, is_late = self.wait(process, limit)
            self.running.discard(process.pid)
        log = path.read_text(encoding="utf-8", errors="replace")
        fault = f"took longer than {limit:.0f} s; {last_line(log)}" if is_late else fault_of(run, status, log)
        parts = tuple(dict.fromkeys(PART.findall(log)))
        return Ended(tool, FAILED if fault else OK, time.monotonic() - begun, used, count_in(log) or 0, fault or last_line(log), parts)

    def stop(self) -> None:
        """Ends what is running."""
        for group in list(self.running):
            try:
                os.killpg(group, signal.SIGKILL)
            except ProcessLookupError:
                continue

    def run_all(self, tools: Iterable[Tool], jobs: int) -> list[Ended]:
        """Runs harnesses: in one job those that measure, one after another, and in all the others beside."""
        lock, ended = threading.Lock(), list[Ended]()
        queued = list(tools)
        alone, beside = ([tool for tool in queued if tool.is_beside == is_so] for is_so in (False, True))

        def work(queue: list[Tool]) -> None:
            while True:
                with lock:
                    tool = queue.pop(0) if queue else None
                if tool is None:
                    return
                found = self.run(tool)
                with lock:
                    ended.append(found)
                    self.say(found)

        def first() -> None:
            work(alone)
            work(beside)

        threads = [threading.Thread(target=first), *(threading.Thread(target=work, args=(beside,)) for _ in range(jobs - 1))]
        for thread in threads:
            thread.start()
        for thread in threads:
            thread.join()
        return ended


def heed_signals(runner: Runner) -> None:
    """Ends what a runner runs, and then this process, at a signal."""

    def end(number: int, _: object) -> None:
        runner.stop()
        os._exit(128 + number)

    for number in (signal.SIGINT, signal.SIGTERM, signal.SIGHUP):
        signal.signal(number, end)


def total(ended: Iterable[Ended]) -> str:
    """Returns the line that ends a summary."""
    counts = {outcome: sum(it.outcome == outcome for it in ended) for outcome in (OK, FAILED, LEFT_OUT)}
    return f"{counts[OK]} passed, {counts[FAILED]} failed, {counts[LEFT_OUT]} left out"


def status_of(ended: list[Ended]) -> int:
    """Returns the exit status of a run: 1 if a harness failed, or none passed."""
    outcomes = {it.outcome for it in ended}
    return 0 if OK in outcomes and FAILED not in outcomes else 1
