# SPDX-License-Identifier: Apache-2.0
"""Many runs, over any executor of concurrent.futures."""

from __future__ import annotations

import importlib
import os
import sys
import threading
import time
import warnings
from collections import deque
from collections.abc import MappingView, Sequence, Set
from concurrent.futures import BrokenExecutor, CancelledError, Executor, Future, ThreadPoolExecutor
from concurrent.futures import TimeoutError as WaitTimeout  # another class than TimeoutError before Python 3.11
from typing import Any, Callable, Deque, Dict, Iterable, Iterator, List, Optional, Protocol, Sized, Tuple, Union, cast
from weakref import WeakSet

from ._chunk import Answer, Chunk, Job, failed, handed_out, is_lost, renewed, reports_of, run_chunk
from ._inputs import Input, shown
from ._options import RunOptions, layout_of, options_of, seconds_of, within
from ._program import Program
from ._report import Report, failed_report, received
from ._stop import Stop

CHUNK_SECONDS = 0.1
_CHUNKS_A_WORKER = 4
_UNKNOWN_WORKERS = 64  # of an executor that doesn't say how many it has
_MOST = 1 << 40
_SLOW = 0.02  # inputs that are read for longer come slowly
_FIRST_WAIT = 0.05  # for the first report, before a second chunk is read
_THERE = (Sequence, Set, MappingView)  # such inputs are read at once
Progress = Union[bool, Callable[[int, int], object]]


class Cluster(Protocol):
    """A client of Dask."""

    def get_executor(self, **options: Any) -> Executor:
        """Returns an executor of concurrent.futures."""

    def ncores(self) -> Dict[str, int]:
        """Returns the threads of each worker."""


# The stops of maps that aren't read to their end. A process that ends waits for its threads, so their runs are stopped before.
_own_stops: "WeakSet[Stop]" = WeakSet()


def _stop_all() -> None:
    for it in list(_own_stops):
        it.set()


_at_exit = getattr(threading, "_register_atexit", None)  # runs before threads are waited for, as `atexit` doesn't
if _at_exit is not None:
    _at_exit(_stop_all)


def _jobs(program: Union[Program, Iterable[Program]], inputs: Iterable[object]) -> Iterator[Job]:
    """Yields the runs, as they are read."""
    if isinstance(program, Program):
        for it in inputs:
            yield program, it if isinstance(it, tuple) else (it,)
        return
    rest, missing = iter(inputs), object()
    for its in program:
        if not isinstance(its, Program):
            raise TypeError(f"expected a Program, got {shown(its)}")
        it = next(rest, missing)
        if it is missing:
            raise ValueError("there are more programs than inputs")
        yield its, it if isinstance(it, tuple) else (it,)
    if next(rest, missing) is not missing:
        raise ValueError("there are fewer programs than inputs")


def cut(jobs: Iterable[Job], size: int, seconds: float, limit: int, first: Optional[int] = None) -> Iterator[List[Job]]:
    """Cuts runs into chunks of at most so many, which take about so long as the programs' bounds say. With the size of a `first` chunk, inputs may come
    slowly: sizes double from there, and a chunk of which reading takes long isn't filled."""
    chunk: List[Job] = []
    taken, most, began = 0.0, size if first is None else first, time.monotonic()
    try:
        for job in jobs:
            its = job[0].bounds.usual_seconds(limit) if limit else job[0].bounds.usual_seconds()
            if chunk and taken + its > seconds:
                yield chunk
                chunk, taken, began = [], 0.0, time.monotonic()
            chunk.append(job)
            taken += its
            is_slow = first is not None and time.monotonic() - began > _SLOW
            if is_slow or len(chunk) == most or taken + its > seconds:
                most = max(1, len(chunk) // 2) if is_slow else min(size, most * 2)
                yield chunk
                chunk, taken, began = [], 0.0, time.monotonic()
    except Exception:  # of the caller's iterator: what was read before is run
        if chunk:
            yield chunk
        raise
    if chunk:
        yield chunk


def map(
    program: Union[Program, Iterable[Program]],
    inputs: Iterable[Union[Input, Tuple[Input, ...]]],
    executor: Union[Executor, Cluster, None] = None,
    chunk: Optional[int] = None,
    *,
    window: Optional[int] = None,
    on_broken: str = "raise",
    deadline: Optional[float] = None,
    progress: Progress = False,
    engines: int = 1,
    servers: int = 1,
    workers: int = 1,
    limit: Optional[int] = None,
    seed: Optional[int] = None,
    most_tasks: Optional[int] = None,
    most_instructions: Optional[int] = None,
    most_data: Optional[int] = None,
    most_bytes: Optional[int] = None,
    most_budget: Optional[int] = None,
    most_members: Optional[int] = None,
    most_rules: Optional[int] = None,
    trace: bool = False,
    text: bool = False,
    line: bool = False,
    stop: Optional[Stop] = None,
    timeout: Optional[float] = None,
) -> Iterator[Report]:
    """Runs a program on each of many inputs, and gives the reports in the order of the inputs.

    An item of `inputs` is the program's input, or a tuple if it takes several. `program` may be as many programs as there are inputs.
    `executor` is any of concurrent.futures: threads, processes, mpi4py's, or a client of Dask; without one, threads of this process, one a processor.
    Of runs of less than a millisecond processes make several times as many. `chunk` is how many runs go to a worker at once; without it,
    about as many as take a tenth of a second. `window` is how many chunks are handed out at once: four a worker, or 256 if the executor doesn't
    say how many it has. No more inputs are read, and no more reports wait, so `inputs` may be endless.

    Runs of a list begin at once. An iterator is read in the caller's thread when a report is asked for. If it is slow, chunks aren't filled, and a
    report that is there comes before another input is read. If it waits for reports itself, take `window=1, chunk=1`: then it is read on
    after each report.

    The other options are those of `Program.run`; `timeout` is that of each run, `deadline` the seconds for all: after them `TimeoutError` comes in
    place of a report that isn't there. An input that is rejected, or a run for which memory runs out, gives a report whose `error` says why.
    If a worker of a pool dies, the iteration ends with the pool's error, after the reports before. With `on_broken="here"` what it lost runs
    again in this process, so take that only for programs that can't have killed it. With `on_broken="error"` it runs again there, each input
    alone; the report of one that is lost again has the `end` "lost", and a new pool of processes makes the others. If the executor ends, or a future is
    cancelled, the iteration ends with that error. Workers of another version are a RuntimeError. `progress` shows a bar, of tqdm if it is
    installed; a function is called with the numbers of runs done and of all, or of those read so far if `inputs` has no length.

    Ctrl-C, or ending the iteration, stops the runs of this process's threads; `stop` stops them from outside. It stays in its process, so it
    can't go to an executor of processes. A run is the same each time, so a chunk that ran twice gives the same.

    >>> import yuglemit
    >>> double = yuglemit.load('''
    ... proc control closed int write int
    ... regs int int
    ... GET v0 d0
    ... DROPR d0
    ... ADD v0 v0 v0 too_large
    ... too_large:
    ... STORE d1 v0
    ... RET
    ... ''')
    >>> [report.outputs for report in yuglemit.map(double, range(4))]
    [[0], [2], [4], [6]]
    >>> [report.error for report in yuglemit.map(double, [1, "x"])]
    [None, TypeError("input 1: expected an int, got str 'x'")]
    """
    caps = (most_tasks, most_instructions, most_data, most_bytes, most_budget, most_members, most_rules)
    options = options_of(layout_of(engines, servers, workers, limit, *caps, seed=seed), trace, text, line, stop, timeout)
    if on_broken not in ("raise", "here", "error"):
        raise ValueError(f'on_broken: expected "raise", "here" or "error", got {shown(on_broken, with_type=False)}')
    most = None if chunk is None else within("chunk", chunk, _MOST)
    width = None if window is None else within("window", window, _MOST)
    count = _count(program, inputs)
    is_there = isinstance(inputs, _THERE) and isinstance(program, (Program, *_THERE))
    runs = _Runs(executor, width, on_broken, options, seconds_of("deadline", deadline))
    runs.read(_jobs(program, inputs), most, count, is_there, _Progress(progress, count))
    reports = runs.reports()
    next(reports)
    return cast("Iterator[Report]", reports)


def _count(program: Union[Program, Iterable[Program]], inputs: Iterable[object]) -> Optional[int]:
    """Returns how many inputs there are, if they have a length."""
    count = len(inputs) if isinstance(inputs, Sized) else None
    if not isinstance(program, Program) and isinstance(program, Sized) and count is not None and len(program) != count:
        raise ValueError(f"there are {len(program)} programs and {count} inputs")
    return count


class _Runs:
    """The chunks that are handed out, in the order of their inputs, and those that aren't read yet."""

    def __init__(self, executor: Union[Executor, Cluster, None], window: Optional[int], on_broken: str, options: RunOptions, deadline: Optional[float]) -> None:
        self.workers, self.executor, is_own = _executor_of(executor)
        self.own: List[Executor] = [self.executor] if is_own else []
        self.stop = Stop() if isinstance(self.executor, ThreadPoolExecutor) else None
        if self.stop is not None:
            _own_stops.add(self.stop)
        self.window = window or _CHUNKS_A_WORKER * self.workers
        self.on_broken, self.options = on_broken, options
        self.ends = None if deadline is None else time.monotonic() + deadline
        self.waiting: Deque[Tuple["Future[Answer]", List[Job]]] = deque()
        self.is_read, self.given = False, 0  # the number of the first input that waits
        self.patience, self.first_wait = 0.0, 0.0  # how long a report is waited for before more is read: now, and after the first chunk

    def read(self, jobs: Iterator[Job], chunk: Optional[int], count: Optional[int], is_there: bool, progress: "_Progress") -> None:
        """Sets what is read: chunks of so many runs, or of a tenth of a second and then some for each worker. Inputs that are there are handed out at
        once, others when reports are asked for."""
        self.progress = progress
        size, seconds = (chunk, float("inf")) if chunk else (count or _MOST, CHUNK_SECONDS)
        if not chunk and count:
            size = max(1, -(-count // (_CHUNKS_A_WORKER * self.workers)))
        self.unread = cut(jobs, size, seconds, self.options.layout.limit, None if is_there else chunk or 1)
        if is_there:
            self.fill()
        else:
            self.first_wait = _FIRST_WAIT

    def fill(self) -> None:
        """Hands out chunks until the window is full, or all are read. If reading takes long, the next reports come first, if they come soon."""
        while not self.is_read and len(self.waiting) < self.window and not self.is_late():
            if self.patience and self.waiting and _is_done(self.waiting[0][0], self.patience):
                return
            began = time.monotonic()
            try:
                jobs = next(self.unread, None)
            except Exception as why:  # of the caller's iterator: the reports before come first
                self.waiting.append((failed(why), []))
                jobs = None
            took = time.monotonic() - began
            self.patience, self.first_wait = took / 4 if took > _SLOW else self.first_wait, 0.0
            self.is_read = jobs is None
            if jobs is not None:
                self.progress.read += len(jobs)
                self.waiting.append((self.hand_out(jobs), jobs))

    def hand_out(self, jobs: List[Job]) -> "Future[Answer]":
        """Hands out a chunk, to a new pool if this one is broken and has to go on."""
        future = handed_out(self.executor, jobs, self.options, self.stop)
        if self.on_broken != "error" or not future.done() or not _is_lost(future):
            return future
        self.executor = self.replaced(self.executor)
        return handed_out(self.executor, jobs, self.options, self.stop)

    def replaced(self, broken: Executor) -> Executor:
        """Returns a new pool in place of one that is broken, if it is of processes."""
        new = renewed(broken)
        if new is not broken:
            self.drop(broken)
            self.own.append(new)
        return new

    def drop(self, pool: Executor) -> None:
        """Ends a pool, if it was made here."""
        if pool in self.own:
            self.own.remove(pool)
            pool.shutdown(wait=False)

    def left(self) -> Optional[float]:
        """Returns the seconds until the deadline, if there is one."""
        return None if self.ends is None else max(0.0, self.ends - time.monotonic())

    def is_late(self) -> bool:
        """Returns whether the deadline has passed."""
        return self.left() == 0

    def result(self, future: "Future[Answer]", number: int) -> List[Report]:
        """Waits for the reports of a chunk, whose first input has this number, until the deadline."""
        try:
            return reports_of(future.result(self.left()))
        except WaitTimeout:
            if not self.is_late():
                raise
            raise _late(number) from None

    def settled(self, future: "Future[Answer]", jobs: List[Job]) -> List[Report]:
        """Returns the reports of the next chunk, or what `on_broken` says if it is lost."""
        try:
            return self.result(future, self.given)
        except Exception as why:
            if not is_lost(why):
                raise
            if self.on_broken == "here":
                warnings.warn(f"{why}; what the pool lost runs again here", RuntimeWarning, stacklevel=3)
                return run_chunk(Chunk(jobs, self.options))
            if self.on_broken == "error":
                return self.alone(jobs)
            if isinstance(why, BrokenExecutor):
                last = self.given + sum(len(its) for _, its in self.waiting) - 1
                why.args = (f"{why} Inputs {self.given} to {last}, from 0, have no report.",)
            raise

    def alone(self, jobs: List[Job]) -> List[Report]:
        """Makes each run of a lost chunk again, while no other is handed out. One that is lost again has an error."""
        for future, _ in self.waiting:
            _is_done(future, self.left())
        reports, single = [], renewed(self.executor, 1)
        if single is not self.executor:
            self.own.append(single)
        for number, job in enumerate(jobs, self.given):
            try:
                reports += self.result(handed_out(single, [job], self.options, self.stop, 1), number)
            except Exception as why:
                if not is_lost(why):
                    raise
                reports.append(failed_report(RuntimeError(f"input {number}, from 0: the worker that ran it alone ended: {why}"), "lost"))
                single = self.replaced(single)
        if single is not self.executor:
            self.drop(single)
        return reports

    def reports(self) -> Iterator[Optional[Report]]:
        """Gives None, and then the reports. Since it has begun then, dropping it before the first report ends the runs, too."""
        try:
            yield None
            while True:
                self.fill()
                if not self.waiting and self.is_read:
                    return
                if not self.waiting:
                    raise _late(self.given)
                future, jobs = self.waiting[0]
                reports = self.settled(future, jobs)
                self.waiting.popleft()
                self.progress.show(len(reports))
                for report, (program, inputs) in zip(reports, jobs):
                    yield received(report, program._made(inputs, self.options.layout))
                self.given += len(jobs)
        finally:
            self.end()

    def end(self) -> None:
        """Ends what is still handed out."""
        for future, _ in self.waiting:
            future.cancel()
        if self.stop is not None:
            self.stop.set()
        for pool in self.own:
            pool.shutdown(wait=False)


def _executor_of(executor: Union[Executor, Cluster, None]) -> Tuple[int, Executor, bool]:
    """Returns how many workers there are, as far as it is known, what they are called by, and whether that is made here."""
    if executor is None:
        workers = os.cpu_count() or 1
        return workers, ThreadPoolExecutor(workers), True
    if callable(getattr(executor, "get_executor", None)):
        cluster = cast(Cluster, executor)
        return sum(cluster.ncores().values()) or _UNKNOWN_WORKERS, cluster.get_executor(pure=False), True
    if not callable(getattr(executor, "submit", None)):
        raise TypeError(f"executor: expected one of concurrent.futures or a client of Dask, got {shown(executor)}")
    known = getattr(executor, "_max_workers", None)
    return known if isinstance(known, int) else _UNKNOWN_WORKERS, cast(Executor, executor), False


def _is_done(future: "Future[Answer]", seconds: Optional[float]) -> bool:
    """Waits for a chunk for so long, and returns whether it is done."""
    try:
        future.exception(seconds)
    except (WaitTimeout, CancelledError):
        pass
    return future.done()


def _is_lost(future: "Future[Answer]") -> bool:
    """Returns whether a chunk that is done is lost."""
    return not future.cancelled() and isinstance(future.exception(), BrokenExecutor)


def _late(number: int) -> TimeoutError:
    return TimeoutError(f"the deadline passed before the report of input {number}, from 0")


class _Progress:
    """Shows how many runs are done."""

    def __init__(self, progress: Progress, count: Optional[int]) -> None:
        self.count, self.read, self.done = count, 0, 0
        self.call: Optional[Callable[[int, int], object]] = None if isinstance(progress, bool) else progress
        self.bar = _bar(count) if progress is True else None
        if progress is True and self.bar is None:
            self.call = _print_progress

    def show(self, done: int) -> None:
        """Counts runs that are done, and shows it."""
        self.done += done
        if self.bar is not None:
            self.bar(done)
        if self.call is not None:
            self.call(self.done, self.read if self.count is None else self.count)


def _bar(count: Optional[int]) -> Optional[Callable[[int], object]]:
    """Returns what moves a bar of tqdm, if it is installed."""
    try:
        tqdm = importlib.import_module("tqdm")
    except ImportError:
        return None
    return cast("Callable[[int], object]", tqdm.tqdm(total=count, unit=" runs").update)


def _print_progress(done: int, count: int) -> None:
    print(f"\r{done} of {count} runs", end="", file=sys.stderr, flush=True)
