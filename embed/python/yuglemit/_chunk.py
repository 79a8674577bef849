# SPDX-License-Identifier: Apache-2.0
"""Chunks of runs, which the workers of executors get, and from which they make reports."""

from __future__ import annotations

import pickle
from concurrent.futures import BrokenExecutor, Executor, Future, ProcessPoolExecutor
from typing import Any, List, NamedTuple, Optional, Tuple, Union

from . import _native
from ._options import RunOptions
from ._program import Program
from ._report import Report, failed_report, sent
from ._stop import Stop, attach
from ._version import __version__

Job = Tuple[Program, Tuple[object, ...]]
Answer = Union[List[Report], bytes, str]  # of a worker: reports of this process or pickled ones, or its version if it has another


class Chunk(NamedTuple):
    """Runs that a worker gets at once. `own` stops the long ones of this process's threads."""

    jobs: List[Job]
    options: RunOptions
    own: Optional[Stop] = None


def run_chunk(chunk: Chunk) -> List[Report]:
    """Makes the runs of one chunk, in whichever process it is: there a program is loaded and verified once, and kept."""
    return [sent(_run_one(program, inputs, chunk)) for program, inputs in chunk.jobs]


def _run_one(program: Program, inputs: Tuple[object, ...], chunk: Chunk) -> Report:
    """Makes a run; whatever keeps it from being made is its report's error."""
    try:
        flag = None
        if chunk.own is not None and program.is_long(chunk.options.layout.limit or program.bounds.events_within()):
            flag = _native.Flag()
            attach(chunk.own, flag)
        return program._run(inputs, chunk.options, flag)
    except Exception as why:
        return failed_report(why)


# Finds `run_packed` where it is unpickled. An older package has none: there the function that is found returns its version.
_FIND = "(lambda it: getattr(getattr(it, '_chunk', None), 'run_packed', None) or (lambda data: it.__version__))(__import__('yuglemit'))"


class _Sent:
    """The function that workers of other processes get. They find it by `_FIND`."""

    __name__ = "run_chunk"  # Dask shows it

    def __call__(self, data: bytes) -> Answer:
        return run_packed(data)

    def __reduce__(self) -> Tuple[Any, Tuple[str]]:
        return eval, (_FIND,)


_sent = _Sent()


def packed(jobs: List[Job], options: RunOptions, attempt: int) -> bytes:
    """Returns a chunk as bytes after a version, which executors don't look into. Those of another attempt differ, since Dask may name runs by them."""
    return __version__.encode() + b"\n" + pickle.dumps((attempt, jobs, options), pickle.HIGHEST_PROTOCOL)


def run_packed(data: bytes) -> Answer:
    """Makes the runs of a chunk of this version, and returns their reports as bytes; for another version it returns its own."""
    version, _, chunk = data.partition(b"\n")
    if version.decode() != __version__:
        return __version__
    _, jobs, options = pickle.loads(chunk)
    return pickle.dumps(run_chunk(Chunk(jobs, options)), pickle.HIGHEST_PROTOCOL)


def reports_of(answer: Answer) -> List[Report]:
    """Returns the reports in a worker's answer, or raises the error of another version."""
    if isinstance(answer, str):
        raise RuntimeError(f"a worker has yuglemit {answer}, and this process {__version__}: all of them need the same version")
    if isinstance(answer, bytes):
        answer = pickle.loads(answer)
    return answer  # type: ignore[return-value]  # no bytes any more


def handed_out(executor: Executor, jobs: List[Job], options: RunOptions, own: Optional[Stop], attempt: int = 0) -> "Future[Answer]":
    """Hands out a chunk: as it is if `own` or a stop keeps it in this process, else as bytes. An error is raised when its reports are due."""
    try:
        if own is not None or options.stop is not None:
            return executor.submit(run_chunk, Chunk(jobs, options, own))
        return executor.submit(_sent, packed(jobs, options, attempt))
    except Exception as why:  # it is broken, has ended, or an input can't be pickled
        return failed(why)


def failed(why: Exception) -> "Future[Any]":
    """Makes a future that has failed."""
    future: "Future[Any]" = Future()
    future.set_exception(why)
    return future


def is_lost(why: Exception) -> bool:
    """Returns whether an error says that a worker has ended: that of a pool, or Dask's of a task that has ended several."""
    return isinstance(why, BrokenExecutor) or type(why).__name__ == "KilledWorker"


def renewed(executor: Executor, workers: Optional[int] = None) -> Executor:
    """Returns a pool of processes like one that is broken, with so many workers; any other executor as it is."""
    if type(executor) is not ProcessPoolExecutor:
        return executor
    its: Any = executor
    return ProcessPoolExecutor(workers or its._max_workers, its._mp_context, its._initializer, its._initargs)
