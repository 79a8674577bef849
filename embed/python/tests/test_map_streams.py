# SPDX-License-Identifier: Apache-2.0
"""Many runs over inputs that come slowly or wait for reports, workers of other versions, workers that are lost, and deadlines."""

from __future__ import annotations

import pickle
import signal
import subprocess
import sys
import tempfile
import threading
import time
import unittest
from concurrent.futures import BrokenExecutor, Executor, Future, ProcessPoolExecutor, ThreadPoolExecutor
from pathlib import Path
from typing import Any, Callable, Dict, Iterator, List, Optional

import yuglemit
from common import DOUBLE, ENDLESS, slow, slower
from test_map import FORK, Counted
from yuglemit import _chunk

DOUBLED = yuglemit.load(DOUBLE)


class Here(Executor):
    """Calls at once, keeps what was submitted, and fails for the data that `is_fatal` finds."""

    def __init__(self, is_fatal: Callable[[bytes], Optional[Exception]] = lambda data: None) -> None:
        self.seen: List[Any] = []
        self.is_fatal = is_fatal

    def submit(self, function: Callable[..., Any], /, *words: Any, **options: Any) -> "Future[Any]":
        self.seen.append((function, *words))
        future: "Future[Any]" = Future()
        why = self.is_fatal(words[0])
        if why is not None:
            future.set_exception(why)
        else:
            future.set_result(function(*words, **options))
        return future


class Client:
    """Has what `map` calls of Dask's client."""

    def __init__(self, executor: Executor) -> None:
        self.executor = executor
        self.options: Dict[str, Any] = {}

    def get_executor(self, **options: Any) -> Executor:
        self.options = options
        return self.executor

    def ncores(self) -> Dict[str, int]:
        return {"tcp://one": 2, "tcp://two": 1}


class KilledWorker(Exception):
    """Is named like Dask's error."""


def mortal_worker() -> None:
    """Ends a worker by a signal after 0.3 seconds of processor time."""
    signal.setitimer(signal.ITIMER_PROF, 0.3)


def jobs_of(data: bytes) -> List[Any]:
    """The inputs of a chunk of bytes."""
    return [inputs[0] for _, inputs in pickle.loads(data.partition(b"\n")[2])[1]]


class Streams(unittest.TestCase):
    def test_inputs_that_wait_for_reports(self) -> None:
        """With a window of one run, an input is read after the report before. A generator that waits for it would hang otherwise."""
        for executor in (None, ThreadPoolExecutor(2), ProcessPoolExecutor(2, mp_context=FORK), Client(Here())):
            answers: List[Any] = []

            def requests() -> Iterator[int]:
                for number in range(5):
                    self.assertEqual(len(answers), number)
                    yield number

            for report in yuglemit.map(DOUBLED, requests(), executor, window=1, chunk=1):
                answers.append(report.outputs)
            self.assertEqual(answers, [[0], [2], [4], [6], [8]])

    def test_no_input_is_read_before_the_window_has_room(self) -> None:
        """With a window of three runs, the report of input n is there before input n + 3 is read."""
        answers: List[Any] = []

        def requests() -> Iterator[int]:
            for number in range(20):
                self.assertGreater(len(answers), number - 3)
                yield number

        for report in yuglemit.map(DOUBLED, requests(), ThreadPoolExecutor(3), window=3, chunk=1):
            answers.append(report.outputs)
        self.assertEqual(len(answers), 20)

    def test_slow_inputs(self) -> None:
        """A report of a brief run comes before the next of slow inputs, whether these take their time before or after they come. Other work
        on the machine may make some late."""
        for is_before in (False, True):
            given, in_time = 0, []

            def numbers() -> Iterator[int]:
                for number in range(8):
                    time.sleep(0.3 * is_before)
                    in_time.append(given == number)
                    yield number
                    time.sleep(0.3 * (not is_before))

            for given, report in enumerate(yuglemit.map(DOUBLED, numbers()), 1):
                self.assertEqual(report.outputs, [2 * given - 2])
            self.assertGreater(sum(in_time), 4, in_time)

    def test_a_list_begins_at_once(self) -> None:
        for inputs, submitted in (([1, 2], 2), (range(2), 2), ({1: 2, 3: 4}.values(), 2), (iter([1, 2]), 0), (Counted(), 0)):
            executor = Here()
            reports = yuglemit.map(DOUBLED, inputs, executor, chunk=1, window=2)
            self.assertEqual(len(executor.seen), submitted)
            self.assertEqual(next(reports).error, None)

    def test_sizes_of_chunks_rise(self) -> None:
        """The chunks of an iterator begin with one run, and double."""
        executor = Here()
        self.assertEqual(len(list(yuglemit.map(DOUBLED, iter(range(100)), executor))), 100)
        sizes = [len(jobs_of(data)) for _, data in executor.seen]
        self.assertEqual(sum(sizes), 100)
        self.assertEqual(sizes[:3], [1, 2, 4])


class Bytes(unittest.TestCase):
    def test_a_chunk_is_one_bytes(self) -> None:
        executor = Here()
        self.assertEqual([it.outputs for it in yuglemit.map(DOUBLED, range(6), executor, chunk=3)], [[2 * it] for it in range(6)])
        self.assertEqual([type(data) for _, data in executor.seen], [bytes, bytes])
        self.assertEqual([jobs_of(data) for _, data in executor.seen], [[0, 1, 2], [3, 4, 5]])

    def test_a_client_of_dask(self) -> None:
        client = Client(Here())
        reports = yuglemit.map(DOUBLED, range(100), client, chunk=1)
        self.assertEqual((client.options, len(client.executor.seen)), ({"pure": False}, 12))  # type: ignore[attr-defined]
        self.assertEqual(len(list(reports)), 100)
        with self.assertRaisesRegex(TypeError, "executor: expected one of concurrent.futures or a client of Dask"):
            yuglemit.map(DOUBLED, [1], 3)  # type: ignore[arg-type]

    def test_inputs_that_no_pickle_has(self) -> None:
        """They are the error of the pickle, as in a pool of processes, after the reports before."""
        reports = yuglemit.map(DOUBLED, [1, threading.Lock(), 3], Here(), chunk=1)  # type: ignore[list-item]
        self.assertEqual(next(reports).outputs, [2])
        with self.assertRaisesRegex(TypeError, "pickle"):
            next(reports)


class Versions(unittest.TestCase):
    def test_a_worker_of_another_version(self) -> None:
        """It answers its version, and the iteration ends with an error that has both."""
        data = _chunk.packed([(DOUBLED, (1,))], next_options(), 0)
        self.assertIsInstance(_chunk.run_packed(data), bytes)
        self.assertEqual(_chunk.run_packed(b"0.1.0" + data[data.index(b"\n") :]), yuglemit.__version__)

        class Other(Executor):
            def submit(self, function: Callable[..., Any], /, *words: Any, **options: Any) -> "Future[Any]":
                future: "Future[Any]" = Future()
                future.set_result("0.23.0")
                return future

        with self.assertRaisesRegex(RuntimeError, f"a worker has yuglemit 0.23.0, and this process {yuglemit.__version__}"):
            next(yuglemit.map(DOUBLED, [1], Other()))

    def test_a_worker_of_a_version_without_chunks_of_bytes(self) -> None:
        """There the function that is sent answers the version."""
        with tempfile.TemporaryDirectory() as folder:
            (Path(folder) / "yuglemit").mkdir()
            (Path(folder) / "yuglemit" / "__init__.py").write_text('__version__ = "0.23.0"\n', encoding="utf-8")
            code = f"import pickle; print(pickle.loads({pickle.dumps(_chunk._sent)!r})(b'data'))"
            done = subprocess.run([sys.executable, "-B", "-c", code], stdout=subprocess.PIPE, text=True, check=True, env={"PYTHONPATH": folder})
        self.assertEqual(done.stdout, "0.23.0\n")
        self.assertIs(pickle.loads(pickle.dumps(_chunk._sent)), _chunk.run_packed)


def next_options() -> Any:
    """The usual options of runs."""
    from yuglemit._options import layout_of, options_of

    return options_of(layout_of())


class Lost(unittest.TestCase):
    def test_each_input_of_a_lost_chunk_is_tried_alone(self) -> None:
        """A worker has 0.3 seconds of processor time, and the fourth run takes several. All others have their reports, also after it."""
        brief, long = slow(0), slower()
        programs = [brief, brief, brief, long, brief, brief, brief, brief]
        inputs: List[Any] = [0, 1, 2, (), 4, 5, 6, 7]
        for chunk, window in ((3, 2), (1, 1)):
            with ProcessPoolExecutor(2, mp_context=FORK, initializer=mortal_worker) as pool:
                reports = list(yuglemit.map(programs, inputs, pool, chunk, window=window, on_broken="error"))
            self.assertEqual([it.end for it in reports], ["quiet"] * 3 + ["lost"] + ["quiet"] * 4)
            self.assertEqual([it.outputs for number, it in enumerate(reports) if number != 3], [[0], [1], [2], [4], [5], [6], [7]])
            self.assertRegex(str(reports[3].error), "^input 3, from 0: the worker that ran it alone ended: ")
            with self.assertRaisesRegex(yuglemit.Unfinished, '"lost": input 3, from 0'):
                _ = reports[3].outputs

    def test_a_task_that_killed_workers_of_dask(self) -> None:
        """One chunk has two such inputs. Each of its inputs is submitted once again, with data of its own."""
        executor = Here(lambda data: KilledWorker("run_chunk") if {4, 7} & set(jobs_of(data)) else None)
        reports = list(yuglemit.map(DOUBLED, range(12), Client(executor), 4, on_broken="error"))
        self.assertEqual([it.end for it in reports], ["lost" if number in (4, 7) else "quiet" for number in range(12)])
        self.assertEqual([str(reports[number].error)[:20] for number in (4, 7)], ["input 4, from 0: the", "input 7, from 0: the"])
        self.assertEqual([jobs_of(data) for _, data in executor.seen], [[0, 1, 2, 3], [4, 5, 6, 7], [8, 9, 10, 11], [4], [5], [6], [7]])
        one = Here(lambda data: KilledWorker("run_chunk"))
        self.assertEqual([it.end for it in yuglemit.map(DOUBLED, [1], one, on_broken="error")], ["lost"])
        self.assertEqual(len({data for _, data in one.seen}), 2)
        with self.assertRaises(KilledWorker):
            list(yuglemit.map(DOUBLED, range(12), executor, 4))

    def test_a_pool_that_stays_broken(self) -> None:
        """Each report is an error, and the iteration ends."""
        executor = Here(lambda data: BrokenExecutor("no worker begins"))
        self.assertEqual([it.end for it in yuglemit.map(DOUBLED, range(3), executor, on_broken="error")], ["lost"] * 3)

    def test_the_error_of_a_pool_has_the_numbers_of_the_inputs(self) -> None:
        executor = Here(lambda data: BrokenExecutor("a process ended.") if 5 in jobs_of(data) else None)
        reports = yuglemit.map(DOUBLED, range(100), executor, 2, window=3)
        self.assertEqual([next(reports).outputs for _ in range(4)], [[0], [2], [4], [6]])
        with self.assertRaisesRegex(BrokenExecutor, "a process ended. Inputs 4 to 9, from 0, have no report"):
            next(reports)


class Deadlines(unittest.TestCase):
    def test_reports_that_do_not_come(self) -> None:
        """The reports before come; then the deadline passes. Nothing is handed out any more."""
        class Dead(Here):
            def submit(self, function: Callable[..., Any], /, *words: Any, **options: Any) -> "Future[Any]":
                return super().submit(function, *words, **options) if len(self.seen) < 2 else Future()

        begun = time.monotonic()
        reports = yuglemit.map(DOUBLED, Counted(), Client(Dead()), 1, window=4, deadline=0.5)
        self.assertEqual([next(reports).outputs for _ in range(2)], [[0], [2]])
        with self.assertRaisesRegex(TimeoutError, "the deadline passed before the report of input 2, from 0"):
            next(reports)
        self.assertGreater(time.monotonic() - begun, 0.45)

    def test_runs_of_threads_are_stopped(self) -> None:
        before = threading.active_count()
        with self.assertRaisesRegex(TimeoutError, "input 0, from 0"):
            list(yuglemit.map(yuglemit.load(ENDLESS), [()] * 50, deadline=0.3))
        ended = time.monotonic() + 20
        while threading.active_count() > before:
            self.assertLess(time.monotonic(), ended)
            time.sleep(0.05)

    def test_reports_that_are_there_come_after_it(self) -> None:
        reports = yuglemit.map(DOUBLED, range(8), Here(), 2, window=2, deadline=0.2)
        time.sleep(0.3)
        self.assertEqual([next(reports).outputs for _ in range(4)], [[0], [2], [4], [6]])
        with self.assertRaisesRegex(TimeoutError, "input 4, from 0"):
            next(reports)

    def test_in_time(self) -> None:
        for deadline in (60, float("inf"), None):
            self.assertEqual(len(list(yuglemit.map(DOUBLED, range(50), deadline=deadline))), 50)
        with self.assertRaisesRegex(ValueError, "deadline: expected at least 0"):
            yuglemit.map(DOUBLED, [1], deadline=-1)
        with self.assertRaisesRegex(TypeError, "deadline: expected a number of seconds, got str"):
            yuglemit.map(DOUBLED, [1], deadline="1")  # type: ignore[arg-type]


if __name__ == "__main__":
    unittest.main()
