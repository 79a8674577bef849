# SPDX-License-Identifier: Apache-2.0
"""Many runs over executors."""

from __future__ import annotations

import itertools
import multiprocessing
import os
import resource
import signal
import subprocess
import sys
import threading
import time
import unittest
import warnings
from concurrent.futures import BrokenExecutor, CancelledError, Executor, Future, ProcessPoolExecutor, ThreadPoolExecutor
from typing import Any, Callable, Iterator, List
from unittest import mock

import yuglemit
from common import DOUBLE, ENDLESS, EXAMPLES, HUNGRY, slow, slower
from yuglemit._map import cut

PROGRAM = yuglemit.load(EXAMPLES / "mapreduce.twn")
INPUTS = [{1: number, 2: 7} for number in range(300)]
WANTED = [[{1: number * number, 2: 49}, number * number + 49] for number in range(300)]


class Late(Executor):
    """Makes what is submitted in the opposite order, when the last has come."""

    def __init__(self, count: int) -> None:
        self.waiting: List[Callable[[], None]] = []
        self.count = count

    def submit(self, function: Callable[..., Any], /, *words: Any, **options: Any) -> "Future[Any]":
        future: "Future[Any]" = Future()
        self.waiting.append(lambda: future.set_result(function(*words, **options)))
        if len(self.waiting) == self.count:
            for call in reversed(self.waiting):
                call()
        return future


FORK = multiprocessing.get_context("fork")

# Keeps the reports of many runs, in 400 MB of addresses more than it has.
MANY_REPORTS = """
import resource, sys
import yuglemit
double = yuglemit.load(sys.argv[1])
double.run(1)
with open("/proc/self/statm") as file:
    used = int(file.read().split()[0]) * resource.getpagesize()
resource.setrlimit(resource.RLIMIT_AS, (used + 400_000_000, -1))
from concurrent.futures import ThreadPoolExecutor
with ThreadPoolExecutor(1) as pool:
    print(sum(it.end == "quiet" for it in list(yuglemit.map(double, range(2000), pool, limit=1_000_000))))
"""

# Ends while runs are under way in threads.
LEFT = """
import sys
import yuglemit
reports = yuglemit.map(yuglemit.load(sys.argv[1]), [()] * 50, limit=1_000_000)
print("left")
"""

# Maps over programs of which one takes more memory than the process may have.
SCARCE = """
import resource, sys
import yuglemit
double, hungry = yuglemit.load(sys.argv[1]), yuglemit.load(sys.argv[2])
double.run(1)
with open("/proc/self/statm") as file:
    used = int(file.read().split()[0]) * resource.getpagesize()
from concurrent.futures import ThreadPoolExecutor
with ThreadPoolExecutor(1) as pool:
    pool.submit(int).result()
    resource.setrlimit(resource.RLIMIT_AS, (used + 200_000_000, -1))
    reports = list(yuglemit.map([double, hungry, double, double], [2, 1, 3, 4], pool, limit=1_000_000))
print([(it.end, it.partial, type(it.error).__name__) for it in reports])
"""


def scarce_worker() -> None:
    """Lets a worker have 200 MB more than it has."""
    with open("/proc/self/statm", encoding="ascii") as file:
        used = int(file.read().split()[0]) * resource.getpagesize()
    resource.setrlimit(resource.RLIMIT_AS, (used + 200_000_000, -1))


def brief_worker() -> None:
    """Lets a worker have a second of processor time more than it had."""
    used = int(sum(resource.getrusage(resource.RUSAGE_SELF)[:2]))
    resource.setrlimit(resource.RLIMIT_CPU, (used + 1, -1))


class Counted:
    """Yields numbers without end, and counts those that are read."""

    def __init__(self) -> None:
        self.read = 0

    def __iter__(self) -> Iterator[int]:
        for number in itertools.count():
            self.read += 1
            yield number


class Map(unittest.TestCase):
    def outputs(self, *words: Any, **options: Any) -> List[Any]:
        return [report.outputs for report in yuglemit.map(*words, **options)]

    def test_threads(self) -> None:
        self.assertEqual(self.outputs(PROGRAM, INPUTS), WANTED)
        with ThreadPoolExecutor(3) as pool:
            self.assertEqual(self.outputs(PROGRAM, INPUTS, pool), WANTED)
            self.assertEqual(self.outputs(PROGRAM, INPUTS, pool, 1), WANTED)

    def test_processes(self) -> None:
        for way in ("fork", "spawn"):
            with ProcessPoolExecutor(2, mp_context=multiprocessing.get_context(way)) as pool:
                reports = list(yuglemit.map(PROGRAM, INPUTS, pool, 25))
            self.assertEqual([it.outputs for it in reports], WANTED)
            self.assertEqual(reports[7].events, PROGRAM.run(INPUTS[7]).events)

    def test_order_is_that_of_the_inputs(self) -> None:
        self.assertEqual(self.outputs(PROGRAM, INPUTS, Late(12), 25), WANTED)

    def test_refused_inputs_are_reports(self) -> None:
        inputs: List[Any] = [{1: 2}, "x", {1: 2.5}, {1: 3}, dict.fromkeys(range(1001), 1)]
        reports = list(yuglemit.map(PROGRAM, inputs))
        self.assertEqual([it.end for it in reports], ["quiet", "refused", "refused", "quiet", "refused"])
        self.assertEqual([type(it.error) for it in reports], [type(None), TypeError, TypeError, type(None), ValueError])
        with self.assertRaises(ValueError):
            reports[1].timeline()

    def test_options_are_checked_before_anything_runs(self) -> None:
        with self.assertRaisesRegex(ValueError, "limit"):
            yuglemit.map(PROGRAM, INPUTS, limit=0)
        with self.assertRaises(TypeError):
            yuglemit.map(PROGRAM, INPUTS, often=1)  # type: ignore[call-arg]
        with self.assertRaisesRegex(ValueError, "chunk"):
            yuglemit.map(PROGRAM, INPUTS, chunk=0)
        with self.assertRaisesRegex(ValueError, "1 programs and 300 inputs"):
            yuglemit.map([PROGRAM], INPUTS)
        with self.assertRaisesRegex(TypeError, "chunk: expected an int, got str"):
            yuglemit.map(PROGRAM, INPUTS, chunk="a")  # type: ignore[arg-type]
        with self.assertRaisesRegex(TypeError, r"map\(\) got an unexpected keyword argument 'nope'"):
            yuglemit.map(PROGRAM, INPUTS, nope=1)  # type: ignore[call-arg]
        with self.assertRaisesRegex(TypeError, "executor"):
            yuglemit.map(PROGRAM, INPUTS, 3)  # type: ignore[arg-type]

    def test_limit_reaches_the_runs(self) -> None:
        self.assertEqual([it.end for it in yuglemit.map(PROGRAM, INPUTS[:2], limit=5)], ["limit", "limit"])

    def test_several_programs(self) -> None:
        other = yuglemit.load(DOUBLE)
        programs = [other, PROGRAM, other, PROGRAM]
        wanted = [[8], [{1: 4}, 4], [10], [{1: 9}, 9]]
        inputs: List[Any] = [4, {1: 2}, 5, {1: 3}]
        self.assertEqual(self.outputs(programs, inputs), wanted)
        self.assertEqual(self.outputs(iter(programs), iter(inputs), chunk=1), wanted)
        for number in (3, 5):
            with self.assertRaisesRegex(ValueError, "programs"):
                list(yuglemit.map(iter(programs), iter((inputs * 2)[:number])))

    def test_chunks_follow_the_bounds(self) -> None:
        long = slow(100)  # 0.1 s and more
        self.assertEqual({len(jobs) for jobs in cut([(long, ())] * 100, 1000, 0.1, 10_000)}, {1})
        sizes = [len(jobs) for jobs in cut([(PROGRAM, ({},))] * 100_000, 1_000_000, 0.1, 10_000)]
        self.assertGreater(sizes[0], 20)
        self.assertLess(sizes[0], 2000)
        self.assertEqual(sum(sizes), 100_000)
        self.assertEqual([len(jobs) for jobs in cut([(PROGRAM, ({},))] * 10, 4, 0.1, 10_000)], [4, 4, 2])

    def test_progress(self) -> None:
        seen: List[Any] = []
        list(yuglemit.map(PROGRAM, INPUTS, chunk=100, progress=lambda done, count: seen.append((done, count))))
        self.assertEqual(seen, [(100, 300), (200, 300), (300, 300)])

    def test_progress_of_an_iterator(self) -> None:
        """Without a length all are those that are read so far."""
        seen: List[Any] = []
        list(yuglemit.map(PROGRAM, iter(INPUTS), ThreadPoolExecutor(1), 100, window=1, progress=lambda done, count: seen.append((done, count))))
        self.assertEqual(seen, [(100, 100), (200, 200), (300, 300)])

    def test_progress_by_a_bar(self) -> None:
        bar = mock.Mock()
        with mock.patch.dict(sys.modules, tqdm=bar):
            list(yuglemit.map(PROGRAM, INPUTS, chunk=100, progress=True))
        bar.tqdm.assert_called_once_with(total=300, unit=" runs")
        self.assertEqual([call.args for call in bar.tqdm.return_value.update.call_args_list], [(100,)] * 3)

    def test_lost_process(self) -> None:
        """With on_broken="here" the runs that a killed process had are made here; without it, its error comes after the reports before."""
        program = slow(5)  # 10 ms and more
        with ProcessPoolExecutor(2, mp_context=FORK) as pool, warnings.catch_warnings(record=True) as warned:
            warnings.simplefilter("always")
            pool.submit(os.getpid).result()
            victim = next(iter(pool._processes))
            threading.Timer(0.05, os.kill, (victim, signal.SIGKILL)).start()
            reports = [it.outputs for it in yuglemit.map(program, range(100), pool, 2, on_broken="here")]
        self.assertEqual(reports, [[it] for it in range(100)])
        self.assertTrue(any("runs again" in str(it.message) for it in warned))

    def test_what_killed_a_worker_is_not_run_here(self) -> None:
        """A worker may have a second of processor time, and the third run takes several. The reports before it come, and this process makes none."""
        brief, long = slow(0), slower()
        with ProcessPoolExecutor(1, mp_context=FORK, initializer=brief_worker) as pool:
            reports = yuglemit.map([brief, brief, long, brief], [0, 1, (), 3], pool, 1)
            began = time.process_time()
            self.assertEqual([next(reports).outputs, next(reports).outputs], [[0], [1]])
            with self.assertRaises(BrokenExecutor):
                next(reports)
        self.assertLess(time.process_time() - began, 1)
        with self.assertRaisesRegex(ValueError, "on_broken"):
            yuglemit.map(brief, [1], on_broken="ignore")

    def test_out_of_memory_is_a_report(self) -> None:
        wanted = [("quiet", [4], "NoneType"), ("memory", [], "MemoryError"), ("quiet", [6], "NoneType"), ("quiet", [8], "NoneType")]
        done = subprocess.run([sys.executable, "-c", SCARCE, DOUBLE, HUNGRY], stdout=subprocess.PIPE, text=True, check=True)
        self.assertEqual(done.stdout, f"{wanted}\n")
        double, hungry = yuglemit.load(DOUBLE), yuglemit.load(HUNGRY)
        with ProcessPoolExecutor(1, mp_context=FORK, initializer=scarce_worker) as pool:
            reports = list(yuglemit.map([double, hungry, double, double], [2, 1, 3, 4], pool, limit=1_000_000))
        self.assertEqual([(it.end, it.partial, type(it.error).__name__) for it in reports], wanted)

    def test_shutdown_ends_the_iteration(self) -> None:
        """Futures that are cancelled while they wait are an error, after the reports before; nothing hangs."""
        executors: List[Executor] = [ThreadPoolExecutor(1), ProcessPoolExecutor(1, mp_context=FORK)]
        for pool in executors:
            for program, error in ((slow(20), (CancelledError, RuntimeError)),):
                reports = yuglemit.map(program, range(1000), pool, 1, window=8)
                self.assertEqual(next(reports).outputs, [0])
                pool.shutdown(wait=False, cancel_futures=True)
                ended: List[Any] = []

                def read_on() -> None:
                    try:
                        ended.extend(it.outputs for it in reports)
                    except error as why:
                        ended.append(type(why))

                thread = threading.Thread(target=read_on, daemon=True)
                thread.start()
                thread.join(60)
                self.assertFalse(thread.is_alive(), "it hangs")
                self.assertTrue(ended and isinstance(ended[-1], type), ended)
                self.assertEqual(ended[:-1], [[it] for it in range(1, len(ended))])

    def test_a_pool_that_is_shut_down_already(self) -> None:
        pool = ThreadPoolExecutor(1)
        pool.shutdown()
        with self.assertRaisesRegex(RuntimeError, "after shutdown"):
            next(yuglemit.map(PROGRAM, INPUTS, pool))

    def test_endless_inputs(self) -> None:
        """Nothing is read before a report is asked for, then no more than fits into the window, and one chunk more for each whose reports are yielded.
        The first report comes after one chunk, or else is waited for."""
        double = yuglemit.load(DOUBLE)
        for options in ({}, {"executor": ThreadPoolExecutor(2)}):
            numbers = Counted()
            reports = yuglemit.map(double, numbers, chunk=5, window=3, **options)  # type: ignore[arg-type]
            self.assertEqual(numbers.read, 0)
            self.assertEqual([next(reports).outputs for _ in range(7)], [[2 * it] for it in range(7)])
            self.assertLessEqual(numbers.read, 20)
            reports.close()  # type: ignore[attr-defined]
        with ThreadPoolExecutor(3) as pool:
            numbers = Counted()
            reports = yuglemit.map(double, numbers, pool, chunk=1)
            self.assertEqual([next(reports).outputs for _ in range(2)], [[0], [2]])
            self.assertLessEqual(numbers.read, 14)
            reports.close()  # type: ignore[attr-defined]
        with self.assertRaisesRegex(ValueError, "window"):
            yuglemit.map(double, [], window=0)

    def test_errors_of_the_inputs_come_after_the_reports_before(self) -> None:
        def numbers() -> Iterator[int]:
            yield from (1, 2, 3)
            raise KeyError("the caller's")

        reports, found = yuglemit.map(yuglemit.load(DOUBLE), numbers()), []
        with self.assertRaisesRegex(KeyError, "the caller's"):
            for report in reports:
                found.append(report.outputs)
        self.assertEqual(found, [[2], [4], [6]])

    def test_properties_make_no_run(self) -> None:
        """Reports have what was asked for, and say what else to do."""
        stuck = yuglemit.load(EXAMPLES / "stuck_on_itself.twn")
        once = PROGRAM.run(INPUTS[7])
        for executor in (None, ProcessPoolExecutor(1, mp_context=FORK)):
            plain = list(yuglemit.map([PROGRAM, stuck], [INPUTS[7], ()], executor))
            full = list(yuglemit.map(PROGRAM, INPUTS[7:8], executor, text=True, trace=True, line=True))
            with mock.patch("yuglemit._native.session", side_effect=AssertionError), mock.patch("yuglemit._native.run", side_effect=AssertionError):
                self.assertEqual((plain[0].events, plain[0].tasks, plain[0].instructions), (once.events, once.tasks, once.instructions))
                self.assertEqual((plain[1].end, plain[1].circle), ("stuck", [(1, 1, 1)]))
                for name in ("text", "trace", "line"):
                    with self.assertRaisesRegex(ValueError, f"if {name}=True asked for it"):
                        getattr(plain[0], name)
                    self.assertEqual(getattr(full[0], name), getattr(once, name))
            again = plain[0].again()
            self.assertEqual((again.text, again.trace, again.line), (once.text, once.trace, once.line))

    def test_reports_keep_no_memory_of_their_runs(self) -> None:
        """A run with a limit of a million events takes 10 MB while it runs; many of their reports take little."""
        done = subprocess.run([sys.executable, "-c", MANY_REPORTS, DOUBLE], stdout=subprocess.PIPE, text=True, check=True)
        self.assertEqual(done.stdout, "2000\n")

    def test_texts_that_no_command_line_has(self) -> None:
        program = yuglemit.load("proc control closed text write text\nregs text\nGET v0 d0\nDROPR d0\nSTORE d1 v0\nRET\n")
        for report in (next(yuglemit.map(program, ["a\0\nb"], text=True)), program.run("a\0\nb").again()):
            self.assertEqual((report.text, report.outputs), ('out 0 text "a\\x00\\nb"\nquiet\n', ["a\0\nb"]))

    def test_timeout_of_each_run(self) -> None:
        program = yuglemit.load(ENDLESS)
        for executor in (None, ThreadPoolExecutor(2), ProcessPoolExecutor(2, mp_context=FORK)):
            reports = list(yuglemit.map(program, [()] * 3, executor, limit=1_000_000, timeout=0.2))
            self.assertEqual([it.end for it in reports], ["stopped"] * 3)
            self.assertTrue(all(it.events < 1_000_000 for it in reports))

    def test_ending_the_iteration_stops_the_runs_of_a_pool_of_threads(self) -> None:
        with ThreadPoolExecutor(2) as pool:
            reports = yuglemit.map(yuglemit.load(ENDLESS), [()] * 50, pool, limit=1_000_000)
            time.sleep(0.2)
            reports.close()  # type: ignore[attr-defined]
            begun = time.monotonic()
        self.assertLess(time.monotonic() - begun, 20)

    def test_a_process_that_ends_stops_its_runs(self) -> None:
        done = subprocess.run([sys.executable, "-c", LEFT, ENDLESS], stdout=subprocess.PIPE, text=True, check=True, timeout=60)
        self.assertEqual(done.stdout, "left\n")

    def test_nothing_is_left_when_it_is_given_up(self) -> None:
        runs = yuglemit.map(yuglemit.load("proc control\nregs\nREPEAT 1000\nREPEAT 1000\nEND\nEND\nRET\n"), [()] * 10_000, chunk=1)
        next(runs)
        runs.close()  # type: ignore[attr-defined]
        deadline = time.monotonic() + 20
        while [it for it in threading.enumerate() if it.name.startswith("ThreadPool")]:
            self.assertLess(time.monotonic(), deadline)
            time.sleep(0.05)


if __name__ == "__main__":
    unittest.main()
