# SPDX-License-Identifier: Apache-2.0
"""No value of a run that didn't end by itself is taken for its answer, and what a report has is shown and kept."""

from __future__ import annotations

import asyncio
import pickle
import threading
import time
import unittest
from concurrent.futures import ProcessPoolExecutor
from typing import Any, Callable, List
from unittest import mock

import yuglemit
from common import DOUBLE, ENDLESS, EXAMPLES, example
from yuglemit import _report
from yuglemit.build import build_text

class Unfinished(unittest.TestCase):
    def check(self, report: yuglemit.Report, *words: str) -> None:
        """Each way to the outputs raises, and says what is meant by words; what there is can be had."""
        ways: List[Callable[[], object]] = [lambda: report.outputs, lambda: report.outputs[0], lambda: list(report.outputs)]
        for way in ways:
            with self.assertRaises(yuglemit.Unfinished) as raised:
                way()
            self.assertIs(raised.exception.report, report)
            for word in (f'"{report.end}"', "`partial`", *words):
                self.assertIn(word, str(raised.exception))

    def test_limit(self) -> None:
        pipeline = yuglemit.load(EXAMPLES / "pipeline.twn")
        report = pipeline.run(39, limit=5)
        self.check(report, "after 5 events", "its limit is 5", "pass a larger limit, up to 1000000")
        self.assertEqual((report.end, report.partial, report.unfinished), ("limit", [None], [0]))
        self.check(report.again(), "pass a larger limit")
        self.check(asyncio.run(pipeline.run_async(39, limit=5)), "pass a larger limit")
        self.check(pickle.loads(pickle.dumps(report)), "after 5 events", "its limit is 5")
        endless = yuglemit.load("proc control write int\nregs\nPUT 0 0 any 0\nRET\n").run()
        self.assertEqual((endless.end, endless.events), ("limit", 1_000_000))
        self.check(endless, "no run has more events")

    def test_an_output_that_is_there_at_the_limit_is_no_answer(self) -> None:
        """DOUBLE stores its output by its fifth event, and ends by its sixth."""
        double = yuglemit.load(DOUBLE)
        report = double.run(4, limit=5)
        self.check(report, "pass a larger limit")
        self.assertEqual((report.partial, double.run(4, limit=6).outputs), ([8], [8]))

    def test_stuck_and_stopped(self) -> None:
        self.check(yuglemit.load(example("stuck_on_itself.twn")).run(), "rules()", "which no option changes")
        divided = build_text("from yuglemit.build import *\n@control\ndef main(t: Text, x: Int, y: Out[Int]):\n    out.y = 7 // x\n").program
        for text in ("a", "a\0\nb"):  # no command line has the second
            self.check(divided.run(text, 0), "its limit is")
        stop = yuglemit.Stop()
        stop.set()
        self.check(yuglemit.load(DOUBLE).run(4, stop=stop), "after 0 events, its limit is 6", "a longer timeout")
        self.check(yuglemit.load(ENDLESS).run(timeout=0.1), "its limit is 1000000", "a longer timeout")

    def test_map(self) -> None:
        pipeline = yuglemit.load(EXAMPLES / "pipeline.twn")
        for executor in (None, ProcessPoolExecutor(1)):
            limited, refused = yuglemit.map(pipeline, [39, "x"], executor, limit=5)
            self.check(limited, "after 5 events, its limit is 5")
            with self.assertRaisesRegex(yuglemit.Unfinished, '"refused": input 1 .from.: expected an int') as raised:
                _ = refused.outputs
            self.assertIsInstance(raised.exception.__cause__, TypeError)
            self.assertEqual(refused.partial, [])
            self.check(next(yuglemit.map(yuglemit.load(ENDLESS), [()], executor, timeout=0.1)), "a longer timeout")
        with self.assertRaisesRegex(yuglemit.Unfinished, '"memory": yuglemit: out of memory'):
            _ = _report.failed_report(MemoryError("yuglemit: out of memory")).outputs

    def test_a_part_of_a_trace(self) -> None:
        pipeline = yuglemit.load(EXAMPLES / "pipeline.twn")
        self.check(pipeline.replay(pipeline.run(39, limit=5).trace, 39), "the whole trace")

    def test_the_error_travels(self) -> None:
        report = yuglemit.load(DOUBLE).run(4, limit=5)
        with self.assertRaises(yuglemit.Unfinished) as raised:
            _ = report.outputs
        again = pickle.loads(pickle.dumps(raised.exception))
        self.assertEqual((str(again), again.report), (str(raised.exception), report))


class Limits(unittest.TestCase):
    def test_without_a_limit_it_is_the_largest(self) -> None:
        """6,000 words take more than 10,000 events, the limit of earlier versions, with which there were 829 and 828."""
        program, words = yuglemit.load(EXAMPLES / "word_count.twn"), ["a", "b"] * 3000
        wanted = [{"a": 3000, "b": 3000}]
        self.assertEqual((program.run(words).outputs, program.run(words).again().outputs), (wanted, wanted))
        self.assertEqual([it.outputs for it in yuglemit.map(program, [words])], [wanted])
        with self.assertRaises(yuglemit.Unfinished):
            _ = program.run(words, limit=10_000).outputs

    def test_or_the_programs_bound(self) -> None:
        """With the bound a run ends by itself; its report and its repetitions have it."""
        double = yuglemit.load(DOUBLE)
        report = double.run(4)
        self.assertEqual((double.bounds.events, report.end, report.events), (6, "quiet", 6))
        assert report._made is not None
        self.assertEqual(report._made.layout.limit, 6)
        self.assertEqual((report.again().outputs, len(report.timeline()) > 1000, report.same_in_every_order()), ([8], True, True))


class Replays(unittest.TestCase):
    def test_what_is_made_again_can_be_stopped(self) -> None:
        """A run of a second is made again by each of these, several times over. All give up soon, and their threads end when they are done."""
        report = yuglemit.load(ENDLESS).run(timeout=1)
        for way in (report.timeline, report.rules, report.same_in_every_order):
            call: Any = way
            begun = time.monotonic()
            with self.assertRaisesRegex(yuglemit.Unfinished, rf"{way.__name__}\(\) was stopped.*longer timeout") as raised:
                call(timeout=0.1)
            self.assertIs(raised.exception.report, report)
            stop = yuglemit.Stop()
            threading.Timer(0.1, stop.set).start()
            with self.assertRaises(yuglemit.Unfinished):
                call(stop=stop)
            self.assertLess(time.monotonic() - begun, 3)
            with self.assertRaisesRegex(ValueError, "timeout: expected at least 0"):
                call(timeout=-1)

    def test_in_time(self) -> None:
        report = yuglemit.load(EXAMPLES / "pipeline.twn").run(39)
        self.assertEqual((report.timeline(timeout=60), report.rules(timeout=60)), (report.timeline(), report.rules()))
        self.assertIs(report.same_in_every_order(timeout=60, stop=yuglemit.Stop()), True)


class Shown(unittest.TestCase):
    def test_repr_is_cut(self) -> None:
        many: Any = dict.fromkeys(range(100_000), 7)
        self.assertEqual(repr(_report.Report("quiet", [many, 8, "a"])), "Report(end='quiet', outputs=[{0: 7, 1: 7, 2: 7, 3: 7, ...}, 8, 'a'])")
        self.assertEqual(repr(_report.Report("limit", [None, {}], [0, 1])), "Report(end='limit', partial=[None, {}], unfinished=[0, 1])")
        wide = _report.Report("memory", [{"x" * 4096: "y" * 4096}] * 1000, list(range(1000)), MemoryError("z" * 1000))
        self.assertLess(len(repr(wide)), 800)


class Pickles(unittest.TestCase):
    def test_as_it_was(self) -> None:
        for report in (yuglemit.load(EXAMPLES / "pipeline.twn").run(39), yuglemit.load(DOUBLE).run(4, limit=2), _report.failed_report(ValueError("no"))):
            again = pickle.loads(pickle.dumps(report))
            for name in ("end", "partial", "unfinished", "_meter", "_made"):
                self.assertEqual(getattr(again, name), getattr(report, name))
            self.assertEqual(str(again.error), str(report.error))

    def test_another_version(self) -> None:
        """One of another form names both versions; earlier ones had no form, and no version."""
        report = yuglemit.load(DOUBLE).run(4)
        with mock.patch.object(_report, "_FORM", _report._FORM + 1), mock.patch.object(_report, "__version__", "9.1"):
            kept = pickle.dumps(report)
        with self.assertRaisesRegex(ValueError, f"pickled by yuglemit 9.1, and this is {yuglemit.__version__}"):
            pickle.loads(kept)
        with self.assertRaisesRegex(ValueError, f"pickled by yuglemit of an earlier version, and this is {yuglemit.__version__}"):
            report.__setstate__({"end": "quiet", "outputs": [8], "unfinished": [], "error": None, "_made": None})


if __name__ == "__main__":
    unittest.main()
