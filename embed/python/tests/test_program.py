# SPDX-License-Identifier: Apache-2.0
"""Programs and reports."""

from __future__ import annotations

import _thread
import asyncio
import json
import os
import pickle
import resource
import signal
import subprocess
import sys
import tempfile
import threading
import time
import unittest
from concurrent.futures import ThreadPoolExecutor
from pathlib import Path
from typing import Any, List
from unittest import mock

import yuglemit
from common import DOUBLE, ENDLESS, EXAMPLES, example, slower
from yuglemit._library import has_lists

LONG = """names
proc control main(texts: write cont text)
regs number: int, one: int, word: text
INT one 1
TEXT word "x"
REPEAT 12
CAT word word word +0
END
REPEAT 100
NEW member_out member text
STORE member_out word
INS texts number member there
JMP next
there:
DROPR member
next:
ADD number number one +0
END
DROPW texts
RET
"""

# Interrupts its own run, and prints how long it took until run() raised, and the processor time until no other thread was left.
INTERRUPTED = """
import os, signal, sys, threading, time
import yuglemit
program = yuglemit.load(sys.stdin.read())
program.bounds
sent = []
def send():
    time.sleep(0.3)
    sent.append(time.perf_counter())
    os.kill(os.getpid(), signal.SIGINT)
threading.Thread(target=send).start()
try:
    program.run(limit=1_000_000)
    print("not interrupted")
except KeyboardInterrupt:
    waited, begun = time.perf_counter() - sent[0], time.process_time()
    while threading.active_count() > 1:
        time.sleep(0.01)
    print(waited, time.process_time() - begun)
"""

# One event of five seconds or more: the most instructions of a task, DIV and END.
ONE_EVENT = """proc control write int
regs int int int
INT v1 9223372036854775807
INT v2 3
REPEAT 1000
REPEAT 1000
REPEAT 490
DIV v0 v1 v2 +0
END
END
END
STORE d0 v0
RET
"""

SLOW = """proc control write int
regs int int
INT v1 1
REPEAT 1000
REPEAT 1000
REPEAT {turns}
ADD v0 v0 v1 no
no:
END
END
END
STORE d0 v0
RET
"""


def setUpModule() -> None:
    """Makes SIGINT raise KeyboardInterrupt, as it does by default. A shell lets its background jobs ignore it."""
    signal.signal(signal.SIGINT, signal.default_int_handler)


def threads_left(expected: int) -> int:
    """Returns how many threads there are, once they are as many as expected, or after five seconds."""
    ended = time.perf_counter() + 5
    while threading.active_count() > expected and time.perf_counter() < ended:
        time.sleep(0.01)
    return threading.active_count()


# Two tasks insert their members at one subscript, each by its copy.
RACE = """
proc control write cont int
regs int int
INT v0 1
INT v1 2
DUPW d1 d0
DUPW d2 d0
PUT 1 0 any 1 0
PUT 1 0 any 2 1
DROPW d0
RET
proc leaf write cont int val int
regs int int
NEW d1 d2 int
STORE d1 v0
INS d0 v1 d2 taken
JMP done
taken:
DROPR d2
done:
DROPW d0
RET
"""


class Programs(unittest.TestCase):
    def test_what_is_known_before_a_run(self) -> None:
        program = yuglemit.load(EXAMPLES / "mapreduce.twn")
        self.assertEqual([it.name for it in program.procedures], [None if not it else it for it in ("main", "square", "reduce", "add", "copy")])
        self.assertEqual([it.kind for it in program.procedures], ["control", "leaf", "control", "leaf", "leaf"])
        self.assertEqual([str(it) for it in program.parameters], ["numbers: cont int"])
        self.assertEqual(program.needs, (0, 0))
        self.assertEqual(yuglemit.load(EXAMPLES / "for_one_worker.twn").needs, (0, 2))
        # main, eight squares, one reduce with eight adds and a copy; main inserts two members for each of eight. By hand as in examples/sessions.txt
        bounds = program.bounds
        self.assertEqual((bounds.tasks, bounds.instructions, bounds.data, bounds.rules, bounds.events), (19, 278, 18, 18, 367))
        self.assertEqual((bounds.members, bounds.bytes), (16, 0))
        self.assertEqual(program.bounds.greatest, max(it.budget for it in program.procedures))

    def test_same_in_every_order(self) -> None:
        store = "proc control write int\nregs int\nINT v0 7\nSTORE d0 v0\nRET\n"
        copies = (
            "proc control write cont int\nregs\nDUPW d1 d0\nPUT 1 0 any 0\nPUT 1 0 any 1\nRET\n"
            "proc leaf write cont int\nregs int\nNEW d1 d2 int\nSTORE d1 v0\nINS d0 v0 d2 +1\nJMP +1\nDROPR d2\nDROPW d0\nRET\n"
        )
        self.assertIs(yuglemit.load(store).same_in_every_order, True)
        self.assertIs(yuglemit.load(copies).same_in_every_order, False)
        self.assertIs(yuglemit.load_bytes(yuglemit.assemble(copies)).same_in_every_order, False)

    def test_a_run_is_the_same_in_every_order(self) -> None:
        text = (
            "proc control write cont int\nregs int int\nINT v0 1\nINT v1 {}\nDUPW d1 d0\nPUT 1 0 any 1 0\nPUT 1 0 any 0 1\nRET\n"
            "proc leaf write cont int val int\nregs int\nNEW d1 d2 int\nSTORE d1 v0\nINS d0 v0 d2 +1\nJMP +1\nDROPR d2\nDROPW d0\nRET\n"
        )
        for second, limit, expected in ((2, 10000, True), (1, 10000, False), (2, 3, None)):
            report = yuglemit.load(text.format(second)).run(limit=limit)
            self.assertIs(report.same_in_every_order(), expected)
            self.assertIs(pickle.loads(pickle.dumps(report)).same_in_every_order(), expected)

    def test_bounds_with_a_limit(self) -> None:
        """Main executes PUT and RET, its task INT, REPEAT, 100 times COPY and END, and RET; a task is an event more."""
        text = "proc control\nregs\nPUT 1 0 any\nRET\nproc leaf\nregs int\nINT v0 1\nREPEAT 100\nCOPY v0 v0\nEND\nRET\n"
        bounds = yuglemit.load(text).bounds
        self.assertEqual((bounds.greatest, bounds.instructions, bounds.events), (203, 205, 207))
        self.assertEqual((bounds.events_within(5), bounds.events_within()), (5, 207))
        self.assertEqual((bounds.instructions_within(1), bounds.instructions_within()), (203, 205))

    def test_bounds_by_a_limit(self) -> None:
        """Pipeline has 4 tasks, 24 instructions, 2 data, 3 rules and 37 events, and budgets of 6 (docs/FORMAT.md); a limit gives each event of
        its runs one task, a datum and a rule, and 6 instructions."""
        program = yuglemit.load(EXAMPLES / "pipeline.twn")
        for limit, expected in ((3, (3, 18, 2, 3, 3)), (1, (1, 6, 1, 1, 1)), (1_000_000, (4, 24, 2, 3, 37))):
            bounds = program.bounds_within(limit)
            self.assertEqual((bounds.tasks, bounds.instructions, bounds.data, bounds.rules, bounds.events), expected)
            self.assertEqual((bounds.members, bounds.bytes), (0, 0))
            self.assertFalse(bounds.is_endless)
        again = yuglemit.load("proc control\nregs\nPUT 0 0 any\nRET\n").bounds_within(5)
        self.assertEqual((again.tasks, again.instructions, again.data, again.rules, again.events), (5, 10, 0, 0, 5))
        for limit in (0, 1_000_001):
            with self.assertRaises(ValueError):
                program.bounds_within(limit)

    def test_bounds_of_members_and_bytes(self) -> None:
        """LONG makes 100 members of texts, by numbers, and has a text in a register: 4,096 bytes each. A limit gives each event a member and a text."""
        program = yuglemit.load(LONG)
        for bounds, expected in ((program.bounds, (100, 101 * 4096)), (program.bounds_within(3), (3, 3 * 4096))):
            self.assertEqual((bounds.members, bounds.bytes), expected)

    def test_a_bound_over_all_numbers(self) -> None:
        """Main puts 2,000 leaves of 400,000,000 additions and as many ends of a loop: more than 1,600,000,000,000 instructions."""
        loops = "REPEAT 400\nREPEAT 1000\nREPEAT 1000\n"
        leaf = f"proc leaf\nregs int int\nINT v1 1\n{loops}ADD v0 v0 v1 no\nno:\nEND\nEND\nEND\nRET\n"
        bounds = yuglemit.load(f"proc control\nregs\nREPEAT 2\nREPEAT 1000\nPUT 1 0 any\nEND\nEND\nRET\n{leaf}").bounds
        self.assertEqual((bounds.tasks, bounds.instructions, bounds.is_endless), (2001, None, False))

    def test_caps(self) -> None:
        """Each bound of pipeline is admitted at its number, and rejected below it, as `tw run` does."""
        program = yuglemit.load(EXAMPLES / "pipeline.twn")
        exact: dict[str, Any] = {"most_tasks": 4, "most_instructions": 24, "most_data": 2, "most_budget": 6, "most_rules": 3}
        self.assertEqual(program.run(39, **exact).outputs, [42])
        self.assertEqual(program.run(39, most_tasks=None).outputs, [42])
        for name, most in exact.items():
            with self.assertRaises(yuglemit.Refused) as refused:
                program.run(39, **{**exact, name: most - 1})
            kind = name[len("most_") :]
            self.assertEqual((refused.exception.code, refused.exception.text), ("O07", f"refused O07\n{kind}: bound {most}, at most {most - 1}\n"))
        self.assertEqual(program.run(39, most_tasks=3, limit=3).end, "limit")
        with self.assertRaises(yuglemit.Refused) as refused:
            yuglemit.load("proc control\nregs\nPUT 0 0 any\nRET\n").run(most_tasks=999_999)
        self.assertEqual(refused.exception.text, "refused O07\ntasks: bound 1000000, at most 999999\n")
        report = program.run(39, **exact)
        self.assertEqual((report.again().outputs, report.text), ([42], "out 0 int 42\nquiet\n"))
        self.assertEqual(len(report.timeline()) > 1000, True)
        for wrong in (-1, 0, 1 << 64):
            for name in exact:
                cap: dict[str, Any] = {name: wrong}
                with self.assertRaises(ValueError):
                    program.run(39, **cap)

    def test_caps_on_texts(self) -> None:
        program = yuglemit.load(LONG)
        self.assertEqual(program.run(most_bytes=101 * 4096).end, "quiet")
        with self.assertRaises(yuglemit.Refused) as refused:
            program.run(most_bytes=101 * 4096 - 1)
        self.assertEqual(refused.exception.text, "refused O07\nbytes: bound 413696, at most 413695\n")

    def test_caps_on_members(self) -> None:
        """A program that inserts one member and makes one rule. Nothing is run above a cap, of which no command knows."""
        leaf = "proc leaf\nregs\nRET\n"
        insert = "INS d0 v0 d3 there\nJMP done\nthere:\nDROPR d3\ndone:\nDROPW d0\nRULE 1 0 any\nRET\n"
        program = yuglemit.load(f"proc control\nregs int\nNEW d0 d1 cont int\nDROPR d1\nNEW d2 d3 int\nSTORE d2 v0\n{insert}\n{leaf}")
        self.assertEqual(program.run(most_members=1, most_rules=1).end, "quiet")
        more = yuglemit.load(f"proc control\nregs\nRULE 1 0 any\nRULE 1 0 any\nRET\n\n{leaf}")
        with self.assertRaises(yuglemit.Refused) as refused:
            more.run(most_rules=1, most_tasks=2)
        self.assertEqual(refused.exception.text, "refused O07\ntasks: bound 3, at most 2\nrules: bound 2, at most 1\n")
        endless = yuglemit.load("proc control\nregs\nPUT 0 0 any\nRET\n")
        with self.assertRaises(yuglemit.Refused) as refused:
            endless.run(most_tasks=(1 << 64) - 2, most_members=1, limit=5, most_budget=1)
        self.assertEqual((refused.exception.code, refused.exception.text), ("O07", "refused O07\nbudget: bound 2, at most 1\n"))

    def test_bounds_hold(self) -> None:
        chance = {number: number for number in range(8)}
        inputs: dict[str, list[Any]] = {"mapreduce": [chance], "chain": [chance], "pipeline": [39], "fan_out": [], "barrier": [], "matrix": [chance], "words": [dict.fromkeys(range(8), "the")], "texts": [dict.fromkeys(range(8), "4")]}
        for name, values in inputs.items():
            program = yuglemit.load(EXAMPLES / f"{name}.twn")
            report = program.run(*values)
            assert program.bounds.events is not None and program.bounds.tasks is not None and program.bounds.instructions is not None
            self.assertLessEqual(report.events, program.bounds.events, name)
            self.assertLessEqual(report.tasks, program.bounds.tasks, name)
            self.assertLessEqual(report.instructions, program.bounds.instructions, name)
            self.assertLess(program.bounds.seconds(), 10, name)

    def test_tasks_in_a_circle_have_the_limit_alone(self) -> None:
        program = yuglemit.load("proc control\nregs\nPUT 0 0 any\nRET\n")
        self.assertEqual((program.bounds.tasks, program.bounds.events), (None, None))
        self.assertEqual(program.bounds.events_within(500), 500)
        self.assertTrue(program.bounds.is_endless)
        report = program.run(limit=500)
        self.assertEqual((report.end, report.events), ("limit", 500))

    def test_paths(self) -> None:
        for name in ("store_seven.tw", "store_seven.hex"):
            self.assertEqual(yuglemit.load(EXAMPLES / name).run().outputs, [7])
        with tempfile.TemporaryDirectory() as folder:
            path = Path(folder) / "program"
            path.write_bytes(yuglemit.assemble(DOUBLE))
            self.assertEqual(yuglemit.load(path).run(4).outputs, [8])
            path.write_text(DOUBLE)
            self.assertEqual(yuglemit.load(path).run(4).outputs, [8])
        with self.assertRaises(OSError):
            yuglemit.load(EXAMPLES / "none.tw")

    def test_programs_travel(self) -> None:
        program = yuglemit.load(DOUBLE)
        again = pickle.loads(pickle.dumps(program))
        self.assertEqual((again, again.source, hash(again)), (program, DOUBLE, hash(program)))
        self.assertEqual(again.run(4).outputs, [8])
        self.assertIs(pickle.loads(pickle.dumps(program)), again)

    def test_listing(self) -> None:
        self.assertIn("    0  GET v0 d0", yuglemit.load(DOUBLE).places())


class Reports(unittest.TestCase):
    def test_outputs(self) -> None:
        report = yuglemit.load(example("two_inputs.twn")).run({1: 7, 5: -3}, -4)
        self.assertEqual((report.end, report.outputs, report.unfinished), ("quiet", [{-4: 2, 2: -4}], []))
        self.assertEqual(json.loads(report.json), {"end": "quiet", "outputs": [{"-4": 2, "2": -4}], "unfinished": []})
        report = yuglemit.load(example("words.twn")).run({1: "the", 2: 'a"\n', 3: "the"})
        self.assertEqual(report.outputs, [{'a"\n': 1, "the": 2}])

    def test_stuck(self) -> None:
        report = yuglemit.load(example("stuck_on_itself.twn")).run()
        self.assertEqual((report.end, report.partial, report.circle), ("stuck", [], [(1, 1, 1)]))
        self.assertEqual(report.text, "stuck 1\nwaits 1 1 1\n")
        self.assertEqual(report.rules(), "stuck 1\nwaits 1 1 1\nrule 1 runs procedure 1 (store), made at line 6: RULE store 0 any datum datum_out\n")
        self.assertEqual(json.loads(report.json)["circle"], [{"rule": 1, "datum": 1, "writer": 1}])

    def test_unset_and_open_outputs(self) -> None:
        text = "proc control write int write cont int\nregs\nNEW d2 d3 int\nRULE 1 0 any 3 2 0 1\nRET\n\nproc leaf closed int write int write int write cont int\nregs int\nDROPR d0\nSTORE d1 v0\nSTORE d2 v0\nDROPW d3\nRET\n"
        report = yuglemit.load(text).run()
        self.assertEqual((report.end, report.partial, report.unfinished), ("stuck", [None, {}], [0, 1]))

    def test_seeds(self) -> None:
        """A seed gives its order again; the tasks of this program compete for one subscript, so two seeds give two results."""
        program = yuglemit.load(RACE)
        orders = [program.run(workers=2, seed=seed) for seed in (1, 1, 4, 2**64 - 1)]
        self.assertEqual([report.outputs for report in orders], [[{0: 1}], [{0: 1}], [{0: 2}], [{0: 1}]])
        self.assertEqual(orders[0].trace, orders[1].trace)
        self.assertNotEqual(orders[0].trace, orders[2].trace)
        self.assertEqual(program.replay(orders[2].trace, workers=2).outputs, [{0: 2}])
        self.assertEqual(orders[2].timeline(), program.picture(orders[2].trace, workers=2))
        self.assertEqual([report.same_in_every_order() for report in orders], [False] * 4)
        for seed in (0, 2**64, -1):
            with self.assertRaises(ValueError):
                program.run(seed=seed)

    def test_numbers_trace_and_timeline(self) -> None:
        program = yuglemit.load(example("pipeline.twn"))
        report = program.run(39, engines=2, workers=2)
        self.assertEqual((report.events, report.tasks, report.instructions), (33, 4, 24))
        self.assertEqual(report.meter, yuglemit.Meter(events=33, tasks=4, instructions=24, data=4, members=0, bytes=0))
        self.assertEqual(yuglemit.load(example("two_inputs.twn")).run({1: 7, 5: -3}, -4).meter[3:], (7, 2, 0))
        self.assertEqual(yuglemit.load(example("word_count.twn")).run(["the", "cat", "the"]).meter[3:], (2, 2, 6))
        kept = program.run(39, engines=2, workers=2, trace=True)
        self.assertEqual((kept.trace, kept.text, kept.events), (report.trace, report.text, 33))
        self.assertEqual(len(kept.trace.split("\n")), 33 + 3)
        self.assertEqual(program.replay(kept.trace, 39, engines=2, workers=2).outputs, [42])
        self.assertTrue(report.timeline().startswith("<svg"))
        self.assertIn("events 3 to 5 of 33", report.timeline(3, 5))
        self.assertEqual(report._repr_svg_(), report.timeline())
        self.assertEqual(program.picture(kept.trace, 39, engines=2, workers=2), report.timeline())
        with self.assertRaises(ValueError):
            program.replay(kept.trace, 39, engines=2, workers=2).timeline()

    def test_replay_of_some_events(self) -> None:
        program = yuglemit.load(EXAMPLES / "pipeline.twn")
        lines = program.run(39).trace.splitlines()
        report = program.replay("\n".join([*lines[:3], "end\n"]), 39)
        self.assertEqual((report.end, report.partial, report.unfinished), ("running", [None], [0]))
        self.assertEqual(program.replay("\n".join([*lines, ""]), 39).end, "quiet")

    def test_a_report_is_printed_without_another_run(self) -> None:
        report = yuglemit.load(example("pipeline.twn")).run(39, engines=2, workers=2)
        with mock.patch("yuglemit._native.session", side_effect=AssertionError("another run")):
            self.assertEqual((report.instructions, len(report.trace.split("\n"))), (24, 33 + 3))
            self.assertEqual(report.text, "out 0 int 42\nquiet\n")
            line = json.loads(report.line or "")
        self.assertEqual((line["status"], line["outputs"], line["events"], line["instructions"]), ("quiet", [42], 33, 24))

    def test_reports_travel(self) -> None:
        report = yuglemit.load(DOUBLE).run(4)
        again = pickle.loads(pickle.dumps(report))
        self.assertEqual((again.outputs, again.events, again.tasks, again.instructions), ([8], report.events, 1, report.instructions))
        with self.assertRaisesRegex(ValueError, "text=True asked for it"):
            _ = again.text
        made = again.again()
        self.assertEqual((made.text, made.trace, made.line), (report.text, report.trace, report.line))
        whole = pickle.loads(pickle.dumps(yuglemit.load(DOUBLE).run(4, text=True, trace=True, line=True)))
        self.assertEqual((whole.text, whole.trace, whole.line), (report.text, report.trace, report.line))
        of_four_tasks = pickle.loads(pickle.dumps(yuglemit.load(EXAMPLES / "pipeline.twn").run(39)))
        self.assertEqual(of_four_tasks.instructions, 24)

    def test_long_answers(self) -> None:
        """Answers that are longer than the first buffer come whole."""
        report = yuglemit.load(LONG).run()
        self.assertEqual(report.outputs, [{number: "x" * 4096 for number in range(100)}])
        self.assertGreater(len(report.text), 400_000)
        again = yuglemit.load(EXAMPLES / "texts.twn")
        self.assertEqual(again.run({1: "x" * 4096}).outputs[0], "x" * 4096)


class Seconds(unittest.TestCase):
    """Bounds of the time of runs, which valgrind would break."""

    def test_seconds_of_texts(self) -> None:
        """A run of texts takes no more processor time than `seconds`, and about what `usual_seconds` says."""
        text = f'TEXT v0 "{"a" * 2000}"\nTEXT v1 "{"b" * 2000}"\nREPEAT 1000\nREPEAT 1000\nREPEAT 2\nCAT v2 v0 v1 +0\nEND\nEND\nEND\n'
        program = yuglemit.load(f"proc control\nregs text text text\n{text}RET\n")
        begun = time.process_time()
        program.run()
        took = time.process_time() - begun
        self.assertLessEqual(took, program.bounds.seconds())
        self.assertLess(took, 9 * program.bounds.usual_seconds())
        self.assertEqual((program.bounds.work, yuglemit.load(DOUBLE).bounds.work, yuglemit.load(yuglemit.assemble(DOUBLE)).bounds.work), ("texts", "ints", "ints"))
        self.assertEqual(yuglemit.load(yuglemit.assemble(example("texts.twn"))).bounds.work, yuglemit.load(example("texts.twn")).bounds.work)

    def test_seconds_of_numbers_in_texts(self) -> None:
        """READI of the longest text is the dearest instruction; it takes more than a hundred of ints."""
        text = f'TEXT v0 "{"0" * 4096}"\nREPEAT 1000\nREPEAT 20\nREADI v1 v0 +0\nEND\nEND\n'
        program = yuglemit.load(f"proc control\nregs text int\n{text}RET\n")
        begun = time.process_time()
        program.run()
        self.assertLessEqual(time.process_time() - begun, program.bounds.seconds())
        self.assertEqual(program.bounds.work, "numbers")


class Threads(unittest.TestCase):
    def test_other_threads_go_on(self) -> None:
        """Four runs in threads take clearly less than four times one: the GIL is released. Other work on the machine only makes it harder."""
        processors = len(os.sched_getaffinity(0))
        if processors < 4:
            self.skipTest("fewer than four processors")
        program = yuglemit.load(SLOW.format(turns=40))
        best = 0.0
        for _ in range(5):
            started = time.perf_counter()
            for _ in range(4):
                program.run()
            alone = time.perf_counter() - started
            started = time.perf_counter()
            with ThreadPoolExecutor(4) as pool:
                list(pool.map(lambda _: program.run(), range(4)))
            best = max(best, alone / (time.perf_counter() - started))
            if best >= 3:
                break
        free = processors - os.getloadavg()[0] + 1
        self.assertGreaterEqual(best, 3 if free >= 4 else 1.3, f"load {os.getloadavg()[0]}")

    def test_brief_runs_keep_the_gil(self) -> None:
        """Threads don't take the GIL from one another for runs of microseconds; for long runs they do."""
        brief, long = yuglemit.load(DOUBLE), yuglemit.load(SLOW.format(turns=1))
        self.assertLess(brief.bounds.usual_seconds(), 0.001)
        self.assertGreater(long.bounds.usual_seconds(), 0.001)
        with mock.patch("yuglemit._native.library", side_effect=BlockingIOError):
            self.assertEqual(brief.run(4).outputs, [8])
            with self.assertRaises(BlockingIOError):
                long.run()

    def test_ctrl_c_stops_a_run(self) -> None:
        """A run of many events ends within a tenth of a second after SIGINT, and its thread works no more. The best of five counts, since
        other work on the machine only makes it slower."""
        waits, busy = [], []
        for _ in range(5):
            done = subprocess.run([sys.executable, "-c", INTERRUPTED], input=ENDLESS, stdout=subprocess.PIPE, text=True, check=True)
            waited, worked = map(float, done.stdout.split())
            waits.append(waited)
            busy.append(worked)
            if waited < 0.1 and worked < 0.05:
                break
        self.assertLess(min(waits), 0.1)
        self.assertLess(min(busy), 0.05)

    def test_ctrl_c_ends_the_wait_for_a_long_event(self) -> None:
        program = yuglemit.load(ONE_EVENT)
        started = time.perf_counter()
        with self.assertRaises(KeyboardInterrupt):
            threading.Timer(0.3, _thread.interrupt_main).start()
            program.run()
        self.assertLess(time.perf_counter() - started, 3)

    def test_ctrl_c_of_a_program(self) -> None:
        """A process that is interrupted in a long event ends at once, though the event would take seconds."""
        code = f"import yuglemit\np = yuglemit.load({ONE_EVENT!r})\nprint('ready', flush=True)\ntry:\n    p.run()\nexcept KeyboardInterrupt:\n    print('interrupted', flush=True)\n"
        with subprocess.Popen([sys.executable, "-c", code], stdout=subprocess.PIPE, text=True) as child:
            assert child.stdout is not None
            self.assertEqual(child.stdout.readline(), "ready\n")
            time.sleep(0.2)
            child.send_signal(2)
            self.assertEqual(child.stdout.readline(), "interrupted\n")
            started = time.perf_counter()
            child.wait(60)
            self.assertLess(time.perf_counter() - started, 3)


class Stops(unittest.TestCase):
    def test_another_thread_stops_a_run(self) -> None:
        program, stop = yuglemit.load(ENDLESS), yuglemit.Stop()
        for seconds in (0.1, 1, 4):  # on a slow machine the run begins late
            stop.clear()
            threading.Timer(seconds, stop.set).start()
            report = program.run(limit=1_000_000, stop=stop)
            if report.events:
                break
        self.assertEqual((report.end, report.partial, report.error), ("stopped", [], None))
        self.assertTrue(0 < report.events < 1_000_000)
        again = program.run(limit=report.events)
        self.assertEqual((again.end, again.events, again.trace), ("limit", report.events, report.trace))
        self.assertGreaterEqual(report.instructions, again.instructions)  # that of the task that was cut off, too

    def test_a_task_that_is_cut_off_is_on_the_meter(self) -> None:
        """It counts what it executed, and stays below the bound."""
        if not has_lists():
            self.skipTest("an older library counts whole tasks alone")
        program = slower()
        report = program.run(timeout=0.3)
        assert program.bounds.instructions is not None
        self.assertEqual((report.end, report.tasks <= 2), ("stopped", True))
        self.assertTrue(61_438 < report.instructions < program.bounds.instructions, report.instructions)

    def test_a_signal_handler_stops_a_run(self) -> None:
        program, stop = yuglemit.load(ENDLESS), yuglemit.Stop()
        before = signal.signal(signal.SIGUSR1, lambda *_: stop.set())
        try:
            threading.Timer(0.1, lambda: os.kill(os.getpid(), signal.SIGUSR1)).start()
            report = program.run(limit=1_000_000, stop=stop)
        finally:
            signal.signal(signal.SIGUSR1, before)
        self.assertEqual(report.end, "stopped")

    def test_a_stop_that_is_set_stops_each_run_until_it_is_cleared(self) -> None:
        program, stop = yuglemit.load(DOUBLE), yuglemit.Stop()
        self.assertEqual(program.run(4, stop=stop).outputs, [8])
        stop.set()
        for _ in range(2):
            report = program.run(4, stop=stop)
            self.assertEqual((report.end, report.events, report.partial, report.unfinished), ("stopped", 0, [None], [0]))
        self.assertEqual((report.text, report.trace, report.line), ("out 0 unset\nrunning\n", "events\nend\n", None))
        with self.assertRaisesRegex(ValueError, "before its first event"):
            report.again()
        self.assertTrue(stop.is_set())
        stop.clear()
        self.assertEqual(program.run(4, stop=stop).outputs, [8])

    def test_a_timeout_stops_a_run(self) -> None:
        program = yuglemit.load(ENDLESS)
        begun = time.perf_counter()
        report = program.run(limit=1_000_000, timeout=0.3)
        self.assertGreaterEqual(time.perf_counter() - begun, 0.3)
        self.assertLess(time.perf_counter() - begun, 20)
        self.assertEqual((report.end, report.partial), ("stopped", []))
        self.assertEqual(program.run(limit=20, timeout=100).end, "limit")
        self.assertEqual(program.run(limit=1_000_000, timeout=0).end, "stopped")
        again = report.again(timeout=100)
        self.assertEqual((again.end, again.events), ("limit", report.events))
        stop = yuglemit.Stop()
        self.assertEqual(program.run(limit=1_000_000, timeout=0.1, stop=stop).end, "stopped")
        self.assertFalse(stop.is_set())
        for wrong, error in ((-1, ValueError), (float("nan"), ValueError), ("1", TypeError), (True, TypeError)):
            with self.assertRaisesRegex(error, "timeout: expected"):
                program.run(timeout=wrong)  # type: ignore[arg-type]
        for endless in (float("inf"), 10**400, 1e30, None):
            self.assertEqual(program.run(limit=20, timeout=endless).end, "limit")

    def test_brief_runs_begin_no_thread_for_a_timeout(self) -> None:
        with mock.patch("threading.Timer", side_effect=AssertionError):
            self.assertEqual(yuglemit.load(DOUBLE).run(4, timeout=1).outputs, [8])

    def test_runs_of_an_event_loop(self) -> None:
        program, double = yuglemit.load(ENDLESS), yuglemit.load(DOUBLE)

        async def several() -> List[Any]:
            runs = [double.run_async(number) for number in range(20)]
            return [it.outputs for it in await asyncio.gather(*runs)]

        async def late() -> float:
            begun = time.perf_counter()
            with self.assertRaises(asyncio.TimeoutError):
                await asyncio.wait_for(program.run_async(limit=1_000_000), 0.2)
            report = await program.run_async(limit=1_000_000, timeout=0.2)
            self.assertEqual(report.end, "stopped")
            return time.perf_counter() - begun

        self.assertEqual(asyncio.run(several()), [[2 * number] for number in range(20)])
        self.assertLess(asyncio.run(late()), 20)  # asyncio.run waits for the threads, so the cancelled run has ended
        with self.assertRaisesRegex(TypeError, "input 1"):
            asyncio.run(double.run_async("x"))

    def test_one_stop_for_runs_in_several_threads(self) -> None:
        program, stop = yuglemit.load(ENDLESS), yuglemit.Stop()
        with ThreadPoolExecutor(4) as pool:
            runs = [pool.submit(program.run, limit=1_000_000, stop=stop) for _ in range(4)]
            time.sleep(0.1)
            stop.set()
            self.assertEqual([run.result().end for run in runs], ["stopped"] * 4)

    def test_an_interrupt_leaves_the_stop_alone(self) -> None:
        program, stop = yuglemit.load(ENDLESS), yuglemit.Stop()
        with self.assertRaises(KeyboardInterrupt):
            threading.Timer(0.1, _thread.interrupt_main).start()
            program.run(limit=1_000_000, stop=stop)
        self.assertFalse(stop.is_set())
        self.assertEqual(program.run(limit=20, stop=stop).end, "limit")

    def test_a_map_that_nobody_reads_ends_its_runs(self) -> None:
        reports = yuglemit.map(yuglemit.load("proc control\nregs\nPUT 0 0 any\nRET\n"), [()] * 3, limit=100)
        self.assertEqual([it.end for it in reports], ["limit"] * 3)
        before = threading.active_count()
        reports = yuglemit.map(yuglemit.load(ENDLESS), [()] * 50, limit=1_000_000)
        with self.assertRaises(KeyboardInterrupt):  # sent to this thread, which waits: under valgrind another one may get what is sent to all
            threading.Timer(0.2, signal.pthread_kill, (threading.get_ident(), signal.SIGINT)).start()
            next(reports)
        del reports
        self.assertLessEqual(threads_left(before), before)
        self.assertTrue(yuglemit.map(yuglemit.load(ENDLESS), [()] * 50, limit=1_000_000))  # dropped before its first report
        self.assertLessEqual(threads_left(before), before)

    def test_a_stop_stays_in_its_process(self) -> None:
        with self.assertRaisesRegex(TypeError, "own process"):
            pickle.dumps(yuglemit.Stop())


class WrongCalls(unittest.TestCase):
    """Wrong arguments are a TypeError or a ValueError that names them."""

    def check(self, error: type[Exception], text: str, call: Any, *words: Any, **options: Any) -> None:
        with self.assertRaisesRegex(error, text):
            call(*words, **options)

    def test_classes(self) -> None:
        program = yuglemit.load(EXAMPLES / "pipeline.twn")
        report = program.run(39)
        self.check(TypeError, "stop: expected a yuglemit.Stop, got bool True", program.run, 39, stop=True)
        self.check(TypeError, "expected a program's text", yuglemit.assemble, 7)
        self.check(TypeError, "trace: expected a str, got bytes", program.replay, b"", 39)
        self.check(TypeError, "trace: expected a str, got bytes", program.picture, b"", 39)
        self.check(yuglemit.Refused, "H03", program.replay, "\ud800", 39)
        self.check(TypeError, "expected a str, got int 7", yuglemit.read_input, 7)
        self.check(TypeError, "data: expected bytes, got str", yuglemit.session, ["check"], "abc")
        self.check(TypeError, "words: expected a list of str", yuglemit.session, "check", b"")
        self.check(TypeError, "words: expected a list of str", yuglemit.session, [7], b"")
        self.check(ValueError, "first: expected 1 to 4294967295, got -1", report.timeline, first=-1)
        self.check(TypeError, "first: expected an int, got str 'x'", report.timeline, "x")
        self.check(ValueError, "last: expected", program.picture, report.trace, 39, last=0)
        self.check(ValueError, "no code V99", yuglemit.explain, "V99")
        self.check(ValueError, "expected a code", yuglemit.explain, 7)

    def test_huge_ints(self) -> None:
        program = yuglemit.load(DOUBLE)
        self.check(ValueError, "input 1: a number of 16610 bits doesn't fit in 64 bits", program.run, 10**5000)
        self.check(ValueError, "limit: expected 1 to 1000000, got a number of", program.run, 1, limit=10**5000)
        of_members = yuglemit.load(EXAMPLES / "mapreduce.twn")
        self.check(ValueError, "input 1 .numbers., member at 1: a number of 16610 bits", of_members.run, {1: 10**5000})
        self.check(ValueError, "input 1 .numbers., subscript a number of 16610 bits", of_members.run, {10**5000: 1})
        self.check(TypeError, "input 1: expected an int, got Odd .its repr raises", program.run, Odd())

    def test_numbers_of_other_kinds(self) -> None:
        self.assertEqual(yuglemit.load(DOUBLE).run(Index()).outputs, [14])


class Index:
    def __index__(self) -> int:
        return 7


class Odd:
    def __repr__(self) -> str:
        raise RuntimeError("no repr")


class Handles(unittest.TestCase):
    def test_a_program_is_verified_once(self) -> None:
        """After the first run, runs only run: no session is asked for."""
        program = yuglemit.load(EXAMPLES / "two_inputs.twn")
        program.run({1: 7}, 1)
        with mock.patch("yuglemit._native.session", side_effect=AssertionError), mock.patch("yuglemit._native.load", side_effect=AssertionError):
            report = program.run({1: 7, 5: -3}, -4)
            self.assertEqual((report.outputs, report.events > 0), ([{-4: 2, 2: -4}], True))

    def test_threads_share_a_program(self) -> None:
        """Sixteen threads run one program at once, and each gets its own answer."""
        program = yuglemit.load(EXAMPLES / "two_inputs.twn")
        with ThreadPoolExecutor(16) as pool:
            found = list(pool.map(lambda number: program.run({1: 7, 5: -3}, number).outputs, range(400)))
        self.assertEqual(found, [program.run({1: 7, 5: -3}, number).outputs for number in range(400)])

    def test_memory_is_freed(self) -> None:
        """A thousand programs, runs and stops leave no memory."""
        def work(times: int) -> int:
            for number in range(times):
                yuglemit.load(DOUBLE).run(number, stop=yuglemit.Stop())
                yuglemit.load(EXAMPLES / "words.twn").run({1: "the" * 100})
            return resource.getrusage(resource.RUSAGE_SELF).ru_maxrss
        before = work(300)
        self.assertLess(work(1000) - before, 2000)


if __name__ == "__main__":
    unittest.main()
