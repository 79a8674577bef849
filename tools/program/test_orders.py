"""Tests of ./dev orders."""

import subprocess
import unittest
from pathlib import Path
from unittest import mock

from tools import ROOT
from tools.common.testing import folder_of, said
from tools.common import sessions
from tools.common.program import program
from tools.program import orders

# Two tasks insert 1 and 2 at one subscript, each by its copy; the first one takes longer, so with two workers the second one is first.
MAIN = """names
proc control main(out: write cont int)
regs a: int, b: int
INT a 1
INT b 2
DUPW first out
DUPW second out
PUT slow 0 any first a
PUT fast 0 any second b
DROPW out
RET
"""
LEAF = """proc leaf {}(into: write cont int, x: val int)
regs zero: int
NEW mo m int
STORE mo x
{}INS into zero m taken
JMP done
taken:
DROPR m
done:
DROPW into
RET
"""
RACE = MAIN + LEAF.format("slow", "".join(f"DUPR k{number} m\nDROPR k{number}\n" for number in range(3))) + LEAF.format("fast", "")

# Runs each layout once, in turn.
ONCE = ("--runs", "0", "--seeds", "0")


class OrdersTest(unittest.TestCase):
    def setUp(self) -> None:
        self.path = folder_of(self) / "race.twn"
        self.path.write_text(RACE, encoding="utf-8")
        self.orders = orders.Orders(Path(program()), 0, 0, 1000)

    def call(self, *words: str) -> tuple[int, str]:
        return said(orders.main, list(words))

    def test_options(self) -> None:
        actors = ["--engines=1", "--servers=1", "--workers=1"]
        found = list(orders.Orders(self.path, 5, 2, 1000).options())
        self.assertEqual(found[:3], [["--in-turn", *actors], ["--in-turn", "--seed=1", *actors], ["--in-turn", "--seed=2", *actors]])
        self.assertEqual((found[-5], found[-1]), (actors, ["--engines=1", "--servers=2", "--workers=5"]))
        self.assertEqual(len(found), 3 * len(orders.LAYOUTS) + 5)

    def test_layouts_that_differ(self) -> None:
        found = self.orders.compare(str(self.path), [])
        self.assertEqual(set(found.reports), {f"out 0 cont int closed 1\n  at 0 int {number}\nquiet" for number in (1, 2)})
        self.assertEqual((found.status, sum(found.reports.values()), found.limited), (orders.DIFFERENT, 7, 0))
        self.assertEqual(self.orders.rule(str(self.path)), "order may show in procedure 1 at place 8")
        self.assertEqual(self.call(*ONCE, str(self.path))[0], 1)

    def test_other_ends(self) -> None:
        self.assertEqual(self.call(*ONCE, "--limit", "3", str(self.path)), (4, "7 runs reached the limit\nno run ended by itself\n"))
        status, text = self.call(*ONCE, "examples/pipeline.twn")
        self.assertEqual((status, text.splitlines()[0]), (2, "status 1: refused O01"))
        self.assertEqual(self.call(*ONCE, "examples/stuck_on_itself.twn")[1].splitlines()[1:], ["    stuck 1", "the same in all orders"])

    def test_a_run_whose_replay_differs_fails(self) -> None:
        fake = self.path.with_name("tw")
        fake.write_text('#!/bin/sh\n[ "$1" = run ] && { echo events; echo end; }; echo $1; echo quiet\n', encoding="utf-8")
        fake.chmod(0o755)
        with self.assertRaisesRegex(orders.Rejected, "run 0, replay 0; run"):
            orders.Orders(fake, 1, 0, 1000).compare("one.tw", [])

    def test_load(self) -> None:
        for answer, status in (("out 0 int 7; quiet", 0), ("quiet", 1), ("out 0 int $$; quiet", 1)):
            with mock.patch.object(orders.Orders, "call", lambda *_, answer=answer: subprocess.run(["sh", "-c", f"echo {answer.replace('; ', '; echo ')}"], capture_output=True, text=True)):
                self.assertEqual(self.call("--load", "2")[0], status)

    def test_a_circle_does_not_count(self) -> None:
        self.assertEqual(orders.without_circle("out 0 unset\nstuck 2\nwaits 1 1 2\nwaits 2 2 1\nrule 1 runs procedure 1\n"), "out 0 unset\nstuck 2")

    def test_examples(self) -> None:
        rows = [(ROOT / "examples/store_seven.tw", (), False), (ROOT / "examples/cut.hex", (), True)]
        with mock.patch.object(sessions, "runs", return_value=rows):
            self.assertEqual(self.call(*ONCE, "--examples"), (0, "examples/store_seven.tw : order same; the same in all orders\n2 passed, 0 failed\n"))

    def test_examples_that_are_rejected_or_not_as_shown_fail(self) -> None:
        for path, is_refused in ((ROOT / "examples/store_seven.tw", True), (ROOT / "examples/cut.hex", False)):
            with mock.patch.object(sessions, "runs", return_value=[(path, (), is_refused)]):
                status, text = self.call(*ONCE, "--examples")
            self.assertEqual((status, text.splitlines()[-1]), (1, "0 passed, 1 failed"))

    def test_examples_that_differ_against_their_rule_fail(self) -> None:
        with mock.patch.object(sessions, "runs", return_value=[(ROOT / "examples/store_seven.tw", (), False)]):
            with mock.patch.object(orders.Found, "status", orders.DIFFERENT):
                self.assertEqual(self.call(*ONCE, "--examples")[0], 1)

    def test_inputs_are_those_that_are_shown(self) -> None:
        shown = {path.name: (inputs, is_refused) for path, inputs, is_refused in sessions.runs()}
        self.assertEqual(shown["two_inputs.tw"], (("ints:1=7,5=-3", "int:-4"), False))
        self.assertEqual(shown["cut.hex"], ((), True))
