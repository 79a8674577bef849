"""Tests of ./dev fuzz and its modules."""

import contextlib
import io
import os
import random
import re
import signal
import tempfile
import unittest
from dataclasses import dataclass, replace
from pathlib import Path
from typing import Any, Iterator
from unittest import mock

from tools import ROOT
from tools.cases import files
from tools.fuzz import main as fuzz, make, positions
from tools.fuzz.kinds import calls, inputs, orders, runs
from tools.fuzz.kinds.handles import NEWEST, REJECTED, Calls
from tools.fuzz.oracle.assembler import Error, assembled
from tools.fuzz.oracle.bounds import COUNTED, bound, bound_lines, budgets, check_lines, has_circle, is_circle
from tools.fuzz.oracle.code import Fault, Instr, Param, Procedure, Program, decode, disassembled, encode, program_text, quoted, smaller, without
from tools.fuzz.library import Answer, Library, Verdict
from tools.fuzz.oracle.literals import literal_count, with_literals
from tools.fuzz.oracle.machine import Machine, NotEnabled, Scalar, Trap, Value, computed, read_int, run_in_turn, scaled, wrapped
from tools.fuzz.oracle.names import is_name, symbolic
from tools.fuzz.oracle.report import circle_fault, event_of, event_text, report_lines, split_circle, stats_lines, trace_text
from tools.fuzz.kinds.texts import BytesTest, renamed, styled
from tools.fuzz.common import Corpus, Failure, Kind, RunTest, FuzzTest, case_word, difference
from tools.fuzz.kinds.verify import refusal

STORE_SEVEN = bytes.fromhex("54574201010001040101010003010000000000000000073100 0042".replace(" ", ""))
PIPELINE = Program((
    Procedure(0, (Param(2, (1,)), Param(4, (1,))), (), (
        Instr("NEW", (2, 3, (1,))), Instr("NEW", (4, 5, (1,))), Instr("RULE", (1, 0, 0, (3, 4))), Instr("RULE", (1, 0, 0, (5, 1))),
        Instr("RULE", (1, 0, 0, (0, 2))), Instr("RET"),
    )),
    Procedure(1, (Param(2, (1,)), Param(4, (1,))), (1, 1), (
        Instr("GET", (0, 0)), Instr("INT", (1, 1)), Instr("ADD", (0, 0, 1, 0)), Instr("DROPR", (0,)), Instr("STORE", (1, 0)), Instr("RET"),
    )),
))

# Two tasks insert 1 and 2 at one subscript, each by its copy of a write right.
RACE = Program((
    Procedure(0, (Param(4, (3, 1)),), (1, 1), (
        Instr("INT", (0, 1)), Instr("INT", (1, 2)), Instr("DUPW", (1, 0)), Instr("DUPW", (2, 0)), Instr("PUT", (1, 0, 0, (1, 0))),
        Instr("PUT", (1, 0, 0, (2, 1))), Instr("DROPW", (0,)), Instr("RET"),
    )),
    Procedure(1, (Param(4, (3, 1)), Param(1, (1,))), (1, 1), (
        Instr("NEW", (1, 2, (1,))), Instr("STORE", (1, 0)), Instr("INS", (0, 1, 2, 1)), Instr("JMP", (1,)), Instr("DROPR", (2,)), Instr("DROPW", (0,)),
        Instr("RET"),
    )),
))


def main_of(*code: Instr, registers: tuple[int, ...] = (1,), params: tuple[Param, ...] = ()) -> Program:
    return Program((Procedure(0, params, registers, (*code, Instr("RET"))),))


class Lying(Library):
    def session(self, words: list[str], data: str | bytes = b"") -> Answer:
        status, text = super().session(words, data)
        at = max(text.rfind(digit) for digit in "0123456789")
        return status, text[:at] + str((int(text[at]) + 1) % 10) + text[at + 1:] if at >= 0 else text

    def verify(self, data: bytes) -> Verdict:
        found = super().verify(data)
        return replace(found, place=found.place + 1)

    def into_room(self, line: bytes, data: bytes, size: int) -> tuple[int, int, bytes]:
        status, length, room = super().into_room(line, data, size)
        return status, length, room[:-1] + b"x" if length == size else room


class CodeTest(unittest.TestCase):
    def test_example_of_the_manual(self) -> None:
        program = main_of(Instr("INT", (0, 7)), Instr("STORE", (0, 0)), params=(Param(4, (1,)),))
        self.assertEqual(encode(program), STORE_SEVEN)
        self.assertEqual(decode(STORE_SEVEN), program)

    def test_faults_of_the_manual(self) -> None:
        changed = STORE_SEVEN[:10] + b"\x03" + STORE_SEVEN[11:]
        head = "545742 02 01 00 00 0101 0001"
        rows = [
            ("", 3, 0), (STORE_SEVEN[:26].hex(), 3, 26), (STORE_SEVEN.hex() + "00", 8, 27), (changed.hex(), 5, 10), ("54574201010001040303 0303", 6, 11),
            (head + "230000", 4, 12), (head + "2303e9", 4, 12), (head + "02001001", 4, 13), (head + "0200000261c3", 7, 15), ("545743", 1, 2), ("54574203", 2, 3),
            ("545742 01 01 00 00 00 0001 30 00 01 04", 5, 13), ("545742 01 01 00 00 00 0001 50", 5, 10),
        ]
        for digits, number, offset in rows:
            with self.assertRaises(Fault) as caught:
                decode(bytes.fromhex(digits.replace(" ", "")))
            self.assertEqual((caught.exception.number, caught.exception.offset), (number, offset), digits)

    def test_bytes_of_each_instruction(self) -> None:
        manual = (ROOT / "docs" / "BYTES.md").read_text(encoding="utf-8")
        digits = manual.split("$ ./tw asm every.tw\n")[1].split("\n")[0]
        program = decode(bytes.fromhex(digits))
        self.assertEqual(encode(program).hex(), digits)
        self.assertEqual(len({instr.name for instr in program.main.code}), 54)

    def test_texts(self) -> None:
        self.assertEqual(quoted('a"\\\n\x01é'), '"a\\"\\\\\\n\\x01é"')
        self.assertEqual(disassembled(main_of(Instr("JMP", (0,)), Instr("JMP", (9,)))), "proc control\nregs int\nJMP L0\nL0:\nJMP +9\nRET\n")

    def test_shorter_code_keeps_targets(self) -> None:
        procedure = main_of(Instr("JMP", (2,)), Instr("INT", (0, 1)), Instr("INT", (0, 2)), Instr("INT", (0, 3))).main
        self.assertEqual(without(procedure, 1, 1).code[0], Instr("JMP", (1,)))
        self.assertEqual(without(procedure, 2, 2).code[0], Instr("JMP", (1,)))
        self.assertEqual(without(procedure, 4, 1).code[0], Instr("JMP", (2,)))

    def test_smaller_programs_have_less(self) -> None:
        sizes = [len(encode(program)) for program in smaller(PIPELINE)]
        self.assertTrue(sizes and max(sizes) <= len(encode(PIPELINE)))


class MachineTest(unittest.TestCase):
    def test_run_of_the_manual(self) -> None:
        machine = run_in_turn(PIPELINE, [39], (2, 2, 2), 10000)
        self.assertEqual(report_lines(machine, True), ["out 0 int 42", "quiet"])
        self.assertEqual(machine.events, 33)

    def test_statistics_of_the_manual(self) -> None:
        manual = (ROOT / "docs" / "FORMAT.md").read_text(encoding="utf-8")
        shown = manual.split("--engines 2 --workers 2 --stats\n")[1].split("\n```")[0].split("\n")
        events = (ROOT / "examples" / "pipeline.history").read_text(encoding="utf-8").split("\nevents\n")[1].split("\n")
        machine = Machine(PIPELINE, (2, 1, 2), [39])
        for line in events:
            if line and line != "end":
                machine.make(event_of(line))
        self.assertEqual(report_lines(machine, False) + stats_lines(machine, budgets(PIPELINE), ["e0", "e1", "s0", "w0", "w1"]), shown)

    def test_arithmetic(self) -> None:
        self.assertEqual([computed("DIV", -7, 2), computed("REM", -7, 2), computed("DIV", 7, -2), computed("REM", 7, -2)], [-3, -1, -3, 1])
        self.assertIsNone(computed("DIV", -(2**63), -1))
        self.assertIsNone(computed("ADD", 2**63 - 1, 1))
        self.assertEqual([computed("SHR", -1, 63), computed("SHL", 3, 63), computed("WMUL", 2**62, 2), computed("XOR", -1, 5)], [1, -(2**63), -(2**63), -6])
        self.assertEqual([computed("SHL", 1, 64), computed("SHR", 1, -1)], [None, None])
        self.assertEqual([scaled(-7, 3, 2), scaled(2**62, 4, 4), scaled(2**62, 4, 1), scaled(1, 1, 0)], [-10, 2**62, None, None])
        self.assertEqual([read_int(text) for text in ("0", "-5", "-0", "007", "+1", "", str(2**63))], [0, -5, None, None, None, None, None])

    def causes(self, program: Program, *events: tuple[str | int, ...]) -> str:
        machine = Machine(program, (1, 1, 1), [])
        try:
            for event in events:
                machine.make(event)
        except Trap as trap:
            return str(trap)
        except NotEnabled:
            return "not enabled"
        return "made"

    def test_traps(self) -> None:
        take, call, local = ("take", "e0"), ("call", "e0"), ("local", "e0", 1)
        new = Instr("NEW", (0, 1, (1,)))
        rows: list[tuple[Any, ...]] = [
            ("C14", main_of(new), take, call, ("end", "e0")), ("C12", main_of(Instr("END")), take, local), ("C1", main_of(Instr("DROPR", (0,))), take, call),
            ("C13", main_of(new, new), take, call, call), ("C3", main_of(new, Instr("GET", (0, 1))), take, call, call),
            ("C6", main_of(new, Instr("DROPW", (0,))), take, call, call), ("C11", main_of(Instr("JMP", (9,))), take, local, ("end", "e0")),
            ("C15", main_of(Instr("PUT", (7, 0, 0, ()))), take, call), ("not enabled", main_of(), take, local), ("not enabled", main_of(), ("take", "w0")),
            ("made", main_of(new, Instr("STORE", (0, 0)), Instr("DROPR", (1,))), take, call, call, call, ("end", "e0")),
        ]
        for cause, program, *events in rows:
            self.assertEqual(self.causes(program, *events), cause, program)

    def test_circles(self) -> None:
        waits = (Param(2, (1,)), Param(4, (1,)))
        stuck = Program((main_of(Instr("NEW", (0, 1, (1,))), Instr("RULE", (1, 0, 0, (1, 0)))).main, Procedure(1, waits, (1,), (Instr("RET"),))))
        machine = run_in_turn(stuck, [], (1, 1, 1), 100)
        self.assertEqual(report_lines(machine, True), ["stuck 1"])
        self.assertIsNone(circle_fault(machine, split_circle("stuck 1\nwaits 1 1 1\n")[1]))
        self.assertIsNotNone(circle_fault(machine, [(1, 2, 1)]))
        self.assertIsNotNone(circle_fault(machine, [(1, 1, 2)]))


class RulesTest(unittest.TestCase):
    def test_bounds_of_the_manual(self) -> None:
        self.assertEqual(bound_lines(PIPELINE), ["bound tasks 4", "bound instructions 24", "bound data 2", "bound members 0", "bound rules 3", "bound bytes 0", "bound events 37"])
        self.assertEqual(check_lines(PIPELINE)[-1], "needs engines 0 workers 0")
        self.assertEqual(check_lines(main_of(Instr("SPAN", (0, 1, 1, 0, 0))))[-1], "searches 1")

    def test_loops_count_as_their_iterations(self) -> None:
        self.assertEqual(budgets(main_of(Instr("REPEAT", (10,)), Instr("ADD", (0, 0, 0, 0)), Instr("END"))), [22])
        self.assertEqual(budgets(main_of(Instr("REPEAT", (10,)), Instr("LAST"), Instr("END"))), [22])

    def test_bounds_are_reached_and_not_passed(self) -> None:
        test = runs.CheckTest(PIPELINE, (39,), (2, 2, 2), 1000)
        machine = run_in_turn(PIPELINE, [39], (2, 2, 2), 1000)
        held = {"members": 0, "bytes": 0}
        self.assertIsNone(test.over(machine, held))
        for name in ("tasks", "instructions", "data", "rules"):
            bounds = dict(zip(COUNTED, [4, 24, 2, 0, 3, 0, 37]))
            bounds[name] -= 1
            table = {weights: bounds[kind] for kind, weights in COUNTED.items()}
            with mock.patch.object(runs, "bound", side_effect=lambda program, weights: table[weights]):
                self.assertIn(f" {name}, more than the bound", str(test.over(machine, held)))
        for name in held:
            self.assertIn(f" {name}, more than the bound", str(test.over(machine, {**held, name: 1})))

    def test_bounds_of_members_and_bytes(self) -> None:
        """Three scalars of texts and a subscript are four texts; a register of texts is a fifth."""
        code = (Instr("REPEAT", (3,)), Instr("NEW", (0, 1, (2,))), Instr("END"), Instr("TINS", (2, 0, 1, 0)), Instr("INS", (2, 0, 1, 0)))
        for registers, texts in (((1,), 4), ((2,), 5)):
            program = main_of(*code, registers=registers)
            self.assertEqual([bound(program, COUNTED[name]) for name in ("members", "bytes")], [2, texts * 4096])
        by_text: dict[str, Scalar] = {"a": "b", "c": "d"}
        by_int: dict[int, Scalar] = {1: 7}
        machine = Machine(main_of(params=(Param(2, (4, 2)), Param(4, (2,)), Param(2, (3, 1)))), (1, 1, 1), [by_text, by_int])
        self.assertEqual(machine.held(), {"members": 3, "bytes": 5 * 4096})

    def test_bounds_of_maps(self) -> None:
        """A value is a member; a MINS of one text at another has two texts, a MADD at an int none, a register of texts one."""
        both = replace(main_of(Instr("MINS", (0, 1, 1, 0)), Instr("MADD", (1, 0, 0))).main, registers=(1, 2))
        self.assertEqual([bound(Program((both,)), COUNTED[name]) for name in ("members", "bytes")], [2, 3 * 4096])
        texts: dict[str, Scalar] = {"a": "b", "c": "d"}
        machine = Machine(main_of(params=(Param(2, (6, 2)), Param(4, (5, 3)))), (1, 1, 1), [texts])
        self.assertEqual(machine.held(), {"members": 2, "bytes": 4 * 4096})

    def test_sums_wrap(self) -> None:
        self.assertEqual([wrapped(number) for number in (2**63 - 1, 2**63, -(2**63) - 1, 2**64)], [2**63 - 1, -(2**63), 2**63 - 1, 0])

    def test_bounds_of_texts_in_tasks(self) -> None:
        """Main has one text, which it gives to a rule and to a task of three registers of texts each."""
        callee = Procedure(0, (Param(1, (2,)),), (2, 2, 2), (Instr("RET"),))
        main = main_of(Instr("RULE", (1, 0, 0, (0,))), Instr("PUT", (1, 0, 0, (0,))), registers=(2,)).main
        program = Program((main, callee))
        self.assertEqual(bound(program, COUNTED["bytes"]), 7 * 4096)
        machine = Machine(program, (1, 1, 1), [])
        texts = [machine.held()["bytes"] // 4096]
        for event in ("take e0", "call e0", "call e0", "end e0", "take e0", "end e0", "release e0 1", "take e0"):
            machine.make(event_of(event))
            texts.append(machine.held()["bytes"] // 4096)
        self.assertEqual(texts, [0, 1, 2, 3, 2, 4, 1, 1, 3])

    def test_circles_of_calls(self) -> None:
        program = Program((main_of(Instr("PUT", (1, 0, 0, ()))).main, main_of(Instr("PUT", (1, 0, 0, ()))).main))
        self.assertTrue(has_circle(program) and is_circle(program, 1, 0))
        self.assertFalse(is_circle(program, 0, 0))

    def test_copies_go_along_calls(self) -> None:
        self.assertEqual(orders.first_copy_insertion(RACE), (1, 2))
        self.assertEqual(orders.copies(RACE), {(0, 0), (0, 1), (0, 2), (1, 0)})
        main = RACE.main
        without = tuple(instr for instr in main.code if instr.name not in ("DUPW", "PUT"))
        self.assertIsNone(orders.first_copy_insertion(replace(RACE, procedures=(replace(main, code=without), *RACE.procedures[1:]))))

    def test_random_orders(self) -> None:
        ends = set()
        for seed in range(40):
            machine = orders.run_at_random(random.Random(seed), RunTest(RACE, (), (1, 1, 2)), (1, 1, 2))
            self.assertTrue(machine.is_over and machine.contested)
            ends.add(report_lines(machine, True)[1])
        self.assertEqual(ends, {"  at 0 int 1", "  at 0 int 2"})
        test = orders.OrdersTest(RACE, (), (1, 1, 2))
        self.assertIsNone(test.fault(Library()))
        with mock.patch.object(orders, "copies", return_value=set()):
            self.assertIn("expected 'order same'", str(test.fault(Library())))
            self.assertEqual(test.orders_fault(Library()), "an insertion is contested, though none is by a copy")
        with mock.patch.object(orders.OrdersTest, "runs", return_value=[run_in_turn(PIPELINE, [number], (1, 1, 1), 100) for number in (1, 2)]):
            self.assertIn("in another order", str(test.fault(Library())))

    def test_errors_of_the_manual(self) -> None:
        write = (Param(4, (1,)),)
        store, jump = Instr("STORE", (0, 0)), Instr("JEQ", (0, 0, 1))
        rows = [
            ("V04", 2, main_of(Instr("INT", (0, 7)), store, store, params=write)), ("V07", 2, main_of(jump, store, params=write)),
            ("V10", 0, main_of(params=write)), ("V09", 1, main_of(Instr("JMP", (1,)), Instr("INT", (0, 1)))), ("V05", 0, main_of(Instr("JMP", (7,)))),
            ("V06", 0, main_of(Instr("REPEAT", (2,)))), ("V06", 0, main_of(Instr("END"))), ("V11", 1, main_of(Instr("REPEAT", (2,)), Instr("RET"), Instr("END"))),
            ("V08", 2, main_of(Instr("REPEAT", (2,)), store, Instr("END"), params=write)), ("V01", 0, main_of(Instr("INT", (1, 1)))),
            ("V02", 0, main_of(Instr("LEN", (0, 0)))), ("V12", 0, main_of(Instr("PUT", (7, 0, 0, ())))), ("V13", 0, main_of(Instr("PUT", (0, 0, 0, (1,))))),
            ("V15", 0, main_of(Instr("DROPW", (0,)), params=write)), ("V16", 0, main_of(params=(Param(1, (1,)),))), ("V03", 0, main_of(Instr("NEW", (1, 1, (1,))))),
            ("V17", 0, main_of(*[Instr("REPEAT", (1000,))] * 3, Instr("INT", (0, 1)), *[Instr("END")] * 3)),
        ]
        for code, place, program in rows:
            self.assertEqual(str(refusal(program)), f"refused {code} in procedure 0 at place {place}")
        self.assertIsNone(refusal(PIPELINE))


class TextsTest(unittest.TestCase):
    def test_a_no_break_space_is_part_of_a_word(self) -> None:
        self.assertEqual(positions.of_error(["refused N02 at line 2", "let \xa0", "\xa0: this can't be a name"], "let \xa0"), (2, 5))
        self.assertEqual(positions.of_error(["refused N04 at line 2", 'INS " " E', "E: the name means nothing here"], 'INS " " E'), (3, 9))

    def test_other_names_are_others(self) -> None:
        text = "names\nproc control main(out: write int)\nregs total: int\nINT total 7 ; total\nSTORE out total\nRET\n"
        other = renamed(random.Random(1), text)
        self.assertNotIn("total ", other.replace("; total", ""))
        self.assertEqual([line.split(" ")[0] for line in other.split("\n")], [line.split(" ")[0] for line in text.split("\n")])

    def test_literals(self) -> None:
        old = PIPELINE.procedures[1]
        new = replace(old, registers=(1, 1, 1), code=(Instr("INT", (2, 7)), *old.code[:2], Instr("ADD", (0, 0, 2, 0)), *old.code[3:]))
        self.assertEqual(literal_count(PIPELINE, new), 1)
        self.assertEqual(literal_count(PIPELINE, replace(new, code=(*new.code, Instr("INT", (2, 8))))), 0)
        for seed in range(20):
            made = with_literals(random.Random(seed), PIPELINE)
            added = [len(it.registers) - len(was.registers) for was, it in zip(PIPELINE.procedures, made.procedures)]
            self.assertEqual([literal_count(made, procedure) for procedure in made.procedures], added)

    def test_no_names(self) -> None:
        self.assertEqual([is_name(word) for word in ("any", "v0", "d15", "int", "RET", "v", "vx", "total")], [False] * 5 + [True] * 3)

    def test_styles_are_other_texts(self) -> None:
        self.assertEqual(len({styled(PIPELINE, style) for style in range(20)}), 20)
        self.assertEqual(len({symbolic(PIPELINE, style) for style in range(20)}), 20)

    def test_arguments_of_cases(self) -> None:
        self.assertEqual([case_word(word) for word in ("", "int:7", "text:a b", "a|b\\")], ['""', "int:7", "text:a\\x20b", "a\\x7cb\\x5c"])

    def test_first_difference(self) -> None:
        self.assertIsNone(difference("it", "a\n", "a\n"))
        self.assertEqual(difference("it", "a\nb", "a\nc"), "it: line 2: expected 'b', got 'c'")
        self.assertIn("1 lines, got 2", str(difference("it", "a", "a\nb")))

    def test_inputs(self) -> None:
        rows: list[tuple[str, Any]] = [
            ("int:007", ((1,), 7)), ("int:-0", ((1,), 0)), ("int:", None), ("int:+7", None), (f"int:{2**63}", None), ("Int:7", None), ("7", None),
            ("text:a b ", ((2,), "a b ")), ("ints:", ((3, 1), [])), ("ints:1=2,5=-3", ((3, 1), [(1, 2), (5, -3)])), ("ints:1=2,", None), ("ints:,", None),
            ('texts:1="a,b",2="\\x41"', ((3, 2), [(1, "a,b"), (2, "A")])), ('texts:1="\\x80"', None), ("tints:a=1", None), ('ttexts:"\\\\"="\\n"', ((4, 2), [("\\", "\n")])),
        ]
        for word, expected in rows:
            self.assertEqual(inputs.read_input(word), expected, word)
        self.assertFalse(inputs.fits(((3, 1), [(2, 1), (1, 1)]), (3, 1)))
        self.assertFalse(inputs.fits(((2,), "é" * 2049), (2,)))
        self.assertTrue(inputs.fits(((2,), "é" * 2048), (2,)))

    def test_lines_of_traces(self) -> None:
        self.assertEqual(inputs.read_event("\task e01  7 256\r"), ("ask", "e1", 7, 255))
        wrong = ["take", "take e256", "local e0 0", "local e0 1000000001", "ask w0 1 1", f"release e0 {2**64}", "release e0 -1", "call e0 1", "TAKE e0", "take x0"]
        self.assertEqual([inputs.read_event(line) for line in wrong], [None] * len(wrong))

    def test_errors_of_texts(self) -> None:
        head = "proc control\nregs int\n"
        rows = [
            ("", 6, 1), ("version 3\n", 6, 1), ("RET\n", 1, 1), ("proc control\nRET\n", 1, 2), (head + "regs\n", 1, 3), (head + "INT v16 1\n", 6, 3),
            (head + "INT d0 1\n", 2, 3), (head + "INT v0 +1\n", 2, 3), (head + "JMP a\n", 3, 3), (head + "a:\nJMP a\n", 5, 4), (head + "a:\na:\n", 4, 4),
            (head + 'TEXT v0 "\\q"\n', 2, 3), (head + 'TEXT v0 "a"b\n', 2, 3), (head + "PUTV 0 v0 any\n", 1, 3), (head, 6, 1), (head + head, 6, 1),
            (head + "proc leaf tcont int\n", 2, 3), (head + "REPEAT 0\n", 6, 3), (head + "a: RET\n", 2, 3), (head + "NEW d0 d1 cont cont cont cont int\n", 6, 3),
        ]
        for text, code, line in rows:
            with self.assertRaises(Error) as caught:
                assembled(text)
            self.assertEqual((caught.exception.code, caught.exception.line), (code, line), text)

    def test_texts_are_read(self) -> None:
        for style in range(30):
            self.assertEqual(assembled(styled(PIPELINE, style)), PIPELINE)

    def test_statuses(self) -> None:
        self.assertIsNone(calls.answer_fault((2, "command line refused\n")))
        self.assertIsNone(calls.answer_fault((2, '{"error":{"lines":["inputs refused","line 1, column 1: this is no JSON"]},"status":"refused"}\n')))
        self.assertIsNotNone(calls.answer_fault((2, '{"error":{"code":"F01","lines":["refused F01"]},"status":"refused"}\n')))
        self.assertIsNotNone(calls.answer_fault((9, "")))
        self.assertIsNotNone(calls.answer_fault((1, "quiet\n")))


class CallsTest(unittest.TestCase):
    def test_calls_are_exported(self) -> None:
        """Python calls only what the library exports, not the functions that yuglemit.h has beside that."""
        exported = set(re.findall(r"(?m)^\w+ (yuglemit_\w+)\(", (ROOT / "embed" / "yuglemit.h").read_text(encoding="utf-8")))
        for path in (*ROOT.glob("tools/fuzz/**/*.py"), *ROOT.glob("embed/python/yuglemit/*.py")):
            called = set(re.findall(r"\.(yuglemit_\w+)\(", path.read_text(encoding="utf-8")))
            self.assertEqual(called - exported, set(), path.name)

    def test_where_errors_are(self) -> None:
        """A name that a line has twice has no word, since it isn't known which one is wrong. Columns are characters."""
        native, main = Calls(Library()), "names\nproc control main()\nregs"
        rows: list[tuple[Any, ...]] = [
            ("zz", "h", "H01", 0, 0, 0), ("\udcff", "t", "H03", 0, 0, 0), ("\udcff", "\0", "H03", 0, 0, 0), ("54 57 42", "\0", "F03", 0, 0, 0), ("TWB", "\0", "F03", 0, 0, 0),
            ("", "\0", "F03", 0, 0, 0), ("", "t", "A06", 1, 0, 0), ("proc leaf write int\n  regs\n  ENDS d0\n", "\0", "A01", 3, 1, 3), ("names\nconst n 7\n", "t", "N01", 2, 3, 9),
            ("names\n const n\n", "t", "N01", 2, 1, 2), ("names\nproc control main(out:write int)\n", "t", "N01", 2, 3, 19), ("names\nconst n = n*2 ; n\n", "t", "N01", 2, 4, 11),
            ("names\nconst n = n\n", "t", "N01", 2, 0, 0), ("names\n\tconst 7up = 8\n", "t", "N02", 2, 2, 8), ("names\nconst ten = 10\nconst ten = 11\n", "t", "N03", 3, 2, 7),
            ("names\nconst a = 1\nproc control main(aa: val int, a: val int)\n", "t", "N03", 3, 6, 32), (f"{main} a: int, a: int\n", "t", "N03", 3, 0, 0),
            (f"{main}\nINT totl 7\n", "t", "N04", 4, 2, 5), (f"{main}\nADD é v0 totl next\n", "t", "N04", 4, 4, 10),
            ("names\nproc control main(x: ref int, y: ref int)\nregs\nPUT main 0 any(x,totl)\n", "t", "N04", 4, 4, 18),
            ("names\nconst turns = 8\nproc control main()\nregs\nINT turns 7 ; too many turns\n", "t", "N05", 5, 2, 5),
            (f"{main} {', '.join(f'{name}: int' for name in 'abcdefghijklmnopq')}\n", "t", "N06", 3, 34, 134),
        ]
        for source, form, *expected in rows:
            program, verdict = native.handle(), native.numbers(*[0] * 9)
            answered = native.raw_load_source(source.encode("utf-8", "surrogateescape"), ord(form), native.numbers(*NEWEST), program, verdict)
            self.assertEqual([answered, program.at, f"{verdict[0]:c}{verdict[1]:02}", *verdict[6:]], [REJECTED, None, *expected], source)

    def test_arguments_that_end_with_nuls(self) -> None:
        source = b"proc control closed text write text\nregs text\nGET v0 d0\nDROPR d0\nSTORE d1 v0\nRET\n"
        none = b'input word 1 refused\ninput 1: "": expected int:, ints:, text:, texts:, tints: or ttexts: before it\n'
        rows = {b"run\0--text\0text:a\nb\0": (0, b'out 0 text "a\\nb"\nquiet\n'), b"run\0--text\0text:a\n": (0, b'out 0 text "a\\n"\nquiet\n'), b"run\0--text\0\0text:a\0": (2, none)}
        rows |= dict.fromkeys((b"run\n--text\ntext:a\n", b"run\0--text\0text:\xff\0", b"\0"), (2, b"command line refused\n"))
        for words, expected in rows.items():
            self.assertEqual(Library().into_text(words, source), expected, words)

    def test_a_help_reads_no_file(self) -> None:
        """The program takes a word for a file where the library, which has none, rejects it."""
        library = Library()
        for words in (("check", "\t", "-h"), ("run", "--help", "no.tw"), ("asm", "no.tw", "--names", "-h")):
            test = calls.ArgsTest(words, "", True)
            self.assertIsNone(test.fault(library))
            with mock.patch.object(library, "command", return_value=(0, "Rejects\n\nUsage: tw other\n")):
                self.assertIsNotNone(test.fault(library))


class KindsTest(unittest.TestCase):
    def faults(self, kind: str, library: Library, count: int) -> list[str]:
        corpus = Corpus(Library())
        tests = [fuzz.KINDS[kind].make(random.Random(f"test {number}"), corpus) for number in range(count)]
        return [why for why in (fuzz.fault_of(test, library) for test in tests) if why]

    def test_lies_are_noticed(self) -> None:
        for kind in fuzz.KINDS:
            with self.subTest(kind):
                self.assertEqual(self.faults(kind, Library(), 8), [])
                # Few random arguments give a text with a digit.
                self.assertNotEqual(self.faults(kind, Lying(), 300 if kind == "args" else 30), [])

    def test_made_programs_are_accepted(self) -> None:
        library = Library()
        refused = [number for number in range(60) if library.verify(encode(make.program(random.Random(number)))).code]
        self.assertEqual(refused, [])

    def test_tests_are_the_same_each_time(self) -> None:
        corpus = Corpus(Library())
        for kind in fuzz.KINDS.values():
            self.assertEqual(*[repr(kind.make(random.Random("same"), corpus)) for _ in range(2)])

    def test_events_in_any_order(self) -> None:
        test = RunTest(PIPELINE, (39,), (2, 1, 2))
        events = runs.random_trace(random.Random(3), test, 400)
        self.assertIn("quiet", runs.HistoryTest(PIPELINE, (39,), (2, 1, 2), 400, tuple(events)).expected()[1])
        self.assertTrue(trace_text(events).startswith("events\ntake e"))


class EachChangeTest(unittest.TestCase):
    """Each change of some small texts, where the kinds make some at random: a status that documents list, and its text."""

    def setUp(self) -> None:
        self.library = Library()

    def assert_answered(self, words: list[str], data: bytes) -> None:
        self.assertIsNone(calls.answer_fault(self.library.session(words, data)), data)

    def changed(self, text: bytes) -> Iterator[bytes]:
        """Yields the beginnings of a text, and those with one byte as each other."""
        yield from (text[:length] for length in range(len(text)))
        yield from (text[:at] + bytes([byte]) + text[at + 1:] for at in range(len(text)) for byte in range(256))

    def test_bytes(self) -> None:
        for data in self.changed(STORE_SEVEN):
            self.assertIsNone(BytesTest(data).fault(self.library))
            self.assert_answered(["run", "--in-turn"], data.hex().encode())

    def test_lines_of_inputs(self) -> None:
        _, two = self.library.session(["asm", "--names"], (ROOT / "examples/two_inputs.twn").read_bytes())
        for line in self.changed(b'[{"1": 7, "5": -3}, -4]'):
            self.assert_answered(["run", "--each"], two.encode() + b"inputs\n" + line)

    def test_beginnings_of_a_text(self) -> None:
        text = (ROOT / "examples/members.twn").read_bytes()
        for length in range(len(text)):
            self.assert_answered(["asm", "--names"], text[:length])

    def test_lines_of_traces(self) -> None:
        """Each line is left out, doubled, or another one."""
        others = ["take e0", "take w0", "take s0", "local e0 1", "local e0 0", "call e0", "end e0", "ask e0 1 0", "deliver s0 1 1 0", "release e0 1", "take e4", "take", "x", ""]
        rows: list[tuple[str, list[Value], int]] = [("store_seven.tw", [], 1), ("members.twn", [], 1), ("stuck_on_itself.twn", [], 1), ("pipeline.tw", [39], 1), ("fan_out.twn", [], 4)]
        for name, given, workers in rows:
            _, digits = self.library.session(["asm", "--names"], (ROOT / "examples" / name).read_bytes())
            test = RunTest(decode(bytes.fromhex(digits)), tuple(given), (1, 1, workers))
            lines = [event_text(made.event) for made in run_in_turn(test.program, given, test.layout, 1000).made]
            for at, line in enumerate(lines):
                middles: list[list[str]] = [[], [line, line], *([other] for other in others if other != line)]
                for middle in middles:
                    changed = inputs.TraceLinesTest(**test.fields, lines=(*lines[:at], *middle, *lines[at + 1:], "end"))
                    self.assertIsNone(changed.fault(self.library), changed.lines)


@dataclass(frozen=True)
class Numbers(FuzzTest):
    numbers: tuple[int, ...]

    def fault(self, library: Library) -> str | None:
        if 13 in self.numbers:
            os.kill(os.getpid(), signal.SIGKILL)
        if 0 in self.numbers:
            raise ZeroDivisionError
        return "seven: there is one" if 7 in self.numbers else None

    def smaller(self) -> Iterator[FuzzTest]:
        for place in range(len(self.numbers)):
            yield Numbers(self.numbers[:place] + self.numbers[place + 1:])

    def case(self) -> list[str]:
        return ["kind verify", *["bytes", "    07"], "output", "    accepted"]


class RunnerTest(unittest.TestCase):
    def run_numbers(self, *numbers: int) -> tuple[bool, str]:
        """Runs tests of these numbers, and returns what is printed by the process that makes them, too."""
        kind = Kind("numbers", lambda chance, corpus: Numbers(numbers))
        kept = os.dup(1)
        with tempfile.TemporaryFile("w+") as said, mock.patch.dict(fuzz.KINDS, {"numbers": kind}):
            os.dup2(said.fileno(), 1)
            try:
                with os.fdopen(os.dup(1), "w") as out, contextlib.redirect_stdout(out):
                    well = fuzz.run_kind("numbers", "1", range(5), 60)
            finally:
                os.dup2(kept, 1)
                os.close(kept)
            said.seek(0)
            return well, said.read()

    def test_all_well(self) -> None:
        well, said = self.run_numbers(1, 2)
        self.assertTrue(well)
        self.assertRegex(said, r"^numbers  5 tests, 0 failed, ")

    def test_failures_are_shrunk_and_end_a_kind(self) -> None:
        well, said = self.run_numbers(1, 7, 2)
        self.assertFalse(well)
        self.assertIn("numbers 1, test 0, shrunk 2 times: seven: there is one\ncase fuzz_numbers_0\n", said)
        self.assertIn("3 failed", said)

    def test_crashes_and_wrong_oracles_fail(self) -> None:
        well, said = self.run_numbers(13)
        self.assertFalse(well)
        self.assertIn("test 0: crashed, exit status -9", said)
        self.assertIn("the oracle failed", self.run_numbers(0)[1])

    def test_slow_tests_fail(self) -> None:
        """A test that waits has the clock's seconds, one that counts has the processor's."""
        def counts(chance: object, corpus: object) -> None:
            while True:
                pass

        for test, name in ((lambda chance, corpus: signal.pause(), "CLOCK_SECONDS"), (counts, "CALL_SECONDS")):
            kind = Kind("slow", test)  # type: ignore[arg-type]
            with mock.patch.dict(fuzz.KINDS, {"slow": kind}), mock.patch.object(fuzz, name, 0.3), contextlib.redirect_stdout(io.StringIO()) as said:
                self.assertFalse(fuzz.run_kind("slow", "1", range(1), 60))
            self.assertIn("takes more than", said.getvalue())

    def test_cases_can_be_read(self) -> None:
        read = 0
        corpus = Corpus(Library())
        for kind in ("check", "bounds", "run", "history", "stats", "names", "asm", "decode", "verify", "args", "library", "handles", "each"):
            for number in range(6):
                test = fuzz.KINDS[kind].make(random.Random(number), corpus)
                lines = Failure(kind, "1", number, test, "why").lines()[1:]
                if max(map(len, lines)) > files.WIDTH:  # long arguments: kind and its arguments are one line
                    continue
                book = files.Book()
                files.Reader(Path("fuzz.case"), lines, book).read()
                self.assertEqual(book.cases[0].name, f"fuzz_{kind}_{number}")
                read += 1
        self.assertGreater(read, 50)

    def test_list(self) -> None:
        with contextlib.redirect_stdout(io.StringIO()) as said:
            self.assertEqual(fuzz.main(["--list"]), 0)
        self.assertEqual([line.split(" ")[0] for line in said.getvalue().splitlines()], list(fuzz.KINDS))

    def test_texts_of_programs(self) -> None:
        self.assertIn("RULE 1 0 any 3 4\n", program_text(PIPELINE))
