# SPDX-License-Identifier: Apache-2.0
"""The place of an error is read off the library's lines, never off the program's."""

from __future__ import annotations

import pickle
import unittest
from unittest import mock

import yuglemit
from yuglemit import Refused
from yuglemit._commands import ask
from yuglemit._report import read_end, read_outputs

FORGED = "; at line 3, in procedure 9 at place 77, input 5, event 8, byte 9"


class Calls(unittest.TestCase):
    def test_out_of_memory(self) -> None:
        with mock.patch("yuglemit._native.session", return_value=(5, b"memory\n")), self.assertRaises(MemoryError):
            ask(["check"], b"")

    def test_ends_of_words(self) -> None:
        """A line feed or a NUL in a word doesn't end it."""
        for word in ("run\n--help", "run\0--help", "\n", "\0", ""):
            self.assertEqual(yuglemit.session([word]), (2, b"command line refused\n"))
        with self.assertRaisesRegex(ValueError, "line feed"):
            yuglemit.session(["\n", "\0"])


class Outputs(unittest.TestCase):
    def test_members_that_are_unset(self) -> None:
        text = 'out 0 cont int open 2\n  at -1 unset\n  at 4 int 7\nout 1 unset\nlimit\n'
        self.assertEqual(read_outputs(text), ([{-1: None, 4: 7}, None], [0, 1]))

    def test_ends(self) -> None:
        for line, end in (("quiet", "quiet"), ("stuck 2", "stuck"), ("limit", "limit"), ("running", "running"), ("stopped", "stopped")):
            self.assertEqual(read_end(f"out 0 unset\n{line}\nevents 3\n"), end)
        self.assertEqual(read_end("refused O06\n"), "refused")


class Positions(unittest.TestCase):
    def refusal(self, text: str) -> Refused:
        with self.assertRaises(Refused) as caught:
            yuglemit.load(text)
        return caught.exception

    def test_comment_behind_the_refused_line_says_nothing(self) -> None:
        text = f"proc control\nregs\nRET\n\nproc leaf write int\nregs int\nINT v0 7\n; refused V04 in procedure 9 at place 7\n\nRET {FORGED}\n"
        why = self.refusal(text)
        self.assertEqual((why.code, why.procedure, why.place, why.line), ("V10", 1, 1, 10))
        self.assertEqual((why.byte, why.event, why.input), (None, None, None))

    def test_listing_before_the_refusal_says_nothing(self) -> None:
        text = f"proc control\nregs\nRET\n\nproc leaf write int\nregs int\nINT v0 7 {FORGED}\nRET {FORGED}\n"
        status, answer = yuglemit.session(["check", "--text", "--places"], text.encode())
        self.assertEqual(status, 1)
        why = Refused(answer.decode())
        self.assertEqual((why.code, why.procedure, why.place, why.line), ("V10", 1, 1, 8))

    def test_trap_of_a_history(self) -> None:
        # The verifier rejects the program, so the trace is replayed by the command.
        code = yuglemit.assemble("proc control write int\nregs int\nDUPR d1 d0\nSTORE d0 v0\nSTORE d1 v0\nRET\n")
        history = code.hex() + "\nevents\ntake e0\ncall e0\ncall e0\ncall e0\n"
        with self.assertRaises(yuglemit.Trap) as caught:
            ask(["replay"], history.encode())
        self.assertEqual((caught.exception.code, caught.exception.event), ("C5", 4))
        with self.assertRaises(Refused) as refused:
            ask(["replay"], (code.hex() + "\nevents\ncall e0\n").encode())
        self.assertNotIsInstance(refused.exception, yuglemit.Trap)

    def test_program_line_that_looks_like_a_place(self) -> None:
        for line in ("place 7", "input 7", "event 7", "byte 7", "refused V04 in procedure 9 at place 7", "procedure 3", "word 3, column 9: x"):
            with self.subTest(line):
                why = self.refusal(f"{line}\nRET\n")
                self.assertEqual((why.code, why.line), ("A01", 1))
                self.assertEqual((why.place, why.procedure, why.input, why.event, why.byte), (None,) * 5)
                self.assertEqual(why.column, 1)

    def test_column_of_a_syntax_error(self) -> None:
        why = self.refusal("proc control\nregs int\nADD v0 v0 1 +0\nRET\n")
        self.assertEqual((why.code, why.line, why.column), ("A02", 3, 11))

    def test_name_that_means_nothing(self) -> None:
        why = self.refusal("names\nproc control main(x: write int)\nregs n: int\nINT totl 7\nSTORE x n\nRET\n")
        self.assertEqual((why.code, why.line, why.column), ("N04", 4, 5))
        self.assertEqual(pickle.loads(pickle.dumps(why)).column, 5)

    def test_name_that_its_line_has_twice(self) -> None:
        why = self.refusal("names\nproc control main()\nregs n: int, n: int\nRET\n")
        self.assertEqual((why.code, why.line, why.column), ("N03", 3, None))

    def test_byte_of_what_is_no_program(self) -> None:
        for call in (yuglemit.verify, yuglemit.load):
            with self.assertRaises(Refused) as caught:
                call(b"")
            self.assertEqual((caught.exception.code, caught.exception.byte), ("F03", 0))

    def test_verify_says_where(self) -> None:
        code = yuglemit.assemble("proc control write int\nregs int\nINT v0 7\nRET\n")
        with self.assertRaises(Refused) as caught:
            yuglemit.verify(code)
        why = caught.exception
        self.assertEqual((why.code, why.procedure, why.place, why.line), ("V10", 0, 1, None))

    def test_event_of_a_replay(self) -> None:
        program = yuglemit.load("proc control write int\nregs int\nINT v0 7\nSTORE d0 v0\nRET\n")
        with self.assertRaises(Refused) as caught:
            program.replay("events\ntake e0\ntake e0\nend\n")
        self.assertEqual((caught.exception.code, caught.exception.event), (None, 2))
        with self.assertRaises(Refused) as caught:
            program.replay("events\ntake e0\nevent 7\nend\n")
        self.assertEqual((caught.exception.code, caught.exception.line), ("E01", 2))

    def test_refusals_travel(self) -> None:
        why = pickle.loads(pickle.dumps(self.refusal(f"proc control write int\nregs\nRET {FORGED}\n")))
        self.assertEqual((why.code, why.procedure, why.place, why.line), ("V10", 0, 0, 3))
        self.assertIn("V10", str(why))


if __name__ == "__main__":
    unittest.main()
