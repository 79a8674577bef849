# SPDX-License-Identifier: Apache-2.0
"""Loading: what a stranger sends is loaded or `Refused`, and a first run loads once."""

from __future__ import annotations

import _thread
import re
import signal
import tempfile
import threading
import time
import unittest
from pathlib import Path
from typing import Any, Iterator
from unittest import mock

import yuglemit
from common import DOUBLE, EXAMPLES
from yuglemit import Refused

# Texts that are no programs, each with the code of its error; docs/FORMAT.md says which.
WRONG = [
    ("", "A06"),
    ("RET", "A01"),
    (" \n\n", "A06"),
    ("proc control\nregs\nRET\n\ud800", "H03"),
    ("\udfff", "H03"),
    ("\0", "A01"),
    ("proc control\nregs\n", "A06"),
    ("proc control write int\nregs\nRET\n", "V10"),
    (";" * 16_777_217, "H02"),
    ("proc control\nregs\nRET\n;" + "x" * 17_000_000, "H02"),
]


def of_bytes(megabytes: int) -> bytes:
    """A program of so many megabytes: texts of 4,000 bytes, which main loads."""
    lines = f'TEXT v0 "{"a" * 4000}"\n' * (megabytes * 250)
    heads = "proc control write int\nregs text int\n", "proc leaf\nregs text\n"
    parts = [lines[at : at + 4011 * 1000] for at in range(0, len(lines), 4011 * 1000)]
    leaves = "".join(f"{heads[1]}{part}RET\n" for part in parts[1:])
    puts = "".join(f"PUT {number} 0 any\n" for number in range(1, len(parts)))
    return yuglemit.assemble(f"{heads[0]}{parts[0]}{puts}INT v1 7\nSTORE d0 v1\nRET\n{leaves}")


class Loading(unittest.TestCase):
    def test_wrong_texts(self) -> None:
        for text, code in WRONG:
            for load in (yuglemit.load, yuglemit.load_text):
                with self.subTest(text[:20]), self.assertRaises(Refused) as caught:
                    load(text)
                self.assertEqual(caught.exception.code, code)
        for data in (b"\xff", b"proc control\nregs\nRET\n\xc3"):
            with self.assertRaises(Refused) as caught:
                yuglemit.load_text(data)
            self.assertEqual(caught.exception.code, "H03")

    def test_wrong_bytes(self) -> None:
        code = yuglemit.assemble(DOUBLE)
        refused_ = yuglemit.assemble("proc control write int\nregs int\nINT v0 7\nRET\n")
        for data, expected in ((b"", "F"), (code[:-1], "F"), (b"TWB", "F"), (DOUBLE.encode(), "F"), (refused_, "V10")):
            for load in (yuglemit.load, yuglemit.load_bytes):
                with self.assertRaises(Refused) as caught:
                    load(data)
                self.assertTrue((caught.exception.code or "").startswith(expected))
                self.assertIsNotNone(caught.exception.byte if expected == "F" else caught.exception.place)

    def test_text_and_bytes(self) -> None:
        code = yuglemit.assemble(DOUBLE)
        for program in (yuglemit.load_text(DOUBLE), yuglemit.load_text(DOUBLE.encode()), yuglemit.load_text(bytearray(DOUBLE.encode()))):
            self.assertEqual((program.run(4).outputs, program.source, program.bytes), ([8], DOUBLE, code))
        for data in (code, bytearray(code), memoryview(code)):
            program = yuglemit.load_bytes(data)
            self.assertEqual((program.run(4).outputs, program.source), ([8], None))

    def test_other_things(self) -> None:
        wrong: Any
        for wrong in (7, None, ["RET"], object()):
            for load in (yuglemit.load, yuglemit.load_text, yuglemit.load_bytes, yuglemit.assemble, yuglemit.verify):
                with self.assertRaisesRegex(TypeError, "expected "):
                    load(wrong)  # type: ignore[operator]
        with self.assertRaisesRegex(TypeError, "load_text"):
            yuglemit.load_bytes(DOUBLE)  # type: ignore[arg-type]

    def test_wrong_files(self) -> None:
        with tempfile.TemporaryDirectory() as folder:
            for name, data, code in (("a.tw", b"\xff", "H03"), ("b.hex", b"5457420", "H01"), ("c.hex", b"zz", "H01"), ("d", b"545742", "F"), ("e", b"", "A06")):
                path = Path(folder) / name
                path.write_bytes(data)
                with self.subTest(name), self.assertRaises(Refused) as caught:
                    yuglemit.load(path)
                self.assertTrue((caught.exception.code or "").startswith(code), caught.exception.code)

    def test_hex_files_are_those_of_the_command(self) -> None:
        digits = yuglemit.assemble(DOUBLE).hex().upper()
        with tempfile.TemporaryDirectory() as folder:
            path = Path(folder) / "program"
            for text in (digits, "\n".join(digits), f" \t{digits}\r\n"):
                path.write_text(text, encoding="ascii")
                self.assertEqual(yuglemit.load(path).run(4).outputs, [8])
                self.assertEqual(yuglemit.session(["run", "int:4"], text.encode())[0], 0)

    def test_a_path_as_a_text(self) -> None:
        with self.assertRaisesRegex(Refused, "pathlib"):
            yuglemit.load(str(EXAMPLES / "pipeline.twn"))


class Slow:
    """A library that takes five seconds to load a program."""

    def yuglemit_raw_load_source(self, *words: object) -> int:
        time.sleep(5)
        return 0


class Large(unittest.TestCase):
    def test_ctrl_c_ends_the_wait_for_a_long_load(self) -> None:
        signal.signal(signal.SIGINT, signal.default_int_handler)
        begun = time.monotonic()
        with mock.patch("yuglemit._native.library", return_value=Slow()), self.assertRaises(KeyboardInterrupt):
            threading.Timer(0.2, _thread.interrupt_main).start()
            yuglemit.load_text(";" * 1_000_000)
        self.assertLess(time.monotonic() - begun, 3)

    def test_program_of_nine_megabytes(self) -> None:
        """Its hex text is longer than any command reads."""
        code = of_bytes(9)
        self.assertGreater(len(code), 9_000_000)
        program = yuglemit.load_bytes(code)
        self.assertEqual((program.run().outputs, len(program.bytes)), ([7], len(code)))
        self.assertRegex(repr(program), "^<Program [0-9a-f]{12}: write int>$")
        self.assertEqual(program.run(trace=True, text=True).text, "out 0 int 7\nquiet\n")
        with self.assertRaises(Refused) as caught:
            yuglemit.load_bytes(code[:-1])
        self.assertTrue((caught.exception.code or "").startswith("F"))

    def test_text_of_sixteen_megabytes(self) -> None:
        text = "proc control\nregs\nRET\n;"
        program = yuglemit.load_text(text + "x" * (16_777_216 - len(text)))
        self.assertEqual((program.run().end, len(program.bytes) > 0), ("quiet", True))


class Numbers(unittest.TestCase):
    def test_a_first_run_loads_once(self) -> None:
        """No session is asked for, neither for parameters nor for names."""
        sources: list[Any] = [EXAMPLES / "mapreduce.twn", yuglemit.assemble((EXAMPLES / "store_seven.tw").read_text(encoding="utf-8"))]
        for source in sources:
            with mock.patch("yuglemit._native.load", wraps=yuglemit._native.load) as load, mock.patch(
                "yuglemit._native.session", wraps=yuglemit._native.session
            ) as session:
                program = yuglemit.load(source)
                self.assertEqual(program.run(*([{1: 3}] if program.parameters else [])).end, "quiet")
                self.assertTrue(program.needs == (0, 0) and program.procedures and program.bounds.greatest)
            self.assertLessEqual(load.call_count + session.call_count, 2)

    def examples(self) -> Iterator[Path]:
        yield from sorted(it for it in EXAMPLES.iterdir() if it.suffix in (".tw", ".twn"))

    def test_procedures_are_those_of_the_command(self) -> None:
        """Kinds, budgets and names are those of `tw check`, parameters those of `tw disasm`."""
        count = 0
        for path in self.examples():
            try:
                program = yuglemit.load(path)
            except Refused:
                continue
            checked = [f"proc {it.number} {it.kind} budget {it.budget}" + (f" ({it.name})" if it.name else "") for it in program.procedures]
            self.assertEqual(checked, re.findall(r"^proc \d.*$", program.places(), re.M), path.name)
            heads = [" ".join(["proc", it.kind, *(f"{its.mode} {its.type}" for its in it.parameters)]) for it in program.procedures]
            self.assertEqual(heads, re.findall(r"^proc .*$", program.text, re.M), path.name)
            count += 1
        self.assertGreater(count, 20)

    def test_names_of_parameters(self) -> None:
        """Brackets and commas are blanks after the first words, and a comment or a label `proc` has no names."""
        text = "names\nversion 2\n \tproc\tcontrol main(a:  closed\ttcont text,b: write int)\r; (c: val int)\nregs n: int\nDROPR a\nJMP proc\nproc:\n"
        text += "PUT put 0 any n b ; proc leaf\nRET\n;proc leaf other\nproc leaf put(val int, out: write int)\nregs\nSTORE out v0\nRET\n"
        program = yuglemit.load(text)
        self.assertEqual([it.name for it in program.procedures], ["main", "put"])
        self.assertEqual([[str(its) for its in it.parameters] for it in program.procedures], [["a: tcont text", "b: int"], ["int", "out: int"]])


if __name__ == "__main__":
    unittest.main()
