# SPDX-License-Identifier: Apache-2.0
"""Inputs are Python values; none is an option, and what can't be an input says so."""

from __future__ import annotations

import ctypes
import enum
import importlib
import os
import time
import unittest
from pathlib import Path
from typing import Any, List, Tuple
from unittest import mock

import yuglemit
from common import DOUBLE, example, same, sized
from yuglemit import _inputs, _native

try:
    numpy: Any = importlib.import_module("numpy")
except ImportError:
    numpy = None


class Values(unittest.TestCase):
    def test_texts_come_back_as_they_are(self) -> None:
        program = yuglemit.load(same("closed", "text"))
        hostile = ["", "--stats", "--help", "--in-turn", "-7", "int:39", "ints:1=7", " a b ", '"', "\\", "\\n", "a\tb", "\r", "ab\r", "\r\r", "é\u2028\u0085\U0001f600\x00", "a\nb", "\n", "a\n--limit\n1"]
        for text in hostile + ["".join(map(chr, range(0, 0x180)))]:
            with self.subTest(text):
                self.assertEqual(program.run(text).outputs, [text])

    def test_texts_of_containers_may_have_line_feeds(self) -> None:
        report = yuglemit.load(Path(__file__).parents[3] / "examples" / "texts.twn").run({1: "a\nb", 2: "\r", 3: '"\\'})
        self.assertEqual(report.outputs[0], 'a\nb,\r,"\\')

    def test_texts_on_a_command_line(self) -> None:
        """A timeline is made by a command, whose words may have line feeds or NULs, but not both."""
        program = yuglemit.load(same("closed", "text"))
        for text, shown in (("a\nb\n", "a\\nb\\n"), ("a\0b", "a\\x00b")):
            report = program.run(text)
            self.assertEqual((report.end, report.outputs), ("quiet", [text]))
            self.assertEqual(report.text, f'out 0 text "{shown}"\nquiet\n')
            self.assertTrue(report.timeline().startswith("<svg"))
            self.assertEqual(program.replay(report.trace, text).outputs, [text])
        puts = "proc control closed text\nregs\nDROPR d0\nREPEAT 1000\nPUT 1 0 any\nEND\nRET\nproc leaf\nregs\nRET\n"
        long = yuglemit.load(puts).run("a\0b").timeline()
        self.assertTrue(len(long) > 1 << 16 and long.startswith("<svg") and long.endswith("</svg>\n"), len(long))
        report = program.run("a\n\0b")
        self.assertEqual((report.outputs, report.trace[:7]), (["a\n\0b"], "events\n"))
        with self.assertRaisesRegex(ValueError, "NUL and a line feed"):
            _ = report.timeline()

    def test_texts_of_containers_have_a_trace(self) -> None:
        """Traces and replays are made by commands, in whose words these texts are quoted."""
        program, texts = yuglemit.load(Path(__file__).parents[3] / "examples" / "texts.twn"), {1: 'a"b', 2: "\\", 3: '\t,="\x7f\r\n'}
        report = program.run(texts)
        self.assertEqual(report.outputs[0], 'a"b,\\,\t,="\x7f\r\n')
        self.assertEqual(program.replay(report.trace, texts).outputs, report.outputs)

    def test_outputs_are_inputs(self) -> None:
        words = yuglemit.load(example("words.twn"))
        found = words.run({1: "the", 2: "a\n", 3: "the"}).outputs
        self.assertEqual(found, [{"a\n": 1, "the": 2}])
        self.assertEqual(yuglemit.load(sized("tcont int")).run(found[0]).outputs, [2])

    def test_ints(self) -> None:
        program = yuglemit.load(same("closed", "int"))
        for number in (0, -1, 2**63 - 1, -(2**63)):
            self.assertEqual(program.run(number).outputs, [number])
        for number in (2**63, -(2**63) - 1):
            with self.assertRaisesRegex(ValueError, "input 1: .*64 bits"):
                program.run(number)

    @unittest.skipIf(numpy is None, "numpy isn't installed")
    def test_ints_of_numpy(self) -> None:
        program = yuglemit.load(same("closed", "int"))
        for kind in (numpy.int8, numpy.uint16, numpy.int32, numpy.int64, numpy.uint64):
            self.assertEqual(program.run(kind(7)).outputs, [7])
        self.assertEqual(yuglemit.load(sized("cont int")).run({numpy.int64(1): numpy.int32(2)}).outputs, [1])
        with self.assertRaisesRegex(TypeError, "input 1: expected an int, got bool"):
            program.run(numpy.bool_(True))

    def test_what_is_no_input(self) -> None:
        program = yuglemit.load(same("closed", "int"))
        wrong: list[tuple[Any, str]] = [
            (True, "expected an int, got bool True"),
            (None, "expected an int, got NoneType"),
            (1.5, "no fractions"),
            ("abc", "expected an int, got str 'abc'"),
            (b"abc", r"value\.decode\(\)"),
            ([1, 2], r"dict\(enumerate"),
            (Path("x"), "expected an int, got PosixPath"),
            ({1: 2}, "expected an int, got dict"),
        ]
        for value, message in wrong:
            with self.subTest(value), self.assertRaisesRegex(TypeError, f"input 1: .*{message}"):
                program.run(value)

    def test_what_is_no_member(self) -> None:
        program = yuglemit.load(sized("cont int"))
        value: Any
        for value in ({1: 1.9}, {1: True}, {True: 1}, {"a": 1}, {1: "a"}, {1: 2, 2: "a"}, {1: 2, "a": 2}, {1: None}, 7):
            with self.subTest(value), self.assertRaisesRegex(TypeError, "input 1.*expected"):
                program.run(value)

    def test_limits_of_inputs(self) -> None:
        with self.assertRaisesRegex(ValueError, "input 1: 1001 members"):
            yuglemit.load(sized("cont int")).run(dict.fromkeys(range(1001), 0))
        self.assertEqual(yuglemit.load(sized("cont int")).run(dict.fromkeys(range(1000), 0)).outputs, [1000])
        for text in ("x" * 4097, "é" * 2048 + "x"):
            with self.assertRaisesRegex(ValueError, "4097 bytes"):
                yuglemit.load(same("closed", "text")).run(text)
        self.assertEqual(yuglemit.load(same("closed", "text")).run("é" * 2048).outputs, ["é" * 2048])
        with self.assertRaisesRegex(ValueError, "no UTF-8"):
            yuglemit.load(same("closed", "text")).run("\ud800")

    def test_empty_containers_of_each_type(self) -> None:
        for kind in ("cont int", "cont text", "tcont int", "tcont text"):
            self.assertEqual(yuglemit.load(sized(kind)).run({}).outputs, [0])

    def test_subscripts_are_put_in_order(self) -> None:
        program = yuglemit.load(example("first_subscript.tw"))
        self.assertEqual(program.run({"b": 2, "a": 1, "é": 3, "": 4}).outputs, [""])
        self.assertEqual(program.run({"\U0001f600": 1, "\uffff": 2}).outputs, ["\uffff"])

    def test_number_of_inputs(self) -> None:
        program = yuglemit.load(example("two_inputs.twn"))
        with self.assertRaisesRegex(TypeError, r"takes 2 inputs \(container: cont int, other: int\), got 1"):
            program.run({})
        with self.assertRaisesRegex(TypeError, r"input 2 \(other\): expected an int, got str"):
            program.run({}, "x")

    def test_words_as_values(self) -> None:
        for word, value in (("int:-4", -4), ("text:a\\n", "a\\n"), ("ints:", {}), ("ints:1=7,5=-3", {1: 7, 5: -3}), ('tints:"a\\x41\\n"=1', {"aA\n": 1}), ('texts:1="a,b",2=""', {1: "a,b", 2: ""})):
            self.assertEqual(yuglemit.read_input(word), value)
        for word in ("39", "int:x", "ints:1=7,", "ints:1=7 5=3", "--stats", "tints:a=1"):
            with self.assertRaises(ValueError):
                yuglemit.read_input(word)


class Lists(unittest.TestCase):
    """Containers and maps as the library's calls take them: numbers as an array, texts in one buffer with the place where each ends."""

    def test_arguments(self) -> None:
        wanted: List[Tuple[Any, str, Any]] = [
            ([3, -1], "map int", ("ints", [[], 0, [3, -1], 2])),
            ((), "map int", ("ints", [[], 0, [], 0])),
            ({5: 1, -2: 2**63 - 1}, "cont int", ("ints", [[-2, 5], 2, [2**63 - 1, 1], 2])),
            (["a", "\u00e9b", ""], "map text", ("texts", [[], 0, "a\u00e9b".encode(), 4, [1, 4, 4], 3])),
            ({"b": 1, "\u00e9": 2, "": 3}, "tcont int", ("ints_by_text", ["b\u00e9".encode(), 3, [0, 1, 3], 3, [3, 1, 2], 3])),
            ({}, "tmap text", ("texts_by_text", [b"", 0, [], 0, b"", 0, [], 0])),
            ({"\U0001f600": "x", "\uffff": "yy"}, "tcont text", ("texts_by_text", ["\uffff\U0001f600".encode(), 7, [3, 7], 2, b"yyx", 3, [2, 3], 2])),
        ]
        for value, kind, (name, expected) in wanted:
            with self.subTest(kind), mock.patch.object(_native, "has_lists", lambda: True), mock.patch.object(_native, "short") as short:
                call = getattr(short(), f"yuglemit_raw_input_{name}")
                call.return_value = 0
                checked = _inputs.given(value, kind)
                assert isinstance(checked.value, _native.Members)
                _native._add_container(mock.Mock(), kind, checked.value)
                words = [list(it) if isinstance(it, ctypes.Array) else it for it in call.call_args.args[1:]]
                self.assertEqual(words, expected)

    def test_by_one_call_or_by_many(self) -> None:
        """The library's way, and that of libraries that have no such calls, give one answer."""
        values: List[Tuple[str, Any]] = [("cont int", {5: 1, -2: 7}), ("tcont text", {"b": "x", "a": ""}), ("cont text", {}), ("tcont int", {"": -1})]
        for kind, value in values:
            program = yuglemit.load(sized(kind))
            runs = [program.run(value).outputs]
            with mock.patch.object(_native, "has_lists", lambda: False):
                runs.append(program.run(value).outputs)
            self.assertEqual(runs, [[len(value)]] * 2)

    @unittest.skipIf("PYTHONMALLOC" in os.environ, "valgrind takes longer")
    def test_many_values_are_quick(self) -> None:
        """100,000 ints are checked and put into arrays in some 10 ms, dicts in some 30."""
        for many, most in ((list(range(100_000)), 0.03), (dict(enumerate(range(100_000))), 0.09)):
            took = []
            for _ in range(5):
                begun = time.process_time()
                value = _inputs.given(many, "map int").value
                assert isinstance(value, _native.Members)
                _native._list(value.subscripts or (), False), _native._list(value.values, False)
                took.append(time.process_time() - begun)
            self.assertLess(min(took), most)

    def test_other_types_of_numbers(self) -> None:
        """They take their time, and have the same values; what is none is named by its subscript."""
        number = enum.IntEnum("number", {"SEVEN": 7})
        program = yuglemit.load(same_map("int"))
        self.assertEqual(program.run([1, number.SEVEN]).outputs, [{0: 1, 1: 7}])
        for value, message in (([1, True], "member at 1: expected an int, got bool"), ([1, 2**63], "member at 1: 9223372036854775808 doesn't fit"), ({7: "a"}, "member at 7"), ({"a": 1}, "subscript 'a'")):
            wrong: Any = value
            with self.assertRaisesRegex((TypeError, ValueError), message):
                program.run(wrong)
        texts = yuglemit.load(same_map("text"))
        self.assertEqual(texts.run(["a", "\u00e9" * 2048]).outputs, [{0: "a", 1: "\u00e9" * 2048}])
        for text, message in (("\u00e9" * 2049, "member at 1: the text has 4098 bytes"), ("\ud800", "member at 1: the text is no UTF-8")):
            with self.assertRaisesRegex(ValueError, message):
                texts.run(["a", text])


def same_map(kind: str) -> str:
    """A program that gives the first three values of a map back, if their subscripts are 0, 1 and 2."""
    return (
        f"version 4\nproc control closed map {kind} write map {kind}\nregs int int {kind}\nINT v1 1\nREPEAT 3\n"
        "MGET v2 d0 v0 +2\nMINS d1 v0 v2 +1\nADD v0 v0 v1 +0\nEND\nDROPR d0\nDROPW d1\nRET\n"
    )


# Words, with their values as docs/FORMAT.md has them, or None: no input. The values of containers are pairs in the order of the word.
LEAST, MOST = -(2**63), 2**63 - 1
WORDS: List[Tuple[str, Any]] = [
    ("int:7", 7), ("int:-7", -7), ("int:007", 7), ("int:-0", 0), (f"int:{LEAST}", LEAST), (f"int:{MOST}", MOST), ("int:" + "0" * 5000 + "9", 9),
    (f"int:{LEAST - 1}", None), (f"int:{MOST + 1}", None), ("int:" + "9" * 5000, None), ("int:", None), ("int:-", None), ("int:+7", None),
    ("int: 7", None), ("int:7 ", None), ("int:0x7", None), ("int:7_0", None), ("int:\u0663", None), ("int:--7", None), ("int:7\r", None), ("int:\"7\"", None),
    ("text:", ""), ("text: a b ", " a b "), ("text:a\\n\"", "a\\n\""), ("text:int:7", "int:7"), ("text:\r\u0663", "\r\u0663"),
    ("ints:", []), ("ints:1=7", [(1, 7)]), ("ints:-5=0,-1=-2,0=3,10=04", [(-5, 0), (-1, -2), (0, 3), (10, 4)]), (f"ints:{LEAST}={MOST},{MOST}={LEAST}", [(LEAST, MOST), (MOST, LEAST)]),
    ("ints:1=2,", None), ("ints:,", None), ("ints:,1=2", None), ("ints:1=2,,3=4", None), ("ints:1=2, 3=4", None), ("ints: 1=2", None), ("ints:1 =2", None), ("ints:1", None),
    ("ints:1=", None), ("ints:=1", None), ("ints:1=2;3=4", None), ("ints:1=7,1=3", None), ("ints:2=7,1=3", None), ("ints:01=7,1=7", None), ("ints:-1=1,-2=1", None),
    ("ints:1=\"a\"", None), ("ints:\"a\"=1", None), (f"ints:1={MOST + 1}", None), (f"ints:{LEAST - 1}=1", None), ("ints:\u0661=1", None), ("ints:1=2=3", None),
    ("texts:", []), ('texts:1="a,b",2=""', [(1, "a,b"), (2, "")]), ('texts:1="\\"\\\\\\n\\x41\\x7f\\x7F\\x00"', [(1, '"\\\nA\x7f\x7f\0')]), ('texts:1="=\t\r\u0663",2="="', [(1, "=\t\r\u0663"), (2, "=")]),
    ('texts:1="\\q"', None), ('texts:1="\\x80"', None), ('texts:1="\\x4"', None), ('texts:1="\\X41"', None), ('texts:1="\\xg0"', None), ('texts:1="\\N"', None), ('texts:1="\\"', None), ("texts:1=5", None),
    ("texts:1=a", None), ('texts:1="a', None), ('texts:1="a"b', None), ('texts:1="a""b"', None), ('texts:"1"="a"', None), ('texts:1="a",', None), ('texts:1="a",1="b"', None), ('texts:2="a",1="b"', None),
    ("tints:", []), ('tints:"a"=1,"b"=-2', [("a", 1), ("b", -2)]), ('tints:""=1,"a"=2,"a,b"=3,"\u00e9"=4,"\uffff"=5,"\U0001f600"=6', [("", 1), ("a", 2), ("a,b", 3), ("\u00e9", 4), ("\uffff", 5), ("\U0001f600", 6)]),
    ('tints:"b"=1,"a"=2', None), ('tints:"a"=1,"a"=2', None), ('tints:"A"=1,"\\x41"=2', None), ('tints:"\U0001f600"=1,"\uffff"=2', None), ("tints:a=1", None), ("tints:1=2", None), ('tints:"a"="b"', None), ('tints:"\\q"=1', None),
    ("ttexts:", []), ('ttexts:"a"="b","c"="a"', [("a", "b"), ("c", "a")]), ('ttexts:"c"="b","a"="a"', None), ('ttexts:"a"=1', None), ('ttexts:1="a"', None),
    ("7", None), ("int=7", None), ("Int:7", None), (":7", None), ("in:7", None), ("cont int:", None), (" int:7", None), ("INTS:", None), ("bool:1", None), ("tint:1", None),
]
TYPE_OF = {"int": "int", "text": "text", "ints": "cont int", "texts": "cont text", "tints": "tcont int", "ttexts": "tcont text"}


class Words(unittest.TestCase):
    """The words of docs/FORMAT.md: `read_input` takes those that `tw run` takes, with subscripts that rise."""

    def test_as_the_manual_says(self) -> None:
        for word, value in WORDS:
            with self.subTest(word[:60]):
                if value is None:
                    with self.assertRaisesRegex(ValueError, "is no input|64 bits|rise"):
                        yuglemit.read_input(word)
                else:
                    found = yuglemit.read_input(word)
                    self.assertEqual(list(found.items()) if isinstance(found, dict) else found, value)

    def test_as_the_command_takes_them(self) -> None:
        for word, value in WORDS:
            with self.subTest(word[:60]):
                kind = TYPE_OF.get(word.partition(":")[0], "int")
                source = sized(kind) if "cont" in kind else same("closed", kind)
                status, answer = yuglemit.session(["run", "--text", "--inputs"], f"{source}inputs\n{word}".encode())
                if value is None:
                    self.assertRegex(answer.decode(), "^(input word 1 refused\n|refused O02\n)")
                else:
                    shown = len(value) if isinstance(value, list) else value
                    self.assertEqual((status, yuglemit.load(source).run(shown if "cont" not in kind else dict(value)).text), (0, answer.decode()))

    def test_no_utf_8(self) -> None:
        for word in ("text:\ud800", 'texts:1="\udfff"'):
            with self.assertRaisesRegex(ValueError, "no UTF-8"):
                yuglemit.read_input(word)


class Options(unittest.TestCase):
    def test_ranges(self) -> None:
        program = yuglemit.load(DOUBLE)
        for name, most in (("engines", 4), ("servers", 4), ("workers", 16), ("limit", 1_000_000)):
            for number in (0, most + 1, -1):
                with self.assertRaisesRegex(ValueError, f"{name}: expected 1 to {most}, got {number}"):
                    program.run(1, **{name: number})  # type: ignore[arg-type]
            with self.assertRaisesRegex(TypeError, name):
                program.run(1, **{name: "--help"})  # type: ignore[arg-type]

    def test_codes(self) -> None:
        self.assertIn("V04", yuglemit.explain("V04"))
        for code in ("--help", "", "V 4"):
            with self.assertRaises(ValueError):
                yuglemit.explain(code)

    def test_sources(self) -> None:
        code = yuglemit.assemble(DOUBLE)
        for source in (code, bytearray(code), memoryview(code)):
            self.assertEqual(yuglemit.load(source).run(4).outputs, [8])
            self.assertEqual(yuglemit.verify(source), (0, 0))
        with self.assertRaises(yuglemit.Refused):
            yuglemit.load(DOUBLE.encode())
        with self.assertRaisesRegex(TypeError, "assemble"):
            yuglemit.verify(DOUBLE)  # type: ignore[arg-type]
        with self.assertRaisesRegex(yuglemit.Refused, "pathlib"):
            yuglemit.load("examples/pipeline.twn")
        with self.assertRaisesRegex(TypeError, "int"):
            yuglemit.load(7)  # type: ignore[arg-type]


if __name__ == "__main__":
    unittest.main()
