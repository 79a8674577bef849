"""Tests of ./dev twins in a small repository."""

import unittest

from tools.common.testing import folder_of, put, replace, said
from tools.sources import twins

# Expands by leaving out the first line, and rejects a text with the word `bad`.
PROGRAM = """#!/bin/sh
[ "$*" = "asm --names --plain" ] || exit 2
text=$(cat)
case $text in *bad*) echo refused N04 at line 2; exit 1 ;; esac
printf '%s\\n' "$text" | sed 1d
"""
MAKER = """#!/bin/sh
cd "$(dirname "$0")/../.." || exit 1
data=${1:-crates/tw_cases/data}
[ $# -gt 0 ] || rm -rf "$data"
mkdir "$data" && cp -R examples "$data/examples"
"""


class Twins(unittest.TestCase):
    def setUp(self) -> None:
        self.root = folder_of(self)
        put(self.root, {"tw": PROGRAM, str(twins.MAKER): MAKER})
        for name in ("tw", str(twins.MAKER)):
            (self.root / name).chmod(0o755)
        put(self.root / "examples", {"one.twn": "names\nRET\n", "one.tw": "RET\n", "two.tw": "RET\n", "three.twn": "names\nbad\n"})
        replace(self, twins, program=lambda: str(self.root / "tw"))
        self.answer(twins.make)

    def write(self, name: str, text: str) -> None:
        (self.root / "examples" / name).write_text(text, encoding="utf-8")

    def answer(self, call: twins.Call) -> tuple[int, list[str]]:
        """Returns the status and the lines of a call, without the last, which counts."""
        status, text = said(call, self.root)
        return status, [line.split(" is stale")[0] for line in text.splitlines()[:-1]]

    def test_what_was_made_is_fresh(self) -> None:
        self.assertEqual(self.answer(twins.check), (0, []))

    def test_an_edited_source_makes_its_expansion_and_its_copy_stale(self) -> None:
        self.write("one.twn", "names\nDROPR d0\n")
        self.assertEqual(self.answer(twins.check), (1, ["examples/one.tw", "crates/tw_cases/data/examples/one.twn"]))

    def test_an_edited_expansion_is_stale_and_is_made_again(self) -> None:
        self.write("one.tw", "RET \n")
        self.assertEqual(self.answer(twins.check), (1, ["examples/one.tw", "crates/tw_cases/data/examples/one.tw"]))
        self.assertEqual(self.answer(twins.make), (0, []))
        self.assertEqual((self.root / "examples/one.tw").read_text(encoding="utf-8"), "RET\n")

    def test_an_example_without_a_twin_is_left(self) -> None:
        self.assertEqual([path.name for path in twins.twins_of(self.root / "examples")], ["one.twn"])

    def test_a_copy_too_few_and_one_too_many_are_named(self) -> None:
        copies = self.root / twins.COPIES / "examples"
        (copies / "two.tw").rename(copies / "four.tw")
        self.assertEqual(self.answer(twins.check)[1], [f"crates/tw_cases/data/examples/{name}.tw" for name in ("four", "two")])

    def test_a_source_that_is_rejected_fails(self) -> None:
        self.write("three.tw", "RET\n")
        with self.assertRaisesRegex(SystemExit, "three.twn has no expansion: refused N04 at line 2"):
            self.answer(twins.check)
