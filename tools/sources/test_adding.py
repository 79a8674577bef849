"""Tests of ./dev adding."""

import tempfile
import unittest
from pathlib import Path
from unittest import mock

from tools.sources import adding, instruction_rows, instructions

ADDED = adding.Edit("a.rt", "one\n", "two\n")


class AddingTest(unittest.TestCase):
    def test_a_line_is_added_once(self) -> None:
        self.assertEqual(ADDED.made("zero\none\n"), "zero\none\ntwo\n")
        self.assertEqual(ADDED._replace(replaces=True).made("one\n"), "two\n")
        for text in ("zero\n", "one\none\n"):
            with self.assertRaisesRegex(SystemExit, "a.rt has"):
                ADDED.made(text)

    def test_a_row_that_nothing_misses_is_a_fault(self) -> None:
        def without_rows(root: Path) -> dict[str, str]:
            return {}

        with tempfile.TemporaryDirectory() as name, mock.patch.object(adding, "EDITS", (ADDED,)), mock.patch.object(instruction_rows, "REGIONS", ()):
            path = Path(name, "crates/a.rt")
            path.parent.mkdir()
            for missing, wanted in (([], [False, True]), (["a.rt: no row"], [True, True])):
                path.write_text("one\n", encoding="utf-8")
                with mock.patch.multiple(instructions, missing=lambda root: missing, faults=lambda root: []), mock.patch.object(instruction_rows, "made", without_rows):
                    self.assertEqual([holds for holds, _ in adding.checks_of_rows(Path(name))], wanted)
                self.assertEqual(path.read_text(encoding="utf-8"), "one\ntwo\n")
