"""Tests that what CI asks of proofs notices a stale figure, and an edit whose text is gone."""

import unittest
from unittest import mock

from tools.harnesses import TOOLS
from tools.proofs import mutants
from tools.proofs.believe import main as believe


class FaultsTest(unittest.TestCase):
    def test_a_stale_figure_is_found(self) -> None:
        """A figure may be five percent from today's."""
        rows = believe.rows_of("| Promise | Definitions |\n| `no_trap`, clause `safe` | 1,000 | 20 | 3 |\n| `decode` | 7 | 0 | 1 |\n")
        self.assertEqual(rows, {"no_trap safe": [1000, 20, 3], "decode": [7, 0, 1]})
        for lines, names in ((1000, []), (1050, []), (1100, ["no_trap safe"])):
            self.assertEqual(believe.stale(rows, {**rows, "no_trap safe": [lines, 20, 3]}), names)

    def test_an_edit_whose_text_is_gone_is_found(self) -> None:
        with mock.patch.object(mutants, "MUTANTS", (mutants.Mutant("gone", "script", "tw", "no line has this", ""),)):
            self.assertRaisesRegex(SystemExit, "^mutants: gone: tw has its text 0 times$", mutants.main, ["--list"])

    def test_nights_try_the_edits_of_each_part(self) -> None:
        tried = " ".join(f"{tool.file} {tool.whole.words}" for tool in TOOLS if tool.name in ("mutants", "wakes") and tool.whole)
        self.assertEqual({*tried.split()} & {*mutants.TESTS}, {mutant.part for mutant in mutants.MUTANTS})
