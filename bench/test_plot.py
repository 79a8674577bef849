#!/usr/bin/env python3
# SPDX-License-Identifier: Apache-2.0
"""Tests of bench/plot.py, that results.svg is the plot of results.csv, and of peers/memory.c: python3 bench/test_plot.py"""

from __future__ import annotations

import pathlib
import re
import shutil
import subprocess
import sys
import tempfile
import unittest
import xml.etree.ElementTree

HERE = pathlib.Path(__file__).resolve().parent
sys.path.insert(0, str(HERE))
import plot  # noqa: E402


def result(value: float, row: str = "a") -> plot.Result:
    """Returns a result with this value."""
    return plot.Result("2026-11-27", "0123abcd", "4 cores", row, value, "s")


class Plots(unittest.TestCase):
    """Charts of results."""

    def test_points_are_spread_and_scaled(self) -> None:
        self.assertEqual(plot.points([result(1), result(2), result(0)]), [(0, 30), (110, 0), (220, 60)])

    def test_one_point_is_at_the_left(self) -> None:
        self.assertEqual(plot.points([result(5)]), [(0, 0)])

    def test_rows_keep_their_order(self) -> None:
        groups = plot.by_row([result(1, "b"), result(2, "a"), result(3, "b")])
        self.assertEqual([[it.value for it in row] for row in groups.values()], [[1, 3], [2]])

    def test_texts_are_escaped(self) -> None:
        text = plot.plot({"<&>": [result(1, "<&>")]})
        self.assertEqual(xml.etree.ElementTree.fromstring(text).tag, "{http://www.w3.org/2000/svg}svg")

    def test_the_results_have_the_form(self) -> None:
        for it in plot.read(plot.RESULTS):
            self.assertRegex(it.date, r"^\d{4}-\d\d-\d\d$")
            self.assertRegex(it.commit, r"^[0-9a-f]{8}$")
            self.assertTrue(it.row and it.machine and it.unit and it.value >= 0)

    def test_the_plot_is_fresh(self) -> None:
        groups = plot.by_row(plot.read(plot.RESULTS))
        fresh = plot.plot({name: it for name, it in groups.items() if len(it) > 1})
        self.assertEqual((HERE / "results.svg").read_text(encoding="utf-8").rstrip("\n"), fresh)
        self.assertFalse(re.search(r"nan|inf\b", fresh))


@unittest.skipUnless(shutil.which("cc"), "cc isn't installed")
class Memory(unittest.TestCase):
    """The most memory of a command."""

    def test_it_is_that_of_the_command_and_not_of_its_parent(self) -> None:
        with tempfile.TemporaryDirectory() as name:
            tool = str(pathlib.Path(name, "memory"))
            subprocess.run(["cc", "-o", tool, HERE / "peers" / "memory.c"], check=True)
            mine = bytearray(b"x" * (100 << 20))
            little, much = (int(subprocess.check_output([tool, *command])) >> 10 for command in (["/bin/echo", "7"], [sys.executable, "-c", "len(b'x' * (60 << 20))"]))
        self.assertLess(little, len(mine) >> 22)
        self.assertTrue(60 <= much < 90, much)


if __name__ == "__main__":
    unittest.main()
