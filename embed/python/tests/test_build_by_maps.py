# SPDX-License-Identifier: Apache-2.0
"""Programs that maps make short, beside plain Python on random inputs."""

from __future__ import annotations

import random
import re
import unittest
from collections import Counter
from itertools import accumulate, permutations
from typing import Any, Dict, List

from common import ROOT, TESTS
from yuglemit.build import build_file

PROGRAMS = TESTS / "programs" / "by_maps"
# How many random inputs each program gets.
RUNS = 20


def distance(a: List[int], b: List[int]) -> int:
    """The least number of characters to be put in, left out or replaced."""
    if not a or not b:
        return len(a) + len(b)
    return min(distance(a[1:], b) + 1, distance(a, b[1:]) + 1, distance(a[1:], b[1:]) + (a[0] != b[0]))


def hits(seed: int) -> int:
    """How many of 20,000 random points are in a quarter of a circle."""
    inside = 0
    for part in range(20):
        state = seed + part
        for _ in range(1000):
            x = (state * 1103515245 + 12345) % 2**31
            state = (x * 1103515245 + 12345) % 2**31
            inside += (x // 65536) ** 2 + (state // 65536) ** 2 < 2**30
    return inside


def lived(alive: List[int]) -> List[int]:
    """The cells that live in the next generation, on a square of eight by eight whose edges meet."""
    near = Counter((cell // 8 + y) % 8 * 8 + (cell + x) % 8 for cell in alive for y in (-1, 0, 1) for x in (-1, 0, 1) if x or y)
    return [cell for cell in range(64) if near[cell] == 3 or (near[cell] == 2 and cell in alive)]


def depth(node: int, edges: List[List[int]]) -> int:
    """The number of edges on the longest way to a node."""
    return max((depth(source, edges) + 1 for source, target in edges if target == node), default=0)


class Beside(unittest.TestCase):
    """Each program answers as plain Python does."""

    def setUp(self) -> None:
        self.chance = random.Random(94)

    def compare(self, name: str, *cases: Any) -> None:
        """Runs a program with each case's inputs, which are followed by the outputs."""
        program = build_file(PROGRAMS / f"{name}.py").program
        for *inputs, wanted in cases:
            report = program.run(*inputs)
            self.assertEqual((report.end, report.partial), ("quiet", wanted), (name, inputs))

    def numbers(self, count: int, most: int = 100) -> List[int]:
        return [self.chance.randrange(-most, most) for _ in range(count)]

    def any_numbers(self) -> List[int]:
        return self.numbers(self.chance.randrange(12))

    def test_histogram(self) -> None:
        cases = [(numbers, width) for numbers, width in ((self.any_numbers(), self.chance.randrange(1, 50)) for _ in range(RUNS))]
        self.compare("histogram", *((numbers, width, [Counter(number // width for number in numbers)]) for numbers, width in cases))

    def test_prefix_sums(self) -> None:
        cases = [self.any_numbers() for _ in range(RUNS)]
        self.compare("prefix_sums", *((numbers, [dict(enumerate(accumulate(numbers)))]) for numbers in cases))

    def test_tree_sum(self) -> None:
        self.compare("tree_sum", *((numbers, [{0: sum(numbers)}]) for numbers in (self.numbers(64) for _ in range(RUNS))))

    def test_matrix_product(self) -> None:
        for _ in range(RUNS):
            a, b = self.numbers(16), self.numbers(16)
            product = {4 * row + column: sum(a[4 * row + at] * b[4 * at + column] for at in range(4)) for row in range(4) for column in range(4)}
            self.compare("matrix_product", (a, b, [product]))

    def test_squares(self) -> None:
        for numbers in (self.any_numbers() for _ in range(RUNS)):
            squares = dict(enumerate(number * number for number in numbers))
            self.compare("squares", (numbers, [squares, {0: sum(squares.values())} if squares else {}]))

    def test_queens(self) -> None:
        for size in range(1, 7):
            ways = [way for way in permutations(range(size)) if all(abs(way[a] - way[b]) != a - b for a in range(size) for b in range(a))]
            self.compare("queens", (size, [{0: len(ways)} if ways else {}]))

    def test_levenshtein(self) -> None:
        for _ in range(RUNS):
            a, b = ([self.chance.randrange(3) for _ in range(self.chance.randrange(6))] for _ in "ab")
            self.compare("levenshtein", (a, b, [distance(a, b)]))

    def test_tokens(self) -> None:
        for _ in range(RUNS):
            tokens = [self.chance.choice(["+", "-", "(", str(self.chance.randrange(10**6))]) for _ in range(self.chance.randrange(9))]
            codes = [ord(letter) for letter in " ".join(tokens)]
            numbers = {place: int(token) for place, token in enumerate(tokens) if token.isdigit()}
            signs = {place: ord(token) for place, token in enumerate(tokens) if not token.isdigit()}
            self.compare("tokens", (codes, [numbers, signs]))

    def test_monte_carlo(self) -> None:
        self.compare("monte_carlo", *((seed, [{0: hits(seed)}]) for seed in (self.chance.randrange(10**9) for _ in range(3))))

    def test_life(self) -> None:
        for _ in range(RUNS):
            alive = [cell for cell in range(64) if self.chance.random() < 0.4]
            self.compare("life", (dict.fromkeys(alive, 1), [dict.fromkeys(lived(alive), 1)]))

    def test_levels(self) -> None:
        for _ in range(RUNS):
            count = self.chance.randrange(1, 8)
            edges = [sorted(self.chance.sample(range(count), 2)) for _ in range(self.chance.randrange(12))] if count > 1 else []
            levels = {node: depth(node, edges) for node in range(count)}
            wanted = {node: level for node, level in levels.items() if level}
            self.compare("levels", ([0] * count, [source for source, _ in edges], [target for _, target in edges], [wanted]))


class Table(unittest.TestCase):
    """The lines and events that docs/IDIOMS.md shows."""

    SHOWN: Dict[str, List[Any]] = {
        "word_count": [[f"word {number}" for number in range(30)]],
        "queens": [5],
    }

    def test_rows(self) -> None:
        manual = (ROOT / "docs" / "IDIOMS.md").read_text(encoding="utf-8").split("## What maps save")[1]
        rows = re.findall(r"^\| `(\w+)\.py`[^|]*\|[^|]*\| ([\d,]+) \| ([\d,]+) \|", manual, re.M)
        self.assertTrue(rows)
        for name, lines, events in rows:
            path = next(path for path in (PROGRAMS / f"{name}.py", TESTS / "programs" / f"{name}.py") if path.exists())
            self.assertEqual(f"{sum(map(bool, path.read_text(encoding='utf-8').splitlines()))}", lines, name)
            self.assertEqual(f"{build_file(path).program.run(*self.SHOWN[name]).events:,}", events, name)


class Incomplete(unittest.TestCase):
    """A refused instruction leaves out the results of its task alone, and the run ends stuck."""

    def test_tree_sum(self) -> None:
        report = build_file(PROGRAMS / "tree_sum.py").program.run([1] * 63)
        self.assertEqual((report.end, report.partial), ("stuck", [{0: 56}]))
