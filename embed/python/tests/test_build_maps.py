# SPDX-License-Identifier: Apache-2.0
"""Maps and sums of the compiler: programs beside plain Python on random inputs, and every error."""

from __future__ import annotations

import random
import unittest
from collections import Counter
from typing import Any, Dict, List

import random_programs
from common import TESTS
from yuglemit import _native, load
from yuglemit.build import BuildError, Map, Sum, build_file, build_text

HEAD = "from yuglemit.build import Array, Int, Map, Out, Sum, Text, check, control, each, insert, leaf, nth, out\n"
WORDS = ["the", "cat", "", "é", "a b", "\n"]


def run(text: str, *inputs: Any) -> List[Any]:
    """Compiles a text and runs it; returns its outputs."""
    return build_text(HEAD + text).program.run(*inputs, limit=100_000).outputs


def of_file(name: str, *inputs: Any) -> List[Any]:
    return build_file(TESTS / "programs" / f"{name}.py").program.run(*inputs, limit=100_000).outputs


class Beside(unittest.TestCase):
    """Each program answers as plain Python does."""

    def setUp(self) -> None:
        self.chance = random.Random(94)

    def numbers(self) -> Dict[int, int]:
        return {self.chance.randrange(-20, 20): self.chance.choice(random_programs.NUMBERS) for _ in range(self.chance.randrange(12))}

    def test_maximum(self) -> None:
        for _ in range(20):
            numbers = self.numbers()
            self.assertEqual(of_file("maximum", numbers), [max(numbers.values(), default=-(2**63))], numbers)

    def test_word_count(self) -> None:
        for _ in range(20):
            words = [self.chance.choice(WORDS) for _ in range(self.chance.randrange(30))]
            self.assertEqual(of_file("word_count", words), [Counter(words)], words)

    def test_row_products(self) -> None:
        for _ in range(20):
            rows, columns = self.chance.randrange(5), self.chance.randrange(1, 5)
            matrix = [[self.chance.randrange(-9, 9) for _ in range(columns)] for _ in range(rows)]
            vector = [self.chance.randrange(-9, 9) for _ in range(columns)]
            wanted = {row: sum(a * b for a, b in zip(cells, vector)) for row, cells in enumerate(matrix)}
            self.assertEqual(of_file("row_products", [cell for cells in matrix for cell in cells], vector), [wanted])

    def test_squares_added(self) -> None:
        self.assertEqual(of_file("squares_added"), [sum(number * number for number in range(500))])

    def test_sums_wrap(self) -> None:
        """The third sum leaves 64 bits, and comes back by the fourth."""
        program = """
@leaf
def add(numbers: Map[Int, Int], total: Out[Sum[Text]]):
    for _, number in each(numbers, 1000):
        out.total["all"] += number

@control
def main(numbers: Map[Int, Int], total: Out[Sum[Text]]):
    add(numbers, out.total)
"""
        for _ in range(20):
            numbers = [self.chance.choice(random_programs.NUMBERS) for _ in range(self.chance.randrange(12))]
            plain: Sum[str] = Sum()
            for number in numbers:
                plain["all"] += number
            self.assertEqual(run(program, numbers), [plain], numbers)

    def test_reading(self) -> None:
        """In, len, nth and [..] of a map; of a missing subscript the result is that of a refused instruction."""
        program = """
@leaf(otherwise=(-1, "none", 0))
def read(words: Map[Text, Text], wanted: Text) -> tuple[Int, Text, Int]:
    is_there = 0
    if wanted in words:
        is_there = 1
    return len(words), nth(words, 0) + words[wanted], is_there

@control
def main(words: Map[Text, Text], wanted: Text, size: Out[Int], found: Out[Text], is_there: Out[Int]):
    out.size, out.found, out.is_there = read(words, wanted)
"""
        for _ in range(20):
            words = {self.chance.choice(WORDS): self.chance.choice(WORDS) for _ in range(self.chance.randrange(5))}
            wanted = self.chance.choice(WORDS)
            first = min(words, key=str.encode, default="")
            expected: List[Any] = [len(words), first + words[wanted], 1] if wanted in words else [-1, "none", 0]
            self.assertEqual(run(program, words, wanted), expected, (words, wanted))

    def test_putting(self) -> None:
        """A subscript keeps the first value that is put there."""
        program = """
@leaf
def keep(numbers: Map[Int, Int], kept: Out[Map[Int, Int]], refused: Out[Sum[Int]]):
    for subscript, number in each(numbers, 1000):
        if check(insert(out.kept, number, subscript)):
            continue
        out.refused[0] += 1

@control
def main(numbers: Map[Int, Int], kept: Out[Map[Int, Int]], refused: Out[Sum[Int]]):
    keep(numbers, out.kept, out.refused)
"""
        for _ in range(20):
            numbers = {place: self.chance.randrange(5) for place in range(self.chance.randrange(9))}
            kept: Map[int, int] = Map()
            for place, number in numbers.items():
                kept.setdefault(number, place)
            refused = len(numbers) - len(kept)
            self.assertEqual(run(program, numbers), [kept, {0: refused} if refused else {}], numbers)

    def test_many(self) -> None:
        """A loop over more than 1,000 values. If values are left at the bound, the leaf's `otherwise` follows, unless the loop has ended before."""
        program = """
@leaf(otherwise=0)
def total(numbers: Map[Int, Int]) -> Int:
    found = 0
    for subscript, number in each(numbers, 3000):
        if subscript == 2300:
            break
        found = found + number
    return found

@control
def main(numbers: Map[Int, Int], result: Out[Int]):
    out.result = total(numbers)
"""
        for count in (0, 1, 999, 1000, 1001, 2000, 2299, 2301, 2600, 3100):
            self.assertEqual(run(program, [1] * count), [min(count, 2300)], count)
        for count in (2600, 3000, 3001):
            self.assertEqual(run(program.replace("== 2300", "== -1"), [1] * count), [count % 3001], count)

    def test_control(self) -> None:
        """A control function makes, fills, gives and reads maps, also those in an array."""
        program = """
@leaf(otherwise=0)
def total(numbers: Map[Int, Int]) -> Int:
    found = 0
    for _, number in each(numbers, 1000):
        found = found + number
    return found

@control
def of_rows(rows: Array[Map[Int, Int]], seven: Map[Int, Int]) -> Int:
    return total(rows[seven[7]])

@control
def main(number: Int, result: Out[Int]):
    row = Map[Int, Int]()
    row[1] = number
    row[2] = 2
    rows = Array[Map[Int, Int]]()
    rows[5] = row
    seven = Map[Int, Int]()
    seven[7] = 5
    out.result = of_rows(rows, seven)
"""
        self.assertEqual(run(program, 40), [42])


class Errors(unittest.TestCase):
    """Each error of maps names its line."""

    def fails(self, body: str, message: str, head: str = "numbers: Map[Int, Int], sums: Out[Sum[Text]], kept: Out[Map[Int, Text]]") -> None:
        text = HEAD + f"@control\ndef main({head}):\n    {body}\n"
        with self.assertRaisesRegex(BuildError, message):
            build_text(text)

    def test_errors(self) -> None:
        self.fails('out.sums["a"] = 1', r"values of a Sum are added to: out.sums\[\.\.\] \+= \.\.")
        self.fails('out.sums["a"] -= 1', r"a value of a Sum by \+= alone")
        self.fails('out.kept[1] += "a"', r"a value of a Sum by \+= alone")
        self.fails("out.sums[1] += 1", "expected Text, found 1, which is Int")
        self.fails('out.sums["a"] += "a"', 'expected Int, found "a", which is Text')
        self.fails("out.kept[1] = 7", "expected Text, found 7, which is Int")
        self.fails("numbers[1] = 7", "numbers can't be written here")
        self.fails("out.kept[1] = out.kept[2]", "isn't a parameter|can only be written|give it to a task|complete")
        self.fails("x = 1", "Map takes the types of its subscripts and of its values", head="a: Map[Int]")
        self.fails("x = 1", r"Sum takes the type of its subscripts: Sum\[Int\] or Sum\[Text\]", head="a: Sum[Int, Int]")
        self.fails("x = 1", r"subscripts and values of a map are Int or Text, and Array\[Int\] is neither", head="a: Map[Int, Array[Int]]")
        self.fails("x = 1", "main takes and gives Int, Text, Array and Table of these, Map and Sum", head="a: Array[Map[Int, Int]]")
        self.fails("x = 1", "at most 3 of Array and Table in one another", head="a: Array[Array[Array[Array[Map[Int, Int]]]]]")


class Limits(unittest.TestCase):
    """An input map has at most 100,000 values."""

    def answer(self, count: int) -> List[str]:
        text = "version 4\nproc control closed map int write int\nregs int\nSIZE v0 d0\nDROPR d0\nSTORE d1 v0\nRET\ninputs\n"
        word = "ints:" + ",".join(f"{number}=7" for number in range(count))
        return _native.session(["run", "--in-turn", "--text", "--inputs"], (text + word).encode())[1].decode().splitlines()

    def test_most(self) -> None:
        self.assertEqual(self.answer(100_000), ["out 0 int 100000", "quiet"])
        self.assertEqual(self.answer(100_001), ["refused O02", "input 1 has more than 100000 values"])

    def test_typed(self) -> None:
        """Python's own check has the limit, too, and takes a list for a map with int subscripts."""
        program = load("version 4\nproc control closed map int write int\nregs int\nSIZE v0 d0\nDROPR d0\nSTORE d1 v0\nRET\n")
        self.assertEqual(program.run([7] * 100_000).outputs, [100_000])
        with self.assertRaisesRegex(ValueError, "100001 values, and at most 100000 are taken"):
            program.run([7] * 100_001)
