# SPDX-License-Identifier: Apache-2.0
"""Checks that mypy --strict passes the programs of the builder and of its manual, and finds wrong calls in such files."""

from __future__ import annotations

import os
import re
import shutil
import subprocess
import tempfile
import unittest
from pathlib import Path
from typing import List

import wrong_sources
import yuglemit
from yuglemit import build

HEAD = """from yuglemit.build import Array, Int, Out, Table, Text, check, control, each, insert, leaf, nth, out


@leaf(otherwise=(0, "no"))
def two(n: Int) -> tuple[Int, Text]:
    return n * n, str(n)


@leaf
def put(n: Int, into: Out[Array[Int]]) -> None:
    if check(insert(out.into, n, n)):
        pass


@control
def main(xs: Array[Int], n: Int, y: Out[Int], r: Out[Array[Int]]) -> None:
    for subscript in each(xs, 5):
        put(subscript, out.r, priority=3, worker=1)
    for subscript, member in each(xs, 5):
        put(member, out.r)
    for subscript in xs:
        put(subscript + 1, out.r)
    for subscript, member in each(xs):
        put(member, out.r)
    for subscript in each(range(n), 2000):
        put(subscript + 1, out.r)
    a, b = two(n, priority=n)
"""
WRONG = [
    ("two('a')", "overload"),
    ("two(1, 2)", "overload"),
    ("two()", "overload"),
    ("two(1, often=2)", "overload"),
    ("put(b, out.r)", "overload"),
    ("a = b", "Incompatible types"),
    ("nth(n, 1)", "nth"),
    ("insert(xs, 'a', 1)", "insert|str"),
]


class Types(unittest.TestCase):
    def checked(self, *texts: str) -> str:
        mypy = shutil.which("mypy")
        if mypy is None:
            self.skipTest("mypy isn't installed")
        with tempfile.TemporaryDirectory() as folder:
            files: List[str] = []
            for number, text in enumerate(texts):
                files.append(f"{folder}/user_{number}.py")
                Path(files[-1]).write_text(text, encoding="utf-8")
            its = {"MYPY_CACHE_DIR": f"{folder}/kept", **os.environ, "MYPYPATH": str(Path(yuglemit.__file__).parents[1])}
            words = [mypy, "--strict", "--no-error-summary", *files]
            return subprocess.run(words, stdout=subprocess.PIPE, text=True, check=False, env=its).stdout

    def test_programs(self) -> None:
        self.assertEqual(self.checked(HEAD, *wrong_sources.sources()), "")

    def test_wrong_calls(self) -> None:
        said = self.checked(HEAD + "".join(f"    {line}\n" for line, _ in WRONG))
        for number, (line, word) in enumerate(WRONG, HEAD.count("\n") + 1):
            self.assertTrue(re.search(rf"(?m)user_0.py:{number}: error: .*({word})", said), f"{line}\n{said}")


class AsPython(unittest.TestCase):
    """A leaf function can be called as plain Python."""

    def test_leaf_functions(self) -> None:
        @build.leaf(otherwise=0)
        def square(n: build.Int) -> build.Int:
            return n * n

        self.assertEqual(square(5), 25)

    def test_words_of_the_language(self) -> None:
        kept = build.Array[int]({2: 5, 1: 4})
        self.assertEqual((build.insert(kept, 3, 6), build.insert(kept, 3, 6), kept[3]), (True, False, 6))
        self.assertEqual((build.check(build.insert(kept, 4, 0)), build.check(build.insert(kept, 4, 1)), build.check(2**63)), (True, False, False))
        self.assertEqual((list(build.each(kept, 4)), build.nth(kept, 0), build.byte_length("é")), ([(1, 4), (2, 5), (3, 6), (4, 0)], 1, 2))
        self.assertEqual((list(build.each(range(3))), list(build.each(kept))[1:2]), ([0, 1, 2], [(2, 5)]))
        taken = build.each(kept, 2)
        self.assertEqual((next(taken), next(taken)), ((1, 4), (2, 5)))
        with self.assertRaisesRegex(OverflowError, "more than 2"):
            next(taken)


if __name__ == "__main__":
    unittest.main()
