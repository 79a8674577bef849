# SPDX-License-Identifier: Apache-2.0
"""The compiler: the examples written in Python, random functions beside Python's own answers, and every error."""

from __future__ import annotations

import ast
import itertools
import math
import os
import random
import re
import shlex
import shutil
import subprocess
import sys
import tempfile
import types
import unittest
from pathlib import Path
from typing import Any, Dict, List, Tuple

import random_files
import random_programs
import reference
import yuglemit
from common import EXAMPLES, TESTS, example
from yuglemit.build import BuildError, build_file, build_text

HEAD = "from yuglemit.build import Array, Int, Out, Table, Text, byte_length, check, control, each, insert, leaf, nth, out\n"
REFUSED = (-77, "refused")
FUNCTIONS = int(os.environ.get("FUNCTIONS", "1000"))
FILES, SEED = int(os.environ.get("FILES", "300")), int(os.environ.get("SEED", "0"))


def sessions(name: str) -> List[Tuple[List[Any], Dict[str, int]]]:
    """The inputs and the layouts with which the repository shows a program."""
    shown = "".join((EXAMPLES.parent / it).read_text(encoding="utf-8") for it in ("examples/sessions.txt", "docs/IDIOMS.md", "docs/FORMAT.md"))
    found = re.findall(rf"^\$ \./tw run examples/{name}\.twn?\b(.*)$", shown, re.M)
    runs: List[Tuple[List[Any], Dict[str, int]]] = []
    for words in map(shlex.split, found):
        layout = {it: int(number) for it, number in re.findall(r"--(engines|workers)[ =](\d+)", " ".join(words))}
        inputs = [yuglemit.read_input(word) for word in words if ":" in word]
        if "|" not in words and not {"--stats", "--inputs", "--trace"} & set(words):
            runs.append((inputs, layout))
    return runs


class Examples(unittest.TestCase):
    """Each program of examples/ that can be said in Python answers as its text does."""

    def test_programs(self) -> None:
        for path in sorted((TESTS / "programs").glob("*.py")):
            with self.subTest(path.name):
                built = build_file(path)
                twin = EXAMPLES / f"{path.stem}.twn"
                text = yuglemit.load(twin if twin.exists() else twin.with_suffix(".tw"))
                runs = sessions(path.stem)
                self.assertTrue(runs, "nothing shows how to run it")
                for inputs, layout in runs:
                    self.assertEqual(self.answer(built.program, inputs, layout), self.answer(text, inputs, layout), (inputs, layout))

    def answer(self, program: yuglemit.Program, inputs: List[Any], layout: Dict[str, int]) -> Any:
        try:
            report = program.run(*inputs, **layout)  # type: ignore[arg-type]
            return report.end, report.partial
        except yuglemit.Refused as why:
            return why.code
        except TypeError:
            return "no inputs of this program"

    def test_more_inputs(self) -> None:
        chance = random.Random(1)
        for name in ("chain", "mapreduce", "matrix", "sized_loop", "read_member"):
            mine, its = build_file(TESTS / "programs" / f"{name}.py").program, yuglemit.load(EXAMPLES / f"{name}.twn")
            for _ in range(20):
                inputs = {chance.randrange(-20, 20): chance.choice(random_programs.NUMBERS[:12]) for _ in range(chance.randrange(12))}
                self.assertEqual(mine.run(inputs).outputs, its.run(inputs).outputs, (name, inputs))
        mine, its = build_file(TESTS / "programs" / "words.py").program, yuglemit.load(EXAMPLES / "words.twn")
        for _ in range(20):
            words = {number: chance.choice(["the", "cat", "", "é"]) for number in range(chance.randrange(12))}
            self.assertEqual(mine.run(words).outputs, its.run(words).outputs, words)


class RandomFunctions(unittest.TestCase):
    """1,000 random functions answer as Python does."""

    def test_leaf_functions(self) -> None:
        chance = random.Random(76)
        taken = seed = refused = 0
        while taken < FUNCTIONS:
            seed += 1
            compiled, run = random_programs.function(seed)
            text = (
                HEAD + f"@leaf(otherwise={REFUSED!r})\n" + compiled
                + "@control\ndef main(a: Int, b: Int, s: Text, number: Out[Int], words: Out[Text]):\n    out.number, out.words = f(a, b, s)\n"
            )
            try:
                program = build_text(text).program
            except BuildError as why:
                self.assertRegex(str(why), "never reached|more than 16|nothing in .* can be refused|doesn't fit", f"{seed}\n{text}")
                continue
            taken += 1
            names = random_programs.names()
            exec(random_programs.runnable(run), names)
            for _ in range(3):
                a, b, s = chance.choice(random_programs.NUMBERS), chance.randrange(-20, 20), chance.choice(random_programs.WORDS)
                wanted = self.by_python(names["f"], a, b, s)
                refused += wanted == list(REFUSED)
                self.assertEqual(program.run(a, b, s, limit=1_000_000).outputs, wanted, f"{seed} {a} {b} {s!r}\n{text}")
        self.assertLess(seed, 4 * FUNCTIONS)
        self.assertTrue(FUNCTIONS / 10 < refused < FUNCTIONS * 2, refused)

    def by_python(self, function: Any, a: int, b: int, s: str) -> List[Any]:
        try:
            number, words = function(random_programs.Number(a), random_programs.Number(b), random_programs.Word(s))
            return [int(number), str(words)]
        except random_programs.Overflow:
            return list(REFUSED)

    def test_control_functions(self) -> None:
        taken = 0
        for seed in range(FUNCTIONS * 3 // 10):
            chance = random.Random(seed)
            body = random_control(chance)
            text = HEAD + LEAVES + "@control\ndef main(a: Int, b: Int, xs: Array[Int], total: Out[Int], kept: Out[Array[Int]]):\n" + body
            try:
                program = build_text(text).program
            except BuildError as why:
                self.assertRegex(why.message, "^more than 16 values at once", f"{seed}\n{text}")
                continue
            taken += 1
            names: Dict[str, Any] = {"Number": random_programs.Number, "Overflow": random_programs.Overflow}
            exec(PYTHON_LEAVES + "def main(a, b, xs, out):\n" + body, names)
            for _ in range(3):
                a, b = chance.randrange(-5, 6), chance.randrange(-5, 6)
                xs = {chance.randrange(-9, 9): chance.randrange(-9, 9) for _ in range(chance.randrange(5))}
                out = type("Outputs", (), {"kept": {}})()
                try:
                    names["main"](a, b, xs, out)
                except ZeroDivisionError:
                    out.total = None
                report = program.run(a, b, xs)
                end = "stuck" if out.total is None else "quiet"
                self.assertEqual((report.end, report.partial), (end, [out.total, out.kept]), f"{seed} {a} {b} {xs}\n{text}")
        self.assertGreaterEqual(taken, FUNCTIONS * 29 // 100)


class RandomFiles(unittest.TestCase):
    """300 random files, as wholes, answer as Python does: outputs, and whether the run ends stuck, and at which line."""

    not_taken = "more than 16 |never reached|64 bits|can't be returned in a loop|nothing in check.* can be refused|set on one way|V17|nothing reads the result of|this loop makes"

    def test_files(self) -> None:
        taken, stuck, told, number = 0, 0, 0, SEED
        while taken < FILES:
            number += 1
            text = random_files.file(number)
            try:
                program = build_text(text).program
            except BuildError as why:
                self.assertRegex(why.message, self.not_taken, f"{number}\n{text}")
                continue
            taken += 1
            chance = random.Random(number)
            for _ in range(3):
                inputs = random_files.inputs(chance)
                report = program.run(*inputs, limit=1_000_000)
                stuck += report.end == "stuck"
                machine = reference.Machine(text)
                self.assertEqual((report.end, report.partial), machine.run(inputs), f"{number} {inputs}\n{text}")
                if report.end == "stuck":
                    notes = report.refused()
                    lines = {int(it.split(":")[1]) for it in notes}
                    self.assertTrue(lines <= set(machine.refused), f"{number} {inputs} {notes} {machine.refused}\n{text}")
                    told += len(notes)
        print(f"{taken} random files, {3 * taken} runs, {stuck} of them stuck, 0 differ", file=sys.stderr)
        self.assertLess(number - SEED, 2 * FILES + 20)
        self.assertTrue(FILES < 100 or FILES // 20 < stuck < FILES, stuck)
        self.assertTrue(stuck * 9 // 10 <= told <= stuck, (told, stuck))  # some wait for one another without a refused instruction


LEAVES = """@leaf(otherwise=0)
def add(x: Int, y: Int) -> Int:
    return x + y

@leaf(otherwise=0)
def mix(x: Int, y: Int) -> Int:
    return x * 3 - y if x < y else y - x

@control
def both(x: Int, y: Int) -> Int:
    return add(mix(x, y), mix(y, x))

@leaf
def pair(x: Int) -> tuple[Int, Int]:
    return x, x

"""
PYTHON_LEAVES = """
def refused_is_0(task):
    def call(*numbers):
        try:
            return int(task(*map(Number, numbers)))
        except Overflow:
            return 0
    return call

@refused_is_0
def add(x, y):
    return x + y

@refused_is_0
def mix(x, y):
    return x * 3 - y if x < y else y - x

def both(x, y):
    return add(mix(x, y), mix(y, x))

def pair(x):
    return x, x

def each(members, most):
    return sorted(members.items())[:most]

def nth(members, index):
    return sorted(members)[index] if 0 <= index < len(members) else None

def check(found):
    return found is not None

"""


def random_control(chance: random.Random) -> str:
    """The body of a random control function, which Python runs as it is."""
    futures, members = ["p", "q", "r"], list[str]()
    lines = ["p = 0", "q = add(a, b)", "r = b", "r = mix(a, r)"]

    def future(deep: int = 0) -> str:
        if deep < 2 and chance.random() < 0.5:
            return f"{chance.choice(['add', 'mix', 'both'])}({future(deep + 1)}, {future(deep + 1)})"
        if chance.random() < 0.3:
            return chance.choice(["a * 2", "b - a", "a * b + 1", *members, *members] + ["a // b"] * (chance.random() < 0.1))
        return chance.choice([*futures, "a", "b", str(chance.randrange(9))])

    def of_member(indent: str, depth: int) -> None:
        lines.append(f"{indent}if check(k{depth} := nth(xs, {chance.choice(['a', 'b', '0', '1'])})):")
        members.append(f"xs[k{depth}]")
        lines.append(f"{indent}    {chance.choice(futures)} = add({future()}, {future()})")
        statements(indent + "    ", depth + 1, 1)
        members.pop()

    def statements(indent: str, depth: int, count: int) -> None:
        for _ in range(count):
            kind = chance.randrange(9)
            if kind < 4 or depth == 2:
                lines.append(f"{indent}{chance.choice(futures)} = {chance.choice(['add', 'mix', 'both'])}({future()}, {future()})")
            elif kind == 4:
                lines.append(f"{indent}p, q = pair({future()})")
            elif kind == 5:
                lines.append(f"{indent}if a {chance.choice(['<', '==', '>='])} {chance.randrange(-2, 3)}:")
                statements(indent + "    ", depth + 1, 2)
                if chance.random() < 0.6:
                    lines.append(f"{indent}else:")
                    statements(indent + "    ", depth + 1, 1)
            elif kind == 6:
                lines.append(f"{indent}for i{depth} in range({chance.randrange(1, 4)}):")
                if chance.random() < 0.4:
                    lines.append(f"{indent}    if i{depth} == b:")
                    lines.append(f"{indent}        {chance.choice(['break', 'continue'])}")
                statements(indent + "    ", depth + 1, 2)
            elif kind == 7:
                lines.append(f"{indent}for s{depth}, m{depth} in each(xs, 5):")
                lines.append(f"{indent}    q = add(q, m{depth})")
                members.append(f"xs[s{depth}]")
                statements(indent + "    ", depth + 1, 1)
                members.pop()
            else:
                of_member(indent, depth)

    statements("", 0, chance.randrange(2, 6))
    lines.append("for s, m in each(xs, 5):")
    lines.append(f"    out.kept[s] = {chance.choice(['m', 'add(m, p)', 's', 'q', 'add(xs[s], xs[s])', 'add(add(m, q), s * 2)'])}")
    lines.append(f"out.total = {chance.choice([*futures, 'add(p, q)', 'a', 'add(add(p, 1), a * 2)'])}")
    return "".join(f"    {line}\n" for line in lines)


ORDINARY = """@leaf(otherwise=0)
def add(x: Int, y: Int) -> Int:
    return x + y

@control
def fib(n: Int) -> Int:
    if n < 2:
        return n
    return add(fib(n - 1), fib(n - 2))

@control
def from_member(a: Array[Int], i: Int) -> Int:
    if check(s := nth(a, i)):
        return add(a[s], from_member(a, i + 1))
    return 0

@control
def main(x: Int, y: Int, a: Array[Int], q: Out[Int], r: Out[Array[Int]]):
"""
BODIES = (
    ("out.q = add(add(x, 1), x * 2)",),
    ("out.q = add(a[1], a[2])",),
    ("out.r[0] = x", "out.r[1] = y", "out.q = x"),
    ("out.r[0] = add(add(a[1], x * y), a[2])", "out.r[1] = add(a[1], y - x)", "out.q = add(add(x, a[2]), add(a[1], x - 1))"),
    ("out.q = fib(x)",),
    ("out.q = from_member(a, 0)",),
    # The names of two members are taken again while the check may still be refused.
    ("if check(p := add(add(a[1], a[2]), a[x]), member := a[1], member_2 := a[2]):", "    out.q = add(add(member_2, p), add(member, x * y))", "else:", "    out.q = y"),
    # A variable's result is given to a call inside of that whose result is its next one.
    ("k = add(x, y)", "for i in range(3):", "    k = add(add(k, 1), x * i)", "out.q = k"),
    ("k = add(x, y)", "for i in range(3):", "    for j in range(2):", "        k = add(a[2], add(k, i * j - x))", "out.q = k"),
    ("k = add(x, y)", "if check(n := add(add(k, 1), x * y)):", "    out.q = n", "else:", "    out.q = y"),
)

LOOP = ("k = add(x, y)", "for i in range(3):", "    k = add(add(k, 1), y * (x + i))", "    out.r[i] = i", "out.q = k")


def plain(text: str, x: int, y: int, a: Dict[int, int]) -> List[Any]:
    """Returns the outputs q and r of a text that Python runs as it is."""
    out = types.SimpleNamespace(q=None, r={})
    names: Dict[str, Any] = {"out": out, "control": lambda it: it, "leaf": lambda **_: lambda it: it}
    names["check"] = lambda *found: all(it is not None for it in found)
    names["nth"] = lambda members, index: sorted(members)[index] if index < len(members) else None
    exec("from __future__ import annotations\n" + text, names)
    names["main"](x, y, a, None, None)
    return [out.q, out.r]


class Control(unittest.TestCase):
    """Ordinary control functions, whose rights are held while an instruction may be refused, answer as Python does."""

    def test_ordinary(self) -> None:
        for body in BODIES:
            text = ORDINARY + "".join(f"    {line}\n" for line in body)
            with self.subTest(body):
                program = build_text(HEAD + text).program
                for x, y in ((1, 2), (2, -7), (1, 0)):
                    report = program.run(x, y, {1: 10, 2: 5})
                    self.assertEqual((report.end, report.partial), ("quiet", plain(text, x, y, {1: 10, 2: 5})))

    def test_registers_of_expressions_become_variables(self) -> None:
        """The sum needs 12 registers for a moment, and later there are 13 variables."""
        nested = " + (".join(f"x * {number}" for number in range(1, 13)) + ")" * 11
        body = [f"v0 = {nested}", *(f"v{number} = y + {number}" for number in range(1, 11)), "out.q = v0 + " + " * ".join(f"v{number}" for number in range(1, 11))]
        program = build_text(HEAD + ORDINARY + "".join(f"    {line}\n" for line in body)).program
        for x, y in ((0, -1), (3, -4), (-7, 2)):
            self.assertEqual(program.run(x, y, {}).outputs[0], 78 * x + math.prod(y + number for number in range(1, 11)))

    def test_data_at_once(self) -> None:
        """The inputs are ints, read and dropped; a call makes one datum, of which it has both rights for a moment. So 14 fit beside the output."""
        names = [f"i{number}" for number in range(7)]
        head = f"@leaf\ndef f(n: Int) -> Int:\n    return n\n@control\ndef main({', '.join(f'{it}: Int' for it in names)}, q: Out[Int]):\n"
        for count in (14, 15):
            text = head + "".join(f"    r{number} = f({names[number % 7]})\n" for number in range(count)) + f"    out.q = r{count - 1}\n"
            if count == 14:
                self.assertEqual(build_text(HEAD + text).program.run(*range(10, 17)).outputs, [16])
            else:
                held = ", ".join(f"r{number}" for number in range(14))
                with self.assertRaisesRegex(BuildError, f"more than 16 data at once; held here are out.q, {held}, and 1 of this line: make two"):
                    build_text(HEAD + text)

    def test_registers_are_taken_again(self) -> None:
        """Of 20 results each is given away before the next. The variable k has another register later, and in both the next product may be refused."""
        lines = [f"r{number} = add(x, {number})\n    out.r[{number}] = r{number}" for number in range(20)]
        lines += ["k = add(x, y)", "out.r[20] = add(k, x * y)", "n = add(x, y)", "k = add(y, y)", "out.r[21] = add(n, x * y)", "out.q = add(x, y * y)"]
        program = build_text(HEAD + ORDINARY + "".join(f"    {line}\n" for line in lines)).program
        kept = {number: 3 + number for number in range(20)}
        self.assertEqual(program.run(3, 4, {}).outputs, [3 + 16, {**kept, 20: 7 + 12, 21: 7 + 12}])
        report = program.run(3, 2**62, {})
        self.assertEqual((report.end, report.partial), ("stuck", [None, kept]))
        report = program.run(0, 2**62, {})
        self.assertEqual((report.end, report.partial), ("stuck", [None, {number: number for number in range(20)} | {20: 2**62, 21: 2**62}]))

    def test_refused(self) -> None:
        """Past 64 bits, and without a member, the outputs stay unset."""
        for body in (BODIES[0], BODIES[3]):
            program = build_text(HEAD + ORDINARY + "".join(f"    {line}\n" for line in body)).program
            for x, a in ((2**62, {1: 10, 2: 5}), (2, {1: 10})):
                report = program.run(x, 2, a)
                expected = ("quiet", [7, {}]) if body == BODIES[0] and x == 2 else ("stuck", [None, {}])
                self.assertEqual((report.end, report.partial), expected)

    def test_refused_after_a_result_is_given_away(self) -> None:
        """In a check(..) the else follows; a loop ends in the turn in which 1 * (2**63 - 2 + i) doesn't fit."""
        loop = build_text(HEAD + ORDINARY + "".join(f"    {line}\n" for line in LOOP)).program.run(2**63 - 2, 1, {})
        self.assertEqual((loop.end, loop.partial), ("stuck", [None, {0: 0, 1: 1}]))
        check = build_text(HEAD + ORDINARY + "".join(f"    {line}\n" for line in BODIES[-1])).program
        self.assertEqual([check.run(x, 4, {}).outputs[0] for x in (2**62, 2**61, 4)], [4, 4, 25])


MAIN = "@control\ndef main(x: Int, xs: Array[Int], y: Out[Int]):\n"
ERRORS: List[Tuple[str, int, int, str]] = [
    # a text after HEAD, the line and the column of the error, and what it says
    ("", 1, 1, "no function main"),
    ("@leaf\ndef main():\n    pass\n", 3, 1, "main is a control function"),
    ("@control\ndef main(x):\n    pass\n", 3, 10, "has no type"),
    ("@control\ndef main(x: float):\n    pass\n", 3, 13, "expected a type"),
    ("@control\ndef main(x: Array[Array[Int]]):\n    pass\n", 3, 1, "main takes and gives"),
    ("@control\ndef main(x: Array[Array[Array[Array[Int]]]]):\n    pass\n", 3, 13, "at most 3"),
    ("@control\ndef main(*x: Int):\n    pass\n", 3, 1, "no defaults"),
    ("@control\ndef main(x: Int = 3):\n    pass\n", 3, 1, "no defaults"),
    ("@control\ndef main(a: Int, b: Int, c: Int, d: Int, e: Int, f: Int, g: Int, h: Int, i: Int):\n    pass\n", 3, 1, "at most 8"),
    ("@control\ndef main(x: Int, x: Out[Int]):\n    out.x = x\n", 3, 10, "x is another parameter"),
    ("@leaf\ndef f(n: Int, result: Out[Int]) -> Int:\n    return n\n" + MAIN + "    out.y = 1\n", 3, 15, "result is another parameter or what is returned"),
    ("@leaf(often=1)\ndef f():\n    pass\n" + MAIN + "    out.y = 1\n", 2, 2, "otherwise"),
    ("@leaf(otherwise=x)\ndef f() -> Int:\n    return 1\n" + MAIN + "    out.y = 1\n", 2, 17, "expected a constant"),
    ("@leaf(otherwise='x')\ndef f() -> Int:\n    return 1\n" + MAIN + "    out.y = 1\n", 3, 1, "otherwise: expected Int"),
    ("@leaf\ndef f():\n    pass\n@leaf\ndef f():\n    pass\n" + MAIN + "    out.y = 1\n", 6, 1, "f is set already, by line 3"),
    ("@leaf\ndef check():\n    pass\n" + MAIN + "    out.y = 1\n", 3, 1, "word of the language"),
    (MAIN + "    out.y = 1 +\n", 4, 16, "invalid syntax"),
    (MAIN + "    out.y = z\n", 4, 13, "z isn't known"),
    (MAIN + "    out.y = f(x)\n", 4, 13, "f is no function|f isn't known"),
    (MAIN + "    z = 'é' + q\n", 4, 15, "q isn't known"),
    (MAIN + f"    z = '{'é' * 2049}'\n", 4, 9, "more than 4096 bytes"),
    (MAIN + "    out.z = 1\n", 4, 5, "no output"),
    (MAIN + "    y = 1\n", 4, 5, "y is a parameter: out.y"),
    (MAIN + "    xs = 1\n", 4, 5, "has one type|is a parameter"),
    (MAIN + "    out.y = 'a'\n", 4, 5, "out.y is Int, and can't be set to Text"),
    (MAIN + "    z = 1\n    z = 'a'\n", 5, 5, "has one type"),
    (MAIN + "    pass\n", 4, 5, "out.y may be unset at the end"),
    (MAIN + "    if x > 1:\n        out.y = 1\n", 4, 5, "out.y may be unset at the end"),
    (MAIN + "    if x > 1:\n        z = 1\n    out.y = z\n", 6, 13, "z may be unset"),
    (MAIN + "    for i in range(3):\n        pass\n    out.y = i\n", 6, 13, "i may be unset"),
    (MAIN + "    out.y = x / 2\n", 4, 13, "// divides ints"),
    (MAIN + "    out.y = x ** x\n", 4, 13, "not of the language"),
    (MAIN + "    out.y = 2**63\n", 4, 13, "64 bits"),
    (MAIN + "    out.y = x + 'a'\n", 4, 17, "expected Int, found 'a'"),
    (MAIN + "    out.y = len('a')\n", 4, 13, "byte_length"),
    (MAIN + "    out.y = int(x)\n", 4, 17, "expected Text, found x"),
    (MAIN + "    out.y = min(x)\n", 4, 13, "min takes 2 arguments"),
    (MAIN + "    out.y = xs[1] + 1\n", 4, 13, "known only when its task has run"),
    (MAIN + "    with x:\n        pass\n", 4, 5, "with is not of the language"),
    (MAIN + "    while x:\n        pass\n", 4, 11, "expected a comparison, found x"),
    (MAIN + "    for i in range('a'):\n        pass\n", 4, 20, "expected Int, found 'a'"),
    (MAIN + "    for i in range(1, 2, 3, 4):\n        pass\n", 4, 14, "range takes one to three ints"),
    (MAIN + "    for i in range(1, 2, x):\n        pass\n", 4, 14, "the step of a range is a constant, and not 0"),
    (MAIN + "    for i in range(100_001):\n        pass\n", 4, 14, r"makes 1 to 100000 turns, and range\(100_001\) has 100001"),
    (MAIN + "    for i in each(range(9), 8):\n        pass\n", 4, 19, r"makes 1 to 8 turns, and range\(9\) has 9"),
    (MAIN + "    for i in range(0):\n        pass\n", 4, 14, r"makes 1 to 100000 turns, and range\(0\) has 0"),
    (MAIN + "    for i in range(1, 9, 0):\n        pass\n", 4, 14, "the step of a range is a constant, and not 0"),
    (MAIN + "    for i in range(3):\n        i = 1\n", 5, 9, "counts the turns"),
    (MAIN + "    for i in each(xs, x):\n        pass\n", 4, 14, "the most turns, a constant from 1 to 100000"),
    (MAIN + "    for i in each(xs, 100_001):\n        pass\n", 4, 14, "the most turns, a constant from 1 to 100000"),
    (MAIN + "    for i in each(xs, 1, most=1):\n        pass\n", 4, 14, "the most turns"),
    (MAIN + "    for i in each(xs, often=1):\n        pass\n", 4, 14, "the most turns"),
    (MAIN + "    for i in x:\n        pass\n", 4, 14, "no container"),
    (MAIN + "    for i in range(2):\n        for j in range(2):\n            for k in range(2):\n                for l in range(2):\n                    for m in range(2):\n                        pass\n", 8, 21, "at most 4 loops"),
    (MAIN + "    break\n", 4, 5, "for loops"),
    (MAIN + "    out.y = 1\n    return\n    x = 2\n", 6, 5, "never reached"),
    (MAIN + "    x\n", 4, 5, "does nothing"),
    (MAIN + "    if x:\n        pass\n", 4, 8, "expected a comparison"),
    (MAIN + "    if x is 1:\n        pass\n", 4, 8, "found another comparison"),
    (MAIN + "    if 'a' < x:\n        pass\n", 4, 14, "expected Text, found x, which is Int"),
    (MAIN + "    if check(x) and x > 1:\n        pass\n", 4, 8, "whole condition"),
    (MAIN + "    if check(x):\n        pass\n", 4, 8, "nothing in check"),
    (MAIN + "    kept = Array[Int]()\n    if 1 in kept:\n        pass\n", 5, 13, "isn't complete here"),
    (MAIN + "    kept = Array[Int](1)\n", 4, 12, "begins empty"),
    (MAIN + "    xs[1] = 2\n", 4, 5, "can't be written"),
    ("@leaf\ndef f(n: Int) -> Int:\n    return n * n\n" + MAIN + "    out.y = f(x)\n", 4, 12, "otherwise"),
    ("@leaf\ndef f(n: Int) -> Int:\n    return g(n)\n@leaf\ndef g(n: Int) -> Int:\n    return n\n" + MAIN + "    out.y = f(x)\n", 4, 12, "calls no task"),
    ("@leaf\ndef f(ns: Array[Int]) -> Int:\n    for s, n in ns:\n        pass\n    return 1\n" + MAIN + "    out.y = f(xs)\n", 4, 9, "can't wait for members"),
    ("@leaf\ndef f(n: Int) -> Int:\n    return n\n" + MAIN + "    out.y = f()\n", 7, 13, "takes 1 argument"),
    ("@leaf\ndef f(n: Int) -> Int:\n    return n\n" + MAIN + "    out.y = f('a')\n", 7, 15, "expected Int"),
    ("@leaf\ndef f(n: Int) -> Int:\n    return n\n" + MAIN + "    out.y = f(x, often=1)\n", 7, 24, "keywords priority and worker"),
    ("@leaf\ndef f(n: Int) -> Int:\n    return n\n" + MAIN + "    out.y = f(x, worker=16)\n", 7, 25, "0 to 15"),
    ("@leaf\ndef f(n: Int) -> Int:\n    return n\n" + MAIN + "    out.y = f(x)\n    out.y = f(x)\n", 8, 5, "out.y is set already"),
    ("@leaf\ndef f(n: Int) -> Int:\n    return n\n" + MAIN + "    if x > 1:\n        out.y = f(x)\n", 7, 5, "set it on each"),
    ("@leaf\ndef f(n: Int) -> Int:\n    return n\n" + MAIN + "    for i in range(2):\n        out.y = f(x)\n", 8, 9, "not in a loop"),
    ("@leaf\ndef f(n: Int) -> tuple[Int, Int]:\n    return n, n\n" + MAIN + "    out.y = f(x)\n", 7, 13, "2 results: one is needed|has 2 results"),
    ("@leaf\ndef f(n: Int) -> Int:\n    return n\n" + MAIN + "    a, b = f(x)\n", 7, 12, "1 results, 2 are asked"),
    ("@leaf\ndef f(n: Int) -> Int:\n    return n\n@control\ndef g(n: Int) -> Int:\n    for i in range(3):\n        if i == n:\n            return f(n)\n    return n\n" + MAIN + "    out.y = g(x)\n", 9, 13, "a result that is known later.* can't be returned in a loop: .* return that after the loop"),
    ("@leaf\ndef f(n: Int) -> tuple[Int, Int]:\n    return n, n\n@control\ndef g(ns: Array[Int]) -> tuple[Int, Int]:\n    for s, n in ns:\n        return f(n)\n    return 1, 2\n" + MAIN + "    v, z = g(xs)\n    out.y = v\n", 8, 9, "a result that is known later"),
    ("@control\ndef g(ns: Array[Int]) -> tuple[Int, Int]:\n    for s, n in ns:\n        return 1, n\n    return 1, 2\n" + MAIN + "    v, z = g(xs)\n    out.y = v\n", 5, 9, "a result that is known later"),
    ("@leaf\ndef f(n: Int) -> Int:\n    return 'a'\n" + MAIN + "    out.y = f(x)\n", 4, 12, "the result of f is Int, and can't be set to Text"),
    ("@leaf\ndef f(n: Int) -> tuple[Int, Text]:\n    return n, n\n" + MAIN + "    out.y, z = f(x)\n", 4, 15, "result 2 of f is Text, and can't be set to Int"),
    (MAIN + "    main(x, xs, out.y)\n", 4, 5, "called by the run alone"),
    (MAIN + "".join(f"    v{i} = x\n" for i in range(16)) + "    out.y = 1\n", 19, 5, "more than 16 values"),
    ("@leaf\ndef f(n: Int) -> Int:\n    return n\n" + MAIN + "".join(f"    v{i} = f(x)\n" for i in range(16)) + "    out.y = 1\n", 20, 5, "more than 16 data at once; held here are xs, out.y, v0, v1, v2, v3, v4, v5, v6, v7, v8, v9, v10, v11, v12, and 1 of this line: make"),
    (MAIN + "    for a in range(1000):\n        for b in range(1000):\n            for c in range(1000):\n                for d in range(1000):\n                    pass\n    out.y = 1\n", 4, 5, r"\(V17\). Its loops make 1000 \(line 4\) times 1000 \(line 5\) times 1000 \(line 6\) times 1000 \(line 7\) turns: read fewer"),
]


class Errors(unittest.TestCase):
    def test_each(self) -> None:
        for text, line, column, message in ERRORS:
            with self.subTest(text):
                with self.assertRaises(BuildError) as caught:
                    assert build_text(HEAD + text, "file.py").program
                why = caught.exception
                self.assertRegex(why.message, message)
                self.assertEqual((why.line, why.column, why.file), (line, column, "file.py"), why.message)
                self.assertTrue(str(why).startswith(f"file.py:{line}:{column}: "))


class Refused(unittest.TestCase):
    """An instruction that is refused outside of check(..) leaves outputs unset, or gives what `otherwise` says."""

    def run_text(self, text: str, *inputs: Any) -> yuglemit.Report:
        return build_text(HEAD + text).program.run(*inputs)

    def test_output_of_control_stays_unset(self) -> None:
        text = "@control\ndef main(x: Int, y: Out[Int], z: Out[Text]):\n    out.y = x * x\n    out.z = str(x)\n"
        self.assertEqual(self.run_text(text, 3).outputs, [9, "3"])
        report = self.run_text(text, 2**62)
        self.assertEqual((report.end, report.partial, report.unfinished), ("stuck", [None, None], [0, 1]))

    def test_leaf_gives_otherwise(self) -> None:
        text = "@leaf(otherwise=(-1, 'no'))\ndef f(n: Int) -> tuple[Int, Text]:\n    return n * n, 'yes'\n@control\ndef main(x: Int, y: Out[Int], z: Out[Text]):\n    out.y, out.z = f(x)\n"
        self.assertEqual(self.run_text(text, 3).outputs, [9, "yes"])
        self.assertEqual(self.run_text(text, 2**62).outputs, [-1, "no"])

    def test_second_member_of_a_subscript_is_refused(self) -> None:
        text = "@control\ndef main(y: Out[Array[Int]]):\n    out.y[1] = 1\n    out.y[1] = 2\n    out.y[2] = 3\n"
        self.assertEqual(self.run_text(text).partial, [{1: 1}])

    def test_refused_in_a_loop(self) -> None:
        text = "@control\ndef main(y: Out[Array[Int]], n: Out[Int]):\n    n = 0\n    for i in range(5):\n        for j in range(3):\n            out.y[i * j] = i\n    out.n = 1\n"
        with self.assertRaises(BuildError):
            self.run_text(text)
        report = self.run_text(text.replace("    n = 0\n", ""))
        self.assertEqual((report.end, report.partial), ("stuck", [{0: 0}, None]))

    def test_least_int(self) -> None:
        text = "@control\ndef main(x: Int, d: Int, q: Out[Int], r: Out[Int]):\n    out.r = x % d\n    if check(found := x // d):\n        out.q = found\n    else:\n        out.q = 5\n"
        self.assertEqual(self.run_text(text, -(2**63), -1).outputs, [5, 0])
        for x in (-7, 7, -(2**63), 2**63 - 1, 6, 0):
            for d in (-3, 3, 2, -2, 7, 1, 2**63 - 1, -(2**63)):
                self.assertEqual(self.run_text(text, x, d).outputs, [x // d, x % d], (x, d))


class Texts(unittest.TestCase):
    """Checks what an answer doesn't show, or what other tests don't use."""

    def test_priority_and_target(self) -> None:
        leaf = "@leaf\ndef f(n: Int) -> Int:\n    return n\n"
        text = build_text(HEAD + leaf + "@control\ndef main(x: Int, y: Out[Int]):\n    a = f(x, priority=-7)\n    b = f(a, worker=3)\n    out.y = f(b, priority=x)\n").text
        calls = [line.split()[:4] for line in text.split("\n") if line.startswith(("PUT", "RULE"))]
        self.assertEqual(calls, [["PUT", "f", "-7", "any"], ["RULE", "f_2", "0", "3"], ["RULEV", "f_2", calls[2][2], "any"]])
        self.assertRegex(calls[2][2], "^[a-z]")

    def test_return_in_a_loop_of_a_control_function(self) -> None:
        """A value can be returned there; the advice of the error for another is followed in g."""
        text = LEAVES + "@control\ndef f(n: Int) -> Int:\n    for i in range(4):\n        if i == n:\n            return i * 10\n    return 7\n"
        text += "@control\ndef g(n: Int) -> Int:\n    found = add(n, 0)\n    for i in range(4):\n        if i == n:\n            found = add(found, i * 10)\n            break\n    return found\n"
        text += "@control\ndef main(n: Int, x: Out[Int], y: Out[Int]):\n    out.x, out.y = f(n), g(n)\n"
        self.assertEqual([build_text(HEAD + text).program.run(n).outputs for n in (0, 3, 4)], [[0, 0], [30, 33], [7, 4]])

    def test_constants(self) -> None:
        numbers = ("-7 // 2", "-7 % 3", "7 // -2", "2**62 - 1 + 2**62", "-(2**63)", "3 * (4 - 6)")
        for number in numbers:
            report = build_text(HEAD + f"N = {number}\n@control\ndef main(y: Out[Int]):\n    out.y = N\n").program.run()
            self.assertEqual(report.outputs, [eval(number)], number)

    def test_break_beside_return(self) -> None:
        leaf = "@leaf\ndef f(n: Int) -> Int:\n    for i in range(5):\n        if i == n:\n            break\n        if i == 3:\n            return 100\n    return 7\n"
        program = build_text(HEAD + leaf + "@control\ndef main(x: Int, y: Out[Int]):\n    out.y = f(x)\n").program
        self.assertEqual([program.run(number).outputs for number in (0, 2, 3, 4, 9)], [[7], [7], [7], [100], [100]])

    def test_characters_of_texts(self) -> None:
        word = "\x01\x1f \"\\\n\t\x7f\x80é\u2028\U0001f600"
        built = build_text(HEAD + f"@control\ndef main(y: Out[Text]):\n    out.y = {word!a}\n")
        self.assertEqual(built.program.run().outputs, [word])
        self.assertNotRegex(built.text, "[\x00-\x09\x0b-\x1f\x7f]")

    def test_names_that_the_text_has_no_place_for(self) -> None:
        """Words of the assembly, names of registers, other first letters and more than 64 bytes; f(f(4)) is 6, and f has two forms."""
        words = ["any", "v0", "d15", "val", "closed", "ref", "write", "_f", "__", "_", "f" * 64, "f" * 65, "f" * 300, "the_v0"]
        for f, its in itertools.product(words, ("n", "f", *words)):
            text = f"@leaf(otherwise=0)\ndef {f}(n: Int) -> Int:\n    return n + 1\n@control\ndef main(x: Int, y: Out[Int]):\n    {its} = x * 2\n    out.y = {f}({f}({its}))\n"
            if f != its:
                self.assertEqual(build_text(HEAD + text).program.run(2).outputs, [6], (f, its))

    def test_functions_whose_names_are_changed(self) -> None:
        """These differ from the 51st letter on, or only by how the first is changed."""
        names = ["f" * 50 + it for it in ("", "a", "b")] + ["v0", "the_v0", "the_v0_2"]
        text = "".join(f"@leaf(otherwise=0)\ndef {name}(n: Int) -> Int:\n    return n * 10 + {number}\n" for number, name in enumerate(names))
        text += "@control\ndef main(y: Out[Int]):\n    out.y = " + "(".join(names) + "(0" + ")" * len(names) + "\n"
        self.assertEqual(build_text(HEAD + text).program.run().outputs, [543210])

    def test_functions_with_names_of_helpers(self) -> None:
        text = "@leaf\ndef copy_int(n: Int) -> Int:\n    return n\n@control\ndef main(x: Int, y: Out[Int]):\n    a = copy_int(x)\n    out.y = a\n"
        self.assertEqual(build_text(HEAD + text).program.run(8).outputs, [8])


class Manual(unittest.TestCase):
    def test_programs_of_the_manual(self) -> None:
        text = (EXAMPLES.parent / "docs" / "BUILD.md").read_text(encoding="utf-8")
        shown = re.findall(r"```python\n(.*?)```\n\nWith `(.*?)` it gives `(.*?)`\.", text, re.S)
        self.assertEqual(len(shown), 4)
        self.assertEqual(text.count("```python"), 4)
        for code, given, wanted in shown:
            with self.subTest(given):
                self.assertLess(len([line for line in code.split("\n") if line]), 20)
                report = build_text(code).program.run(*ast.literal_eval(f"({given},)"))
                self.assertEqual((report.end, report.partial), ("quiet", list(ast.literal_eval(f"({wanted},)"))))


class Command(unittest.TestCase):
    def test_build_writes_the_text(self) -> None:
        path = TESTS / "programs" / "pipeline.py"
        done = subprocess.run([sys.executable, "-m", "yuglemit", "build", str(path)], capture_output=True, text=True)
        self.assertEqual((done.returncode, done.stderr), (0, ""))
        self.assertEqual(done.stdout, build_file(path).text)
        self.assertEqual(yuglemit.load(done.stdout).run(39).outputs, yuglemit.load(example("pipeline.twn")).run(39).outputs)
        self.assertIn("; 13: out.to = add_one(add_one(add_one(start)))\n", done.stdout)

    def test_build_tells_where(self) -> None:
        with tempfile.TemporaryDirectory() as folder:
            path = Path(folder) / "wrong.py"
            path.write_text(HEAD + MAIN + "    out.y = z\n")
            done = subprocess.run([sys.executable, "-m", "yuglemit", "build", str(path)], capture_output=True, text=True)
            self.assertEqual((done.returncode, done.stdout), (1, ""))
            self.assertIn(f"{path}:4:13: z isn't known", done.stderr)
            done = subprocess.run([sys.executable, "-m", "yuglemit", "build", f"{folder}/none.py"], capture_output=True, text=True)
            self.assertEqual(done.returncode, 66)

    def test_build_says_what_it_lacks(self) -> None:
        program = str(TESTS / "programs" / "pipeline.py")
        with tempfile.TemporaryDirectory() as folder:
            done = subprocess.run([sys.executable, "-m", "yuglemit", "build", program, "-o", f"{folder}/none/out.twn"], capture_output=True, text=True)
            self.assertEqual((done.returncode, done.stdout), (73, ""))
            self.assertRegex(done.stderr, "^[^\n]*/none/out.twn: .*No such file[^\n]*\n$")
            shutil.copytree(Path(yuglemit.__file__).parent, f"{folder}/yuglemit", ignore=shutil.ignore_patterns("*.so", "__pycache__"))
            alone = {name: it for name, it in os.environ.items() if name != "YUGLEMIT_LIBRARY"}
            done = subprocess.run([sys.executable, "-B", "-m", "yuglemit", "build", program], capture_output=True, text=True, env={**alone, "PYTHONPATH": folder}, cwd=folder)
            self.assertEqual((done.returncode, done.stdout), (70, ""))
            self.assertRegex(done.stderr, "^[^\n]*pipeline.py isn't verified: [^\n]*YUGLEMIT_LIBRARY[^\n]*\n$")

    def test_load_takes_a_python_file(self) -> None:
        self.assertEqual(yuglemit.load(TESTS / "programs" / "pipeline.py").run(39).outputs, [42])

    def test_load_shows_no_frames_of_the_compiler(self) -> None:
        with tempfile.TemporaryDirectory() as folder:
            path = Path(folder) / "wrong.py"
            path.write_text(HEAD + MAIN + "    for i in range(1000):\n        for j in range(1000):\n            for k in range(1000):\n                pass\n    out.y = 1\n")
            code = f"import pathlib, yuglemit\nyuglemit.load(pathlib.Path({str(path)!r}))"
            done = subprocess.run([sys.executable, "-c", code], capture_output=True, text=True)
        self.assertNotIn("yuglemit/build", done.stderr)
        self.assertEqual((done.stderr.count("Traceback"), done.stderr.count("  File ")), (1, 2))
        self.assertRegex(done.stderr.splitlines()[-1], f"^yuglemit.build.BuildError: {path}:4:5: a task of main may take .* \\(V17\\)")

    def test_run(self) -> None:
        """Inputs are words of tw, or values of Python; a text may be as it is."""
        with tempfile.TemporaryDirectory() as folder:
            path = f"{folder}/divided.py"
            Path(path).write_text(HEAD + "@control\ndef main(size: Int, xs: Array[Int], word: Text, y: Out[Int], z: Out[Text]):\n    out.y = 10 // size\n    out.z = word\n")
            whole = "out 0 int -4\nout 1 text \"a b\"\nquiet\n"
            stuck = "out 0 unset\nout 1 unset\nstuck 1\nwaits 1 8 1\ndivided.py:4: out.y = 10 // size: the divisor is 0\n"
            for words, status, wanted in (
                (["-3", "[]", "a b"], 0, whole), (["int:-3", "ints:", "text:a b"], 0, whole), (["--", "-3", "{1: 2}", "'a b'"], 0, whole),
                (["0", "[1, 2]", ""], 3, stuck), (["x", "[]", ""], 2, ""), (["1", "[]"], 2, ""), (["1", "[", ""], 2, ""), (["'a'", "[]", ""], 2, ""), (["1", "[]", "--limit"], 2, ""),
            ):
                done = subprocess.run([sys.executable, "-m", "yuglemit", "run", path, *words], capture_output=True, text=True)
                self.assertEqual((done.returncode, done.stdout), (status, wanted), words)
                self.assertRegex(done.stderr, "^[^\n]+\n$" if status == 2 else "^$")
            done = subprocess.run([sys.executable, "-m", "yuglemit", "run", "--limit", "2", path, "1", "[]", ""], capture_output=True, text=True)
            self.assertEqual((done.returncode, done.stdout), (4, "out 0 unset\nout 1 unset\nlimit\n"))
            done = subprocess.run([sys.executable, "-m", "yuglemit", "check", path], capture_output=True, text=True)
            self.assertEqual((done.returncode, done.stdout), (0, build_file(path).program.checked))


if __name__ == "__main__":
    unittest.main()
