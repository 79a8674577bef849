# SPDX-License-Identifier: Apache-2.0
"""Files that the compiler may get from anybody: what the top level may have, what is refused where, and that each fault is a BuildError in bounded time."""

from __future__ import annotations

import os
import random
import subprocess
import sys
import tempfile
import time
import unittest
import warnings
from pathlib import Path
from typing import Any, Callable, Dict, List, Tuple

import wrong_sources
import yuglemit
from yuglemit.build import BuildError, build_file, build_text

MUTANTS = int(os.environ.get("MUTANTS", "1500"))
HEAD = "from yuglemit.build import Array, Int, Out, Table, Text, check, control, each, insert, leaf, nth, out\n"
RETURNS_N = "@leaf(otherwise=-1)\ndef f() -> Int:\n    return N\n@control\ndef main(y: Out[Int]):\n    out.y = f()\n"
USE = "@control\ndef main(x: Int, y: Out[Int]):\n    out.y = f(x)\n"
MAIN = "@control\ndef main(x: Int, r: Out[Array[Int]], y: Out[Int]):\n"
WRITER = "@control\ndef main(x: Int, r: Out[Array[Int]]):\n"


def error_of(text: str, file: str = "file.py") -> BuildError:
    """The error of a file that isn't compiled."""
    try:
        built = build_text(text, file)
    except BuildError as why:
        return why
    raise AssertionError(f"it is compiled:\n{text}\n{built.text}")


def run(text: str, *inputs: Any) -> Tuple[str, List[Any]]:
    report = build_text(HEAD + text).program.run(*inputs)
    return report.end, report.partial


class TopLevel(unittest.TestCase):
    """Only docstrings, imports, constants and decorated functions are understood; Python would run the rest."""

    def refused(self, lines: str, line: int, column: int, message: str) -> None:
        with self.subTest(lines):
            why = error_of(HEAD + lines + RETURNS_N)
            self.assertEqual((why.line, why.column), (line, column), why.message)
            self.assertRegex(why.message, message)

    def test_statements_that_python_would_run(self) -> None:
        for lines, line, message in (
            ("N = 2\nN += 1\n", 3, "N \\+= 1 isn't understood here: the top level has docstrings, imports, NAME = constant, and functions.*another name"),
            ("N = 2\nif True:\n    N = 5\n", 3, "if True:.. isn't understood .* write the constant that is meant"),
            ("N = 0\nfor i in range(1, 4):\n    N = i\n", 3, "nothing is repeated here"),
            ("N = 0\nwhile N < 3:\n    N += 1\n", 3, "nothing is repeated here"),
            ("N = 2\ndel N\n", 3, "leave out"),
            ("N = 2\nclass A:\n    pass\n", 3, "types are Int"),
            ("N = 2\nimport os\nos.system('true')\n", 4, "nothing here is run"),
            ("N = 2\nprint(N)\n", 3, "nothing here is run"),
            ("N = 2\nwith open('x') as f:\n    pass\n", 3, "nothing here is run"),
            ("try:\n    N = 2\nexcept ValueError:\n    N = 3\n", 2, "nothing here is run"),
            ("N = 2\nasync def g():\n    pass\n", 3, "write def"),
            ("N = 2\nglobal N\n", 3, "nothing here is run"),
            ("N: int\n", 2, "nothing here is run"),
            ("N = 2\n1 + 1\n", 3, "nothing here is run"),
            ("N = 2\npass\n", 3, "nothing here is run"),
        ):
            self.refused(lines, line, 1, message)

    def test_names_that_are_set_twice(self) -> None:
        for lines, line, column in (
            ("N = 2\nN = 3\n", 3, 1),
            ("N = 2\nN: int = 3\n", 3, 1),
            ("M = N = 2\nM = 3\n", 3, 1),
            ("N, N = 1, 2\n", 2, 4),
            ("N = 2\nfrom os import path as N\n", 3, 1),
            ("from os import path as N\nN = 2\n", 3, 1),
            ("N = 2\nimport N\n", 3, 1),
            ("N = 2\nf = 3\n", 5, 1),
            ("N = 2\n@leaf\ndef N():\n    pass\n", 4, 1),
            ("N = 2\n@leaf\ndef f() -> Int:\n    return 1\n", 7, 1),
        ):
            self.refused(lines, line, column, " is set already, by line ")

    def test_function_whose_name_is_set_again(self) -> None:
        why = error_of(HEAD + "N = 2\n" + RETURNS_N + "f = main\n")
        self.assertEqual((why.line, why.column), (9, 5))
        self.assertRegex(why.message, "^main is no constant: an int, a text")

    def test_what_is_no_constant(self) -> None:
        for lines, column, message in (
            ("N = [1]\n", 5, r"\[1\] is no constant: an int, a text, or an expression of these and of constants above it"),
            ("N = True\n", 5, "True is no constant"),
            ("N = None\n", 5, "None is no constant"),
            ("N = 1.5\n", 5, "1.5 is no constant"),
            ("N = b'a'\n", 5, "is no constant"),
            ("N = int('4')\n", 5, r"int\('4'\) is no constant"),
            ("N = M\n", 5, "M is no constant"),
            ("N = N + 1\n", 5, "is no constant"),
            ("N, M = 1\n", 8, "is no constant"),
            ("N, M = 1, 2, 3\n", 8, "is no constant"),
            ("N, M = 1, N\n", 11, "N is no constant"),
            ("N, *M = 1, 2\n", 4, r"\*M can't be set here"),
            ("N.x = 1\n", 1, "N.x can't be set here"),
            ("out.N = 1\n", 1, "out.N can't be set here"),
            ("N = 'a' * 3\n", 5, "is no constant"),
            ("N = 1 // 0\n", 5, "is no constant"),
            ("N = 2**63\n", 5, "64 bits"),
            ("N = f'{1}'\n", 5, "is no constant"),
            ("len = 2\nN = 1\n", 1, "len is a word of the language"),
            ("leaf = 2\nN = 1\n", 1, "leaf is a word of the language"),
            ("é = 2\nN = 1\n", 1, "ASCII"),
        ):
            self.refused(lines, 2, column, message)

    def test_imports(self) -> None:
        for lines, column, message in (
            ("from os import *\nN = 1\n", 16, "import names"),
            ("from os import nth\nN = 1\n", 16, "nth is a word of the language: it is imported from yuglemit.build"),
            ("from os import path as nth\nN = 1\n", 16, "nth is a word"),
            ("import os as each\nN = 1\n", 8, "each is a word"),
            ("from yuglemit.build import each as every\nN = 1\n", 28, "under its own name"),
            ("from yuglemit.build import leaf as control\nN = 1\n", 28, "under its own name"),
        ):
            self.refused(lines, 2, column, message)

    def test_decorators(self) -> None:
        for lines, line, column, message in (
            ("N = 1\ndef g():\n    pass\n", 3, 1, "g needs one decorator: @leaf if it computes, @control if it calls others"),
            ("N = 1\nimport functools\n@functools.cache\ndef g():\n    pass\n", 4, 2, "needs one decorator"),
            ("N = 1\nimport functools\n@leaf\n@functools.cache\ndef g() -> Int:\n    return 1\n", 5, 2, "needs one decorator"),
            ("N = 1\n@leaf\n@control\ndef g():\n    pass\n", 5, 1, "needs one decorator"),
            ("N = 1\nimport other\n@other.leaf\ndef g():\n    pass\n", 4, 2, "needs one decorator"),
            ("N = 1\n@control(otherwise=1)\ndef g() -> Int:\n    return 1\n", 3, 2, "otherwise is for leaf functions"),
        ):
            self.refused(lines, line, column, message)

    def test_what_is_understood(self) -> None:
        for lines in (
            "N = 4\n", "N: int = 4\n", "M = N = 4\n", "N, M = 4, 'x'\n", "(N, M) = (4, 5)\n", "'''doc'''\n'another'\nN = 2 + 2\n", "M = 2**63 - 1\nN = M - M + 4\n",
            "A: 'Int' = 2\nN = A * A\n", "import os, sys\nimport os.path\nfrom typing import Tuple\nN = 4\n", "from yuglemit.build import *\nN = 4\n", "N = -(-(2**63)) // 2**61\n",
            "import yuglemit.build as b\nN = 4\n@b.leaf\ndef g() -> Int:\n    return 1\n", "from yuglemit import build\nN = 4\n@build.control\ndef g():\n    pass\n",
        ):
            with self.subTest(lines):
                self.assertEqual(run(lines + RETURNS_N), ("quiet", [4]))

    def test_parameters_have_names_of_their_own(self) -> None:
        """A constant in an expression is computed before the run, so a parameter can't have its name."""
        for name in ("N", "g"):
            text = f"N = 2\n@leaf\ndef g() -> Int:\n    return 1\n@leaf(otherwise=0)\ndef f({name}: Int) -> Int:\n    return {name} + 1\n"
            why = error_of(HEAD + text + USE)
            self.assertEqual((why.line, why.column), (7, 7))
            self.assertRegex(why.message, f"^{name} is a function or a constant")
        for line, column in (("N, z = g(x), 1", 5), ("for N in range(2):\n        pass", 9), ("for g in range(2):\n        pass", 9), ("N, z = h(x)", 5)):
            text = "N = 2\n@leaf\ndef g(n: Int) -> Int:\n    return n\n@leaf\ndef h(n: Int) -> tuple[Int, Int]:\n    return n, n\n"
            why = error_of(HEAD + text + f"@control\ndef main(x: Int, y: Out[Int]):\n    {line}\n    out.y = x\n")
            self.assertEqual((why.line, why.column), (11, column), line)
            self.assertRegex(why.message, "is a function, a constant or a word of the language")

    def test_all_functions_are_checked(self) -> None:
        """Also those that main doesn't lead to, and those of a file without main."""
        for body, message in (("with n:\n        pass", "with is not"), ("return [n]", "not of the language"), ("return 'a'", "is Int, and can't be set to Text"), ("return n * n", "64 bits")):
            unused = f"@leaf\ndef g(n: Int) -> Int:\n    {body}\n"
            for text in (unused + "N = 1\n" + RETURNS_N, "N = 1\n" + RETURNS_N + unused, unused):
                why = error_of(HEAD + text)
                self.assertEqual(why.line, HEAD.count("\n") + text[: text.index(body)].count("\n") + 1)
                self.assertRegex(why.message, message)
        library = "@leaf\ndef g(n: Int, c: Array[Int], o: Out[Text]) -> Int:\n    out.o = str(n)\n    return len(c)\n"
        self.assertRegex(error_of(HEAD + library).message, "no function main")
        self.assertNotIn("proc leaf g", build_text(HEAD + library + "N = 1\n" + RETURNS_N).text)


class Outputs(unittest.TestCase):
    """An output is set once, on each way that may run."""

    def test_set_twice(self) -> None:
        for body, line, message in (
            ("out.y = x\n    out.y = 5\n", 5, "out.y may be set already, by line 4: an output is set once"),
            ("if x > 1:\n        out.y = 1\n    out.y = 2\n", 6, "may be set already, by line 5"),
            ("out.y = 1\n    if x > 1:\n        out.y = 2\n", 6, "may be set already, by line 4"),
            ("if x > 1:\n        out.y = 1\n    elif x > 0:\n        pass\n    else:\n        out.y = 3\n    if x < 0:\n        out.y = 2\n", 11, "may be set already, by line [59]"),
            ("for i in range(3):\n        out.y = i\n", 5, "may be set again by the next iteration: set a variable"),
            ("for i in range(3):\n        if i == x:\n            out.y = i\n            continue\n    out.y = 1\n", 6, "again by the next iteration"),
            ("for i in range(3):\n        if i == x:\n            out.y = i\n            break\n    out.y = 1\n", 8, "may be set already, by line 6"),
            ("for i in range(3):\n        for j in range(3):\n            out.y = i\n            break\n", 6, "again by the next iteration"),
            ("if check(n := x * x):\n        out.y = n\n    out.y = 1\n", 6, "may be set already, by line 5"),
        ):
            with self.subTest(body):
                why = error_of(HEAD + "@control\ndef main(x: Int, y: Out[Int]):\n    " + body)
                self.assertRegex(why.message, message)
                self.assertEqual(why.line, line)
        leaf = "@leaf\ndef f(x: Int, y: Out[Int]):\n    out.y = x\n    out.y = 5\n@control\ndef main(x: Int, y: Out[Int]):\n    f(x, out.y)\n"
        self.assertEqual(error_of(HEAD + leaf).line, 5)

    def test_set_once_on_each_way(self) -> None:
        for body, wanted in (
            ("if x > 1:\n        out.y = 1\n    elif x == 1:\n        out.y = 2\n    else:\n        out.y = 3\n", [3, 2, 1]),
            ("for i in range(3):\n        if i == x:\n            out.y = i * 10\n            return\n    out.y = -1\n", [0, 10, 20]),
            ("found = 7\n    for i in range(2):\n        if i == x:\n            found = i\n            break\n    out.y = found\n", [0, 1, 7]),
            ("if check(n := 6 // x):\n        out.y = n\n    else:\n        out.y = -5\n", [-5, 6, 3]),
        ):
            program = build_text(HEAD + "@control\ndef main(x: Int, y: Out[Int]):\n    " + body).program
            self.assertEqual([program.run(x).outputs[0] for x in range(3)], wanted, body)

    def test_results_are_no_outputs(self) -> None:
        for line in ("out.result = 3", "out.result, z = g(n)"):
            text = f"@leaf\ndef g(n: Int) -> tuple[Int, Int]:\n    return n, n\n@control\ndef f(n: Int) -> Int:\n    {line}\n    return n\n"
            self.assertRegex(error_of(HEAD + text + USE).message, "out.result is no output of f; its outputs: none")


class Refused(unittest.TestCase):
    """A refused instruction never looks like success: a control function's run ends stuck, and a leaf function says what happens then."""

    def test_containers_of_control_stay_open(self) -> None:
        text = WRITER + "    out.r[0] = 1\n    out.r[1] = 10 // x\n    out.r[2] = 3\n"
        self.assertEqual(run(text, 5), ("quiet", [{0: 1, 1: 2, 2: 3}]))
        self.assertEqual(run(text, 0), ("stuck", [{0: 1}]))
        report = build_text(HEAD + text).program.run(0)
        self.assertEqual(report.unfinished, [0])

    def test_containers_of_each_type(self) -> None:
        for kind, one in (("Array[Int]", "out.r[1] = x"), ("Array[Text]", "out.r[1] = 'a'"), ("Table[Int]", "out.r['a'] = x"), ("Table[Text]", "out.r['a'] = 'b'")):
            text = f"@control\ndef main(x: Int, r: Out[{kind}]):\n    {one}\n    {one}\n"
            end, outputs = run(text, 5)
            self.assertEqual((end, len(outputs[0])), ("stuck", 1), kind)

    def test_a_container_that_is_made_here_stays_open(self) -> None:
        """Else the task that reads it would see some of its members, and the run would end quiet."""
        text = "@leaf\ndef count(c: Array[Int]) -> Int:\n    return len(c)\n" + "@control\ndef main(x: Int, y: Out[Int]):\n    c = Array[Int]()\n    out.y = count(c)\n    c[1] = 1\n    c[2] = 10 // x\n"
        self.assertEqual((run(text, 5), run(text, 0)), (("quiet", [2]), ("stuck", [None])))

    def test_a_container_that_is_returned_stays_open(self) -> None:
        for made in ("Array[Int]", "Array[Array[Int]]", "Table[Array[Int]]"):
            member = "c[1] = 10 // x\n    c[2] = 2" if made == "Array[Int]" else f"d = Array[Int]()\n    d[1] = 5\n    c[{'1' if made[0] == 'A' else repr('a')}] = d\n    e = 10 // x\n    e = e + 1"
            text = f"@control\ndef f(x: Int) -> {made}:\n    c = {made}()\n    {member}\n    return c\n@leaf\ndef count(c: {made}) -> Int:\n    return len(c)\n"
            text += "@control\ndef main(x: Int, y: Out[Int]):\n    out.y = count(f(x))\n"
            wanted = 2 if made == "Array[Int]" else 1
            self.assertEqual((run(text, 5), run(text, 0)), (("quiet", [wanted]), ("stuck", [None])), made)

    def test_in_a_loop_and_in_a_task_of_its_own(self) -> None:
        fill = "@control\ndef fill(x: Int, r: Out[Array[Int]]):\n    for i in range(3):\n        out.r[i] = 10 // (x - i)\n"
        text = fill + WRITER + "    fill(x, out.r)\n    out.r[9] = 9\n"
        self.assertEqual((run(text, 5), run(text, 1)), (("quiet", [{0: 2, 1: 2, 2: 3, 9: 9}]), ("stuck", [{0: 10, 9: 9}])))

    def test_whoever_can_write_nothing_may_be_refused(self) -> None:
        text = "@control\ndef main(x: Int, y: Out[Int]):\n    f(x, out.y)\n    z = 10 // x\n@leaf\ndef f(x: Int, y: Out[Int]):\n    out.y = x\n"
        self.assertEqual(run(text, 0), ("quiet", [0]))

    def test_many_rights_at_the_refusal(self) -> None:
        """Five outputs and three containers made here are held for ever at once, in the 16 registers."""
        outs = ", ".join(f"r{number}: Out[Array[Int]]" for number in range(5))
        text = "@leaf\ndef count(c: Array[Int]) -> Int:\n    return len(c)\n" + f"@control\ndef main(x: Int, y: Out[Int], {outs}):\n"
        text += "".join(f"    c{number} = Array[Int]()\n" for number in range(3)) + "".join(f"    k{number} = count(c{number})\n" for number in range(2))
        text += "    z = 10 // x\n" + "".join(f"    out.r{number}[0] = z\n" for number in range(5)) + "    out.y = count(c2)\n"
        self.assertEqual((run(text, 0), run(text, 5)), (("stuck", [None, *[{}] * 5]), ("quiet", [0, *[{0: 2}] * 5])))

    def test_leaf_functions_say_what_happens(self) -> None:
        """The error names the cause and the way out, also if containers are all that is written, and if it is in a loop."""
        for kinds, body, column, message in (
            ("n: Int, r: Out[Array[Int]], y: Out[Int]", "out.r[n] = 4\n    out.y = 1", 5, r"^the subscript n may be taken, and .*: write `if check\(insert\(out.r, n, 4\)\):`, or .*, @leaf\(otherwise=..\) with Int"),
            ("n: Int, r: Out[Table[Int]], y: Out[Int]", "out.r[f'{n}'] = n * 2\n    out.y = 1", 21, r"64 bits, and .*: put it into a check\(..\), or say what the result is then, @leaf\(otherwise=..\) with Int"),
            ("n: Int, r: Out[Table[Int]], y: Out[Int]", "out.y = 1\n    out.r[str(n)] = n", 5, r"^the subscript str\(n\) may be taken, .* `if check\(insert\(out.r, str\(n\), n\)\):`, or say"),
            ("n: Int, y: Out[Int]", "out.y = 10 // n", 13, "^the divisor may be 0"),
            ("n: Int, y: Out[Int]", "out.y = 10 % n", 13, "^the divisor may be 0"),
            ("n: Int, y: Out[Int]", "out.y = n // 10 + 1", 13, "^the result may leave 64 bits"),
            ("t: Text, y: Out[Int]", "out.y = int(t)", 13, "^the text may be no number"),
            ("t: Text, y: Out[Text]", "out.y = t + t", 13, "^the text may have more than 4096 bytes"),
            ("t: Text, y: Out[Text]", "out.y = f'{t}.'", 5, "^the text may have more than 4096 bytes"),
            ("c: Array[Int], y: Out[Int]", "out.y = nth(c, 0)", 5, r"^nth\(c, 0\) may not be there"),
            ("n: Int, r: Out[Array[Int]], y: Out[Int]", "out.y = 1\n    for i in range(3):\n        for j in range(3):\n            out.r[i] = j", 13, "^the subscript i may be taken"),
            ("c: Array[Int], y: Out[Int]", "for s in c:\n        pass\n    out.y = 1", 14, r"^c may have more than 1000 members, the most of this loop, and a leaf function can't end without a result: say what the result is"),
        ):
            with self.subTest(body):
                text = f"@leaf\ndef f({kinds}):\n    {body}\n"
                why = error_of(HEAD + text)
                self.assertRegex(why.message, message)
                self.assertEqual((why.line, why.column), (HEAD.count("\n") + text[: text.index(body.split("\n")[-1])].count("\n") + 1 if "for i" in body else why.line, column))

    def test_leaf_functions_that_write_containers_alone(self) -> None:
        """Their containers stay open, whether they say otherwise=() or nothing."""
        text = "@leaf(otherwise=())\ndef f(n: Int, r: Out[Array[Int]]):\n    out.r[n] = 1\n    out.r[n - 7] = 2\n    out.r[0] = 3\n" + WRITER + "    f(x, out.r)\n"
        for its in (text, text.replace("(otherwise=())", "")):
            self.assertEqual((run(its, 8), run(its, 7)), (("quiet", [{8: 1, 1: 2, 0: 3}]), ("stuck", [{7: 1, 0: 2}])))
        self.assertRegex(error_of(HEAD + text.replace("()", "(1,)", 1)).message, r"otherwise: expected \(\), no constant")


class Hostile(unittest.TestCase):
    """Whatever is wrong is a BuildError, after bounded time and memory."""

    LEAF = "@leaf(otherwise=0)\ndef f(a: Int) -> Int:\n    return {}\n" + USE

    def test_faults(self) -> None:
        for name, text, line, column, message in (
            ("a sum of 5000 terms", self.LEAF.format(" + ".join(["a"] * 5000)), 3, 1, "too deeply|too long"),
            ("3000 minus", self.LEAF.format("- " * 3000 + "a"), 3, 1, "too deeply"),
            ("3000 not", self.LEAF.format("1 if " + "not " * 3000 + "a == 1 else 2"), 3, 1, "too deeply"),
            ("101 minus", self.LEAF.format("-" * 101 + "a"), 3, 110, "too deeply: at most 100"),
            ("99 calls", self.LEAF.format("min(a, " * 99 + "a" + ")" * 99), 3, 691, "too deeply: at most 100"),
            ("300 parentheses", self.LEAF.format("(" * 300 + "a" + ")" * 300), 3, 212, "nested"),
            ("300 brackets in a type", HEAD + "@leaf\ndef f(a: " + "Array[" * 150 + "Int" + "]" * 150 + "):\n    pass\n", 3, 0, "too deeply|at most 3"),
            ("types in quotes", HEAD + "@leaf\ndef f(a: '" + "-" * 5000 + "Int'):\n    pass\n", 3, 10, "is no type"),
            ("NUL", "x = 1\ny = '\0'\n", 2, 6, "NUL"),
            ("NUL in a type", HEAD + "@leaf\ndef f(a: 'I\\0nt'):\n    pass\n", 3, 10, "is no type"),
            ("5000 digits", "x = 1\nyy = " + "9" * 5000 + "\n", 2, 6, "64 bits"),
            ("200,000 digits", "x = 0x" + "9" * 200_000 + "\n", 1, 5, "64 bits"),
            ("5000 digits in a function", self.LEAF.format("0x" + "9" * 5000), 3, 12, "64 bits"),
            ("half a character", "x = '\\ud800'\n", 1, 5, "surrogate"),
            ("half a character in a function", self.LEAF.format("byte_length('\\udfff' + str(a))"), 3, 24, "surrogate"),
            ("half a character, not escaped", "x = 1\n# \ud800\n", 2, 3, "surrogate"),
            ("another encoding", "# -*- coding: latin-1 -*-\nx = 'é'\n", 1, 15, "UTF-8"),
            ("ints that double", "X0 = 3\n" + "".join(f"X{number + 1} = X{number} * X{number}\n" for number in range(40)), 7, 6, "64 bits"),
            ("texts that double", "X0 = 'ab'\n" + "".join(f"X{number + 1} = X{number} + X{number}\n" for number in range(40)), 13, 7, "4096 bytes"),
            ("a text of texts", "X = " + "'" + "a" * 4000 + "'" + " + 'a'" * 200 + "\n", 1, 5, "4096 bytes"),
            ("turns past a C size", self.LEAF.format("0").replace("    return 0\n", "    for n in range(-5, 9223372036854775807):\n        a = n\n    return a\n"), 3, 14, "has 9223372036854775812"),
            ("powers", "X = 2 ** 64 ** 64\n", 1, 10, "64 bits"),
            ("a large power", "X = (2 ** 62) ** 64\n", 1, 5, "64 bits"),
            ("300,000 bytes", "#" * 300_000, 1, 1, "at most|the most"),
            ("130,000 characters", "é" * 140_000, 1, 1, "the most"),
            ("elif", self.LEAF.format("0").replace("    return 0\n", "    if a == 0:\n        return 0\n" + "".join(f"    elif a == {number}:\n        return 1\n" for number in range(5000)) + "    return 3\n"), 3, 1, "too long"),
            ("blocks", "@leaf\ndef f(a: Int):\n" + "".join("    " * depth + "if a == 1:\n" for depth in range(1, 99)) + "    " * 99 + "pass\n", 0, 0, "too deeply|too many levels"),
            ("operators", "x = " + "1 +" * 60_000 + "1\n", 1, 1, "too long|too deeply"),
            ("attributes", "x = a" + ".b" * 120 + "\n", 1, 5, "too deeply"),
            ("no end", "x = (", 1, 5, "never closed"),
        ):
            with self.subTest(name):
                before = time.process_time()
                why = error_of(text)
                self.assertLess(time.process_time() - before, 5)
                self.assertRegex(why.message, message)
                self.assertLess(len(why.message), 400)
                if line:
                    self.assertEqual((why.line, why.column if column else 0), (line, column), why.message)

    def test_little_stack_is_left(self) -> None:
        """A caller may be deep itself."""
        text = self.LEAF.format("min(a, " * 90 + "a" + ")" * 90)
        self.assertEqual(build_text(text).program.run(3).outputs, [3])

        def deep(left: int) -> BuildError:
            return deep(left - 1) if left else error_of(text)

        depth = len(__import__("inspect").stack())
        why = deep(sys.getrecursionlimit() - depth - 150)
        self.assertRegex(why.message, "too deeply|too long")

    def test_time_grows_with_the_size(self) -> None:
        """Counted in calls of functions, by which two lengths are compared: at most n log n."""

        def calls(text: str) -> int:
            count = 0

            def notice(frame: Any, event: str, argument: Any) -> None:
                nonlocal count
                count += event == "call"

            sys.setprofile(notice)
            try:
                build_text(text)
            finally:
                sys.setprofile(None)
            return count

        forms: Dict[str, Callable[[int], str]] = {
            "sum": lambda n: self.LEAF.format(" + ".join(["a"] * n)),
            "constants": lambda n: self.LEAF.format("a + (" + " + ".join(["1"] * n) + ")"),
            "products": lambda n: self.LEAF.format(" + ".join(["a * 2"] * n)),
            "text": lambda n: self.LEAF.format("byte_length(" + " + ".join(["str(a)"] * n) + ")"),
            "f-string": lambda n: self.LEAF.format("byte_length(f'" + "{a}" * n + "')"),
            "and": lambda n: self.LEAF.format("1 if " + " and ".join(["a == 1"] * n) + " else 2"),
            "comparisons": lambda n: self.LEAF.format("1 if " + " < ".join(["a"] * n) + " else 2"),
            "statements": lambda n: self.LEAF.format("a\n").replace("    return", "    b = a\n" * n + "    return"),
            "names": lambda n: "".join(f"N{number} = {number}\n" for number in range(n)) + self.LEAF.format("a"),
            "functions": lambda n: "".join(f"@leaf\ndef g{number}(a: Int) -> Int:\n    return a\n" for number in range(n)) + self.LEAF.format("a"),
            "elif": lambda n: self.LEAF.format("0").replace("    return 0", "    if a == 0:\n        a = 1\n" + "".join(f"    elif a == {number}:\n        a = {number}\n" for number in range(n)) + "    return a"),
            "results": lambda n: self.LEAF.format("a") + "    k0 = f(x)\n" + "".join(f"    k{number + 1} = f(k{number})\n" for number in range(n)),
        }
        for name, form in forms.items():
            few, many = calls(form(100)), calls(form(400))
            self.assertLess(many, few * 4 * 1.4, name)

    def test_time_of_sums(self) -> None:
        before = time.process_time()
        program = build_text(self.LEAF.format(" + ".join(["a"] * 900))).program
        self.assertLess(time.process_time() - before, 3)
        self.assertEqual(program.run(5).outputs, [4500])

    def test_changed_programs(self) -> None:
        chance = random.Random(89)
        sources = wrong_sources.sources()
        compiled = 0
        with warnings.catch_warnings():
            warnings.simplefilter("ignore")
            for _ in range(MUTANTS):
                text = wrong_sources.changed(chance.choice(sources), chance)
                before = time.process_time()
                try:
                    assert build_text(text).program
                    compiled += 1
                except BuildError as why:
                    lines = text.replace("\r", "\n").split("\n")
                    self.assertTrue(1 <= why.line <= len(lines) + 1 and why.column >= 1, (why, text))
                    self.assertNotIn("the program is refused", why.message, text)
                self.assertLess(time.process_time() - before, 5, text)
        self.assertGreater(compiled, MUTANTS // 50)

    def test_texts_with_other_line_ends(self) -> None:
        text = HEAD + "N = 4\n" + RETURNS_N
        for end in ("\r\n", "\r"):
            self.assertEqual(build_text(text.replace("\n", end)).program.run().outputs, [4])
            why = error_of((text + "M = N()\n").replace("\n", end))
            self.assertEqual((why.line, why.column), (9, 5))

    def test_characters_in_comments_and_names_of_files(self) -> None:
        """The text has a line of the file as a comment, and its name: neither can end the line there."""
        text = HEAD + "@control\ndef main(y: Out[Int]):\n    out.y = 1  # \x01\x0c\x1f\x7f\x85\u2028\x0b\x1c é\n"
        for file in ("a\nproc leaf x()\n.py", "\udcff.py", "é\r.py", "a;b\\.py", "/", ""):
            built = build_text(text, file)
            self.assertEqual(built.program.run().outputs, [1])
            self.assertEqual(built.text.count("\nproc "), 1)
            self.assertRegex(built.text, "^names\n; Compiled from [ -~]* by yuglemit.build.\n")


    def test_errors_are_printable(self) -> None:
        """Leaves what a terminal would obey, or show in another order, out of messages."""
        for line in ("out.y = 'a\x1b[1A' + x", "out.y = f('\u202eb')", "out.y = '\x9b' % x", "x.b['\x07\x85\u2066']"):
            why = error_of(HEAD + f"@control\ndef main(x: Int, y: Out[Text]):\n    {line}\n", "\x1b[1A\u202e.py")
            self.assertTrue(str(why).isprintable(), ascii(str(why)))


class Files(unittest.TestCase):
    def setUp(self) -> None:
        folder = tempfile.TemporaryDirectory()
        self.addCleanup(folder.cleanup)
        self.path = Path(folder.name) / "file.py"

    def error(self, data: bytes) -> BuildError:
        self.path.write_bytes(data)
        with self.assertRaises(BuildError) as caught:
            build_file(self.path)
        return caught.exception

    def test_bytes(self) -> None:
        why = self.error(b"x = 1\ny = '\xc3\xa9\xff'\n")
        self.assertEqual((why.line, why.column), (2, 7))
        self.assertIn("isn't UTF-8 here", why.message)
        self.assertIn("at most 262144", self.error(b"#" * 262_145).message)
        self.path.write_bytes(b"\xef\xbb\xbf" + (HEAD + "N = 4\n" + RETURNS_N).encode())
        self.assertEqual(build_file(self.path).program.run().outputs, [4])
        self.path.write_bytes((HEAD + "N = 4\n" + RETURNS_N).encode() + b"#" * 250_000)
        self.assertEqual(build_file(self.path).program.run().outputs, [4])

    def test_the_command_prints_no_traceback(self) -> None:
        for data in (b"x = '\xff'", b"\0", b"x = " + b"1 + " * 50_000 + b"1", b"x = " + b"-" * 5000 + b"1", b"x = " + b"9" * 5000, b"x = '\\ud800'", b"#" * 300_000, b"X = 1\nX = 2\n"):
            self.path.write_bytes(data)
            done = subprocess.run([sys.executable, "-m", "yuglemit", "build", str(self.path)], capture_output=True, text=True)
            self.assertEqual((done.returncode, done.stdout), (1, ""), data[:40])
            self.assertRegex(done.stderr, f"^{self.path}:\\d+:\\d+: [^\n]*\n$")

    def test_the_command_shows_no_hidden_characters(self) -> None:
        """A report has them as the text does, but not on a terminal; errors have none."""
        hidden = "\x1b[31m\x9b\u202e"
        command, odd = [sys.executable, "-m", "yuglemit"], self.path.with_name(f"{hidden}.py")
        odd.write_text(HEAD + "@control\ndef main(x: Int, y: Out[Int]):\n    out.y = 1 // x  # \x1b\x9b\n", encoding="utf-8")
        self.path.write_text(HEAD + "@control\ndef main(x: Text, y: Out[Text]):\n    out.y = x\n", encoding="utf-8")
        for words in (["check", f"{odd}x"], ["check", str(odd), hidden], ["check", "--" + hidden, str(odd)], ["run", str(odd), hidden], ["run", str(odd), "0"]):
            done = subprocess.run([*command, *words], capture_output=True, text=True)
            self.assertTrue((done.stdout + done.stderr).replace("\n", "").isprintable(), (words, done))
            self.assertRegex(done.stdout + done.stderr, r"\\(u\{1b\}|x1b)\[31m\\(u\{9b\}|x9b)\\u\{?202e")
        ours, theirs = os.openpty()
        status = subprocess.run([*command, "run", str(self.path), hidden[5:]], stdout=theirs).returncode
        self.assertEqual((status, os.read(ours, 4096)), (0, b'out 0 text "\\u{9b}\\u{202e}"\r\nquiet\r\n'))
        os.close(ours)
        os.close(theirs)
        done = subprocess.run([*command, "run", str(self.path), hidden[5:]], capture_output=True, text=True)
        self.assertEqual(done.stdout, f'out 0 text "{hidden[5:]}"\nquiet\n')

    def test_the_command_says_that_it_cannot_write(self) -> None:
        self.path.write_text(HEAD + "N = 'é'\n@control\ndef main(y: Out[Text]):\n    out.y = N\n", encoding="utf-8")
        command = [sys.executable, "-m", "yuglemit", "build", str(self.path)]
        with open("/dev/full", "w", encoding="utf-8") as full:
            done = subprocess.run(command, stdout=full, stderr=subprocess.PIPE, text=True)
        self.assertEqual(done.returncode, 73)
        self.assertRegex(done.stderr, "^standard output: [^\n]*\n$")
        other = subprocess.run(command, capture_output=True, env={**os.environ, "PYTHONIOENCODING": "ascii"})
        self.assertEqual((other.returncode, other.stderr), (0, b""))
        self.assertIn("é".encode(), other.stdout)
        self.assertEqual(yuglemit.load(other.stdout.decode()).run().outputs, ["é"])


if __name__ == "__main__":
    unittest.main()
