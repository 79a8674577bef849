# SPDX-License-Identifier: Apache-2.0
"""Version 5 of the language in the compiler: parts of texts, what is sought in them, bits, muldiv, words, and `while`; and programs of these."""

from __future__ import annotations

import csv
import json
import os
import random
import re
import unittest
from collections import Counter
from typing import Any, Callable, Dict, List, Optional, Tuple, Union

from common import EXAMPLES, TESTS
from yuglemit import Program, build, load
from yuglemit.build import BuildError, build_file, build_text

HEAD = "from yuglemit.build import Int, Out, Text, byte, byte_length, check, control, each, find, leaf, muldiv, out, span, split, until\n"
LEAST, MOST = -(2**63), 2**63 - 1
NONE = -77
Value = Union[int, str]
INTS = [0, 1, -1, 2, -2, 3, 7, -8, 62, 63, 64, MOST, LEAST, LEAST + 1, 12345, -99999, 2**62, -(2**62)]
TEXTS = ["", "a", "ab", "abc, de", "é", "aéb", "x  y", "  a", "a,", "日本", "abab", "k"]


def of_leaf(parameters: str, body: str, otherwise: Value = NONE) -> Program:
    """A program whose output is the result of a leaf function."""
    names = ", ".join(it.split(":")[0] for it in parameters.split(", "))
    kind = "Int" if isinstance(otherwise, int) else "Text"
    inner = "".join(f"    {line}\n" for line in body.split("\n"))
    text = f"@leaf(otherwise={otherwise!r})\ndef f({parameters}) -> {kind}:\n{inner}\n@control\ndef main({parameters}, y: Out[{kind}]):\n    out.y = f({names})\n"
    return build_text(HEAD + text).program


def fits(number: Optional[int]) -> int:
    return number if number is not None and LEAST <= number <= MOST else NONE


def exact(product: int, divisor: int, result: Callable[[], int]) -> Optional[int]:
    """A result by a product, which may leave 64 bits if the divisor is above 0 and the quotient doesn't."""
    if not LEAST <= product <= MOST:
        quotient = abs(product) // max(divisor, 1) * (1 if product > 0 else -1)
        return result() if divisor > 0 and LEAST <= quotient <= MOST else None
    return result() if divisor else None


def part(text: str, start: int, end: int) -> str:
    """A part of a text by bytes; neither end may be inside of a character."""
    try:
        pieces = [text.encode()[at:to].decode() for at, to in ((0, start), (start, end))]
    except UnicodeDecodeError:
        return "!"
    return pieces[1] if 0 <= start <= end <= len(text.encode()) else "!"


def refused(call: Callable[[], int]) -> int:
    try:
        return call()
    except (IndexError, ValueError):
        return NONE


def is_in(text: str, start: int) -> bool:
    return 0 <= start <= len(text.encode())


# Parameters, what is returned, and the same in Python.
OF_INTS: Dict[str, Tuple[int, Callable[..., Any]]] = {
    "a & b": (2, lambda a, b: a & b),
    "a | b": (2, lambda a, b: a | b),
    "a ^ b": (2, lambda a, b: a ^ b),
    "~a": (1, lambda a: ~a),
    "a << b": (2, lambda a, b: a << b if 0 <= b <= 62 else None),
    "a >> b": (2, lambda a, b: a >> b if 0 <= b <= 63 else None),
    "a << 3 | 5 & a": (1, lambda a: a << 3 | 5 & a),
    "a * b // c": (3, lambda a, b, c: exact(a * b, c, lambda: int(a * b // c))),
    "a * b % c": (3, lambda a, b, c: exact(a * b, c, lambda: int(a * b % c))),
    "a * b % 4611686018427387847 + 1": (2, lambda a, b: exact(a * b, 2**62 - 57, lambda: int(a * b % (2**62 - 57) + 1))),
    "muldiv(a, b, c)": (3, lambda a, b, c: int(build.muldiv(a, b, c)) if c > 0 else None),
}
OF_TEXTS: Dict[str, Callable[[str, str, int], int]] = {
    "byte(t, i)": lambda t, p, i: refused(lambda: build.byte(t, i)) if i >= 0 else NONE,
    "find(t, p, i)": lambda t, p, i: refused(lambda: build.find(t, p, i)) if is_in(t, i) else NONE,
    "find(t, p)": lambda t, p, i: refused(lambda: build.find(t, p)),
    "span(t, p, i)": lambda t, p, i: build.span(t, p, i) if is_in(t, i) else NONE,
    "until(t, p, i)": lambda t, p, i: build.until(t, p, i) if is_in(t, i) else NONE,
    "1 if p in t else 0": lambda t, p, i: int(p in t),
    "1 if p not in t and i != 9 else 0": lambda t, p, i: int(p not in t),
    "1 if t.startswith(p) else 0": lambda t, p, i: int(t.startswith(p)),
    "1 if not t.startswith(p) or t == p else 0": lambda t, p, i: int(not t.startswith(p) or t == p),
    **{f"1 if t {it} p else 0": eval(f"lambda t, p, i: int(t {it} p)") for it in ("<", "<=", ">", ">=")},
}


class Values(unittest.TestCase):
    def test_ints(self) -> None:
        chance = random.Random(5)
        for words, (count, wanted) in OF_INTS.items():
            program = of_leaf(", ".join(f"{it}: Int" for it in "abc"[:count]), f"return {words}")
            for _ in range(150):
                inputs = [chance.choice([*INTS, *range(64)]) for _ in range(count)]
                self.assertEqual(program.run(*inputs).outputs, [fits(wanted(*inputs))], (words, inputs))

    def test_texts(self) -> None:
        chance = random.Random(6)
        for words, wanted in OF_TEXTS.items():
            program = of_leaf("t: Text, p: Text, i: Int", f"return {words}")
            for _ in range(120):
                text, other, place = chance.choice(TEXTS), chance.choice(TEXTS), chance.randrange(-1, 8)
                self.assertEqual(program.run(text, other, place).outputs, [wanted(text, other, place)], (words, text, other, place))

    def test_parts(self) -> None:
        program = of_leaf("t: Text, i: Int, j: Int", 'return t[i:j] + "|" + t[i:] + "|" + t[:j]', "!")
        for text in TEXTS:
            for start in range(-1, 8):
                for end in range(-1, 8):
                    parts = [part(text, start, end), part(text, start, len(text.encode())), part(text, 0, end)]
                    self.assertEqual(program.run(text, start, end).outputs, ["!" if "!" in parts else "|".join(parts)], (text, start, end))

    def test_check(self) -> None:
        program = of_leaf("t: Text, i: Int", "if check(p := t[i:i + 2]):\n    return byte_length(p)\nreturn 99")
        self.assertEqual([program.run(*it).outputs[0] for it in (("abcd", 1), ("abcd", 3), ("aé", 0))], [2, 99, 99])

    def test_constants(self) -> None:
        self.assertEqual(of_leaf("n: Int", "return n + (6 & 3 | 8 ^ 1 << 4 >> 1)").run(0).outputs, [6 & 3 | 8 ^ 1 << 4 >> 1])

    def test_versions(self) -> None:
        """Only programs that have them are of version 5, and a file may have functions of its own with these names."""
        self.assertIn("version 5\n", build_text(HEAD + "@control\ndef main(n: Int, y: Out[Int]):\n    out.y = n & 1\n").text)
        self.assertNotIn("version", build_text("from yuglemit.build import *\n@leaf(otherwise=0)\ndef find(n: Int) -> Int:\n    return n + 1\n@control\ndef main(n: Int, y: Out[Int]):\n    out.y = find(n)\n").text)

    def test_errors(self) -> None:
        for words, message in (("byte(t)", "a text, and a place"), ("find(t)", "a text, and perhaps"), ("muldiv(1, 2)", "takes three ints"), ("byte_length(t[::2])", "no step"), ("span(1, t)", "expected Text"), ("t[1]", "not of the language here")):
            with self.assertRaisesRegex(BuildError, message):
                of_leaf("t: Text", f"return {words}")


def collatz(n: int) -> int:
    steps = 0
    while n > 1:
        n, steps = n // 2 if n % 2 == 0 else 3 * n + 1, steps + 1
    return steps


def some(n: int) -> int:
    found = 0
    while n > 0:
        n -= 1
        if n % 3 == 0:
            continue
        if found > 20:
            break
        found += n
    return found


def nested(n: int) -> int:
    a = 0
    while a < n:
        b = 0
        while b < a:
            b += 1
            if b * a == 12:
                return a * 100 + b
        a += 1
    return a


COLLATZ = "s = 0\nwhile n > 1:\n    if n % 2 == 0:\n        n = n // 2\n    else:\n        n = 3 * n + 1\n    s += 1\nreturn s"
SOME = "s = 0\nwhile n > 0:\n    n -= 1\n    if n % 3 == 0:\n        continue\n    if s > 20:\n        break\n    s += n\nreturn s"
NESTED = "a = 0\nwhile a < n:\n    b = 0\n    while b < a:\n        b += 1\n        if b * a == 12:\n            return a * 100 + b\n    a += 1\nreturn a"


class Loops(unittest.TestCase):
    def test_while(self) -> None:
        for body, wanted in ((COLLATZ, collatz), (SOME, some), (NESTED, nested)):
            program = of_leaf("n: Int", body)
            for n in (*range(-1, 30), 97):
                self.assertEqual(program.run(n).outputs, [wanted(n)], (body, n))

    def test_endless(self) -> None:
        """`while True` is left by `break` or `return`, and refused at its bound; after one without `break` nothing is reached."""
        for end, after in (("break", "\nreturn s"), ("return s", "")):
            program = of_leaf("n: Int", f"s = 0\nwhile True:\n    s += 1\n    if s > n:\n        {end}{after}")
            self.assertEqual([program.run(n).outputs[0] for n in (-5, 0, 1000, 99_999, 100_000)], [1, 1, 1001, 100_000, NONE], end)
        with self.assertRaisesRegex(BuildError, "this line is never reached"):
            of_leaf("n: Int", "while True:\n    n += 1\nreturn n")

    def test_bounds(self) -> None:
        """A while is refused at its bound if its test still holds, and what is refused in the test ends it, too. After its end no turn is made."""
        program = of_leaf("n: Int", "s = 0\nwhile s < n:\n    s += 1\nreturn s")
        self.assertEqual([program.run(n).outputs[0] for n in (0, 999, 1000, 1001, 100_000, 100_001)], [0, 999, 1000, 1001, 100_000, NONE])
        self.assertLess(program.run(3).meter.instructions, 1000)
        program = of_leaf("n: Int, d: Int", "s = 0\nwhile s // d < n:\n    s += 7\nreturn s")
        self.assertEqual([program.run(*it).outputs[0] for it in ((3, 0), (10, 2))], [NONE, 21])

    def test_words(self) -> None:
        program = of_leaf("t: Text, p: Text", 's = ""\nfor w in split(t, p):\n    s = s + "[" + w + "]"\nreturn s', "!")
        for text in ("", "  ", "a b", " a  bc ", "x,y, z", "a" * 30, "é b é", " é"):
            for signs in (" ", " ,", ",", ""):
                self.assertEqual(program.run(text, signs).outputs, ["".join(f"[{it}]" for it in build.split(text, signs))], (text, signs))
        self.assertEqual(program.run("aéb", "©").outputs, ["!"])  # its last byte is that of é

    def test_few_words(self) -> None:
        program = of_leaf("t: Text", 'n = 0\nfor w in each(split(t, " "), 3):\n    if w == "stop":\n        break\n    if w == "skip":\n        continue\n    n += 1\nreturn n')
        found: List[Any] = [program.run(it).outputs[0] for it in ("", "a b c", "a b c ", "a b c d", "a stop b c d", "a skip c", "skip skip skip stop")]
        self.assertEqual(found, [0, 3, 3, NONE, 1, 2, NONE])


PIECES = ["a", "b", "Z", "_", "1", "90", " ", " ", ",", '"', '"', ',""', "+", "(", ".", "!", "\n", "é", "€"]


def pieces(chance: random.Random) -> str:
    return "".join(chance.choice(PIECES) for _ in range(chance.randrange(16)))


def one_line(chance: random.Random) -> str:
    return pieces(chance).replace("\n", "")


def lines_of(chance: random.Random) -> Dict[int, str]:
    return {number: pieces(chance) for number in range(chance.randrange(4))}


def object_of(chance: random.Random) -> str:
    values = {name: chance.choice([chance.randrange(-9, 99), True, None, one_line(chance) + chance.choice(["", "\\", '"'])]) for name in chance.sample("abc", chance.randrange(4))}
    return json.dumps(values, ensure_ascii=False, indent=chance.choice([None, 1]))


def field_of(text: str, name: str) -> str:
    """The value of a field, as it is written."""
    found = json.loads(text).get(name, "")
    written = json.dumps(found, ensure_ascii=False)
    return written[1:-1] if isinstance(found, str) else written


# Random inputs of each program, and the same in plain Python.
PROGRAMS: Dict[str, Tuple[Callable[[random.Random], List[Any]], Callable[..., Any]]] = {
    "words_of_lines": (lambda chance: [lines_of(chance)], lambda lines: Counter(it for line in lines.values() for it in re.split(r"[ \n.,;:!?]+", line) if it)),
    "csv_fields": (lambda chance: [one_line(chance)], lambda line: dict(enumerate(next(csv.reader([line])) or [""]))),
    "json_field": (lambda chance: [object_of(chance), chance.choice("abc")], field_of),
    "tokens": (lambda chance: [pieces(chance)], lambda text: dict(enumerate(re.findall(r"\d+|[A-Za-z_]\w*|[!-~]", text, re.ASCII)))),
}


class Programs(unittest.TestCase):
    def test_each(self) -> None:
        """Examples and their twins answer as plain Python does."""
        chance = random.Random(8)
        for name, (inputs_of, wanted) in PROGRAMS.items():
            both = [load(EXAMPLES / f"{name}.twn"), build_file(TESTS / "programs" / f"{name}.py").program]
            for _ in range(int(os.environ.get("INPUTS", "100"))):
                inputs = inputs_of(chance)
                self.assertEqual([it.run(*inputs).outputs for it in both], [[wanted(*inputs)]] * 2, (name, inputs))

    def test_few_events(self) -> None:
        """A task adds the 800 numbers of a text."""
        body = "    s = 0\n    for w in split(t, ' '):\n        s += int(w)\n    out.y = s\n"
        report = build_text(HEAD + "@control\ndef main(t: Text, y: Out[Int]):\n" + body).program.run(" ".join(map(str, range(800))))
        self.assertEqual(report.outputs, [sum(range(800))])
        self.assertLessEqual(report.events, 10)


if __name__ == "__main__":
    unittest.main()
