# SPDX-License-Identifier: Apache-2.0
"""Loops of the compiler: ordinary programs beside plain Python on random inputs, and loops for which members are left at the bound."""

from __future__ import annotations

import math
import random
import re
import unittest
from collections import Counter
from typing import Any, Callable, Dict, List, Sequence, Tuple

from common import ROOT, TESTS
from yuglemit import Report, load
from yuglemit.build import BuildError, build_file, build_text
from yuglemit.build.budgets import budget_of
from yuglemit.build.code import Line

HEAD = "from yuglemit.build import Array, Int, Map, Out, Sum, Table, Text, check, control, each, insert, leaf, nth, out\n"
MOST = 1_000_000


def run(text: str, *inputs: Any) -> Report:
    return build_text(HEAD + text, "file.py").program.run(*inputs, limit=MOST)


def of_leaf(parameters: str, body: str, otherwise: int = -1) -> str:
    """A program whose output is the result of a leaf function with these parameters and this body."""
    names = ", ".join(it.split(":")[0].strip() for it in re.findall(r"\w+: (?:Map\[\w+, \w+\]|\w+(?:\[\w+\])?)", parameters))
    inner = "".join(f"    {line}\n" for line in body.split("\n"))
    return f"@leaf(otherwise={otherwise})\ndef f({parameters}) -> Int:\n{inner}\n@control\ndef main({parameters}, y: Out[Int]):\n    out.y = f({names})\n"


def horner(coefficients: List[int], x: int) -> int:
    return sum(it * x**power for power, it in enumerate(coefficients))


def collatz(n: int) -> int:
    steps = 0
    while n != 1:
        n, steps = n // 2 if n % 2 == 0 else 3 * n + 1, steps + 1
    return steps


def longest(numbers: Sequence[int]) -> int:
    return max((len(it) for it in re.findall(r"a+|b+", "".join("ab"[it % 2] for it in numbers))), default=0)


Numbers = List[int]
# Parameters, the body of a leaf function, and the same in Python.
ORDINARY: Dict[str, Tuple[str, str, Callable[..., int]]] = {
    "sum of squares": ("n: Int", "s = 0\nfor i in range(n):\n    s += i * i\nreturn s", lambda n: sum(i * i for i in range(n))),
    "primes below": (
        "n: Int",
        "found = 0\nfor i in each(range(2, n), 60):\n    is_prime = 1\n    for d in range(2, i):\n        if i % d == 0:\n            is_prime = 0\n            break\n    found += is_prime\nreturn found",
        lambda n: sum(all(i % d for d in range(2, i)) for i in range(2, n)),
    ),
    "greatest common divisor": ("n: Int, k: Int", "for _ in range(100):\n    if k == 0:\n        break\n    n, k = k, n % k\nreturn abs(n)", math.gcd),
    "power by a modulus": ("n: Int, k: Int", "r = 1\nfor _ in range(n):\n    r = r * k % 1009\nreturn r", lambda n, k: int(pow(k, max(n, 0), 1009))),
    "fibonacci": ("n: Int", "a, b = 0, 1\nfor _ in range(n):\n    a, b = b, a + b\nreturn a", lambda n: int([0, 1, 1, 2, 3, 5, 8, 13, 21, 34, 55, 89, 144][max(n, 0)])),
    "digits from behind": ("n: Int", "r = 0\nrest = abs(n)\nfor _ in range(20):\n    if rest == 0:\n        break\n    r = r * 10 + rest % 10\n    rest = rest // 10\nreturn r", lambda n: int(str(abs(n))[::-1])),
    "horner": ("c: Map[Int, Int], n: Int", "v = 0\nfor i in range(len(c) - 1, -1, -1):\n    v = v * n + c[i]\nreturn v", horner),
    "collatz": ("n: Int", "steps = 0\nat = abs(n) + 1\nfor _ in range(1000):\n    if at == 1:\n        break\n    if at % 2 == 0:\n        at = at // 2\n    else:\n        at = 3 * at + 1\n    steps += 1\nreturn steps", lambda n: collatz(abs(n) + 1)),
    "dot product": ("c: Map[Int, Int], d: Map[Int, Int]", "s = 0\nfor i, v in each(c):\n    if i in d:\n        s += v * d[i]\nreturn s", lambda c, d: sum(a * b for a, b in zip(c, d))),
    "longest run": ("c: Map[Int, Int]", "best, now, last = 0, 0, -1\nfor _, v in each(c):\n    now = now + 1 if v % 2 == last else 1\n    last = v % 2\n    best = max(best, now)\nreturn best", longest),
    "inversions": ("c: Map[Int, Int]", "s = 0\nfor i in range(len(c)):\n    for j in range(i):\n        if c[i] < c[j]:\n            s += 1\nreturn s", lambda c: sum(c[i] < c[j] for i in range(len(c)) for j in range(i))),
    "greatest of pairs": ("c: Map[Int, Int], d: Map[Int, Int]", "best = -1000\nfor i, v in each(c):\n    for j, w in each(d):\n        best = max(best, v * w)\nreturn best", lambda c, d: max((v * w for v in c for w in d), default=-1000)),
    "triples of a sum": ("n: Int", "s = 0\nfor a in each(range(n), 20):\n    for b in each(range(a, n), 20):\n        for c in each(range(b, n, 2), 20):\n            if a + b + c == n:\n                s += 1\nreturn s", lambda n: sum(a + b + c == n for a in range(n) for b in range(a, n) for c in range(b, n, 2))),
    "every third": ("n: Int, k: Int", "s = 0\nfor i in range(n, k, 3):\n    s = s * 2 % 1000 + i\nfor i in range(k, n, -3):\n    s = s * 2 % 1000 + i\nreturn s", lambda n, k: _folded([*range(n, k, 3), *range(k, n, -3)])),
}


def _folded(numbers: Sequence[int]) -> int:
    found = 0
    for it in numbers:
        found = found * 2 % 1000 + it
    return found


class Ordinary(unittest.TestCase):
    """Programs as somebody writes them who knows Python answer as Python does."""

    def test_each(self) -> None:
        chance = random.Random(105)
        for name, (parameters, body, wanted) in ORDINARY.items():
            program = build_text(HEAD + of_leaf(parameters, body)).program
            for _ in range(12):
                inputs: List[Any] = [
                    [chance.randrange(-9, 10) for _ in range(chance.randrange(9))] if "Map" in it else chance.randrange(-12, 13)
                    for it in re.findall(r"\w+: (Map|Int)\b", parameters)
                ]
                self.assertEqual(program.run(*inputs, limit=MOST).outputs, [wanted(*inputs)], (name, inputs))

    def test_words(self) -> None:
        """3,000 words are counted, each."""
        text = (ROOT / "docs" / "BUILD.md").read_text(encoding="utf-8")
        counting = next(it for it in re.findall(r"```python\n(.*?)```", text, re.S) if "counts[word] += 1" in it)
        words = ["a", "b"] * 3000
        report = build_text(counting).program.run(words, limit=MOST)
        self.assertEqual((report.end, report.outputs), ("quiet", [Counter(words)]))
        report = build_file(TESTS / "programs" / "word_count.py").program.run(words[:1000], limit=MOST)
        self.assertEqual((report.end, report.outputs), ("quiet", [Counter(words[:1000])]))


# Parameters, a loop over n of at most 100,000 turns, and its inputs for n.
FEW: List[Tuple[str, str, Callable[[int], List[Any]]]] = [
    ("n: Int", "s = 0\nfor i in range(n):\n    s += i\nreturn s", lambda n: [n]),
    ("n: Int", "s = 0\nfor i in range(n, 0, -1):\n    s += i\nreturn s - n", lambda n: [n]),
    ("n: Int", "s = 0\nfor i in range(100_000):\n    if i == n:\n        break\n    s += i\nreturn s", lambda n: [n]),
    ("n: Int", "s = 0\nfor i in range(100_000):\n    if i == n:\n        return s\n    s += i\nreturn -2", lambda n: [n]),
    ("n: Int", "s, i = 0, 0\nwhile i < n:\n    s += i\n    i += 1\nreturn s", lambda n: [n]),
    ("m: Map[Int, Int]", "s = 0\nfor i, v in each(m):\n    s += v\nreturn s", lambda n: [list(range(n))]),
    ("t: Text", 's = 0\nfor w in split(t, " "):\n    s += int(w)\nreturn s', lambda n: [" ".join(map(str, range(n)))]),
]


class Turns(unittest.TestCase):
    def test_few_of_many(self) -> None:
        """A loop over 10 of at most 100,000 makes 11 turns; those over 20 and 30 take more instructions only for their ten more turns."""
        for parameters, body, inputs in FEW:
            program = build_text(HEAD.replace("out\n", "out, split\n") + of_leaf(parameters, body)).program
            reports = [program.run(*inputs(n)) for n in (10, 20, 30)]
            self.assertEqual([it.outputs for it in reports], [[45], [190], [435]], body)
            ten, twenty, thirty = (it.meter.instructions for it in reports)
            self.assertEqual(twenty - ten, thirty - twenty, body)
            self.assertLess(ten, (twenty - ten) + 45, body)  # what a turn too many, both loops and the rest of the program take

    def test_refused(self) -> None:
        """No turn follows a refused instruction."""
        program = build_text(HEAD + of_leaf("n: Int", "s = 0\nfor i in range(100_000):\n    s += 10 // (n - i)\nreturn s")).program
        self.assertEqual(program.run(3).outputs, [-1])
        self.assertLess(program.run(3).meter.instructions, 150)

    def test_in_one_another(self) -> None:
        """An inner loop that ends leaves the outer one its turns, whichever of them are of two of the machine's loops."""
        for outer, inner in ((5, 2000), (2000, 5), (2000, 2000)):
            body = f"s = 0\nfor i in each(range(n), {outer}):\n    for j in each(range(i), {inner}):\n        if j == 3:\n            break\n        s += 1\nreturn s"
            program = build_text(HEAD + of_leaf("n: Int", body)).program
            for n in range(6):
                self.assertEqual(program.run(n).outputs, [sum(min(i, 3) for i in range(n))], (outer, inner, n))
            self.assertLess(program.run(5).meter.instructions, 500)


BIG = 2**63 - 1


class Ranges(unittest.TestCase):
    """range(..) of ints that are known when the program runs."""

    def test_ends(self) -> None:
        body = "count, last = 0, -7\nfor i in each(range(n, k{}), 9):\n    count += 1\n    last = i\nreturn count * 100 + last % 97"
        for step in (1, 2, 7, BIG, -1, -3, -BIG):
            program = build_text(HEAD + of_leaf("n: Int, k: Int", body.format(f", {step}" if step != 1 else ""))).program
            for start in (0, 3, -4, BIG, BIG - 1, BIG - 8, -BIG - 1, -BIG, -BIG + 8):
                for stop in (0, 5, -5, 9, 12, BIG, BIG - 3, -BIG - 1, -BIG + 5):
                    numbers = range(start, stop, step)
                    is_cut = (stop - start) * (1 if step > 0 else -1) > 9 * abs(step)
                    wanted = -1 if is_cut else len(numbers) * 100 + (numbers[-1] if numbers else -7) % 97
                    self.assertEqual(program.run(start, stop).outputs, [wanted], (start, stop, step))

    def test_bound(self) -> None:
        """Without `most` the bound is 100,000; of constants each range is read."""
        text = of_leaf("n: Int", "s = 0\nfor i in range(n):\n    s += i\nreturn s")
        for n, wanted in ((1001, 500500), (100_000, 4_999_950_000), (100_001, -1)):
            self.assertEqual(run(text, n).outputs, [wanted])
        for over in ("range(2500)", "range(2500, 0, -1)", "range(-5, 99_995)", "range(0, 5000, 2)"):
            self.assertEqual(run(of_leaf("n: Int", f"s = n\nfor i in {over}:\n    s += i\nreturn s"), 0).outputs, [sum(eval(over))], over)
            self.assertEqual(run(of_leaf("n: Int", f"s = n\nfor _ in {over}:\n    s += 1\nreturn s"), 0).outputs, [len(eval(over))], over)

    def test_the_range_is_read_once(self) -> None:
        body = "s = 0\ni = 3\nfor i in range(i, n):\n    n = 0\n    s += i\nreturn s"
        self.assertEqual(run(of_leaf("n: Int", body), 7).outputs, [3 + 4 + 5 + 6])


FILL = "@control\ndef fill(n: Int, kept: Out[{0}]):\n    for i in range(n):\n        out.kept[i] = i\n"


class Bounds(unittest.TestCase):
    """If members are left at the bound, a control function's run ends stuck, and a leaf function gives what `otherwise` says."""

    def test_maps(self) -> None:
        """An input map is read as a whole, and a map that a program fills up to 100,000 values."""
        text = of_leaf("m: Map[Int, Int]", "s = 0\nfor i, v in each(m):\n    s += v\nreturn s")
        for count in (0, 1001, 100_000):
            self.assertEqual(run(text, list(range(count))).outputs, [sum(range(count))])
        text = FILL.format("Map[Int, Int]") + "@leaf(otherwise=-1)\ndef size(m: Map[Int, Int]) -> Int:\n    s = 0\n    for i in m:\n        s += 1\n    return s\n"
        text += "@control\ndef main(n: Int, y: Out[Int]):\n    m = Map[Int, Int]()\n    fill(n, m)\n    m[-1] = 1\n    out.y = size(m)\n"
        for count, wanted in ((99_999, 100_000), (100_000, -1)):
            self.assertEqual(run(text, count).outputs, [wanted])

    def test_containers(self) -> None:
        """A container that a program fills has more than the 1,000 members that a plain loop takes."""
        text = FILL.format("Array[Int]") + "@control\ndef size(m: Array[Int], y: Out[Sum[Int]]):\n    for i in {}:\n        out.y[0] += 1\n"
        text += "@control\ndef main(n: Int, y: Out[Sum[Int]]):\n    m = Array[Int]()\n    fill(n, m)\n    size(m, out.y)\n"
        for over, count, wanted in (
            ("m", 1000, ("quiet", [{0: 1000}])), ("m", 1001, ("stuck", [{0: 1000}])),
            ("each(m, 1001)", 2000, ("quiet", [{0: 2000}])), ("each(m, 1001)", 2001, ("stuck", [{0: 2000}])), ("each(m, most=3)", 3, ("quiet", [{0: 3}])),
            ("each(m, 3)", 4, ("stuck", [{0: 3}])), ("each(m)", 1001, ("stuck", [{0: 1000}])),
        ):
            report = run(text.replace("{}", over), count)
            self.assertEqual((report.end, report.partial), wanted, (over, count))

    def test_a_loop_that_ends_before(self) -> None:
        """With break or return a loop takes what it needs."""
        for end, after in (("break", "return s"), ("return s", "return -2")):
            body = f"s = 0\nfor i, v in each(m, 5):\n    if v == n:\n        {end}\n    s += v\n{after}"
            program = build_text(HEAD + of_leaf("m: Map[Int, Int], n: Int", body)).program
            for count in range(9):
                for n in range(9):
                    whole = sum(range(count)) if after == "return s" else -2
                    wanted = sum(range(n)) if n < min(count, 5) else -1 if count > 5 else whole
                    self.assertEqual(program.run(list(range(count)), n).outputs, [wanted], (count, n))

    def test_in_one_another(self) -> None:
        """If the inner loop is refused, so is the outer one, and each has its bound. A break of the outer one doesn't hide it."""
        body = "s = 0\nfor i in each(range(n), 4):\n    for j, v in each(m, 3):\n        s += v\n    if i == 2:\n        break\nreturn s"
        program = build_text(HEAD + of_leaf("m: Map[Int, Int], n: Int", body)).program
        for count in range(6):
            for n in range(7):
                wanted = min(n, 3) * sum(range(count)) if count <= 3 or n == 0 else -1
                self.assertEqual(program.run(list(range(count)), n).outputs, [wanted], (count, n))

    def test_greatest_that_is_accepted(self) -> None:
        """Two loops in one another over all values would take too long for the verifier: each then takes 1,000."""
        body = "s = 0\nfor i, v in each(m):\n    for j, w in each(m):\n        s += 1\n    break\nreturn s"
        for count, wanted in ((1000, 1000), (1001, -1)):
            self.assertEqual(run(of_leaf("m: Map[Int, Int]", body), [1] * count).outputs, [wanted])
        body = "s = 0\nfor i in range(10):\n    for j, w in each(m):\n        s += 1\nreturn s"
        self.assertEqual(run(of_leaf("m: Map[Int, Int]", body), [1] * 2000).outputs, [20_000])

    def test_budgets(self) -> None:
        """They are those that the verifier finds, so it rejects none for them."""
        texts = [build_file(it).text for it in sorted((TESTS / "programs").glob("**/*.py"))]
        texts += [build_text(HEAD + of_leaf(parameters, body)).text for parameters, body, _ in ORDINARY.values()]
        for text in texts:
            parts = [[Line(line.partition(" ;")[0], (1, 0)) for line in it.split("\n") if line.strip() and not line.startswith((";", "regs", "let"))] for it in text.split("\nproc ")[1:]]
            self.assertEqual([budget_of(it[1:])[0] for it in parts], [it.budget for it in load(text).procedures], text)

    def test_too_long(self) -> None:
        body = "s = 0\nfor i, v in each(m, 100_000):\n    for j, w in each(m, 5000):\n        s += 1\nreturn s"
        with self.assertRaisesRegex(BuildError, r"file.py:5:5: a task of f may take \d+ instructions, and at most 1000000000 .* \(V17\). Its loops make 100000 \(line 5\) times 5000 \(line 6\) turns"):
            run(of_leaf("m: Map[Int, Int]", body), [])


if __name__ == "__main__":
    unittest.main()
