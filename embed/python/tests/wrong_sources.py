# SPDX-License-Identifier: Apache-2.0
"""Files that may be wrong: programs that are changed at random, token by token and line by line."""

from __future__ import annotations

import random
import re
from typing import List

from common import EXAMPLES, TESTS

STRANGE = (
    "x y n out out.y out.x main leaf control check each insert nth len range str int abs min max byte_length Array Table Int Text Out tuple None True "
    "... 0 1 -1 2**63 2**62 -(2**63) 9223372036854775807 1.5 1j b'a' 'a' 'é' '\\ud800' f'{x}' f'{x!r:>{y}}' lambda yield await async match case type "
    "@ := = == != < <= > >= += -= *= //= %= + - * / // % ** << ~ | & ^ ( ) [ ] { } , : ; . -> \\ if elif else for while in not and or is return break "
    "continue pass del global nonlocal class def import from as with try except finally raise assert * ** \n \n\n \t \f \r # \0 \ufeff"
).split(" ")
LINES = (
    "x = y", "out.y = x", "out.y = f(x)", "x, y = y, x", "x += 1", "x: Int = 1", "x: Int", "out.xs[x] = 1", "xs[1] = 2", "if check(insert(out.y, x, 1)):", "else:",
    "for x in range(3):", "for i, m in each(xs, 5):", "for i in xs:", "while x:", "return x", "return", "return x, y", "a = Array[Int]()", "pass", "break", "continue",
    "def f(x: Int) -> Int:", "class C:", "with x:", "try:", "finally:", "match x:", "case 1:", "global x", "import os", "from os import *", "del x", "x = (y := 1)",
    "if check(x := 1 // y):", "if x in xs:", "f(x, priority=1)", "f(*x)", "f(x, **y)", "@leaf", "@control", "@leaf(otherwise=())", "@leaf(otherwise=1)", "'''", "x = [y for y in xs]",
    "x = lambda: 1", "x = xs[1:2]", "out.y: Int = x", "(out.y) = x", "[x, y] = 1, 2", "*x, y = f(x)", "x = y = 1", "x.y = 1", "x[y].z = 1", "N = 5", "out = 1", "f = 1", "print(x)",
    "x = f(f(f(x)))", "x = 'a' * 99999", "x = 10 ** 64 ** 2", "assert x", "raise x", "async def f(): pass", "x = y if x else z", "insert(xs, 1, 2)", "nth(xs, 1)", "main(x)",
)


def sources() -> List[str]:
    """The programs that are changed: those of the tests and of the manual."""
    manual = (EXAMPLES.parent / "docs" / "BUILD.md").read_text(encoding="utf-8")
    return [*(it.read_text(encoding="utf-8") for it in sorted((TESTS / "programs").glob("*.py"))), *re.findall(r"```python\n(.*?)```", manual, re.S)]


def changed(text: str, chance: random.Random) -> str:
    """The text with one to three changes of tokens or lines."""
    for _ in range(chance.choice([1, 1, 2, 3])):
        text = _changed_token(text, chance) if chance.random() < 0.6 else _changed_line(text, chance)
    return text


def _changed_token(text: str, chance: random.Random) -> str:
    parts = re.findall(r"\s*(?:\w+|[^\w\s]|$)", text)
    at, other = chance.randrange(len(parts)), chance.randrange(len(parts))
    kind = chance.randrange(5)
    if kind == 0:
        del parts[at]
    elif kind == 1:
        parts[at] = parts[other]
    elif kind == 2:
        parts[at], parts[other] = parts[other], parts[at]
    else:
        parts[at : at + (kind == 3)] = [" " * chance.randrange(2) + chance.choice(STRANGE)]
    return "".join(parts)


def _changed_line(text: str, chance: random.Random) -> str:
    lines = text.split("\n")
    at, other = chance.randrange(len(lines)), chance.randrange(len(lines))
    indent = " " * (len(lines[at]) - len(lines[at].lstrip()) + chance.choice([0, 0, 0, 4, -4]))
    kind = chance.randrange(5)
    if kind == 0:
        del lines[at]
    elif kind == 1:
        lines.insert(at, indent + lines[other].strip())
    elif kind == 2:
        lines[at], lines[other] = lines[other], lines[at]
    else:
        lines[at : at + (kind == 3)] = [indent + chance.choice(LINES)]
    return "\n".join(lines)
