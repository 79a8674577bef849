# SPDX-License-Identifier: Apache-2.0
"""Random functions, each as two texts: that which `yuglemit.build` compiles, and that which Python runs, with ints that don't leave 64 bits.

The two differ in `check(..)` alone, which Python can only say as try and except."""

from __future__ import annotations

import ast
import random
import re
from dataclasses import dataclass, field
from typing import Any, Callable, Dict, Iterator, List, Optional, Tuple


class Overflow(Exception):
    """An instruction is refused: a result past its bounds, a division by 0, a text that is no number."""


class Number(int):
    """An int whose results have to fit in 64 bits."""


def _checked(name: str) -> Callable[..., Number]:
    def call(*operands: int) -> Number:
        try:
            result = getattr(int, name)(*map(int, operands))
        except ZeroDivisionError:
            raise Overflow from None
        if not -(2**63) <= result < 2**63:
            raise Overflow
        return Number(result)

    return call


def _shift(name: str, most: int) -> Callable[[int, int], Number]:
    call = _checked(name)

    def shift(number: int, places: int) -> Number:
        if not 0 <= places <= most:
            raise Overflow
        return call(number, places)

    return shift


for _name in ("add", "sub", "mul", "floordiv", "mod", "and", "or", "xor", "neg", "abs", "invert"):
    setattr(Number, f"__{_name}__", _checked(f"__{_name}__"))
    if _name not in ("neg", "abs", "invert"):
        setattr(Number, f"__r{_name}__", _checked(f"__r{_name}__"))
for _name, _most in (("lshift", 62), ("rshift", 63)):
    setattr(Number, f"__{_name}__", _shift(f"__{_name}__", _most))


class Word(str):
    """A text of at most 4,096 bytes."""

    def __add__(self, other: str) -> "Word":
        return word(str(self) + str(other))

    def __radd__(self, other: str) -> "Word":
        return word(str(other) + str(self))


def word(text: str) -> Word:
    if len(text.encode()) > 4096:
        raise Overflow
    return Word(text)


def read_int(text: str) -> Number:
    """The texts that the machine reads as an int: exactly the texts that str makes of an int in 64 bits."""
    if not re.fullmatch(r"0|-?[1-9]\d*", text) or not -(2**63) <= int(text) < 2**63:
        raise Overflow
    return Number(text)


def _place(place: Optional[int]) -> Number:
    if place is None:
        raise Overflow
    return Number(place)


def _places(text: str, start: int) -> range:
    """The places of a text from one on, which has to be one of it, or its end."""
    length = len(text.encode())
    return range(start, length) if 0 <= start <= length else _place(None)  # type: ignore[return-value]


def byte(text: str, place: int) -> Number:
    return _place(text.encode()[place] if 0 <= place < len(text.encode()) else None)


def find(text: str, what: str, start: int = 0) -> Number:
    places = [*_places(text, start), len(text.encode())]
    return _place(next((it for it in places if text.encode()[it:].startswith(what.encode())), None))


def span(text: str, signs: str, start: int = 0) -> Number:
    return Number(next((it for it in _places(text, start) if text.encode()[it] not in signs.encode()), len(text.encode())))


def until(text: str, signs: str, start: int = 0) -> Number:
    return Number(next((it for it in _places(text, start) if text.encode()[it] in signs.encode()), len(text.encode())))


def part(text: str, start: int, end: Optional[int]) -> Word:
    """`text[start:end]`, by bytes; neither end may be inside of a character."""
    whole = text.encode()
    end = len(whole) if end is None else end
    if not 0 <= start <= end <= len(whole):
        raise Overflow
    try:
        return Word([it.decode() for it in (whole[:start], whole[start:end], whole[end:])][1])
    except UnicodeDecodeError:
        raise Overflow from None


def split(text: str, signs: str) -> Iterator[Word]:
    at = span(text, signs)
    while at < len(text.encode()):
        end = until(text, signs, at)
        yield part(text, at, end)
        at = span(text, signs, end)


def muldiv(a: int, b: int, c: int) -> Number:
    if c <= 0:
        raise Overflow
    found = abs(int(a) * int(b)) // int(c)
    return _checked("__add__")(found if (a < 0) == (b < 0) else -found, 0)


def divided(a: int, b: int, c: int, name: str) -> Number:
    """`a * b // c` or `a * b % c`, whose product may leave 64 bits where muldiv gives a quotient."""
    product = int(a) * int(b)
    if not -(2**63) <= product < 2**63:
        muldiv(a, b, c)
    return _checked(name)(product, c)


# Names of version 5.
PARTS: Dict[str, Any] = {"byte": byte, "find": find, "span": span, "until": until, "split": split, "muldiv": muldiv, "part": part, "divided": divided}


def names() -> Dict[str, Any]:
    """The names that a function finds if Python runs it."""
    return {
        **PARTS,
        "Overflow": Overflow,
        "int": read_int,
        "str": lambda it: Word(str(it)),
        "abs": lambda it: abs(Number(it)),
        "min": min,
        "max": max,
        "N": Number,
        "byte_length": lambda it: Number(len(it.encode())),
        "word": word,
    }


class Parts(ast.NodeTransformer):
    """Makes `text[i:j]` a call of `part`."""

    def visit_Subscript(self, node: ast.Subscript) -> ast.expr:
        self.generic_visit(node)
        if not isinstance(node.slice, ast.Slice):
            return node
        ends = node.slice.lower or ast.Constant(0), node.slice.upper or ast.Constant(None)
        return ast.Call(ast.Name("part", ast.Load()), [node.value, *ends], [])


class _Numbered(Parts):
    def visit_BinOp(self, node: ast.BinOp) -> ast.expr:
        self.generic_visit(node)
        names = {ast.FloorDiv: "__floordiv__", ast.Mod: "__mod__"}
        product, name = node.left, names.get(type(node.op))
        if name is None or not isinstance(product, ast.BinOp) or not isinstance(product.op, ast.Mult):
            return node
        return ast.Call(ast.Name("divided", ast.Load()), [product.left, product.right, node.right, ast.Constant(name)], [])

    def visit_Constant(self, node: ast.Constant) -> ast.expr:
        if type(node.value) is not int:
            return node
        return ast.Call(ast.Name("N", ast.Load()), [node], [])


def runnable(text: str) -> Any:
    """A function's text, whose constants are ints that don't leave 64 bits either."""
    return compile(ast.fix_missing_locations(_Numbered().visit(ast.parse(text))), "<run>", "exec")


NUMBERS = [0, 1, -1, 2, 3, -3, 7, 10, -10, 100, 2**31, 2**62, -(2**62), 2**63 - 1, -(2**63)]
WORDS = ["", "a", "0", "-5", "12", "007", "x y", "é", '"q"', "9223372036854775807"]


PLAIN = 3  # so deep no expression is within another


def number_of_parts(writer: Any, name: str) -> str:
    """An int that instructions of version 5 compute, of names and constants."""
    chance, text = writer.chance, writer.text(PLAIN)
    place = chance.choice([writer.number(PLAIN), str(chance.randrange(4))])
    kind = chance.randrange(9)
    if kind < 3:
        return f"({name} {chance.choice(['&', '|', '^', '<<', '>>'])} {place})"
    if kind == 3:
        return f"~{name}"
    if kind == 4:
        return f"byte({text}, {place})"
    if kind == 5:
        return f"muldiv({name}, {writer.number(PLAIN)}, {place})"
    start = f", {place}" if chance.random() < 0.5 else ""
    return f"{chance.choice(['find', 'span', 'until'])}({text}, {writer.text(PLAIN)}{start})"


def text_of_parts(writer: Any, name: str) -> str:
    """A part of a text that has a name."""
    start, end = (writer.chance.choice(["", "0", "1", writer.number(PLAIN)]) for _ in range(2))
    return f"{name}[{start}:{end}]"


def condition_of_parts(writer: Any, name: str) -> str:
    chance, text = writer.chance, writer.text(PLAIN)
    kind = chance.randrange(3)
    if kind == 0:
        return f"{text} {chance.choice(['in', 'not in'])} {name}"
    return f"{name}.startswith({text})" if kind == 1 else f"{name} {chance.choice(['<', '<=', '>', '>='])} {text}"


@dataclass
class Writer:
    """Writes one function, line by line, in both forms."""

    chance: random.Random
    compiled: List[str] = field(default_factory=list)
    run: List[str] = field(default_factory=list)
    ints: List[str] = field(default_factory=lambda: ["a", "b", "x", "y", "z"])
    counters: List[str] = field(default_factory=list)
    depth: int = 0
    fresh: int = 0

    def line(self, indent: int, text: str, other: str = "") -> None:
        self.compiled.append("    " * indent + text)
        self.run.append("    " * indent + (other or text))

    def number(self, deep: int = 0) -> str:
        chance = self.chance
        if deep > 2 or chance.random() < 0.35:
            if chance.random() < 0.4:
                return str(chance.choice(NUMBERS if chance.random() < 0.3 else range(-9, 10)))
            return chance.choice(self.ints + self.counters)
        kind = chance.randrange(12)
        if kind > 9:
            return number_of_parts(self, chance.choice(self.ints))
        if kind < 5:
            operator = chance.choice(["+", "-", "*", "//", "%"])
            left, right = self.number(deep + 1), self.number(deep + 1)
            if right.lstrip("-").isdigit() and left.lstrip("-").isdigit():
                left = chance.choice(self.ints)  # constants alone are computed before
            return f"({left} {operator} {right})" if chance.random() < 0.6 else f"{left} {operator} ({right})"
        if kind == 5:
            return f"-{chance.choice(self.ints)}"
        if kind == 6:
            return f"{chance.choice(['min', 'max'])}({self.number(deep + 1)}, {self.number(deep + 1)})"
        if kind == 7:
            return f"abs({chance.choice(self.ints)})"
        if kind == 8:
            return f"({self.number(deep + 1)} if {self.condition(deep + 1)} else {self.number(deep + 1)})"
        return f"byte_length({self.text(deep + 1)})"

    def text(self, deep: int = 0) -> str:
        chance = self.chance
        if deep > 2 or chance.random() < 0.5:
            return chance.choice(["s", "t", "t", repr(chance.choice(WORDS))])
        kind = chance.randrange(4)
        if kind == 3:
            return text_of_parts(self, chance.choice(["s", "t"]))
        if kind == 0:
            left, right = chance.choice(["s", "t"]), self.text(deep + 1)
            return f"({left} + {right})"
        if kind == 1:
            return f"str({chance.choice(self.ints)})"
        return f'f"{chance.choice(self.ints)}:{{{chance.choice(self.ints)}}}"'

    def condition(self, deep: int = 0) -> str:
        chance = self.chance
        kind = chance.randrange(9 if deep < 2 else 5)
        if kind == 8:
            return condition_of_parts(self, chance.choice(["s", "t"]))
        if kind < 4:
            return f"{self.number(deep + 1)} {chance.choice(['==', '!=', '<', '<=', '>', '>='])} {self.number(deep + 1)}"
        if kind == 4:
            return f"{chance.choice(['s', 't'])} {chance.choice(['==', '!='])} {self.text(deep + 1)}"
        if kind == 5:
            return f"({self.condition(deep + 1)} {chance.choice(['and', 'or'])} {self.condition(deep + 1)})"
        if kind == 6:
            return f"not ({self.condition(deep + 1)})"
        return f"{chance.choice(self.ints)} < {self.number(deep + 1)} <= {chance.choice(self.ints)}"

    def block(self, indent: int, length: int) -> bool:
        """Writes statements; says whether the last one leaves the block."""
        for _ in range(length):
            if self.statement(indent):
                return True
        return False

    def statement(self, indent: int) -> bool:
        chance = self.chance
        kind = chance.randrange(12)
        if kind < 4 or self.depth > 2:
            self.assignment(indent)
        elif kind == 4:
            self.line(indent, f"{chance.choice(['x', 'y', 'z'])} {chance.choice(['+=', '-=', '*='])} {self.number(1)}")
        elif kind < 7:
            self.choice(indent)
        elif kind < 9:
            self.check(indent)
        elif kind == 9:
            self.loop(indent)
        elif self.counters and chance.random() < 0.5:
            self.line(indent, chance.choice(["break", "continue"]))
            return True
        elif chance.random() < 0.3:
            self.line(indent, f"return {self.number()}, {self.text()}")
            return True
        else:
            self.line(indent, "x, y = y, x" if chance.random() < 0.5 else "pass")
        return False

    def assignment(self, indent: int) -> None:
        if self.chance.random() < 0.7:
            self.line(indent, f"{self.chance.choice(['x', 'y', 'z'])} = {self.number()}")
        else:
            self.line(indent, f"t = {self.text()}")

    def inner(self, indent: int) -> None:
        self.depth += 1
        self.block(indent, self.chance.randrange(1, 4))
        self.depth -= 1

    def choice(self, indent: int) -> None:
        self.line(indent, f"if {self.condition()}:")
        self.inner(indent + 1)
        if self.chance.random() < 0.3:
            self.line(indent, f"elif {self.condition()}:")
            self.inner(indent + 1)
        if self.chance.random() < 0.6:
            self.line(indent, "else:")
            self.inner(indent + 1)
        self.line(indent, "x = x")  # both ways may have left: then this isn't reached, and such functions aren't taken

    def check(self, indent: int) -> None:
        self.fresh += 1
        ok = f"ok_{self.fresh}"
        value = f"int({self.text(1)})" if self.chance.random() < 0.3 else f"{self.chance.choice(self.ints)} {self.chance.choice(['+', '*', '//', '-'])} {self.number(1)}"
        goal = self.chance.choice(["x", "y", "z"])
        self.compiled.append("    " * indent + f"if check({goal} := {value}):")
        for text in ("try:", f"    {goal} = {value}", f"    {ok} = True", "except Overflow:", f"    {ok} = False", f"if {ok}:"):
            self.run.append("    " * indent + text)
        self.inner(indent + 1)
        self.line(indent, "else:")
        self.inner(indent + 1)
        self.line(indent, "y = y")

    def loop(self, indent: int) -> None:
        counter = f"i{len(self.counters) + 1}"
        if len(self.counters) == 2 or counter in self.counters:
            return self.assignment(indent)
        start, turns, step = self.chance.randrange(-3, 4), self.chance.randrange(1, 6), self.chance.choice([1, 1, 2, -1])
        self.line(indent, f"for {counter} in range({start}, {start + turns * step}, {step}):", f"for {counter} in map(N, range({start}, {start + turns * step}, {step})):")
        self.counters.append(counter)
        self.inner(indent + 1)
        self.counters.pop()


def function(seed: int) -> Tuple[str, str]:
    """The two texts of a random function of two ints and a text, which returns an int and a text."""
    writer = Writer(random.Random(seed))
    writer.line(0, "def f(a: Int, b: Int, s: Text) -> tuple[Int, Text]:", "def f(a, b, s):")
    writer.line(1, 'x, y, z, t = a, b, 0, ""', 'x, y, z, t = a, b, N(0), word("")')
    if not writer.block(1, writer.chance.randrange(2, 7)):
        writer.line(1, "return x, t")
    return "\n".join(writer.compiled) + "\n", "\n".join(writer.run) + "\n"
