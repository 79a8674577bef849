# SPDX-License-Identifier: Apache-2.0
"""Random files for the builder, as wholes: constants, leaf and control functions, and main. `reference` runs the same text as Python."""

from __future__ import annotations

import random
from dataclasses import dataclass, field
from typing import Any, List, Tuple

from random_programs import NUMBERS, WORDS, condition_of_parts, number_of_parts, text_of_parts

HEAD = "from yuglemit.build import Array, Int, Out, Table, Text, byte, byte_length, check, control, each, find, insert, leaf, muldiv, nth, out, span, split, until\n"
MAIN = "def main(a: Int, b: Int, s: Text, xs: Array[Int], ws: Table[Text], total: Out[Int], said: Out[Text], kept: Out[Array[Int]]):"
APART = 20_000  # subscripts that two statements write are so far apart, and none is written twice by two tasks


@dataclass
class Function:
    """A function that others may call."""

    name: str
    parameters: List[Tuple[str, str]]
    results: List[str]

    @property
    def head(self) -> str:
        listed = ", ".join(f"{name}: {kind}" for name, kind in self.parameters)
        result = self.results[0] if len(self.results) == 1 else f"tuple[{', '.join(self.results)}]"
        return f"def {self.name}({listed})" + (f" -> {result}:" if self.results else ":")


@dataclass
class Writer:
    """Writes one function. Ints and texts are names that it may read; `set_ints` and `set_texts` those that it may set."""

    chance: random.Random
    ints: List[str]
    texts: List[str]
    boxes: List[Tuple[str, str]] = field(default_factory=list)
    set_ints: List[str] = field(default_factory=list)
    set_texts: List[str] = field(default_factory=list)
    counters: List[str] = field(default_factory=list)
    lines: List[str] = field(default_factory=list)
    depth: int = 0

    def line(self, text: str) -> None:
        self.lines.append("    " * (self.depth + 1) + text)

    # --- values

    def name(self) -> str:
        return self.chance.choice([*self.ints, *self.counters])

    def number(self, deep: int = 0) -> str:
        chance = self.chance
        if deep > 1 or chance.random() < 0.35:
            return str(chance.choice(NUMBERS if chance.random() < 0.1 else range(-9, 10))) if chance.random() < 0.3 else self.name()
        kind = chance.randrange(14)
        if kind > 11:
            return number_of_parts(self, self.name())
        if kind < 6:
            left, right = self.name() if chance.random() < 0.5 else self.number(deep + 1), self.number(deep + 1)
            if left.lstrip("-").isdigit():
                left = self.name()
            operator = chance.choice(["+", "-", "+", "-", "*", "//", "%"])
            return f"({left} {operator} {right})" if chance.random() < 0.7 else f"{self.name()} {operator} ({right})"
        if kind == 6:
            return f"-{self.name()}"
        if kind == 7:
            return f"{chance.choice(['min', 'max'])}({self.number(deep + 1)}, {self.number(deep + 1)})"
        if kind == 8:
            return f"({self.number(deep + 1)} if {self.condition(deep + 1)} else {self.number(deep + 1)})"
        if kind == 9 and self.boxes:
            return f"len({chance.choice(self.boxes)[0]})"
        return f"abs({self.name()})" if kind == 10 else f"byte_length({self.text(deep + 1)})"

    def text(self, deep: int = 0) -> str:
        chance = self.chance
        if deep > 1 or chance.random() < 0.5:
            return chance.choice([*self.texts, *self.texts, repr(chance.choice(WORDS))])
        kind = chance.randrange(5)
        if kind == 4:
            return text_of_parts(self, chance.choice(self.texts))
        if kind == 0:
            return f"({chance.choice(self.texts)} + {self.text(deep + 1)})"
        if kind == 1:
            return f"str({self.number(deep + 1)})"
        if kind == 2:
            return f'f"{{{self.name()}}}:{{{chance.choice(self.texts)}}}"'
        return f"({self.text(deep + 1)} if {self.condition(deep + 1)} else {self.text(deep + 1)})"

    def condition(self, deep: int = 0) -> str:
        chance = self.chance
        kind = chance.randrange(10 if deep < 2 else 5)
        if kind == 9:
            return condition_of_parts(self, chance.choice(self.texts))
        if kind < 4:
            return f"{self.name()} {chance.choice(['==', '!=', '<', '<=', '>', '>='])} {self.number(deep + 1)}"
        if kind == 4:
            return f"{chance.choice(self.texts)} {chance.choice(['==', '!='])} {self.text(deep + 1)}"
        if kind == 5:
            return f"({self.condition(deep + 1)} {chance.choice(['and', 'or'])} {self.condition(deep + 1)})"
        if kind == 6:
            return f"not {self.condition(2)}" if chance.random() < 0.5 else f"not ({self.condition(deep + 1)})"
        if kind == 7 and self.boxes:
            box, subscript = chance.choice(self.boxes)
            return f"{self.number(1) if subscript == 'Int' else self.text(1)} {chance.choice(['in', 'not in'])} {box}"
        return f"{self.name()} < {self.number(deep + 1)} <= {self.name()}"

    def argument(self, kind: str) -> str:
        return self.number(1) if kind == "Int" else self.text(1)

    # --- statements that both kinds of functions have

    def inner(self, most: int = 3) -> None:
        self.depth += 1
        self.block(self.chance.randrange(1, most + 1))
        self.depth -= 1

    def block(self, length: int) -> bool:
        return any(self.statement() for _ in range(length))

    def statement(self) -> bool:
        raise NotImplementedError

    def assignment(self) -> None:
        chance, kind = self.chance, self.chance.randrange(6)
        if kind < 3:
            self.line(f"{chance.choice(self.set_ints)} = {self.number()}")
        elif kind == 3:
            self.line(f"{chance.choice(self.set_ints)} {chance.choice(['+=', '-=', '*='])} {self.number(1)}")
        elif kind == 4:
            first, second = chance.sample(self.set_ints, 2)
            self.line(f"{first}, {second} = {self.number(1)}, {self.number(1)}")
        else:
            self.line(f"{chance.choice(self.set_texts)} = {self.text()}")

    def choice(self) -> None:
        self.line(f"if {self.condition()}:")
        self.inner()
        while self.chance.random() < 0.25:
            self.line(f"elif {self.condition()}:")
            self.inner()
        if self.chance.random() < 0.6:
            self.line("else:")
            self.inner()
        self.line(f"{self.set_ints[0]} = {self.set_ints[0]}")  # all ways may have ended: then this is never reached, and such files aren't taken

    def counted(self) -> None:
        if len(self.counters) == 2:
            return self.assignment()
        counter = f"i{len(self.counters)}"
        if not self.counters and self.chance.random() < 0.3:
            return self.falling(counter)
        start, turns, step = self.chance.randrange(-3, 4), self.chance.randrange(1, 4), self.chance.choice([1, 1, 2, -1])
        over = f"range({start}, {start + turns * step}, {step})"
        if self.chance.random() < 0.4:
            first = self.chance.choice(["", f"{self.name()}, "])
            over = f"each(range({first}{self.number(1)}{self.chance.choice(['', ', 2', ', -1']) if first else ''}), {self.chance.randrange(2, 12)})"
        self.line(f"for {counter} in {over}:")
        self.turns(counter)

    def falling(self, counter: str) -> None:
        """A `while` of few turns."""
        self.line(f"{counter} = {self.chance.randrange(5)}")
        self.line(f"while {counter} > 0" + (f" and {self.condition()}:" if self.chance.random() < 0.5 else ":"))
        self.line(f"    {counter} -= 1")
        self.turns(counter)

    def turns(self, counter: str) -> None:
        self.counters.append(counter)
        self.inner()
        self.counters.pop()

    def words(self) -> None:
        """A loop over the words of a text."""
        if self.depth:
            return self.assignment()
        over = f"split({self.chance.choice(self.texts)}, {self.text(2)})"
        self.line("for found in " + self.chance.choice([f"{over}:", f"each({over}, {self.chance.randrange(1, 4)}):"]))
        self.texts.append("found")
        self.inner()
        self.texts.remove("found")


class Leaf(Writer):
    """Writes a leaf function."""

    results: List[str] = []
    written: List[Tuple[str, str]] = []

    def statement(self) -> bool:
        chance, kind = self.chance, self.chance.randrange(15)
        if kind < 4 or self.depth > 2:
            self.assignment()
        elif kind < 6:
            self.choice()
        elif kind < 8:
            self.checked()
        elif kind == 14:
            self.words()
        elif kind == 8:
            self.counted()
        elif kind == 9:
            self.walk()
        elif kind == 10 and self.counters:
            self.line(chance.choice(["break", "continue"]))
            return True
        elif kind == 11 and chance.random() < 0.4:
            self.ending()
            return True
        elif kind < 13 and self.written:
            self.write()
        else:
            self.line(chance.choice(["pass", "x, y = y, x"]))
        return False

    def ending(self) -> None:
        self.line("return " + ", ".join(self.number() if it == "Int" else self.text() for it in self.results) if self.results else "return")

    def checked(self) -> None:
        goal, chance = self.chance.choice(self.set_ints), self.chance
        value = f"int({self.text(1)})" if chance.random() < 0.3 else f"{chance.choice(self.set_ints)} {chance.choice(['+', '*', '//', '-', '%'])} {self.name()}"
        if self.boxes and chance.random() < 0.3:
            box, subscript = chance.choice(self.boxes)
            goal, value = goal if subscript == "Int" else chance.choice(self.set_texts), f"nth({box}, {self.number(1)})"
        self.line(f"if check({goal} := {value}{', x * y' if chance.random() < 0.1 else ''}):")
        self.inner()
        self.line("else:")
        self.inner()
        self.line("y = y")

    def walk(self) -> None:
        """A loop over the subscripts of a container."""
        if not self.boxes or len(self.counters) == 2:
            return self.assignment()
        box, subscript = self.chance.choice(self.boxes)
        name = f"k{len(self.counters)}" if subscript == "Int" else "word"
        if name in self.texts:
            return self.assignment()
        self.line(f"for {name} in {box}:")
        names = self.counters if subscript == "Int" else self.texts
        names.append(name)
        self.inner()
        names.remove(name)

    def write(self) -> None:
        """Each task has subscripts of its own, which are `base` to `base + 9`; the second time they may be taken."""
        name, kind = self.chance.choice(self.written)
        subscript = f"base + {self.chance.randrange(4)}"
        subscript, member = (f'f"{{{subscript}}}"', self.text(1)) if kind.startswith("Out[Table") else (subscript, self.number(1))
        if self.chance.random() < 0.4:
            self.line(f"out.{name}[{subscript}] = {member}")
            return
        self.line(f"if check(insert(out.{name}, {subscript}, {member})):")
        self.inner(2)
        if self.chance.random() < 0.5:
            self.line("else:")
            self.inner(2)
        self.line("y = y")


@dataclass
class Control(Writer):
    """Writes a control function. `futures` and `future_texts` are results of tasks, `members` those that are there in a loop; `filled` may be written."""

    functions: List[Function] = field(default_factory=list)
    futures: List[str] = field(default_factory=list)
    future_texts: List[str] = field(default_factory=list)
    filled: List[Tuple[str, str]] = field(default_factory=list)
    own: List[str] = field(default_factory=list)
    results: List[str] = field(default_factory=list)
    bases: int = 0

    def statement(self) -> bool:
        chance, kind = self.chance, self.chance.randrange(16)
        if kind < 5 or self.depth > 2:
            self.task()
        elif kind < 7:
            self.plain()
        elif kind < 9:
            self.choice()
        elif kind == 9:
            self.counted()
        elif kind == 10:
            self.members()
        elif kind == 11:
            self.checked()
        elif kind < 14 and self.filled:
            self.fill()
        elif kind == 14 and self.counters:
            self.line(chance.choice(["break", "continue"]))
            return True
        elif kind == 15 and self.results and not self.counters and self.depth:
            self.ending()
            return True
        else:
            self.task()
        return False

    def ending(self) -> None:
        names = [self.chance.choice(["p", "q"]) if it == "Int" else "g" for it in self.results]
        self.line("return " + ", ".join(names))

    def plain(self) -> None:
        """Values are computed, mostly such that nothing is refused."""
        if self.chance.random() < 0.2:
            self.assignment()
        else:
            self.line(f"{self.chance.choice(self.set_ints)} = {self.name()} {self.chance.choice('+-')} {self.chance.choice(['1', '2', 'a', 'b'])}")

    def base(self) -> str:
        """The first of some subscripts that no other statement or iteration has."""
        self.bases += 1
        return f"{APART * self.bases}" + "".join(f" + {it} * {10 if number else 400}" for number, it in enumerate(self.counters))

    def future(self, kind: str, deep: int = 0) -> str:
        """An argument: a value, or the result of a task."""
        chance = self.chance
        found = [it for it in self.functions if it.results == [kind] and not any(its.startswith("Out") for _, its in it.parameters)]
        if found and deep < 2 and chance.random() < 0.4:
            return self.call(chance.choice(found), deep + 1)
        if chance.random() < 0.15:
            return self.argument(kind) if chance.random() < 0.2 else f"{chance.choice(self.set_ints)} + 1" if kind == "Int" else chance.choice(self.texts)
        return chance.choice([*self.futures, "a", "b", str(chance.randrange(9))] if kind == "Int" else [*self.future_texts, "s", "'é'"])

    def call(self, function: Function, deep: int = 1) -> str:
        given, deep = [], deep if len(function.parameters) < 4 else 2
        for name, kind in function.parameters:
            if name == "base":
                given.append(self.base())
            elif kind.startswith("Out["):
                given.append(self.chance.choice([it for it, its in self.filled if f"Out[{its}]" == kind]))
            elif "[" in kind:
                given.append(self.chance.choice(["xs", *self.own, *self.own] if kind == "Array[Int]" else ["ws"]))
            else:
                given.append(self.future(kind, deep))
        options = self.chance.choice(["", "", "", ", priority=3", ", priority=-1", f", priority={self.chance.choice(self.set_ints)}"])
        return f"{function.name}({', '.join(given)}{options if given else options[2:]})"

    def can_call(self, function: Function) -> bool:
        kinds = {f"Out[{its}]" for _, its in self.filled}
        return all(kind in kinds for _, kind in function.parameters if kind.startswith("Out["))

    def task(self) -> None:
        function = self.chance.choice([it for it in self.functions if self.can_call(it)])
        goals = [self.chance.choice(["p", "q"]) if it == "Int" else self.chance.choice(["g", "g", "_"]) for it in function.results]
        has_array = any("[" in it for it in function.results)
        self.line(f"{', '.join(goals)} = {self.call(function)}" if goals and not has_array and self.chance.random() < 0.9 else self.call(function))

    def members(self) -> None:
        """A loop over the members of a container."""
        if len(self.counters) == 2:
            return self.task()
        box, subscript, futures = self.chance.choice([("xs", f"k{len(self.counters)}", self.futures), ("ws", "_", self.future_texts)])
        member = f"m{len(self.counters)}" if box == "xs" else "text"
        if member in futures:
            return self.task()
        self.line(f"for {subscript}, {member} in each({box}, {self.chance.choice([3, 5, 40, 40])}):")
        futures.append(member)
        if subscript != "_":
            self.counters.append(subscript)
            futures.append(f"xs[{subscript}]")
        filled, self.filled = self.filled, self.filled if subscript != "_" else []  # no subscript tells these iterations apart
        self.inner(2)
        self.filled = filled
        for it in (member, f"xs[{subscript}]"):
            if it in futures:
                futures.remove(it)
        if subscript in self.counters:
            self.counters.remove(subscript)

    def checked(self) -> None:
        chance = self.chance
        kind, name = chance.randrange(3), f"{'abc'[self.depth % 3]}_found"
        name = f"{name}_{kind}"
        if name in self.ints or name in self.futures:
            return self.task()
        value = f"nth(xs, {self.name()})" if kind == 0 else f"xs[{self.name()}]" if kind == 1 else f"{chance.choice(self.set_ints)} {chance.choice(['*', '//', '+'])} {self.name()}"
        self.line(f"if check({name} := {value}):")
        names = self.futures if kind == 1 else self.ints
        names.append(name)
        if kind == 0:
            self.futures.append(f"xs[{name}]")
        self.inner(2)
        names.remove(name)
        if kind == 0:
            self.futures.remove(f"xs[{name}]")
        if chance.random() < 0.7:
            self.line("else:")
            self.inner(2)
        self.line("v = v")

    def fill(self) -> None:
        box, kind = self.chance.choice(self.filled)
        base = self.base()
        subscript, member = (f'f"{{{base}}}"', self.future("Text")) if kind.startswith("Table") else (base, self.future("Int"))
        self.line(f"{box}[{subscript}] = {member}")
        if self.chance.random() < 0.05:
            self.line(f"{box}[{subscript}] = {member}")
        elif self.chance.random() < 0.2:
            self.line(f"if check(insert({box}, {subscript}, {member})):")
            self.inner(1)
            self.line("v = v")


# --- A file


def constants(chance: random.Random) -> Tuple[List[str], List[str], List[str]]:
    """Lines that define constants, and the names of ints and texts among them."""
    lines = [f"ONE = {chance.randrange(-9, 10)}", f"TWO: Int = ONE {chance.choice(['+', '-', '*'])} {chance.randrange(1, 5)}", f"A = B = {chance.choice(NUMBERS)}"]
    lines += [f"C, D = {chance.randrange(-9, 10)}, -TWO // {chance.randrange(1, 4)}", f"SAID, MORE = {chance.choice(WORDS)!r}, 'é'", "BOTH = SAID + '-' + MORE"]
    return lines, ["ONE", "TWO", "A", "C", "D"], ["SAID", "BOTH"]


def leaf_of(chance: random.Random, name: str, names: Tuple[List[str], List[str]]) -> Tuple[Function, List[str]]:
    """A random leaf function, and its lines."""
    kinds = [chance.choice(["Int", "Int", "Text", "Array[Int]", "Table[Text]"]) for _ in range(chance.randrange(1, 4))]
    parameters = [(f"p{number}", kind) for number, kind in enumerate(kinds)]
    written = [("into", chance.choice(["Out[Array[Int]]", "Out[Table[Text]]"]))] if chance.random() < 0.35 else []
    parameters = [("base", "Int"), *parameters, *written] if written else parameters
    choices: List[List[str]] = [["Int"], ["Int"], ["Text"], ["Int", "Text"], []]
    results = chance.choice(choices if written else choices[:4])
    function = Function(name, parameters, results)
    ints = [it for it, kind in parameters if kind == "Int" and it != "base"]
    texts = [it for it, kind in parameters if kind == "Text"]
    boxes = [(it, "Int" if kind == "Array[Int]" else "Text") for it, kind in parameters if "[" in kind and not kind.startswith("Out")]
    writer = Leaf(chance, [*ints, "x", "y", "z", chance.choice(names[0])], [*texts, "t", chance.choice(names[1])], boxes, ["x", "y", "z"], ["t"])
    writer.results, writer.written = results, written
    start = [chance.choice([*ints, *names[0], "7"]) for _ in range(2)]
    writer.line(f"x, y, z, t = {start[0]}, {start[1]}, 0, {chance.choice([*texts, *names[1]])}")
    if not writer.block(chance.randrange(1, 6)):
        writer.ending()
    otherwise = [str(chance.choice([-77, "ONE"])) if it == "Int" else '"refused"' for it in results]
    said = otherwise[0] if len(otherwise) == 1 else f"({', '.join(otherwise)})"
    return function, [f"@leaf(otherwise={said})", function.head, *writer.lines, ""]


def control_of(chance: random.Random, name: str, functions: List[Function], names: Tuple[List[str], List[str]]) -> Tuple[Function, List[str]]:
    """A random control function, and its lines."""
    results = chance.choice([["Int"], ["Int", "Text"], ["Array[Int]"]])
    function = Function(name, [("a", "Int"), ("b", "Int"), ("s", "Text"), ("xs", "Array[Int]"), ("ws", "Table[Text]")], results)
    writer = _control(chance, functions, names)
    writer.results = results
    if results == ["Array[Int]"]:
        writer.own, writer.filled = [], [("row", "Array[Int]")]
        writer.line("row = Array[Int]()")
        writer.results = []
    writer.block(chance.randrange(1, 4))
    if results == ["Array[Int]"]:
        writer.line("return row")
    else:
        writer.ending()
    return function, ["@control", function.head, *writer.lines, ""]


def _control(chance: random.Random, functions: List[Function], names: Tuple[List[str], List[str]]) -> Control:
    writer = Control(chance, ["a", "b", "v", "w", chance.choice(names[0])], ["s", "u", names[1][0]], [("xs", "Int"), ("ws", "Text")], ["v", "w"], ["u"])
    writer.functions, writer.futures, writer.future_texts = functions, ["p", "q"], ["g"]
    writer.line('v, w, u = a, b, s')
    writer.line("p = 0")
    writer.line(f"q = {chance.choice(names[0])}")
    writer.line("g = 'none'")
    one = [it for it in functions if it.results == ["Int"] and not any(its.startswith("Out") for _, its in it.parameters)]
    writer.line(f"p = {writer.call(one[0], 2)}")
    writer.line(f"q = {writer.call(one[0], 2)}")
    writer.line("g = say(s, v)")
    return writer


ALWAYS = [
    (Function("add", [("x", "Int"), ("y", "Int")], ["Int"]), ["@leaf(otherwise=0)", "def add(x: Int, y: Int) -> Int:", "    return x + y", ""]),
    (Function("say", [("t", "Text"), ("n", "Int")], ["Text"]), ["@leaf(otherwise='long')", "def say(t: Text, n: Int) -> Text:", "    return t + str(n)", ""]),
    (Function("weigh", [("xs", "Array[Int]")], ["Int"]), ["@leaf(otherwise=-1)", "def weigh(xs: Array[Int]) -> Int:", "    n = 0", "    for k in xs:", "        n = n + k", "    return n", ""]),
]


def file(seed: int) -> str:
    """The text of a random file."""
    chance = random.Random(seed)
    lines, ints, texts = constants(chance)
    made = [*ALWAYS, *(leaf_of(chance, f"leaf_{number}", (ints, texts)) for number in range(chance.randrange(1, 4)))]
    for number in range(chance.randrange(0, 3)):
        made.append(control_of(chance, f"control_{number}", [it for it, _ in made], (ints, texts)))
    writer = _control(chance, [it for it, _ in made], (ints, texts))
    writer.filled = [("out.kept", "Array[Int]")]
    if chance.random() < 0.6:
        name, kind = chance.choice([("mine", "Array[Int]"), ("mine", "Array[Int]"), ("words", "Table[Text]")])
        writer.line(f"{name} = {kind}()")
        writer.filled.append((name, kind))
        writer.own = [name] if name == "mine" else []
    writer.block(chance.randrange(2, 7))
    writer.line(f"out.total = {chance.choice(['p', 'q', 'add(p, q)', 'v', 'a * b'])}")
    writer.line(f"out.said = {chance.choice(['g', 'say(g, w)', 'u', 's'])}")
    texts_of = ["\n".join(its) for _, its in made]
    chance.shuffle(texts_of)
    return '"""A random file."""\n' + HEAD + "\n".join(lines) + "\n\n" + "\n".join(texts_of) + "\n@control\n" + MAIN + "\n" + "\n".join(writer.lines) + "\n"


def inputs(chance: random.Random) -> List[Any]:
    """Inputs of its main."""
    numbers = {chance.randrange(-9, 10): chance.randrange(-9, 10) for _ in range(chance.randrange(5))}
    words = {chance.choice(WORDS): chance.choice(WORDS) for _ in range(chance.randrange(4))}
    return [chance.choice(NUMBERS) if chance.random() < 0.15 else chance.randrange(-5, 6), chance.randrange(-5, 6), chance.choice(WORDS), numbers, words]
