"""Things that the kinds of fuzz tests share: a test, its answer, and its form as a file of cases/."""

import random
import re
from dataclasses import dataclass, field, replace
from functools import cached_property
from pathlib import Path
from typing import Any, Callable, Iterator, Sequence

from tools import ROOT
from tools.cases.files import value_lines
from tools.fuzz.oracle.code import Program, decode, disassembled, encode, smaller
from tools.fuzz.library import Library
from tools.fuzz.oracle.machine import Layout, Value
from tools.fuzz.oracle.report import input_words


# Characters that aren't printed as they are: control characters but a line feed, and those that change the direction of text.
HIDDEN = re.compile("[\x00-\x09\x0b-\x1f\x7f-\x9f\u061c\u200e\u200f\u202a-\u202e\u2066-\u2069]")


def visible(text: str) -> str:
    """Returns what is printed of a text: hidden characters by their codes, a tab as a blank."""
    return HIDDEN.sub(lambda found: " " if found[0] == "\t" else f"\\u{{{ord(found[0]):x}}}", text)


def visible_json(text: str) -> str:
    """Returns what the command prints of JSON: hidden characters by their escapes."""
    return HIDDEN.sub(lambda found: f"\\u{ord(found[0]):04x}", text)


class FuzzTest:
    """A random input, and an oracle that isn't what is tested."""

    def fault(self, library: Library) -> str | None:
        """Returns what came instead of what was expected, or nothing."""
        raise NotImplementedError

    @property
    def marks(self) -> Sequence[str]:
        """Returns what the summary counts of a test that passed."""
        return ()

    def smaller(self) -> Iterator["FuzzTest"]:
        """Yields tests with less in them, the ones with the least first."""
        return iter(())

    def case(self) -> list[str]:
        """Returns the lines of a case, after its name."""
        raise NotImplementedError


def without_parts(test: Any, name: str) -> Iterator[Any]:
    """Yields tests without a part of what a test has by a name: first without halves, at last without each item."""
    value = getattr(test, name)
    size = max(1, len(value) // 2)
    while value and size:
        yield from (replace(test, **{name: value[:first] + value[first + size:]}) for first in range(0, len(value), size))
        size //= 2


@dataclass
class Corpus:
    """The programs of examples/, which tests mutate."""

    library: Library
    root: Path = ROOT / "examples"

    @cached_property
    def texts(self) -> list[str]:
        """The programs without names, and the expansions of the others."""
        answers = [self.library.session(["asm", "--names", "--plain"], text) for text in self.named]
        expanded = [text for status, text in answers if status == 0]
        return [path.read_text(encoding="utf-8") for path in sorted(self.root.glob("*.tw")) if not path.with_suffix(".twn").exists()] + expanded

    @cached_property
    def named(self) -> list[str]:
        return [path.read_text(encoding="utf-8") for path in sorted(self.root.glob("*.twn"))]

    @cached_property
    def programs(self) -> list[Program]:
        answers = [self.library.session(["asm"], text) for text in self.texts]
        return [decode(bytes.fromhex(text)) for status, text in answers if status == 0]

    @cached_property
    def accepted(self) -> list[Program]:
        return [program for program in self.programs if not self.library.verify(encode(program)).code]


@dataclass(frozen=True)
class Kind:
    """A kind of test: what it is about, and how one is made."""

    about: str
    make: Callable[[random.Random, Corpus], FuzzTest]


# --- As a case


def case_word(word: str) -> str:
    """Returns an argument as cases write it."""
    if not word:
        return '""'
    return re.sub(r'[\x00-\x20\\|/{}"\x7f]', lambda found: f"\\x{ord(found[0]):02x}" if found[0] != '"' or word == '""' else '"', word)


def ended(line: str) -> str:
    """Returns a line of a case's value, whose last letter is no white space but a blank."""
    return line if line[-1:] in ("", " ") or not line[-1].isspace() else line[:-1] + "".join(f"\\x{byte:02x}" for byte in line[-1].encode())


def value(key: str, text: str) -> list[str]:
    """Returns a key and its value as lines of a case."""
    return value_lines(key, list(map(ended, text.rstrip("\n").split("\n"))))


def input_lines(data: str) -> list[str]:
    """Returns standard input as a case writes it."""
    if not data:
        return []
    escaped = re.sub(r"[\x00-\x09\x0b-\x1f\\|\x7f]", lambda found: f"\\x{ord(found[0]):02x}", data)
    return value("input", escaped.rstrip("\n")[:8000] + ("\\n" if data.endswith("\n") else ""))


def program_part(program: Program) -> list[str]:
    text = disassembled(program)
    if " / " in text or "|" in text or "{" in text:
        return value("bytes", " ".join(f"{byte:02x}" for byte in encode(program)))
    return value("program", text)


def answer_part(status: int, text: str) -> list[str]:
    return [f"status {status}", *(value("output", text) if text else [])]


def difference(what: str, expected: str, got: str) -> str | None:
    """Returns the first line that differs, or nothing."""
    if expected == got:
        return None
    old, new = expected.split("\n"), got.split("\n")
    for number, (left, right) in enumerate(zip(old, new), 1):
        if left != right:
            return f"{what}: line {number}: expected {left[:300]!r}, got {right[:300]!r}"
    longer = (old if len(old) > len(new) else new)[min(len(old), len(new))]
    return f"{what}: expected {len(old)} lines, got {len(new)}; the first further one is {longer[:300]!r}"


# --- Tests of a run


def smaller_value(value: Value) -> Iterator[Value]:
    if isinstance(value, int):
        yield from {0, value // 2} - {value}
    elif isinstance(value, str):
        yield from {"", value[:len(value) // 2]} - {value}
    else:
        for subscript in value:
            yield {key: member for key, member in value.items() if key != subscript}  # type: ignore[misc]


@dataclass(frozen=True)
class RunTest(FuzzTest):
    """A program with inputs, a layout and a limit of events."""

    program: Program
    inputs: tuple[Value, ...] = ()
    layout: Layout = (1, 1, 1)
    limit: int = 1000

    @property
    def fields(self) -> dict[str, Any]:
        """Returns what another test of this run begins with."""
        return {"program": self.program, "inputs": self.inputs, "layout": self.layout, "limit": self.limit}

    @property
    def hex(self) -> str:
        return encode(self.program).hex()

    @property
    def words(self) -> list[str]:
        return input_words(self.program.inputs, list(self.inputs))

    @property
    def options(self) -> list[str]:
        engines, servers, workers = self.layout
        return ["--engines", str(engines), "--servers", str(servers), "--workers", str(workers)]

    def is_accepted(self, library: Library) -> bool:
        return not library.verify(encode(self.program)).code

    def smaller(self) -> Iterator["FuzzTest"]:
        for program in smaller(self.program):
            yield replace(self, program=program)
        for place, value in enumerate(self.inputs):
            for other in smaller_value(value):
                yield replace(self, inputs=(*self.inputs[:place], other, *self.inputs[place + 1:]))
        if self.layout != (1, 1, 1):
            yield replace(self, layout=(1, 1, 1))

    def case_of(self, words: Sequence[str], status: int, text: str) -> list[str]:
        """Returns a case of a command with the program as its input."""
        return [f"kind tw {' '.join(map(case_word, words))}", *program_part(self.program), *answer_part(status, text)]


@dataclass
class Failure:
    """A test that failed, shrunk."""

    kind: str
    seed: str
    number: int
    test: FuzzTest
    why: str
    steps: int = field(default=0)

    def lines(self) -> list[str]:
        """Returns what is printed: what came, and the case. If the oracle doesn't give an expected output, a person writes it for the `?`."""
        head = [f"{self.kind} {self.seed}, test {self.number}, shrunk {self.steps} times: {self.why}"]
        try:
            body = self.test.case()
        except Exception as why:  # a test without a case is shown as it is
            body = [f"# {why!r}", f"# {self.test!r}"[:4000]]
        if not any(line.startswith(("output", "status ")) for line in body):
            body += ["output", "    ?"]
        comments = [line for line in body if line.startswith("#")]
        about = f"about {self.kind}, found by ./dev fuzz {self.kind} {self.seed}."
        return [*head, *comments, f"case fuzz_{self.kind}_{self.number}", about, *(line for line in body if line not in comments)]
