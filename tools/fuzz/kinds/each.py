"""The kind `each` of fuzz tests: the answer to each line of inputs is that of a run of its own."""

import json
import random
import tempfile
from dataclasses import dataclass, replace
from pathlib import Path
from typing import Iterator

from tools.fuzz import make
from tools.fuzz.oracle.code import INT
from tools.fuzz.library import Answer, Library
from tools.fuzz.oracle.machine import Value
from tools.fuzz.oracle.report import input_words
from tools.fuzz.kinds.runs import run_test
from tools.fuzz.common import Corpus, FuzzTest, RunTest, case_word, difference, visible_json, without_parts

# Lines that no array of inputs is, with the first words of their errors.
WRONG = {
    "[": "inputs refused", "7": "inputs refused", "{}": "inputs refused", "[7,]": "inputs refused", "[7] 8": "inputs refused", "[" * 129: "inputs refused",
    "null": "inputs refused", '"[7]"': "inputs refused", "[null]": "input 1 refused", "[true]": "input 1 refused", "[[7]]": "input 1 refused",
}
BLANK = ("", " ", "\t", " \r")
# Objects that aren't an id and inputs, with the id of their answers, if any.
WRONG_OBJECTS = {
    '{"id":7}': "7", '{"id":7,"inputs":[],"limit":9}': "7", '{"id":"a","id":"b"}': '"b"', '{"id":7,"inputs":{}}': "7", '{"id":[7],"inputs":[]}': None,
    '{"inputs":[],"id":null}': None, '{"inputs":[]}': None, '{"inputs":[],"inputs":[]}': None, '{"id":7,"inputs":[]': None, '{"id":"\\x","inputs":[]}': None,
}

# The status after lines by their ends, the worst first.
STATUSES = {"refused": 1, "limit": 4, "stopped": 4, "stuck": 3}


@dataclass(frozen=True)
class Line:
    """A line as JSON, and its inputs or the first words of its error; neither if it is blank. With the id of its answer, if any."""

    text: str
    inputs: tuple[Value, ...] | None = None
    wrong: str | None = None
    id: str | None = None

    def begin(self, number: int) -> str:
        """Returns how the answer begins, if this is the line with that number."""
        return f'{{"line":{number},' + (f'"id":{self.id},' if self.id is not None else "")


@dataclass(frozen=True)
class EachTest(RunTest):
    """A program with lines of inputs, in turn; if `jobs` isn't 0, also by the program with so many threads, from one input and as a stream."""

    lines: tuple[Line, ...] = ()
    jobs: int = 0

    @property
    def data(self) -> str:
        return "\n".join([self.hex, "inputs", *(line.text for line in self.lines)])

    @property
    def arguments(self) -> list[str]:
        return ["run", "--each", "--limit", str(self.limit), *self.options]

    def single(self, library: Library, values: tuple[Value, ...]) -> str:
        """Returns the object of a run with these inputs."""
        given = input_words(self.program.inputs, list(values))
        return library.session(["run", "--in-turn", "--json", "--limit", str(self.limit), *self.options, *given], self.hex)[1]

    def expected(self, library: Library) -> list[str]:
        """Returns the answers; of wrong lines the first words."""
        answers = []
        for number, line in enumerate(self.lines, 1):
            if line.inputs is not None:
                answers.append(line.begin(number) + self.single(library, line.inputs)[1:].rstrip("\n"))
            elif line.wrong is not None:
                item = '"input":' + line.wrong.split(" ")[1] + "," if line.wrong.startswith("input ") else ""
                answers.append(line.begin(number) + f'"error":{{{item}"lines":["{line.wrong}","line {number}, column ')
        return answers

    def answer_fault(self, expected: list[str], answer: Answer) -> str | None:
        """Compares all answers."""
        status, text = answer
        got = text.split("\n")
        cut = [line[:len(other)] if other.endswith("column ") else line for line, other in zip(got, expected)]
        worst = next((after for end, after in STATUSES.items() if any(line.endswith(f'"status":"{end}"}}') for line in got)), 0)
        if status != worst:
            return f"status: {status} of {text[:300]!r}"
        return difference("each", "\n".join([*expected, ""]), "\n".join([*cut, *got[len(expected):]]))

    def streamed(self, library: Library, jobs: list[str]) -> Answer:
        """Returns the answer to lines on standard input, with the program in a file."""
        with tempfile.TemporaryDirectory() as folder:
            program = Path(folder) / "program"
            program.write_text(self.hex, encoding="ascii")
            words = ["run", str(program), "--each", "-", *self.arguments[2:], *jobs]
            return library.command(words, "\n".join(line.text for line in self.lines))

    def fault(self, library: Library) -> str | None:
        if not self.is_accepted(library):
            return None
        expected = self.expected(library)
        why = self.answer_fault(expected, library.session(self.arguments, self.data))
        if why or not self.jobs:
            return why
        jobs = ["--jobs", str(self.jobs)]
        printed = [visible_json(line) for line in expected]
        return self.answer_fault(printed, library.command([*self.arguments, *jobs], self.data)) or self.answer_fault(printed, self.streamed(library, jobs))

    def smaller(self) -> Iterator[FuzzTest]:
        yield from without_parts(self, "lines")
        if self.jobs:
            yield replace(self, jobs=0)

    def case(self) -> list[str]:
        return [f"# standard input: {self.data!r:.3000}", f"kind tw {' '.join(map(case_word, self.arguments))}"]


# --- Lines as JSON


def gap(chance: random.Random) -> str:
    return chance.choice(["", "", "", " ", "\t", "  "])


def json_text(chance: random.Random, text: str) -> str:
    """Returns a text as a JSON string, with or without escapes for letters beyond ASCII."""
    return json.dumps(text, ensure_ascii=chance.random() < 0.5)


def json_value(chance: random.Random, value: Value) -> str:
    """Returns a value as JSON; members are in any order."""
    if isinstance(value, int):
        return str(value)
    if isinstance(value, str):
        return json_text(chance, value)
    pairs = list(value.items())
    chance.shuffle(pairs)
    members = [f"{json_text(chance, str(key))}{gap(chance)}:{gap(chance)}{json_value(chance, member)}" for key, member in pairs]
    return "{" + f"{gap(chance)},{gap(chance)}".join(members) + "}"


def json_line(chance: random.Random, values: tuple[Value, ...]) -> str:
    parts = [json_value(chance, value) for value in values]
    return gap(chance) + "[" + gap(chance) + f"{gap(chance)},{gap(chance)}".join(parts) + gap(chance) + "]" + chance.choice(["", " ", "\r"])


def is_json(text: str) -> bool:
    try:
        json.loads(text)
    except (ValueError, RecursionError):
        return False
    return True


def made_id(chance: random.Random) -> tuple[str, str]:
    """Makes an id, as a line and as its answer have it."""
    if chance.random() < 0.5:
        number = chance.choice(["0", "-0", "7", "1.50", "-2e+3", str(chance.randrange(-10**20, 10**20))])
        return number, number
    text = "".join(chance.choice('ab"\\/\b\n\x01\x7fé€😀{}[]:, ') for _ in range(chance.randrange(5)))
    return json_text(chance, text), json.dumps(text, ensure_ascii=False)


def labelled(chance: random.Random, line: Line) -> Line:
    """Returns a line as an object of an id and these inputs."""
    written, answered = made_id(chance)
    members = [(name, text) for name, text in (("id", written), ("inputs", line.text))]
    chance.shuffle(members)
    parts = [f'{gap(chance)}"{name}"{gap(chance)}:{gap(chance)}{text}{gap(chance)}' for name, text in members]
    text = gap(chance) + "{" + ",".join(parts) + "}" + gap(chance)
    return replace(line, text=text, id=answered if is_json(text) else None)


def array_line(chance: random.Random, test: RunTest) -> Line:
    """Makes a line of inputs that fit main; sometimes a wrong one, or one of too few inputs."""
    kind = chance.random()
    if kind < 0.12:
        fitting = [text for text, words in WRONG.items() if words == "inputs refused" or test.program.inputs == [(INT,)]]
        text = chance.choice(fitting)
        return Line(text, wrong=WRONG[text])
    values = tuple(make.inputs_of(chance, test.program))
    if kind < 0.17:
        values = values[:-1]
    return Line(json_line(chance, values), values)


def made_line(chance: random.Random, test: RunTest) -> Line:
    """Makes a line, with or without an id, sometimes a blank one or a wrong object."""
    kind = chance.random()
    if kind < 0.1:
        return Line(chance.choice(BLANK))
    if kind < 0.14:
        text = chance.choice(list(WRONG_OBJECTS))
        return Line(text, wrong="inputs refused", id=WRONG_OBJECTS[text])
    line = array_line(chance, test)
    return labelled(chance, line) if chance.random() < 0.3 else line


def make_each(chance: random.Random, corpus: Corpus) -> FuzzTest:
    test = run_test(chance, corpus)
    lines = tuple(made_line(chance, test) for _ in range(chance.choice([0, 1, 2, 5, 9])))
    return EachTest(**test.fields, lines=lines, jobs=chance.choice([1, 2, 3, 8, 64]) if chance.random() < 0.1 else 0)
