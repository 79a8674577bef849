"""Fuzz tests of inputs and of the lines of a trace: whether they have their form is decided by docs/FORMAT.md, in Python."""

import json
import random
import re
from dataclasses import dataclass, replace
from typing import Iterator

from tools.fuzz import make
from tools.fuzz.oracle.code import CONT, INT, TCONT, TEXT, Type, entry_of, is_map, subscript_of
from tools.fuzz.library import Library
from tools.fuzz.oracle.machine import Event, Scalar, Value
from tools.fuzz.oracle.report import event_text, report_lines, split_circle, status_of
from tools.fuzz.kinds.runs import HistoryTest, InTurnTest, random_trace, run_test
from tools.fuzz.common import Corpus, FuzzTest, RunTest, answer_part, case_word, difference, without_parts

# --- Inputs

NUMBER = r"-?[0-9]+"
QUOTED = r'"(?:[^"\\]|\\["\\n]|\\x[0-7][0-9A-Fa-f])*"'
FORMS: dict[str, Type] = {"int": (INT,), "text": (TEXT,), "ints": (CONT, INT), "texts": (CONT, TEXT), "tints": (TCONT, INT), "ttexts": (TCONT, TEXT)}
Pairs = list[tuple[Scalar, Scalar]]


def unquoted(text: str) -> str:
    def letter(found: re.Match[str]) -> str:
        return {'"': '"', "\\": "\\", "n": "\n"}.get(found[1]) or chr(int(found[1][1:], 16))

    return re.sub(r'\\(["\\n]|x..)', letter, text[1:-1])


def read_scalar(text: str, type_: int) -> Scalar | None:
    """Returns a number of 64 bits, or a quoted text."""
    if type_ == TEXT:
        return unquoted(text) if re.fullmatch(QUOTED, text, re.S) else None
    if not re.fullmatch(NUMBER, text) or not -(2**63) <= int(text) < 2**63:
        return None
    return int(text)


def read_pairs(text: str, type_: Type) -> Pairs | None:
    """Returns the subscripts and members of a container or a map, in the order of the argument."""
    pairs: Pairs = []
    key, member = (QUOTED if type_[0] == TCONT else NUMBER), (QUOTED if type_[1] == TEXT else NUMBER)
    while text or pairs:
        found = re.match(f"({key})=({member})(,|$)", text, re.S)
        if not found:
            return None
        left, right = read_scalar(found[1], TEXT if type_[0] == TCONT else INT), read_scalar(found[2], type_[1])
        if left is None or right is None:
            return None
        pairs.append((left, right))
        text = text[found.end():]
        if not found[3]:
            break
    return pairs


def read_input(word: str) -> tuple[Type, Scalar | Pairs] | None:
    """Returns an input's type and value, or nothing if the argument has no form of an input."""
    name, colon, rest = word.partition(":")
    if not colon or name not in FORMS:
        return None
    type_ = FORMS[name]
    found = rest if name == "text" else read_scalar(rest, INT) if name == "int" else read_pairs(rest, type_)
    return None if found is None else (type_, found)


def size_of(value: Scalar) -> int:
    return len(value.encode()) if isinstance(value, str) else 0


def form_of(type_: Type) -> Type:
    """Returns the type of the argument for a parameter."""
    return (CONT if subscript_of(type_) == INT else TCONT, entry_of(type_)) if is_map(type_) else type_


def fits(given: tuple[Type, Scalar | Pairs], type_: Type) -> bool:
    """Whether the opening takes an input for a parameter of a type: a container's argument fits a map, too."""
    if given[0] != form_of(type_):
        return False
    if not isinstance(given[1], list):
        return size_of(given[1]) <= 4096
    keys = [pair[0].encode() if isinstance(pair[0], str) else pair[0] for pair in given[1]]
    rises = all(left < right for left, right in zip(keys, keys[1:]))  # type: ignore[operator]
    return rises and len(keys) <= (100_000 if is_map(type_) else 1000) and all(size_of(each) <= 4096 for pair in given[1] for each in pair)


def json_item(value: Scalar | Pairs, as_list: bool) -> Scalar | dict[str, Scalar] | list[Scalar]:
    """Returns an input as JSON: a container or a map is an object, whose members come in the other order; or it is a list, if that is required."""
    if not isinstance(value, list):
        return value
    return [member for _, member in value] if as_list else {str(key): member for key, member in reversed(value)}


def is_listed(value: Scalar | Pairs, type_: Type) -> bool:
    """Whether a value can be a JSON list: that of a map with the subscripts 0, 1 and so on."""
    return isinstance(value, list) and is_map(type_) and subscript_of(type_) == INT and [key for key, _ in value] == list(range(len(value)))


@dataclass(frozen=True)
class InputsTest(RunTest):
    """A run with any arguments as its inputs, with any lines after a line `inputs`, or with inputs that fit as JSON after it."""

    given: tuple[str, ...] = ()
    in_file: bool = False
    as_json: bool = False
    line_end: str = "\n"

    def expected(self) -> tuple[int, str] | list[Value]:
        """Returns the status and first line of an error, or the inputs."""
        read = [read_input(word) for word in self.given]
        if None in read:
            return 2, f"input word {read.index(None) + 1} refused"
        types = self.program.inputs
        if len(read) != len(types):
            return 1, "refused O01"
        values: list[Value] = []
        for found, type_ in zip(read, types):
            if found is None or not fits(found, type_):
                return 1, "refused O02"
            values.append(dict(found[1]) if isinstance(found[1], list) else found[1])  # type: ignore[arg-type]
        return values

    @property
    def arguments(self) -> list[str]:
        words = ["run", "--in-turn", "--limit", str(self.limit), *self.options]
        if self.as_json:
            return [*words, "--inputs-json"]
        return [*words, "--inputs"] if self.in_file else [*words, *self.given]

    @property
    def json_text(self) -> str:
        """Returns the inputs as a JSON array, on one line or on several."""
        pairs = zip([found for found in map(read_input, self.given) if found], self.program.inputs)
        items = [json_item(found[1], is_listed(found[1], type_)) for found, type_ in pairs]
        text = json.dumps(items, ensure_ascii=len(self.given) % 2 == 0, indent=None if self.line_end == "\n" else 1)
        return text.replace("\n", self.line_end)

    @property
    def data(self) -> str:
        if self.as_json:
            return f"{self.hex}\ninputs\n{self.json_text}"
        if not self.in_file:
            return self.hex
        return self.line_end.join([self.hex, "inputs", *self.given, "end", "int:7"]).replace(f"{self.line_end}inputs", "\ninputs")

    def fault(self, library: Library) -> str | None:
        if not self.is_accepted(library):
            return None
        status, text = library.session(self.arguments, self.data)
        expected = self.expected()
        if isinstance(expected, tuple) and self.as_json:
            return None
        if isinstance(expected, tuple):
            first = text.split("\n")[0]
            return None if (status, first) == expected else f"inputs: expected {expected}, got {(status, first)!r:.300}"
        machine = InTurnTest(self.program, tuple(expected), self.layout, self.limit).expected()[0]
        got = "\n".join(split_circle(text)[0])
        return difference("inputs", f"{status_of(machine)} " + "\n".join(report_lines(machine, True)), f"{status} {got}")

    def smaller(self) -> Iterator[FuzzTest]:
        for place, word in enumerate(self.given):
            for other in {word[:len(word) // 2], word[:-1], word[:5] + word[6:]} - {word}:
                if not other.startswith("-"):
                    yield replace(self, given=(*self.given[:place], other, *self.given[place + 1:]))

    def case(self) -> list[str]:
        expected = self.expected()
        status, text = expected if isinstance(expected, tuple) else (0, "?")
        return [f"# standard input: {self.data!r:.1500}", f"kind tw {' '.join(map(case_word, self.arguments))}", *answer_part(status, text)]


PIECES = ["", ",", "=", '"', "\\", "\\x41", "\\x80", "\\n", "0", "-", "--", "+", " ", "007", "9223372036854775807", "9223372036854775808", "-9223372036854775808",
          "é", "\t", '"a"=1', ",1=1", "x" * 4097, ":", "int:", "text:", "INT:"]


def damaged_word(chance: random.Random, word: str) -> str:
    at = chance.randrange(len(word) + 1)
    changed = word[:at] + chance.choice(PIECES) + word[at + chance.randrange(3):]
    return changed if not changed.startswith("-") else word


def make_inputs(chance: random.Random, corpus: Corpus) -> FuzzTest:
    program = make.program(chance)
    test = RunTest(program, tuple(make.inputs_of(chance, program)), (1, 1, 2), 300)
    words = list(test.words)
    test = replace(test, layout=(2, 1, 2))
    for place, word in enumerate(words):
        if chance.random() < 0.3:
            words[place] = damaged_word(chance, word)
    if chance.random() < 0.1:
        words.append("ints:" + ",".join(f"{number}={number}" for number in range(chance.choice([999, 1000, 1001, 1001]))))
    if words and chance.random() < 0.1:
        words.pop(chance.randrange(len(words)))
    in_file = chance.random() < 0.4 and not any(word in ("", "end", "events") or word.endswith("\r") for word in words)
    made = InputsTest(**test.fields, given=tuple(words), in_file=in_file, line_end=chance.choice(["\n", "\r\n", "\n\n"]))
    return replace(made, as_json=chance.random() < 0.3 and isinstance(made.expected(), list))


# --- Lines of a trace

# The actors of each event by its form; a server never has a task.
ACTORS = {"take": "esw", "local": "esw", "call": "esw", "end": "esw", "ask": "e", "deliver": "s", "release": "e"}
COUNTS = {"take": 0, "local": 1, "call": 0, "end": 0, "ask": 2, "deliver": 3, "release": 1}


def read_event(line: str) -> Event | None:
    """Returns the event of a line, or nothing if it has no form of an event."""
    words = [word for word in re.split(r"[ \t\r]+", line) if word]
    if len(words) < 2 or words[0] not in ACTORS or len(words) != 2 + COUNTS[words[0]]:
        return None
    actor = re.fullmatch(f"([{ACTORS[words[0]]}])([0-9]+)", words[1])
    if not actor or int(actor[2]) > 255 or not all(re.fullmatch("[0-9]+", word) and int(word) < 2**64 for word in words[2:]):
        return None
    numbers = [int(word) for word in words[2:]]
    if words[0] == "local" and not 1 <= numbers[0] <= 1_000_000_000:
        return None
    if words[0] in ("ask", "deliver"):
        numbers[-1] = min(255, numbers[-1])
    return (words[0], f"{actor[1]}{int(actor[2])}", *numbers)


@dataclass(frozen=True)
class TraceLinesTest(HistoryTest):
    """A trace with any lines: the first without the form of an event is rejected, before any event is made."""

    lines: tuple[str, ...] = ()

    def read(self) -> tuple[list[Event], int]:
        """Returns the events, and the number of the first wrong line, or 0."""
        events: list[Event] = []
        for number, line in enumerate(self.lines, 1):
            words = re.split(r"[ \t\r]+", line.strip(" \t\r"))
            if words == ["end"]:
                break
            if words == [""]:
                continue
            event = read_event(line)
            if event is None:
                return events, number
            events.append(event)
        return events, 0

    @property
    def data(self) -> str:
        return "\n".join([self.hex, "events", *self.lines])

    def fault(self, library: Library) -> str | None:
        events, wrong = self.read()
        if any(event[0] == "local" and int(event[2]) > 100_000 for event in events):
            return None
        if not wrong:
            status, text, _ = HistoryTest(**self.fields, events=tuple(events)).expected()
        else:
            status, text = 1, f"refused E01 at line {wrong}\n"
        got_status, got = library.session(["replay", *self.options, *self.words], self.data)
        return difference("trace", f"{status} {text}", f"{got_status} " + "\n".join(split_circle(got)[0]) + "\n")

    def smaller(self) -> Iterator[FuzzTest]:
        return without_parts(self, "lines")

    def case(self) -> list[str]:
        return [f"# standard input: {self.data!r:.3000}", f"kind tw {' '.join(map(case_word, ['replay', *self.options, *self.words]))}"]


WORDS = ["end", "take", "e0", "w0", "s0", "e255", "e256", "e00", "local e0 0", "local e0 1000000000", "local e0 1000000001", "", " ", "\t", "; x", "take e0 ", "take  e0\r", "TAKE e0",
         "ask e0 1 256", "ask e0 1 18446744073709551615", "ask e0 18446744073709551616 0", "release e0 -1", "deliver s0 1 1 0", "deliver e0 1 1 0", "take s0", "call e0 1", "é"]


def make_trace_lines(chance: random.Random, corpus: Corpus) -> FuzzTest:
    test = run_test(chance, corpus)
    if test.program.main.kind or any(param.mode == 1 or len(param.type) > 2 for param in test.program.main.params):
        return HistoryTest(**test.fields)
    lines = [event_text(event) for event in random_trace(chance, test, chance.choice([5, 30]))]
    for _ in range(chance.choice([1, 1, 2])):
        place = chance.randrange(len(lines) + 1)
        if chance.random() < 0.5 or place == len(lines):
            lines.insert(place, chance.choice(WORDS))
        else:
            at = chance.randrange(len(lines[place]) + 1)
            lines[place] = lines[place][:at] + chance.choice(["", " ", "0", "9", "-", "\t", "x", "\r"]) + lines[place][at + chance.randrange(2):]
    return TraceLinesTest(**test.fields, lines=tuple(lines))
