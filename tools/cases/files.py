"""Reads and writes the files of cases/, and expands each case to the line that a program of crates/ runs.

CONTRIBUTING.md, "Cases", has the format. A file is a list of blocks of text:

    # Says what the cases below are about, up to the next comment.
    NAME | KIND ARGUMENTS | INPUT | EXPECTED            a case in a line
    let NAME = BYTES                                    bytes that cases call @NAME
    case NAME                                           a case with a key on each line; a value
    kind tw run                                         is on the key's line, or below it,
    input                                               indented by four
        proc control
"""

import re
from collections.abc import Iterable, Iterator
from dataclasses import dataclass, field
from pathlib import Path

# The most columns of any line, and of a case that is written in one line.
WIDTH = 200
ROW_WIDTH = 160
INDENT = "    "

# The crates whose programs run cases: that of all other kinds, and that of the kinds of hosts and pools.
CRATES = ("tw_cases", "tw_host_cases")
HOST_KINDS = {"turns", "rounds", "stops", "drives", "threads", "woken", "unthreaded", "scarce_pool"}
# Kinds that hold all addresses, so that an allocation fails. AddressSanitizer, with which unverified builds are made, allocates otherwise.
SCARCE_KINDS = {"scarce", "scarce_pool", "unthreaded"}
SESSION_KINDS = {"tw", "called", "ends", "scarce", "cuts", "stream"}
# Kinds whose expected output begins with an exit status.
STATUS_KINDS = {"tw", "called", "ends", "scarce", "stream", "phrases"}
# Kinds that have a field after the program, also if it is empty.
EVENT_KINDS = {"machine", "state", "steps", "turns"}
# The keys that hold a case's input, with what joins the lines of a value.
JOINED_BY = {"program": " / ", "bytes": " ", "input": "\\n", "given": " ", "phrases": " / ", "events": ", ", "script": ", "}
KEYS = {"about", "kind", "status", "output", "complaint"} | JOINED_BY.keys()

NAME = re.compile(r"[a-z][a-z0-9_]*")
GENERATOR = re.compile(r'\{(repeat (?P<times>\d+)|count (?P<first>-?\d+) to (?P<last>-?\d+)) "(?P<text>(?:[^"\\]|\\.)*)"(?: by "(?P<by>(?:[^"\\]|\\.)*)")?\}')
COUNTER = re.compile("#+")
STATUS = re.compile(r"(\d+(?: unread)?)(?: (.*))?", re.DOTALL)


class Fault(Exception):
    """A fault of a file, with its place."""

    def __init__(self, path: Path, line: int, why: str) -> None:
        super().__init__(f"{path}:{line}: {why}")


@dataclass
class Value:
    """A key's value: its lines, and the lines of the file that hold it (counted from 1, the last one included)."""

    lines: list[str]
    first: int
    last: int


@dataclass
class Case:
    """A case, with its place and what it is about."""

    name: str
    kind: str
    given: str
    wanted: str
    path: Path
    first: int
    last: int
    about: str = ""
    group: str = ""
    complaint: str | None = None
    # The lines of the file with the status and the expected output; none of a case in one line.
    answer: tuple[int, int] | None = None

    @property
    def words(self) -> str:
        """Returns what the case is about: its own words, or its group's."""
        return self.about or self.group

    @property
    def topic(self) -> str:
        return self.path.with_suffix("").as_posix()

    @property
    def place(self) -> str:
        return f"cases/{self.path.as_posix()}:{self.first}"

    @property
    def crate(self) -> str:
        """Returns the crate whose program runs the case."""
        return CRATES[self.kind.split(" ")[0] in HOST_KINDS]

    @property
    def row(self) -> str:
        """Returns the line that the program reads."""
        return row_of(self.name, self.kind, self.given, self.wanted)


@dataclass
class Let:
    """Bytes with a name."""

    name: str
    text: str
    path: Path
    first: int

    @property
    def row(self) -> str:
        return f"let {self.name} = {self.text}"


@dataclass
class Book:
    """All cases and named bytes, in the order of the files."""

    cases: list[Case] = field(default_factory=list)
    lets: dict[str, Let] = field(default_factory=dict)


# --- Expanding


def row_of(name: str, kind: str, given: str, wanted: str) -> str:
    """Returns a case as one line. The kind `errors` has no input."""
    fields = [name, kind, wanted] if kind.split(" ")[0] == "errors" else [name, kind, given, wanted]
    return re.sub(r"\| +(?=\|)", "| ", " | ".join(fields)).rstrip()


def unquoted(text: str | None) -> str:
    return (text or "").replace('\\"', '"')


def generated(match: re.Match[str]) -> str:
    """Returns the text of a generator: `{repeat 3 "ab"}`, or `{count 8 to 10 "##=x" by ","}`, where `#` is the number."""
    text, joint = unquoted(match["text"]), unquoted(match["by"])
    if match["times"] is not None:
        return joint.join([text] * int(match["times"]))
    numbers = range(int(match["first"]), int(match["last"]) + 1)
    return joint.join(COUNTER.sub(lambda run: str(number).zfill(len(run[0])), text) for number in numbers)


def expanded(line: str) -> str:
    """Returns a line with its generators expanded, and with a blank for `\\s` at its end."""
    if line.endswith("\\s"):
        line = line[:-2] + " "
    return GENERATOR.sub(generated, line)


def joined(lines: Iterable[str], joint: str) -> str:
    """Joins the lines of a value. A line that ends in a backslash is continued in the next one."""
    whole: list[str] = []
    is_open = False
    for line in lines:
        goes_on = line.endswith("\\")
        text = expanded(line[:-1] if goes_on else line)
        if is_open:
            whole[-1] += text
        else:
            whole.append(text)
        is_open = goes_on
    return joint.join(whole)


def given_of(kind: str, values: dict[str, Value]) -> str:
    """Returns a case's input, the fields between its kind and its expected output."""
    text = {key: joined(value.lines, JOINED_BY[key]) for key, value in values.items() if key in JOINED_BY}
    first = kind.split(" ")[0]
    digits = text.get("program", text.get("bytes"))
    tail = text.get("events", text.get("script", ""))
    if digits is None:
        return text.get("input", text.get("given", text.get("phrases", "")))
    if first in SESSION_KINDS:
        return f"hex {digits}" + (f" events {tail}" if tail else "")
    return f"{digits} | {tail}".rstrip(" ") if first in EVENT_KINDS or tail else digits


def wanted_of(values: dict[str, Value]) -> str:
    """Returns the expected output: the status, and the lines of the output."""
    parts = [joined(values["status"].lines, " ")] if "status" in values else []
    if "output" in values:
        parts.append(joined(values["output"].lines, " / "))
    return " ".join(parts)


# --- Reading


@dataclass
class Reader:
    """Reads the lines of a file."""

    path: Path
    lines: list[str]
    book: Book
    at: int = 0
    group: str = ""

    def fault(self, line: int, why: str) -> Fault:
        return Fault(Path("cases") / self.path, line, why)

    def read(self) -> None:
        for number, line in enumerate(self.lines, 1):
            if len(line) > WIDTH:
                raise self.fault(number, f"a line has at most {WIDTH} columns; {{repeat N \"TEXT\"}} makes longer ones")
            if line != line.rstrip():
                raise self.fault(number, "blanks at a line's end; \\s is one that counts")
        while self.at < len(self.lines):
            self.read_block()

    def read_block(self) -> None:
        line = self.lines[self.at]
        if not line:
            self.at += 1
        elif line.startswith("#"):
            self.group = " ".join(each.lstrip("# ") for each in self.take_while("#"))
        elif line.startswith("let "):
            self.read_let(line)
        elif line.startswith("case "):
            self.read_case()
        elif " | " in line and NAME.match(line):
            self.read_row(line)
        else:
            raise self.fault(self.at + 1, "expected a comment, `case NAME`, `let NAME` or NAME | KIND ARGUMENTS | INPUT | EXPECTED")

    def take_while(self, prefix: str) -> Iterator[str]:
        while self.at < len(self.lines) and self.lines[self.at].startswith(prefix):
            yield self.lines[self.at]
            self.at += 1

    def take_value(self) -> Value:
        """Reads indented lines; blank ones are part of the value, except those at its end."""
        first = self.at + 1
        lines: list[str] = []
        while self.at < len(self.lines) and (not self.lines[self.at] or self.lines[self.at].startswith(INDENT)):
            lines.append(self.lines[self.at][len(INDENT):])
            self.at += 1
        while lines and not lines[-1]:
            lines.pop()
            self.at -= 1
        return Value(lines, first, self.at)

    def read_let(self, line: str) -> None:
        name, _, text = line[len("let "):].partition(" = ")
        first = self.at + 1
        self.at += 1
        if not text:
            lines = self.take_value().lines
            text = joined(lines, " / " if lines and lines[0].startswith(("proc ", "version ")) else " ")
        if not NAME.fullmatch(name) or not text:
            raise self.fault(first, "expected let NAME = BYTES, or lines of a program below it")
        self.add_let(Let(name, expanded(text), self.path, first))

    def add_let(self, made: Let) -> None:
        if made.name in self.book.lets:
            raise self.fault(made.first, f"the name @{made.name} is taken: cases/{self.book.lets[made.name].path}")
        self.book.lets[made.name] = made

    def read_row(self, line: str) -> None:
        first = self.at + 1
        if len(line) > ROW_WIDTH:
            raise self.fault(first, f"a case in a line has at most {ROW_WIDTH} columns; write it as `case NAME` with its keys")
        name, _, rest = line.partition("|")
        inputs, _, wanted = rest.rpartition("|")
        kind, _, given = inputs.partition("|")
        self.at += 1
        made = Case(name.strip(), expanded(kind.strip()), expanded(given.strip()), expanded(wanted.strip()), self.path, first, first)
        self.add_case(made)

    def read_case(self) -> None:
        first = self.at + 1
        name = self.lines[self.at][len("case "):]
        self.at += 1
        values = dict(self.take_keys())
        for key in ("about", "kind"):
            if key not in values:
                raise self.fault(first, f"the case has no line `{key} ..`")
        if "output" not in values and "status" not in values:
            raise self.fault(first, "the case expects nothing: `output ..` or `status ..`")
        kind = joined(values["kind"].lines, " ")
        made = Case(name, kind, given_of(kind, values), wanted_of(values), self.path, first, self.at)
        made.about = joined(values["about"].lines, " ")
        made.answer = answer_lines(values)
        if "complaint" in values:
            made.complaint = joined(values["complaint"].lines, "\n").replace("\\n", "\n")
        self.add_case(made)

    def take_keys(self) -> Iterator[tuple[str, Value]]:
        seen: set[str] = set()
        while self.at < len(self.lines) and self.lines[self.at]:
            key, _, text = self.lines[self.at].partition(" ")
            place = self.at + 1
            if key not in KEYS or key in seen:
                raise self.fault(place, f"`{key}` is no key of a case, or is here twice; the keys are {', '.join(sorted(KEYS))}")
            seen.add(key)
            self.at += 1
            if text:
                yield key, Value([text], place, place)
            else:
                yield key, Value(self.take_value().lines, place, self.at)

    def add_case(self, made: Case) -> None:
        made.group = self.group
        if not NAME.fullmatch(made.name):
            raise self.fault(made.first, "a name has small letters, digits and _, and begins with a letter")
        if not made.words:
            raise self.fault(made.first, "nothing says what the case is about: begin the file with a comment")
        if not made.kind:
            raise self.fault(made.first, "the case has no kind")
        self.book.cases.append(made)


def answer_lines(values: dict[str, Value]) -> tuple[int, int]:
    """Returns the lines of the file that hold the status and the output, which follow each other."""
    spans = [values[key] for key in ("status", "output") if key in values]
    return min(span.first for span in spans), max(span.last for span in spans)


def read_book(root: Path) -> Book:
    """Reads all files of a folder of cases. A case's name is its own."""
    book = Book()
    for path in sorted(root.rglob("*.case")):
        lines = path.read_text(encoding="utf-8").split("\n")
        if lines and not lines[-1]:
            lines.pop()
        Reader(path.relative_to(root), lines, book).read()
    places: dict[str, str] = {}
    for case in book.cases:
        if case.name in places:
            raise Fault(Path("cases") / case.path, case.first, f"the name is taken: {places[case.name]}")
        places[case.name] = case.place
    return book


# --- Named bytes


REFERENCE = re.compile(r"(?<!\S)@([a-z0-9_]+)")


def lets_of(book: Book, text: str, done: set[str]) -> Iterator[Let]:
    """Yields the named bytes that a text needs and that aren't done, those before them first."""
    for name in REFERENCE.findall(text):
        if name in done or name not in book.lets:
            continue
        done.add(name)
        yield from lets_of(book, book.lets[name].text, done)
        yield book.lets[name]


def unused_lets(book: Book) -> list[Let]:
    """Returns the named bytes that no case needs."""
    done: set[str] = set()
    for case in book.cases:
        list(lets_of(book, case.given, done))
    return [made for made in book.lets.values() if made.name not in done]


def unknown_names(book: Book) -> list[tuple[Case, str]]:
    """Returns the cases that name bytes which no file has. Only kinds that read bytes are looked at."""
    found = []
    for case in book.cases:
        is_session = case.kind.split(" ")[0] in SESSION_KINDS
        if is_session and not case.given.startswith("hex ") or case.kind.split(" ")[0] in ("phrases", "names", "renamed"):
            continue
        found += [(case, name) for name in REFERENCE.findall(case.given) if name not in book.lets]
    return found


# --- Writing


def shortened(line: str) -> str:
    """Returns a line with a generator for its longest repetition, if it is too long for a file."""
    if len(line) <= WIDTH - len(INDENT):
        return line
    best: re.Match[str] | None = None
    for found in re.finditer(r"(.{1,60}?)\1{19,}", line):
        if best is None or len(found[0]) > len(best[0]):
            best = found
    if best is None:
        return line
    text = best[1].replace('"', '\\"')
    made = f'{{repeat {len(best[0]) // len(best[1])} "{text}"}}'
    return line[:best.start()] + made + shortened(line[best.end():])


def folded(line: str) -> list[str]:
    """Returns a line as lines of a file: one, or several that a backslash continues."""
    line = re.sub(" $", r"\\s", shortened(line))
    most = WIDTH - len(INDENT) - 1
    lines = []
    while len(line) > most + 1:
        cut = line.rfind(" ", 0, most) + 1
        cut = cut if cut > most // 2 else most
        while line[:cut].endswith((" ", "\\")):
            cut -= 1
        lines.append(line[:cut] + "\\")
        line = line[cut:]
    return [*lines, line]


def value_lines(key: str, lines: list[str]) -> list[str]:
    """Returns a key with its value as lines of a file: on one line if it fits, and doesn't look like something else."""
    shown = [each for line in lines for each in folded(line)]
    if len(shown) == 1 and shown[0] and not shown[0].startswith(" ") and len(key) + 1 + len(shown[0]) <= WIDTH:
        return [f"{key} {shown[0]}"]
    return [key, *(INDENT + line if line else "" for line in shown)]


def answer_text(kind: str, wanted: str) -> list[str]:
    """Returns the status and the expected output as lines of a file."""
    match = STATUS.fullmatch(wanted) if kind.split(" ")[0] in STATUS_KINDS else None
    if match is None:
        return value_lines("output", wanted.split(" / "))
    lines = value_lines("status", [match[1]])
    return lines if match[2] is None else lines + value_lines("output", match[2].split(" / "))
