"""Kinds of fuzz tests of calls: `args` and `library`."""

import random
import re
from concurrent.futures import ThreadPoolExecutor
from dataclasses import dataclass, replace
from typing import Iterator

from tools import ROOT
from tools.fuzz import make
from tools.fuzz.oracle.bounds import needs
from tools.fuzz.oracle.code import encode, program_text
from tools.fuzz.library import Answer, Library
from tools.fuzz.kinds.texts import damaged_text
from tools.fuzz.common import Corpus, RunTest, FuzzTest, case_word, difference, input_lines, without_parts

COMMANDS = ["asm", "disasm", "check", "run", "replay", "picture", "explain", "help", "--help", "-h", "--version", "-V", ""]
ROWS = (ROOT / "crates/tw_cli/src/command_rows.rt").read_text(encoding="utf-8")
# The options that need no value, as the program's rows name them, and other words that begin so.
FLAGS = [*sorted({f"--{name}" for name in re.findall(r'form: ArgumentForm::(?:Flag|Inputs|ValueOrMain), name: "([a-z-]+)"', ROWS)}), "--help", "-h", "--", "-",
         "--inputs=x", "--each=-", "[1,2]", '["a", "b"]', "--bounds=all", "--seed=7", "--seed=0", "--seconds=0", "--seconds=0.0001", "--seconds=1000.125",
         "--seconds=1000", "--seconds=4294967295", "--seconds=4294967296"]
NUMBERED = ["--engines", "--servers", "--workers", "--limit", "--from", "--to", "--jobs", "--most-tasks", "--most-instructions", "--most-data", "--most-bytes", "--most-budget", "--most-members"]
VALUED = (*NUMBERED, "--seed", "--seconds")
NAMING = ("--inputs", "--inputs-json", "--each", "--events")
READING = ("asm", "check", "disasm", "picture", "replay", "run")
VALUES = ["0", "1", "2", "4", "5", "16", "17", "100", "1000000", "1000001", "4294967295", "4294967296", "-1", "+1", "01", "x", "", "1.0", "99999999999999999999"]
INPUTS = ["int:7", "int:-4", "int:", "int:x", "int:9223372036854775808", "ints:", "ints:1=7,5=-3", "ints:5=1,1=2", "ints:1=2,", "text:", "text:a b ", "text:é",
          'texts:1="a",2="b,c"', "texts:1=a", 'tints:"a"=1', "tints:a=1", 'ttexts:"a"="x"', "Int:7", "7", "-7", "V04", "v4", "C5", "A99", "V", "run", "\r", "\t", "a" * 300, "\u00a0", "text:a\nb", "\n"]
# A part of the text of each status; of JSON the last member.
TEXTS = {
    0: re.compile(r""),
    1: re.compile(r'(?m)^refused ([A-Z]\d\d|memory)|^not enabled at event \d+$|"status":"refused"}$'),
    2: re.compile(r'^command line refused\n|^(input (word )?\d+|inputs) refused\n|^{"error":{("input":\d+,)?"lines":\["input[^"]* refused",.*"status":"refused"}$'),
    3: re.compile(r'(?m)^stuck \d+$|<svg|"status":"stuck"}$'),
    4: re.compile(r'(?m)^limit$|<svg|"status":"limit"}$'),
    6: re.compile(r'(?m)^trap C\d+ at event \d+$|"status":"trap"}$'),
}
# How the library, which has no clock, rejects --seconds. The program takes it.
CLOCKLESS = "command line refused\n--seconds needs the command tw"
# A help has this; with it the program reads no file.
IS_HELP = "\nUsage: tw "
# The statuses if arguments are rejected, and if a file can't be read.
REJECTED, NO_FILE = 2, 66


def answer_fault(answer: Answer) -> str | None:
    """Says what is wrong with a status, or with the text of that status."""
    status, text = answer
    if status not in TEXTS:
        return f"status: {status}, which no document lists, with {text[:200]!r}"
    return None if TEXTS[status].search(text) else f"text: status {status} with {text[:200]!r}"


# --- args


def may_name(word: str) -> bool:
    """Says if a word may name a file."""
    return bool(word) and (word[0] != "-" or word == "-") and not re.match("(int|ints|text|texts|tints|ttexts):", word)


def bare_input(word: str) -> str | None:
    """Returns the input that a bare word is."""
    if re.fullmatch("-?[0-9]+", word):
        return f"int:{word}"
    if len(word) < 2 or word[0] != "[" or word[-1] != "]":
        return None
    inside = word[1:-1].strip(" \t\r\n\f")
    pieces = re.findall(r'"(?:[^"\\\\]|\\\\.)*"?|[ \t\r\n\f]+|.', inside, re.S)
    items: list[list[str]] = [[]] if inside else []
    for piece in pieces:
        if piece == ",":
            items.append([])
        else:
            items[-1].append(" " if piece.isspace() else piece)
    made = ",".join(f"{count}={''.join(item).strip(' ')}" for count, item in enumerate(items))
    return ("texts:" if inside[:1] == '"' else "ints:") + made


def rewritten(words: list[str]) -> list[str]:
    """Returns a command line as the program passes it on: with the kinds of bare inputs after a file, files as arguments of their own, and no `--`."""
    if not words or words[0] not in READING:
        return words
    made, before, file, has_dashes = [words[0]], "", "", False
    for word in words[1:]:
        option, before = before, word
        name, sign, value = word.partition("=")
        if not has_dashes and word == "--":
            has_dashes = True
        elif not has_dashes and sign and name in NAMING:
            made += [name, value]
            before = ""
        elif not has_dashes and (option in VALUED or option in NAMING and may_name(word) or option == "--bounds" and word in ("main", "all")):
            made.append(word)
            before = ""
        elif file not in ("", "-") and words[0] in ("run", "replay", "picture") and (bare := bare_input(word)) is not None:
            made.append(bare)
        else:
            made.append(f"./{word}" if has_dashes and len(word) > 1 and word[0] == "-" else word)
            file = file or (made[-1] if may_name(made[-1]) else "")
    return made


def file_places(words: list[str]) -> list[int]:
    """Returns where files are named: the first after `--inputs` or `--each`, and the first other argument that is no value and no input."""
    program = inputs = 0
    for place, (before, word) in enumerate(zip(words, words[1:]), 1) if words[:1] and words[0] in READING else ():
        if not may_name(word):
            continue
        if before in NAMING and not inputs:
            inputs = place
        elif not program and before not in VALUED and (before, word) not in (("--bounds", "main"), ("--bounds", "all")):
            program = place
    return [place for place in (program, inputs) if place]


@dataclass(frozen=True)
class ArgsTest(FuzzTest):
    """Any arguments: a known status with its text, and the program answers as the library does, or that a file can't be read.

    It opens no file if the other arguments are rejected, and takes a bare word, such as `7`, for an input if there is no such file."""

    words: tuple[str, ...]
    data: str
    by_program: bool = False

    @property
    def line(self) -> list[str]:
        """Returns the arguments, with those that make a run in turn and short."""
        words = list(self.words)
        return [words[0], "--in-turn", *words[1:]] if words[:1] == ["run"] and "--in-turn" not in words else words

    def fault(self, library: Library) -> str | None:
        why = answer_fault(library.session(self.line, self.data))
        if why or not self.by_program:
            return why
        line = rewritten(self.line)
        answer = library.session(line, self.data)
        if answer[1].startswith(CLOCKLESS):
            timeless = [word for before, word in zip(["", *line], line) if "--seconds" not in (before, word) and not word.startswith("--seconds=")]
            answer = library.session(timeless, self.data)
        status, text = library.command(self.line, self.data)
        places = file_places(line)
        files = [line[place] for place in places]
        if "-" in files or files and status == NO_FILE:
            return None
        others = [word for place, word in enumerate(line) if place not in places]
        if files and (status == REJECTED or IS_HELP in text) and library.session(others, self.data) == (status, text):
            return None
        if files and not text.startswith("command line refused") and any("." in name or "/" in name for name in files):
            return f"program: status {status}, but {files} can't be read"
        if status != answer[0]:
            return f"program: status {status} {text[:100]!r}, the library {answer[0]} {answer[1][:100]!r}"
        return difference("program", answer[1], text)

    def smaller(self) -> Iterator[FuzzTest]:
        yield from without_parts(self, "words")
        for place, word in enumerate(self.words):
            for other in {word[:len(word) // 2], word[:-1]} - {word}:
                yield replace(self, words=(*self.words[:place], other, *self.words[place + 1:]))
        if self.data:
            yield replace(self, data="")

    def case(self) -> list[str]:
        return [f"kind tw {' '.join(map(case_word, self.line))}", *input_lines(self.data), "# expected: one answer of both, by the documents"]


@dataclass(frozen=True)
class OrderTest(RunTest):
    """A run, whose options come before, after and between the inputs."""

    mixed: tuple[str, ...] = ()

    def fault(self, library: Library) -> str | None:
        first = library.session(["run", "--in-turn", "--limit", str(self.limit), *self.options, *self.words], self.hex)
        second = library.session(list(self.mixed), self.hex)
        if first[0] != second[0]:
            return f"order: status {first[0]} and {second[0]}: {second[1][:200]!r}"
        return difference("order", first[1], second[1])

    def smaller(self) -> Iterator[FuzzTest]:
        return iter(())

    def case(self) -> list[str]:
        return [f"# expected: as by {' '.join(['run', '--in-turn', *self.options, *self.words])}", *self.case_of(list(self.mixed), 0, "")]


def mixed_words(chance: random.Random, test: RunTest) -> list[str]:
    """Returns a run's arguments in another order; the inputs keep theirs."""
    options = test.options + ["--limit", str(test.limit)]
    groups = [options[place:place + 2] for place in range(0, len(options), 2)] + [["--in-turn"]]
    chance.shuffle(groups)
    groups = [[f"{group[0]}={group[1]}"] if len(group) == 2 and chance.random() < 0.3 else group for group in groups]
    places = sorted(chance.choices(range(len(groups) + 1), k=len(test.words)))
    for place, word in zip(reversed(places), reversed(test.words)):
        groups.insert(place, [word])
    return ["run", *(word for group in groups for word in group)]


def some_input(chance: random.Random, corpus: Corpus) -> str:
    kind = chance.randrange(6)
    if kind == 0:
        return ""
    if kind == 1:
        return chance.choice(corpus.named)
    if kind == 2:
        return encode(make.program(chance)).hex()
    text = chance.choice(corpus.texts) if kind == 3 else program_text(make.program(chance))
    text = damaged_text(chance, text) if chance.random() < 0.3 else text
    return text + chance.choice(["", "", "events\ntake e0\ncall e0\nend\n", "inputs\nint:7\n", "inputs\nint:7\nend\nx"])


def some_words(chance: random.Random) -> tuple[str, ...]:
    words = [chance.choice(COMMANDS)] if chance.random() < 0.95 else []
    for _ in range(chance.choice([0, 1, 1, 2, 3, 5])):
        kind = chance.randrange(4)
        if kind == 0:
            option = chance.choice(NUMBERED)
            value = chance.choice(VALUES)
            words += [f"{option}={value}"] if chance.random() < 0.2 else [option, value]
        elif kind == 1:
            words.append(chance.choice(INPUTS))
        elif kind == 2:
            words.append(chance.choice(FLAGS + ["--text"] * 10))
        else:
            word = chance.choice(FLAGS + NUMBERED + INPUTS + COMMANDS)
            words.append(word[:chance.randrange(len(word) + 1)] if chance.random() < 0.3 else word)
    return tuple(words)


def make_args(chance: random.Random, corpus: Corpus) -> FuzzTest:
    if chance.random() < 0.15:
        program = chance.choice(corpus.accepted)
        test = RunTest(program, tuple(make.inputs_of(chance, program)), make.layout(chance, needs(program)), 300)
        return OrderTest(**test.fields, mixed=tuple(mixed_words(chance, test)))
    return ArgsTest(some_words(chance), some_input(chance, corpus), chance.random() < 0.1)


# --- library

GUARD = b"\xa5" * 16


@dataclass(frozen=True)
class RoomTest(FuzzTest):
    """A call with a buffer of each size: nothing is written outside it, nor if the text doesn't fit. A handle holds the same text."""

    words: tuple[str, ...]
    data: bytes
    has_last: bool = True
    """Whether the last argument has its line feed."""

    @property
    def line(self) -> bytes:
        line = "\n".join(self.words).encode()
        return line + b"\n" if self.has_last else line

    def sizes(self, length: int) -> list[int]:
        return sorted({0, 1, length // 2, max(0, length - 1), length, length + 1, length + 100} | set(range(min(length, 40))))

    def fault(self, library: Library) -> str | None:
        status, length, _ = library.into_room(self.line, self.data, 0)
        _, _, whole = library.into_room(self.line, self.data, length)
        text = whole[16:16 + length]
        for size in self.sizes(length):
            found = library.into_room(self.line, self.data, size)
            expected = GUARD + (text.ljust(size, b"\xa5") if size >= length else b"\xa5" * size) + GUARD
            if found[:2] != (status, length) or found[2] != expected:
                return f"room: of {size} bytes: status {found[0]}, length {found[1]}, expected {status} and {length}; the buffer {found[2] == expected}"
        kept = library.into_text(self.line.replace(b"\n", b"\0"), self.data)
        if kept != (status, text):
            return f"text: {kept!r:.200}, expected {(status, text)!r:.200}"
        return self.answer_fault(library, (status, text.decode("utf-8", "backslashreplace")))

    def answer_fault(self, library: Library, answer: Answer) -> str | None:
        why = answer_fault(answer)
        if why is None and self.has_last and "\n" not in "".join(self.words):
            other = library.session(list(self.words), self.data)
            return None if other == answer else f"session: {other!r:.200}, expected {answer!r:.200}"
        return why

    def smaller(self) -> Iterator[FuzzTest]:
        yield from without_parts(self, "words")
        yield from without_parts(self, "data")

    def case(self) -> list[str]:
        return [f"kind called {' '.join(map(case_word, self.words))}", *input_lines(self.data.decode("utf-8", "backslashreplace"))]


@dataclass(frozen=True)
class VerdictTest(FuzzTest):
    """Any bytes: the verdict is what `check` writes of them, also in several threads at once."""

    data: bytes

    def fault(self, library: Library) -> str | None:
        verdict = str(library.verify(self.data))
        _, text = library.session(["check"], self.data.hex())
        why = difference("verdict", text.split("\n")[0], verdict)
        with ThreadPoolExecutor(4) as threads:
            answers = set(threads.map(lambda _: (library.session(["check"], self.data.hex())[1], str(library.verify(self.data))), range(8)))
        return why or (None if answers == {(text, verdict)} else f"threads: {len(answers)} different answers")

    def smaller(self) -> Iterator[FuzzTest]:
        return without_parts(self, "data")

    def case(self) -> list[str]:
        return ["kind verify", "bytes", "    " + " ".join(f"{byte:02x}" for byte in self.data)]


def make_library(chance: random.Random, corpus: Corpus) -> FuzzTest:
    if chance.random() < 0.3:
        data = encode(make.damaged(chance, make.program(chance), chance.choice([0, 1])))
        return VerdictTest(data[:chance.choice([len(data), chance.randrange(len(data) + 1)])])
    words, data = some_words(chance), some_input(chance, corpus).encode()
    if words[:1] == ("run",):
        words = ("run", "--limit", "50", *words[1:]) if "--limit" not in " ".join(words) else ("run",)
    if chance.random() < 0.2:
        at = chance.randrange(len(data) + 1)
        data = data[:at] + bytes([chance.choice([0, 0x80, 0xC3, 0xFF])]) * chance.randrange(3) + data[at + chance.randrange(2):]
    return RoomTest(words, data, chance.random() < 0.8)
