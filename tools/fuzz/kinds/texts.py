"""Kinds of fuzz tests of texts and bytes: `names`, `asm` and `decode`. The oracle is the encoding of oracle/code.py."""

import json
import random
import re
from dataclasses import dataclass, replace
from typing import Callable, Iterator

from tools.fuzz import make, positions
from tools.fuzz.oracle.assembler import Error, assembled
from tools.fuzz.oracle.code import FORMS, Fault, Program, decode, disassembled, encode, head_text, instr_text, labelled_lines, registers_text, smaller, version_lines
from tools.fuzz.kinds.handles import NEWEST, Calls
from tools.fuzz.library import Library
from tools.fuzz.oracle.literals import with_literals
from tools.fuzz.oracle.names import is_name, new_name, symbolic, wrong
from tools.fuzz.common import Corpus, FuzzTest, answer_part, difference, input_lines, value, visible, without_parts

ERROR = re.compile(r"refused ([AN]\d\d)(?: at line (\d+))?(?:\n|$)")


def program_of(chance: random.Random, corpus: Corpus) -> Program:
    """Returns a program that has an encoding; the verifier needn't accept it."""
    made = chance.choice(corpus.programs) if chance.random() < 0.2 else make.program(chance)
    return make.damaged(chance, made, chance.choice([1, 3])) if chance.random() < 0.4 else made


def hex_line(program: Program) -> str:
    return encode(program).hex() + "\n"


# --- Texts of a program


@dataclass(frozen=True)
class TextTest(FuzzTest):
    """A text of a program, written in a style, which assembles to the program's bytes."""

    program: Program
    style: int

    @property
    def words(self) -> list[str]:
        return ["asm"]

    @property
    def text(self) -> str:
        return styled(self.program, self.style)

    def fault(self, library: Library) -> str | None:
        _, got = library.session(self.words, self.text)
        return difference(" ".join(self.words), hex_line(self.program), got) or self.more(library)

    def more(self, library: Library) -> str | None:
        """Compares the text that `disasm` writes, and what that assembles to."""
        _, text = library.session(["disasm"], encode(self.program).hex())
        _, again = library.session(["asm"], text)
        return difference("disasm", disassembled(self.program), text) or difference("asm of disasm", hex_line(self.program), again)

    def smaller(self) -> Iterator[FuzzTest]:
        for program in smaller(self.program):
            yield replace(self, program=program)

    def case(self) -> list[str]:
        return [f"kind tw {' '.join(self.words)}", *input_lines(self.text), *answer_part(0, hex_line(self.program))]


@dataclass(frozen=True)
class NamesTest(TextTest):
    """A symbolic assembly of a program: it assembles to the program's bytes, and so does its expansion, line by line."""

    @property
    def words(self) -> list[str]:
        return ["asm", "--names"]

    @property
    def text(self) -> str:
        return symbolic(self.program, self.style)

    def more(self, library: Library) -> str | None:
        return plain_fault(library, self.text, hex_line(self.program))


def lines_in(text: str) -> int:
    return text.count("\n") + (not text.endswith("\n"))


def plain_fault(library: Library, text: str, expected: str) -> str | None:
    """Compares what the expansion of a text assembles to, and the number of its lines, apart from those that fill hidden registers."""
    _, plain = library.session(["asm", "--names", "--plain"], text)
    written = lines_in(plain) - sum(line.startswith(" ") for line in plain.split("\n"))
    if written != lines_in(text):
        return f"--plain: the text has {lines_in(text)} lines, its expansion {written}"
    return difference("asm of --plain", expected, library.session(["asm"], plain)[1])


# --- Styles of assembly text

BLANKS = (" ", "  ", "\t", " \t ", "\r ")
LABELS = ("v0", "any", "INT", "d3", "proc", "regs", "version", "RET", "int", "L0", "names")
TOKEN = re.compile(r'"(?:\\.|[^"\\])*"|[^ ]+')


def styled(program: Program, style: int) -> str:
    """Returns an assembly text of a program with random blanks, comments, labels, and forms of numbers and texts."""
    chance = random.Random(f"asm {style}")
    lines = version_lines(program) or (["version 1"] if chance.random() < 0.2 else [])
    for procedure in program.procedures:
        lines += [head_text(procedure), registers_text(procedure)]
        code = list(labelled_lines(procedure)) if chance.random() < 0.7 else [instr_text(instr) for instr in procedure.code]
        lines += renamed_labels(chance, code)
    out: list[str] = []
    for line in lines:
        if chance.random() < 0.1:
            out.append(chance.choice(["", " ", "; a comment", '\t; " open', ";"]))
        out.append(styled_line(chance, line))
    return "\n".join(out) + chance.choice(["\n", "", "\n\n", "\n;"])


def renamed_labels(chance: random.Random, code: list[str]) -> list[str]:
    """Returns a procedure's lines with other names of labels."""
    taken: set[str] = set()
    names: dict[str, str] = {}
    for line in code:
        if line.endswith(":") and '"' not in line:
            name = chance.choice(LABELS)
            names[line[:-1]] = new_name(chance, taken) if name in taken or chance.random() < 0.5 else name
            taken.add(names[line[:-1]])

    def renamed(line: str) -> str:
        if line.endswith(":") and line[:-1] in names:
            return names[line[:-1]] + ":"
        first, blank, last = line.rpartition(" ")
        return first + blank + names[last] if last in names and FORMS[first.split(" ")[0]][1].endswith("s") else line

    return [renamed(line) for line in code]


def styled_line(chance: random.Random, line: str) -> str:
    words = TOKEN.findall(line)
    name = words[0]
    form = FORMS[name][1] if name in FORMS else ""
    out = [name]
    for place, word in enumerate(words[1:]):
        out.append(styled_word(chance, word, form[place] if place < len(form) else ""))
    joint = chance.choice(BLANKS) if chance.random() < 0.3 else " "
    tail = chance.choice(["", "", "", " ", "\r", " ; RET", ';"', "\t;é"])
    return chance.choice(["", "", "", " ", "\t"]) + joint.join(out) + tail


def styled_word(chance: random.Random, word: str, form: str) -> str:
    """Returns another form of a number or a text."""
    if word.startswith('"'):
        return '"' + "".join(styled_letter(chance, letter) for letter in re.findall(r"\\x..|\\.|[^\\]", word[1:-1], re.S)) + '"'
    if form in ("n", "k", "p") and chance.random() < 0.2:
        sign, digits = ("-", word[1:]) if word.startswith("-") else ("", word)
        return sign + "0" * chance.choice([1, 2, 30]) + digits
    if word == "0" and form == "n" and chance.random() < 0.3:
        return "-0"
    if word.startswith("+") and chance.random() < 0.2:
        return "+" + "0" * chance.choice([1, 9]) + word[1:]
    return word


def styled_letter(chance: random.Random, letter: str) -> str:
    """Returns another form of a letter of a quoted text, which may be an escape."""
    code = {'\\"': 0x22, "\\\\": 0x5C, "\\n": 0x0A}.get(letter)
    if code is None:
        code = int(letter[2:], 16) if letter.startswith("\\x") else ord(letter)
    if code > 0x7F or chance.random() < 0.8:
        return letter
    if letter.startswith("\\x") and code not in (0x0A,) and chance.random() < 0.4:
        return chr(code)
    return f"\\x{code:{chance.choice(['02x', '02X'])}}"


def make_asm(chance: random.Random, corpus: Corpus) -> FuzzTest:
    program = program_of(chance, corpus)
    style = chance.randrange(10**9)
    if chance.random() < 0.4:
        return DamagedText(damaged_text(chance, styled(program, style)), False)
    return TextTest(program, style)


# --- Damaged texts

PIECES = ["", " ", ";", '"', "\\", "\\q", ":", "+", "-", "0", "99999999999999999999", "v16", "d16", "tcont", "cont", "map", "tmap", "sum", "\t", "é", "\u00a0", "\ufeff", ",",
          "(", ")", "=", "names", "const", "let", "any", "int", "version 2", "version 1", "version 4", "version 5", "version 3", "version 6", "proc control", "regs", "RET", "INT", "\x00", "\n", "a" * 65, "#", "//"]


def damaged_text(chance: random.Random, text: str) -> str:
    """Returns a text with some words or lines changed, dropped, doubled or put in."""
    for _ in range(chance.choice([1, 1, 1, 2, 4])):
        lines = text.split("\n")
        place = chance.randrange(len(lines))
        kind = chance.randrange(7)
        if kind == 0:
            del lines[place]
        elif kind == 1:
            lines.insert(place, lines[chance.randrange(len(lines))] if lines else "")
        elif kind == 2:
            other = chance.randrange(len(lines))
            lines[place], lines[other] = lines[other], lines[place]
        elif kind < 5:
            words = lines[place].split(" ")
            at = chance.randrange(len(words))
            words[at:at + chance.randrange(2)] = [chance.choice(PIECES + text.split()[:200])]
            lines[place] = " ".join(words)
        else:
            at = chance.randrange(len(lines[place]) + 1)
            lines[place] = lines[place][:at] + chance.choice(PIECES) + lines[place][at + chance.randrange(2):]
        text = "\n".join(lines)
    return text


@dataclass(frozen=True)
class DamagedText(FuzzTest):
    """Any text: it is rejected with a code and a line of the text, or assembles to bytes that are a program."""

    text: str
    has_names: bool

    @property
    def words(self) -> list[str]:
        return ["asm", "--names"] if self.has_names else ["asm"]

    @property
    def is_symbolic(self) -> bool:
        """Returns whether the first word says that the text has names."""
        return next((words[0] for words in (positions.WORD.findall(line.split(";")[0]) for line in self.text.split("\n")) if words), "") == "names"

    def expected(self) -> str | None:
        """Returns what `asm` writes of a text without names."""
        if self.has_names:
            return None
        try:
            return hex_line(assembled(self.text))
        except Error as error:
            return f"{error}\n"

    def fault(self, library: Library) -> str | None:
        status, got = library.session(self.words, self.text)
        expected = self.expected()
        if expected is not None and got != expected:
            return difference("asm", expected, got)
        if status == 0:
            return self.accepted_fault(library, got) or self.verdict_fault(library, library.session(["check", "--text"], self.text)[1])
        lines = max(1, lines_in(self.text))
        found = ERROR.match(got)
        if status != 1 or not found or found[2] is None or not 1 <= int(found[2]) <= lines:
            return f"asm: expected a program or an error with a line up to {lines}, got status {status} {got[:200]!r}"
        if self.has_names and got.startswith("refused N") and any(line.startswith("expands to: ") for line in positions.errors_in(got.split("\n"))[0]):
            return "an error of names has an expanded line"
        return (None if self.has_names else self.check_fault(library, got)) or self.column_fault(library)

    def accepted_fault(self, library: Library, got: str) -> str | None:
        program = decode(bytes.fromhex(got.strip()))
        if self.has_names:
            return plain_fault(library, self.text, got)
        again = library.session(["asm"], disassembled(program))[1]
        return difference("asm of disasm", got, again)

    def check_fault(self, library: Library, got: str) -> str | None:
        """Compares the diagnostic of `check --text`: the source line, and a word and column in it. That command reads names too."""
        status, text = library.session(["check", "--text"], self.text)
        if self.is_symbolic:
            return None
        lines = text.split("\n")
        if status != 1 or lines[0] + "\n" != got:
            return difference("check --text", got, text)
        source = self.text.split("\n")
        number = int(got.rstrip("\n").split(" ")[-1])
        whole = [*(line.removesuffix("\r") for line in source[:-1]), source[-1]]  # a CR alone, at the end of the text, is no line end
        shown = visible(whole[number - 1]) if number <= len(source) else ""
        if lines[1].removesuffix(" ..").rstrip()[:150] != shown[:200].rstrip()[:150] and shown.strip():
            return f"check --text: expected line {number}, {shown[:200]!r}, got {lines[1][:250]!r}"
        where = re.search(r"word (\d+), column (\d+)", lines[2] if len(lines) > 2 else "")
        if where and int(where[2]) > len(source[number - 1]) + 1:
            return f"check --text: column {where[2]} is past the line"
        return None

    def column_fault(self, library: Library) -> str | None:
        """Compares the column in the object of an error with the lines that `check --text` prints. `asm` reads no names."""
        printed = library.session(["check", "--text"], self.text)[1]
        lines, source = printed.split("\n")[:-1], ["", *self.text.split("\n"), ""]
        for words in (["check", "--text"], ["asm"])[:1 if self.is_symbolic else 2]:
            error = json.loads(library.session([*words, "--json"], self.text)[1]).get("error", {})
            expected = positions.of_error(lines, source[error.get("line", 0)])[1]
            if error.get("column", 0) != expected:
                return f"{words[0]} --json: expected column {expected}, got {error.get('column', 0)}"
        return self.verdict_fault(library, printed)

    def verdict_fault(self, library: Library, printed: str) -> str | None:
        """Compares where the library's call finds an error with what `check --text` prints, which has main's first line of V16."""
        native = Calls(library)
        program, verdict = native.handle(), native.numbers(*[0] * 9)
        native.raw_load_source(self.text.encode(), ord("t"), native.numbers(*NEWEST), program, verdict)
        native.program_free(program)
        code, line = re.search(r"(?m)^refused ([A-Z])(\d+)", printed), re.search(r"(?m)(?:^| )at line (\d+)(?:$|:| in )", printed)
        number = verdict[6] if printed.startswith("refused V16") else int(line[1]) if line else 0
        at = positions.of_error(printed.split("\n")[:-1], ["", *self.text.split("\n"), ""][number])
        expected = [ord(code[1]), int(code[2]), number, *at] if code else [0] * 5
        got = [*verdict[:2], *verdict[6:]]
        return None if got == expected else f"the verdict: expected {expected}, got {got}, of {printed[:200]!r}"

    def smaller(self) -> Iterator[FuzzTest]:
        return without_parts(self, "text")

    def case(self) -> list[str]:
        expected = self.expected()
        answer = answer_part(int(expected.startswith("refused")), expected) if expected else ["# expected: a program, or an error with a line of the text"]
        return [f"kind tw {' '.join(self.words)}", *input_lines(self.text), *answer]


# --- names

WORD = re.compile(r"[A-Za-z][A-Za-z0-9_]*")


def renamed(chance: random.Random, text: str) -> str:
    """Returns a symbolic assembly in which each name has another one; labels too."""
    taken = set(WORD.findall(text))
    names: dict[str, str] = {}

    def other(found: re.Match[str]) -> str:
        word = found[0]
        if not is_name(word):
            return word
        if word not in names:
            names[word] = new_name(chance, taken)
        return names[word]

    def line_of(line: str) -> str:
        code, mark, comment = line.partition(";")
        return WORD.sub(other, code) + mark + comment

    return "\n".join(line if '"' in line else line_of(line) for line in text.split("\n"))


@dataclass(frozen=True)
class RenamedTest(FuzzTest):
    """A text of examples/ with other names assembles to the same bytes."""

    text: str
    other: str

    def fault(self, library: Library) -> str | None:
        _, expected = library.session(["asm", "--names"], self.text)
        _, got = library.session(["asm", "--names"], self.other)
        return difference("asm --names of other names", expected, got) or plain_fault(library, self.other, expected)

    def case(self) -> list[str]:
        return ["kind tw asm --names", *input_lines(self.other), "# expected: the bytes of this text", *(f"# {line}".rstrip() for line in self.text.split("\n"))]


@dataclass(frozen=True)
class WrongNameTest(NamesTest):
    """A symbolic assembly with one error of names or signs: its code, its line, and the word that the diagnostic of a name begins with."""

    @property
    def text(self) -> str:
        return wrong(self.program, self.style)[0]

    def fault(self, library: Library) -> str | None:
        text, code, line = wrong(self.program, self.style)
        status, got = library.session(self.words, text)
        lines = got.split("\n")
        if status != 1 or lines[0] != f"refused {code} at line {line}":
            return f"asm --names: expected refused {code} at line {line}, {text.split(chr(10))[line - 1]!r}, got {got[:300]!r}"
        if code[0] == "N" and (len(lines) < 3 or lines[1] != visible(text.split("\n")[line - 1]) or lines[2].split(":")[0].split(" ")[0] not in lines[1]):
            return f"names: the diagnostic of line {line}: {got[:300]!r}"
        return None

    def case(self) -> list[str]:
        _, code, line = wrong(self.program, self.style)
        return ["kind tw asm --names", *input_lines(self.text), *answer_part(1, f"refused {code} at line {line}")]


def make_names(chance: random.Random, corpus: Corpus) -> FuzzTest:
    if chance.random() < 0.15:
        texts = [text for text in corpus.named if not any('"' in line and WORD.search(line.split('"')[0]) is None for line in text.split("\n"))]
        text = chance.choice([text for text in texts if "TEXT" not in text])
        return RenamedTest(text, renamed(chance, text))
    program = program_of(chance, corpus)
    if chance.random() < 0.5:
        program = with_literals(chance, program)
    style = chance.randrange(10**9)
    if chance.random() < 0.3:
        return DamagedText(damaged_text(chance, symbolic(program, style)), True)
    if chance.random() < 0.2:
        return WrongNameTest(program, style)
    return NamesTest(program, style)


# --- decode


@dataclass(frozen=True)
class BytesTest(FuzzTest):
    """Any bytes: their fault, or that they are read and written again."""

    data: bytes

    def expected(self) -> str:
        try:
            decode(self.data)
        except Fault as fault:
            return f"refused {fault}"
        return ""

    def fault(self, library: Library) -> str | None:
        verdict = library.verify(self.data)
        got = str(verdict) if verdict.code.startswith("F") else ""
        why = difference("verify", self.expected(), got)
        status, text = library.session(["disasm"], self.data.hex())
        if why is None and got:
            return difference("disasm", self.expected() + "\n", text)
        if why is None and status == 0:
            why = difference("disasm", disassembled(decode(self.data)), text)
            why = why or difference("asm of disasm", self.data.hex() + "\n", library.session(["asm"], text)[1])
        return why

    def smaller(self) -> Iterator[FuzzTest]:
        return without_parts(self, "data")

    def case(self) -> list[str]:
        text = self.expected().removeprefix("refused ") or "program"
        return ["kind decode", *value("bytes", " ".join(f"{byte:02x}" for byte in self.data)), *value("output", text)]


@dataclass(frozen=True)
class PrefixTest(BytesTest):
    """Each proper prefix of a program's bytes is F03 at its length."""

    def fault(self, library: Library) -> str | None:
        for length in range(len(self.data)):
            verdict = str(library.verify(self.data[:length]))
            if verdict != f"refused F03 at byte {length}":
                return f"prefix: the first {length} bytes: expected F03 at byte {length}, got {verdict}"
        return None


CHANGES: list[Callable[[random.Random, bytes, int], bytes]] = [
    lambda chance, data, at: data[:at] + bytes([data[at] ^ (1 << chance.randrange(8))]) + data[at + 1:],
    lambda chance, data, at: data[:at] + bytes([chance.choice([0, 1, 2, 3, 4, 5, 6, 7, 15, 16, 17, 0x42, 0x50, 0x60, 0x62, 0x63, 0xFF, chance.randrange(256)])]) + data[at + 1:],
    lambda chance, data, at: data[:at] + data[at + chance.choice([1, 1, 2, 8]):],
    lambda chance, data, at: data[:at] + bytes(chance.randrange(256) for _ in range(chance.choice([1, 1, 2, 8]))) + data[at:],
    lambda chance, data, at: data[:at],
    lambda chance, data, at: data[:at] + data[chance.randrange(len(data)):],
    lambda chance, data, at: data[:at] + bytes([3] * chance.randrange(1, 5)) + data[at + 1:],
]


def make_decode(chance: random.Random, corpus: Corpus) -> FuzzTest:
    data = encode(program_of(chance, corpus))
    if chance.random() < 0.05 and len(data) < 600:
        return PrefixTest(data)
    for _ in range(chance.choice([0, 1, 1, 1, 2, 3])):
        if data:
            data = chance.choice(CHANGES)(chance, data, chance.randrange(len(data)))
    return BytesTest(data)
