"""The rules of assembly text (docs/FORMAT.md), a second time: a text's program, or the code and line of its first error."""

import re
from dataclasses import dataclass, field
from typing import Union

from tools.fuzz.oracle.code import (
    CONT, ENTRIES, FORMS, KINDS, MAP, MODES, TCONT, TMAP, TYPES, VAL, VERSIONS, Instr, Operand, Param, Procedure, Program, Type, instructions_of, types_of,
)

LABEL = re.compile(r"[A-Za-z][A-Za-z0-9_]*")
ESCAPE = re.compile(r'\\(["\\n]|x[0-7][0-9A-Fa-f])')
BANKS = {"v": re.compile(r"v[0-9]+"), "d": re.compile(r"d[0-9]+")}
MODE_CODES = {name: mode for mode, name in MODES.items()}
TYPE_CODES = {name: type_ for type_, name in TYPES.items()}
ENTRY_CODES = {name: type_ for type_, name in ENTRIES.items()}
MOST = {"v": 15, "d": 15, "p": 255, "a": 15, "k": 1000}


class Error(Exception):
    """An error of a text."""

    def __init__(self, code: int, line: int = 0) -> None:
        super().__init__(f"refused A{code:02} at line {line}")
        self.code = code
        self.line = line


@dataclass(frozen=True)
class Quoted:
    """A quoted text; none if it isn't closed, or has an escape that isn't one."""

    text: str | None


Word = Union[str, Quoted]


def words_of(line: str) -> list[Word]:
    """Returns the words of a line. A quote inside a word is part of it; what follows a quoted text without a blank makes that a wrong one."""
    words: list[Word] = []
    at = 0
    while at < len(line) and line[at] != ";":
        if line[at] in " \t\r":
            at += 1
        elif line[at] == '"':
            found, at = quoted_at(line, at)
            words.append(found)
        else:
            found_word = re.match(r"[^ \t\r;]+", line[at:])
            assert found_word
            words.append(found_word[0])
            at += found_word.end()
    return words


def quoted_at(line: str, at: int) -> tuple[Quoted, int]:
    found = re.match(r'"((?:[^"\\]|\\.)*)"', line[at:], re.S)
    if not found:
        return Quoted(None), len(line)
    end = at + found.end()
    if end < len(line) and line[end] not in " \t\r;":
        return Quoted(None), len(line)
    body = re.sub(r"\\\\", "", found[1])
    if re.search(r'\\(?!["\\n]|x[0-7][0-9A-Fa-f])', body):
        return Quoted(None), end
    return Quoted(ESCAPE.sub(lambda each: {"n": "\n"}.get(each[1]) or (chr(int(each[1][1:], 16)) if each[1][0] == "x" else each[1]), found[1])), end


@dataclass
class Begun:
    """A procedure that is being read."""

    line: int
    head: Procedure
    has_registers: bool = False
    registers: tuple[int, ...] = ()
    code: list[tuple[int, Instr, str | None]] = field(default_factory=list)
    labels: dict[str, int] = field(default_factory=dict)


@dataclass
class Assembler:
    """Reads a text line by line."""

    version: int = 1
    has_version: bool = False
    procedures: list[Begun] = field(default_factory=list)
    codes: set[int] = field(default_factory=set)

    # --- Operands

    def number(self, word: Word, least: int, most: int, signed: bool = False) -> int:
        if not isinstance(word, str) or not re.fullmatch(("-?" if signed else "") + "[0-9]+", word):
            self.codes.add(2)
            return least
        if not least <= int(word) <= most:
            self.codes.add(6)
        return int(word)

    def register(self, word: Word, bank: str) -> int:
        if not isinstance(word, str) or not BANKS[bank].fullmatch(word):
            self.codes.add(2)
            return 0
        return self.number(word[1:], 0, 15)

    def types(self, words: list[Word]) -> Type:
        """Returns the type that begins the words, and removes its words."""
        found: list[int] = []
        while True:
            word = words.pop(0) if words else None
            code = TYPE_CODES.get(word) if isinstance(word, str) else None
            if code is None or code not in types_of(self.version):
                self.codes.add(2)
                return (1,)
            found.append(code)
            if code not in (CONT, TCONT):
                if len(found) > 4:
                    self.codes.add(6)
                return (*found, *(self.entry(words) if code in (MAP, TMAP) else ()))

    def entry(self, words: list[Word]) -> Type:
        """Returns the type of a map's values, and removes its word."""
        word = words.pop(0) if words else None
        code = ENTRY_CODES.get(word) if isinstance(word, str) else None
        if code is None:
            self.codes.add(2)
        return (code or 1,)

    def string(self, word: Word) -> str:
        if not isinstance(word, Quoted) or word.text is None:
            self.codes.add(2)
            return ""
        if len(word.text.encode()) > 4096:
            self.codes.add(6)
        return word.text

    def skip(self, word: Word) -> tuple[int, str | None]:
        if isinstance(word, str) and re.fullmatch(r"\+[0-9]+", word):
            return self.number(word[1:], 0, 65535), None
        if not isinstance(word, str) or not LABEL.fullmatch(word):
            self.codes.add(2)
            return 0, None
        if len(word) > 64:
            self.codes.add(6)
        return 0, word

    # --- Statements

    def instruction(self, line: int, name: str, words: list[Word]) -> None:
        form = FORMS[name][1]
        operands: list[Operand] = []
        label: str | None = None
        for each in form:
            if each == "g":
                operands.append(tuple(self.number(word, 0, 15) for word in words))
                if len(words) > 8:
                    self.codes.add(6)
                words = []
            elif not words:
                self.codes.add(2)
                return
            elif each == "y":
                operands.append(self.types(words))
            elif each == "s":
                skip, label = self.skip(words.pop(0))
                operands.append(skip)
            else:
                operands.append(self.operand(each, words.pop(0)))
        if words:
            self.codes.add(2)
        begun = self.procedures[-1]
        if len(begun.code) == 4096:
            self.codes.add(6)
        begun.code.append((line, Instr(name, tuple(operands)), label))

    def operand(self, form: str, word: Word) -> Operand:
        if form in "vd":
            return self.register(word, form)
        if form == "t":
            return self.string(word)
        if form == "n":
            return self.number(word, -(2**63), 2**63 - 1, True)
        if form == "a":
            return 0 if word == "any" else self.number(word, 0, 15) + 1
        return self.number(word, 1 if form == "k" else 0, MOST[form])

    def label(self, word: str, words: list[Word]) -> None:
        name = word[:-1]
        if words:
            self.codes.add(2)
        if len(name) > 64:
            self.codes.add(6)
        begun = self.procedures[-1]
        if name in begun.labels:
            self.codes.add(4)
        begun.labels.setdefault(name, len(begun.code))

    def head(self, line: int, words: list[Word]) -> None:
        kind = words.pop(0) if words else None
        if kind not in KINDS:
            self.codes.add(2)
            return
        params: list[Param] = []
        while words and not self.codes & {2}:
            mode = words.pop(0)
            if not isinstance(mode, str) or mode not in MODE_CODES:
                self.codes.add(2)
                break
            type_ = self.types(words)
            if MODE_CODES[mode] == VAL and len(type_) > 1:
                self.codes.add(2)
            params.append(Param(MODE_CODES[mode], type_))
        if len(params) > 8 or len(self.procedures) == 64:
            self.codes.add(6)
        if not self.codes & {1, 2} and self.procedures and not self.procedures[-1].code:
            raise Error(6, self.procedures[-1].line)
        self.procedures.append(Begun(line, Procedure(KINDS.index(str(kind)), tuple(params), (), ())))

    def registers(self, words: list[Word]) -> None:
        found = [TYPE_CODES.get(word, 0) if isinstance(word, str) else 0 for word in words]
        if any(code not in (1, 2) for code in found):
            self.codes.add(2)
        if len(found) > 16:
            self.codes.add(6)
        self.procedures[-1].registers = tuple(found)
        self.procedures[-1].has_registers = True

    def statement(self, line: int, words: list[Word]) -> None:
        first, rest = words[0], words[1:]
        begun = self.procedures[-1] if self.procedures else None
        if begun is not None and not begun.has_registers:
            if first == "regs":
                self.registers(rest)
            else:
                self.codes.add(1)
        elif first == "version" and begun is None and not self.has_version:
            self.read_version(rest)
        elif first == "proc":
            self.head(line, rest)
        elif begun is None or not isinstance(first, str) or first == "regs":
            self.codes.add(1)
        elif first.endswith(":") and LABEL.fullmatch(first[:-1]):
            self.label(first, rest)
        elif first in instructions_of(self.version):
            self.instruction(line, first, rest)
        else:
            self.codes.add(1)

    def read_version(self, rest: list[Word]) -> None:
        self.has_version = True
        if len(rest) != 1:
            self.codes.add(2)
        else:
            self.version = self.number(rest[0], VERSIONS[0], VERSIONS[-1])
            if self.version not in VERSIONS and not self.codes:
                self.codes.add(6)

    # --- The whole

    def read(self, text: str) -> Program:
        for number, line in enumerate(text.split("\n"), 1):
            words = words_of(line)
            if words:
                self.codes = set()
                self.statement(number, words)
                if self.codes:
                    raise Error(min(self.codes), number)
        if not self.procedures:
            raise Error(6, 1)
        if not self.procedures[-1].code:
            raise Error(6, self.procedures[-1].line)
        return Program(tuple(map(self.finished, self.procedures)), self.version)

    def finished(self, begun: Begun) -> Procedure:
        self.check_labels()
        code = [with_label(begun, place, instr, label) for place, (_, instr, label) in enumerate(begun.code)]
        return Procedure(begun.head.kind, begun.head.params, begun.registers, tuple(code))

    def check_labels(self) -> None:
        for begun in self.procedures:
            for place, (line, _, label) in enumerate(begun.code):
                if label is not None and label not in begun.labels:
                    raise Error(3, line)
                if label is not None and begun.labels[label] <= place:
                    raise Error(5, line)


def with_label(begun: Begun, place: int, instr: Instr, label: str | None) -> Instr:
    """Returns an instruction whose skip leads to its label."""
    if label is None:
        return instr
    return instr.with_operand(len(instr.operands) - 1, begun.labels[label] - place - 1)


def assembled(text: str) -> Program:
    """Returns the program of a text, or raises its first error."""
    return Assembler().read(text)
