"""Writes symbolic assembly of a program (docs/NAMES.md), with random names, spacing and choices of what has a name."""

import random
from dataclasses import dataclass, field

from tools.fuzz.oracle.code import CALLS, ENTRIES, FORMS, KINDS, MODES, TYPES, VAL, Instr, Operand, Procedure, Program, operand_text, quoted, type_text, version_lines
from tools.fuzz.oracle.literals import REGISTERS, kept_values, literal_count, parameters, value_places, word_of

KEYWORDS = {"any", "names", "version", "proc", "regs", "const", "let", *KINDS, *MODES.values(), *TYPES.values(), *ENTRIES.values()}
LETTERS = "abcdefghijklmnopqrstuvwxyzABCDEFGHIJKLMNOPQRSTUVWXYZ"
# Separators of the operands of an instruction. A quoted text needs a blank before it.
JOINTS = (" ", ", ", " , ", ") ( ")
MAKERS = {"NEW": 2, "LOOK": 1, "TLOOK": 1, "DUPR": 1, "DUPW": 1}


def is_name(word: str) -> bool:
    """Whether a word can be a name that means what it is called here."""
    return word not in KEYWORDS and word not in FORMS and not (word[0] in "vd" and word[1:].isdigit())


def new_name(chance: random.Random, taken: set[str]) -> str:
    while True:
        length = chance.choice([1, 2, 3, 5, 8, 64])
        word = chance.choice(LETTERS) + "".join(chance.choice(LETTERS + "0123456789_") for _ in range(length - 1))
        if is_name(word) and word not in taken:
            taken.add(word)
            return word


@dataclass(frozen=True)
class Scope:
    """The names that have a meaning before a line."""

    line: int
    constants: tuple[str, ...]
    values: tuple[str, ...]
    rights: tuple[str, ...]
    # The value registers that are listed, if literals may be operands, and how many literals there are before.
    listed: int | None
    literals: int


@dataclass
class Names:
    """Writes the text of a program."""

    program: Program
    chance: random.Random
    taken: set[str] = field(default_factory=set)
    constants: dict[int, str] = field(default_factory=dict)
    procedures: dict[int, str] = field(default_factory=dict)
    values: dict[int, str] = field(default_factory=dict)
    rights: dict[int, list[str]] = field(default_factory=dict)
    hidden: dict[int, Operand] = field(default_factory=dict)
    lines: list[str] = field(default_factory=list)
    scopes: list[Scope] = field(default_factory=list)

    def is_so(self, share: float) -> bool:
        return self.chance.random() < share

    def text(self) -> str:
        """Returns the whole text."""
        if self.is_so(0.3):
            self.lines.append("; names come next")
        self.lines.append("names")
        self.lines += version_lines(self.program)
        for number, procedure in enumerate(self.program.procedures):
            if self.is_so(0.8) and begins_with_values(procedure):
                self.procedures[number] = new_name(self.chance, self.taken)
        for number, procedure in enumerate(self.program.procedures):
            self.procedure(number, procedure)
        return "\n".join(map(self.spaced, self.lines)) + self.chance.choice(["\n", ""])

    def spaced(self, line: str) -> str:
        """Returns a line with other blanks before and after it, and a comment."""
        if '"' in line or self.is_so(0.7):
            return line
        tail = self.chance.choice(["", " ", " ; \" it's", ";names", "\t\r"])
        return self.chance.choice(["", " ", "\t"]) + line.replace(" ", self.chance.choice([" ", "  ", " \t"])) + tail

    # --- Heads

    def procedure(self, number: int, procedure: Procedure) -> None:
        self.values, self.rights = {}, {}
        parts, value, right = [], 0, 0
        for param in procedure.params:
            name = new_name(self.chance, self.taken) if self.is_so(0.7) else None
            if name and param.mode == VAL:
                self.values[value] = name
            elif name:
                self.rights[right] = [name]
            value, right = value + (param.mode == VAL), right + (param.mode != VAL)
            parts.append(f"{name}: {param}" if name else str(param))
        head = f"proc {KINDS[procedure.kind]} {self.procedures.get(number, '')}".rstrip()
        if self.is_so(0.7):
            self.lines.append(f"{head}({', '.join(parts)})")
        else:
            self.lines.append(f"{head} {self.chance.choice([' ', ', ']).join(parts)}".rstrip())
        count = literal_count(self.program, procedure) if self.is_so(0.8) else 0
        listed = len(procedure.registers) - count
        self.hidden = {listed + place: instr.operands[1] for place, instr in enumerate(procedure.code[:count])}
        self.registers(number, procedure, procedure.registers[:listed])
        self.code(procedure, listed)

    def registers(self, number: int, procedure: Procedure, listed: tuple[int, ...]) -> None:
        """Writes the line `regs`: in a named procedure those after the `val` parameters', else all."""
        values = parameters(procedure)
        parts = []
        for place, type_ in enumerate(listed):
            if number in self.procedures and place < values:
                continue
            if place >= values and self.is_so(0.8):
                self.values[place] = new_name(self.chance, self.taken)
            parts.append(f"{self.values[place]}: {TYPES[type_]}" if place >= values and place in self.values else TYPES[type_])
        self.lines.append(f"regs {self.chance.choice([' ', ', ']).join(parts)}".rstrip())

    # --- Code

    def code(self, procedure: Procedure, listed: int) -> None:
        seen, rest = set[int](), procedure.code[len(self.hidden):]
        places = {place + 1 + instr.skip for place, instr in enumerate(procedure.code) if instr.skip is not None}
        labels = {place: new_name(self.chance, self.taken) for place in sorted(places) if place <= len(procedure.code)}
        for place, instr in enumerate(procedure.code):
            if place in labels:
                self.lines.append(labels[place] + ":")
            if place < len(self.hidden):
                continue
            if self.is_so(0.1):
                self.let(listed)
            rights = tuple(name for names in self.rights.values() for name in names)
            can_have = listed >= parameters(procedure) and all(instr.number(at) < len(procedure.registers) for instr in rest for at in value_places(instr)) and not any(
                register >= listed for instr in rest for register in kept_values(self.program, instr))
            self.scopes.append(Scope(len(self.lines), tuple(self.constants.values()), tuple(self.values.values()), rights, listed if can_have else None, len(seen)))
            seen |= {instr.number(at) for at in value_places(instr)} & set(self.hidden)
            self.instruction(place, instr, labels)
        if len(procedure.code) in labels:
            self.lines.append(labels[len(procedure.code)] + ":")

    def let(self, listed: int) -> None:
        """Writes a line `let` for any register, or a comment."""
        name = new_name(self.chance, self.taken)
        if self.is_so(0.7):
            register = self.chance.randrange(16)
            self.rights.setdefault(register, []).append(name)
            self.lines.append(f"let {name} = d{register}")
        elif listed:
            register = self.chance.randrange(listed)
            self.values[register] = name
            self.lines.append(f"let {name} = v{register}")

    def instruction(self, place: int, instr: Instr, labels: dict[int, str]) -> None:
        made = MAKERS.get(instr.name, 0)
        words = [self.operand(instr, at, labels.get(place + 1 + (instr.skip or 0)), at < made) for at in range(len(instr.operands))]
        words = [word for word in words if word]
        is_quoted = any(word[0] == '"' for word in words[:-1])
        joint = self.chance.choice(JOINTS) if self.is_so(0.2) and not is_quoted else " "
        parts = [part for word in words for part in ([word] if word[0] == '"' else word.split(" "))]
        self.lines.append(f"{instr.name} {joint.join(parts)}".rstrip())

    def operand(self, instr: Instr, at: int, label: str | None, is_made: bool) -> str:
        form, found = instr.form[at], instr.operands[at]
        if isinstance(found, tuple):
            return type_text(found) if form == "y" else " ".join(self.arguments(instr, found))
        if isinstance(found, str):
            return quoted(found)
        if form == "v":
            return self.value(found)
        if form == "d":
            return self.made(found) if is_made else self.right(found)
        if form == "s":
            return label if label and self.is_so(0.9) else f"+{found}"
        if form == "p":
            return self.procedures[found] if found in self.procedures and self.is_so(0.8) else str(found)
        if form in "nk":
            return self.constant(found)
        return self.constant(found - 1) if found and self.is_so(0.3) else operand_text(form, found)

    def value(self, register: int) -> str:
        if register in self.hidden:
            return word_of(self.chance, self.hidden[register])
        return self.values[register] if register in self.values and self.is_so(0.8) else f"v{register}"

    def right(self, register: int) -> str:
        return self.chance.choice(self.rights[register]) if register in self.rights and self.is_so(0.8) else f"d{register}"

    def made(self, register: int) -> str:
        """Names a register that an instruction fills, if it is the one after the highest with a name."""
        if register == max(self.rights, default=-1) + 1 and self.is_so(0.7):
            self.rights[register] = [new_name(self.chance, self.taken)]
            return self.rights[register][0]
        return self.right(register)

    def constant(self, number: int) -> str:
        """Returns a number, or a constant, which a line before may define."""
        if number not in self.constants and self.is_so(0.3):
            self.constants[number] = new_name(self.chance, self.taken)
            self.lines.append(f"const {self.constants[number]} = {number}")
        return self.constants[number] if number in self.constants and self.is_so(0.7) else str(number)

    def arguments(self, instr: Instr, found: tuple[int, ...]) -> list[str]:
        number = instr.number(0)
        if instr.name not in CALLS or number >= len(self.program.procedures) or len(self.program.procedures[number].params) != len(found):
            return [str(register) for register in found]
        words = []
        for param, register in zip(self.program.procedures[number].params, found):
            word = self.value(register) if param.mode == VAL else self.right(register)
            words.append(str(register) if word[1:].isdigit() and word[0] in "vd" else word)
        return words


def begins_with_values(procedure: Procedure) -> bool:
    """Whether the first value registers are of the `val` parameters' types, which a named procedure needs."""
    values = [param.type[0] for param in procedure.params if param.mode == VAL]
    return list(procedure.registers[:len(values)]) == values


def wrong_lines(chance: random.Random, scope: Scope, procedures: list[str], free: str) -> tuple[str, list[str]]:
    """Returns lines of which the last one has an error of names, or signs right before a quote, and its code. `free` is short and has no meaning yet."""
    other = chance.choice([*scope.constants, *procedures, *scope.rights] or [free])
    found = [
        ("N04", [f"INT {free} 1"]), ("N04", [f"DROPR {free}"]), ("N04", [f"REPEAT {free}"]), ("N04", [f"PUT {free} 0 any"]), ("N01", [f"const {free} 5"]), ("N01", [f"const {free} ="]),
        ("N01", [f"const {free} = x"]), ("N01", [f"const {free} = {2**63}"]), ("N01", [f"let {free} d3"]), ("N01", [f"let {free} = 3"]), ("N02", ["const any = 5"]), ("N02", ["let v0 = d1"]),
        ("N02", ["const 1a = 5"]), ("N02", [f"let {'a' * 65} = d1"]), ("N06", [f"let {free} = d15", f"NEW {free}_ {free}__ int"]),
    ]
    if scope.listed != 0:
        found += [("A02", [f'TEXT v0,"{free}, (2)"']), ("A02", [f'TEXT v0 ("{free}")'])]
    if other != free:
        found += [("N03", [f"const {other} = 5"]), ("N03", [f"let {other} = d3"]), ("N05", [f"INT {other} 5"])]
    if scope.listed is not None and scope.listed < REGISTERS:
        number = 10**18
        left = REGISTERS - scope.listed - scope.literals
        found += [("N06", [f"JLT {number + place} {number + place} +0" for place in range(left + 1)])]
        found += [("N03", [f"JLT v{scope.listed} {number} +0"]) if scope.literals else ("N06", [f"JLT v{scope.listed} {number} +0"])]
        if left:
            found += [("N03", [f"JLT {number} {number} +0", f"LEN v{REGISTERS - 1} v{REGISTERS - 1}"])]
    if scope.values:
        found += [("N05", [f"REPEAT {scope.values[0]}"]), ("N05", [f"DROPR {scope.values[0]}"]), ("N03", [f"let {scope.values[0]} = v0"])]
    return chance.choice(found)


def wrong(program: Program, style: int) -> tuple[str, str, int]:
    """Returns a symbolic assembly with one error of names or signs, its code and its line."""
    writer = Names(program, random.Random(f"names {style}"))
    writer.text()
    scope = writer.chance.choice(writer.scopes)
    free = new_name(writer.chance, writer.taken)[:8]
    while free in writer.taken or not is_name(free):
        free += "x"
    code, lines = wrong_lines(writer.chance, scope, list(writer.procedures.values()), free)
    text = [*writer.lines[:scope.line], *lines, *writer.lines[scope.line:]]
    return "\n".join(text) + "\n", code, scope.line + len(lines)


def symbolic(program: Program, style: int) -> str:
    """Returns a symbolic assembly of a program, another one for each style."""
    return Names(program, random.Random(f"names {style}")).text()
