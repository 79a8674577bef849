"""Programs for fuzz tests: their instructions, assembly text and bytes, written from docs/FORMAT.md and docs/BYTES.md alone.

Nothing here calls the library, so that its answers can be compared with these.
"""

from dataclasses import dataclass, replace
from functools import cached_property
from typing import Iterator, Union

Type = tuple[int, ...]
Operand = Union[int, str, Type]

INT, TEXT, CONT, TCONT, MAP, TMAP = 1, 2, 3, 4, 5, 6
SUM = 3  # after MAP or TMAP
VAL, CLOSED, REF, WRITE = 1, 2, 3, 4
MODES = {VAL: "val", CLOSED: "closed", REF: "ref", WRITE: "write"}
TYPES = {INT: "int", TEXT: "text", CONT: "cont", TCONT: "tcont", MAP: "map", TMAP: "tmap"}
ENTRIES = {INT: "int", TEXT: "text", SUM: "sum"}
VERSIONS = (1, 2, 4, 5)
KINDS = ("control", "leaf")

# Each instruction's code and operands: v and d registers, n a number of 8 bytes, t a text, s a skip, y a type, k iterations,
# p a procedure, a a target, g arguments.
FORMS: dict[str, tuple[int, str]] = {
    "INT": (0x01, "vn"), "TEXT": (0x02, "vt"), "COPY": (0x03, "vv"),
    "ADD": (0x10, "vvvs"), "SUB": (0x11, "vvvs"), "MUL": (0x12, "vvvs"), "DIV": (0x13, "vvvs"), "REM": (0x14, "vvvs"),
    "CAT": (0x18, "vvvs"), "LEN": (0x19, "vv"), "SHOW": (0x1A, "vv"), "READI": (0x1B, "vvs"),
    "JMP": (0x20, "s"), "JEQ": (0x21, "vvs"), "JLT": (0x22, "vvs"), "REPEAT": (0x23, "k"), "END": (0x24, ""), "LAST": (0x2B, ""),
    "NEW": (0x30, "ddy"), "STORE": (0x31, "dv"), "GET": (0x32, "vd"), "INS": (0x33, "dvds"), "LOOK": (0x34, "ddvs"),
    "SIZE": (0x35, "vd"), "SUBAT": (0x36, "vdvs"), "DUPR": (0x37, "dd"), "DUPW": (0x38, "dd"), "DROPR": (0x39, "d"), "DROPW": (0x3A, "d"),
    "RULE": (0x40, "pnag"), "PUT": (0x41, "pnag"), "RET": (0x42, ""),
    "TINS": (0x50, "dvds"), "TLOOK": (0x51, "ddvs"), "TSUBAT": (0x52, "vdvs"), "RULEV": (0x53, "pvag"), "PUTV": (0x54, "pvag"),
    "MINS": (0x60, "dvvs"), "MGET": (0x61, "vdvs"), "MADD": (0x62, "dvv"),
    "BYTE": (0x70, "vvvs"), "SLICE": (0x71, "vvvvs"), "FIND": (0x72, "vvvvs"), "SPAN": (0x73, "vvvvs"), "UNTIL": (0x74, "vvvvs"),
    "MULDIV": (0x75, "vvvvs"), "AND": (0x76, "vvvs"), "OR": (0x77, "vvvs"), "XOR": (0x78, "vvvs"), "SHL": (0x79, "vvvs"), "SHR": (0x7A, "vvvs"),
    "WMUL": (0x7B, "vvvs"), "WADD": (0x7C, "vvvs"), "JTLT": (0x7D, "vvs"),
}
NAMES = {code: name for name, (code, _) in FORMS.items()}
SEARCHES = ("FIND", "SPAN", "UNTIL")
FIFTH = tuple(name for name, (code, _) in FORMS.items() if code >= 0x70 or name == "LAST")
SINCE = {**dict.fromkeys(("TINS", "TLOOK", "TSUBAT", "RULEV", "PUTV"), 2), **dict.fromkeys(("MINS", "MGET", "MADD"), 4), **dict.fromkeys(FIFTH, 5)}
TYPES_SINCE = {TCONT: 2, MAP: 4, TMAP: 4}
LOCAL = {name for name, (code, _) in FORMS.items() if code < 0x30 or name in FIFTH}
CALLS = {"RULE", "PUT", "RULEV", "PUTV"}


def instructions_of(version: int) -> set[str]:
    """Returns the names of the instructions that a version has."""
    return {name for name in FORMS if SINCE.get(name, 1) <= version}


def types_of(version: int) -> set[int]:
    """Returns the first bytes of the types that a version has."""
    return {each for each in TYPES if TYPES_SINCE.get(each, 1) <= version}


# --- Types


def is_container(type_: Type) -> bool:
    return type_[0] in (CONT, TCONT)


def is_map(type_: Type) -> bool:
    return type_[0] in (MAP, TMAP)


def is_sums(type_: Type) -> bool:
    return is_map(type_) and type_[1] == SUM


def leaf_of(type_: Type) -> Type:
    """Returns a type without its containers: that of a scalar or a map."""
    return type_[-2:] if len(type_) > 1 and is_map(type_[-2:]) else type_[-1:]


def entry_of(type_: Type) -> int:
    """Returns the type of a scalar, or of the values of a map: that of a sum is int."""
    return INT if is_sums(leaf_of(type_)) else type_[-1]


def subscript_of(type_: Type) -> int:
    """Returns the type of the subscripts of a container or a map."""
    return INT if type_[0] in (CONT, MAP) else TEXT


@dataclass(frozen=True)
class Instr:
    """An instruction with its operands, in the order of its text."""

    name: str
    operands: tuple[Operand, ...] = ()

    def number(self, place: int) -> int:
        found = self.operands[place]
        assert isinstance(found, int)
        return found

    def text(self, place: int) -> str:
        found = self.operands[place]
        assert isinstance(found, str)
        return found

    def items(self, place: int) -> Type:
        found = self.operands[place]
        assert isinstance(found, tuple)
        return found

    @cached_property
    def form(self) -> str:
        return FORMS[self.name][1]

    @cached_property
    def skip(self) -> int | None:
        """Returns how many instructions it skips, if it can skip."""
        return self.number(len(self.operands) - 1) if self.form.endswith("s") else None

    def with_operand(self, place: int, operand: Operand) -> "Instr":
        return replace(self, operands=(*self.operands[:place], operand, *self.operands[place + 1:]))


@dataclass(frozen=True)
class Param:
    mode: int
    type: Type

    def __str__(self) -> str:
        return f"{MODES[self.mode]} {type_text(self.type)}"


@dataclass(frozen=True)
class Procedure:
    kind: int
    params: tuple[Param, ...]
    registers: tuple[int, ...]
    code: tuple[Instr, ...]


@dataclass(frozen=True)
class Program:
    procedures: tuple[Procedure, ...]
    version: int = 1

    @property
    def main(self) -> Procedure:
        return self.procedures[0]

    @property
    def inputs(self) -> list[Type]:
        return [param.type for param in self.main.params if param.mode in (CLOSED, REF)]


# --- Text


def type_text(type_: Type) -> str:
    leaf = leaf_of(type_)
    words = [TYPES[each] for each in type_[:-1]]
    return " ".join([*words, ENTRIES[leaf[-1]]])


def quoted(text: str) -> str:
    """Returns a text as `tw disasm` writes it."""
    out = []
    for letter in text:
        if letter in '"\\':
            out.append("\\" + letter)
        elif letter == "\n":
            out.append("\\n")
        elif ord(letter) < 0x20 or ord(letter) == 0x7F:
            out.append(f"\\x{ord(letter):02x}")
        else:
            out.append(letter)
    return '"' + "".join(out) + '"'


def operand_text(form: str, operand: Operand) -> str:
    if form == "t":
        return quoted(str(operand))
    if isinstance(operand, tuple):
        return type_text(operand) if form == "y" else " ".join(map(str, operand))
    if form == "a":
        return "any" if operand == 0 else str(int(operand) - 1)
    return {"v": "v", "d": "d", "s": "+"}.get(form, "") + str(operand)


def instr_text(instr: Instr) -> str:
    words = [operand_text(form, operand) for form, operand in zip(instr.form, instr.operands)]
    return " ".join([instr.name, *filter(None, words)])


def head_text(procedure: Procedure) -> str:
    return " ".join(["proc", KINDS[procedure.kind], *map(str, procedure.params)])


def registers_text(procedure: Procedure) -> str:
    return " ".join(["regs", *(TYPES[each] for each in procedure.registers)])


def version_lines(program: Program) -> list[str]:
    return [] if program.version == 1 else [f"version {program.version}"]


def program_lines(program: Program) -> Iterator[str]:
    yield from version_lines(program)
    for procedure in program.procedures:
        yield head_text(procedure)
        yield registers_text(procedure)
        yield from map(instr_text, procedure.code)


def program_text(program: Program) -> str:
    """Returns an assembly text of the program, whose skips are numbers."""
    return "\n".join(program_lines(program)) + "\n"


def labelled_lines(procedure: Procedure, first: str = "L") -> Iterator[str]:
    """Yields the lines of a procedure's code as `tw disasm` writes them: skips inside the code are labels."""
    labels: dict[int, str] = {}
    for place, instr in enumerate(procedure.code):
        if instr.skip is not None and place + 1 + instr.skip <= len(procedure.code):
            labels.setdefault(place + 1 + instr.skip, f"{first}{len(labels)}")
    for place, instr in enumerate(procedure.code):
        if place in labels:
            yield labels[place] + ":"
        target = None if instr.skip is None else labels.get(place + 1 + instr.skip)
        text = instr_text(instr)
        yield text if target is None else f"{text.rpartition(' ')[0]} {target}"
    if len(procedure.code) in labels:
        yield labels[len(procedure.code)] + ":"


def disassembled(program: Program) -> str:
    """Returns the text that `tw disasm` writes."""
    lines = version_lines(program)
    for procedure in program.procedures:
        lines += [head_text(procedure), registers_text(procedure), *labelled_lines(procedure)]
    return "\n".join(lines) + "\n"


# --- Bytes


def operand_bytes(form: str, operand: Operand) -> bytes:
    if isinstance(operand, str):
        data = operand.encode()
        return len(data).to_bytes(2, "big") + data
    if isinstance(operand, tuple):
        return bytes(operand) if form == "y" else bytes([len(operand), *operand])
    if form == "n":
        return operand.to_bytes(8, "big", signed=True)
    return operand.to_bytes(2 if form in "sk" else 1, "big")


def instr_bytes(instr: Instr) -> bytes:
    code, form = FORMS[instr.name]
    return bytes([code]) + b"".join(map(operand_bytes, form, instr.operands))


def procedure_bytes(procedure: Procedure) -> bytes:
    params = b"".join(bytes([param.mode, *param.type]) for param in procedure.params)
    head = bytes([procedure.kind, len(procedure.params)]) + params + bytes([len(procedure.registers), *procedure.registers])
    return head + len(procedure.code).to_bytes(2, "big") + b"".join(map(instr_bytes, procedure.code))


def encode(program: Program) -> bytes:
    return b"TWB" + bytes([program.version, len(program.procedures)]) + b"".join(map(procedure_bytes, program.procedures))


class Fault(Exception):
    """Bytes that encode no program: the fault's number and offset."""

    def __init__(self, number: int, offset: int) -> None:
        super().__init__(f"F{number:02} at byte {offset}")
        self.number = number
        self.offset = offset


@dataclass
class Reader:
    """Reads a program's bytes, item by item; the first item that doesn't fit is the fault."""

    data: bytes
    at: int = 0
    version: int = 1

    def take(self, length: int) -> bytes:
        if self.at + length > len(self.data):
            raise Fault(3, len(self.data))
        self.at += length
        return self.data[self.at - length:self.at]

    def count(self, length: int, least: int, most: int) -> int:
        first = self.at
        found = int.from_bytes(self.take(length), "big")
        if not least <= found <= most:
            raise Fault(4, first)
        return found

    def known(self, known: set[int]) -> int:
        found = self.take(1)[0]
        if found not in known:
            raise Fault(5, self.at - 1)
        return found

    def type(self) -> Type:
        types: list[int] = []
        while True:
            found = self.known(types_of(self.version))
            types.append(found)
            if found in (INT, TEXT):
                return tuple(types)
            if found in (MAP, TMAP):
                return (*types, self.known({INT, TEXT, SUM}))
            if len(types) > 3:
                raise Fault(6, self.at - 1)

    def scalar(self) -> int:
        return self.known({INT, TEXT})

    def param(self) -> Param:
        mode = self.known({VAL, CLOSED, REF, WRITE})
        return Param(mode, (self.scalar(),) if mode == VAL else self.type())

    def string(self) -> str:
        data = self.take(self.count(2, 0, 4096))
        try:
            return data.decode()
        except UnicodeDecodeError:
            raise Fault(7, self.at - len(data)) from None

    def operand(self, form: str) -> Operand:
        if form in "vd":
            return self.count(1, 0, 15)
        if form == "n":
            return int.from_bytes(self.take(8), "big", signed=True)
        if form == "t":
            return self.string()
        if form == "y":
            return self.type()
        if form == "g":
            return tuple(self.count(1, 0, 15) for _ in range(self.count(1, 0, 8)))
        length, least, most = {"s": (2, 0, 65535), "k": (2, 1, 1000), "p": (1, 0, 255), "a": (1, 0, 16)}[form]
        return self.count(length, least, most)

    def instr(self) -> Instr:
        name = NAMES[self.known({FORMS[name][0] for name in instructions_of(self.version)})]
        return Instr(name, tuple(self.operand(form) for form in FORMS[name][1]))

    def procedure(self) -> Procedure:
        kind = self.known({0, 1})
        params = tuple(self.param() for _ in range(self.count(1, 0, 8)))
        registers = tuple(self.scalar() for _ in range(self.count(1, 0, 16)))
        return Procedure(kind, params, registers, tuple(self.instr() for _ in range(self.count(2, 1, 4096))))

    def program(self) -> Program:
        for letter in b"TWB":
            if self.take(1)[0] != letter:
                raise Fault(1, self.at - 1)
        self.version = self.take(1)[0]
        if self.version not in VERSIONS:
            raise Fault(2, 3)
        procedures = tuple(self.procedure() for _ in range(self.count(1, 1, 64)))
        if self.at < len(self.data):
            raise Fault(8, self.at)
        return Program(procedures, self.version)


def decode(data: bytes) -> Program:
    """Returns the program of these bytes, or raises its first fault."""
    return Reader(data).program()


# --- Smaller programs


def without(procedure: Procedure, first: int, count: int) -> Procedure:
    """Returns a procedure without some instructions; a skip over them becomes shorter."""
    code: list[Instr] = []
    for place, instr in enumerate(procedure.code):
        if first <= place < first + count:
            continue
        if instr.skip is not None and place < first:
            over = max(0, min(place + 1 + instr.skip, first + count) - max(first, place + 1))
            instr = instr.with_operand(len(instr.operands) - 1, instr.skip - over)
        code.append(instr)
    return replace(procedure, code=tuple(code))


def lower(instr: Instr) -> Iterator[Instr]:
    """Yields an instruction with one of its numbers, iterations or texts nearer to nothing."""
    for place, form in enumerate(instr.form):
        found = instr.operands[place]
        if form == "t" and found:
            yield instr.with_operand(place, instr.text(place)[:len(instr.text(place)) // 2])
        if form in "nka" and isinstance(found, int):
            for other in {1 if form == "k" else 0, found // 2}:
                if abs(other) < abs(found) and (form != "k" or other):
                    yield instr.with_operand(place, other)


def with_procedure(program: Program, number: int, procedure: Procedure) -> Program:
    return replace(program, procedures=(*program.procedures[:number], procedure, *program.procedures[number + 1:]))


def smaller(program: Program) -> Iterator[Program]:
    """Yields programs with a procedure or some instructions less, or lower numbers."""
    last = len(program.procedures) - 1
    called = {instr.number(0) for each in program.procedures for instr in each.code if instr.name in CALLS}
    if last > 0 and last not in called:
        yield replace(program, procedures=program.procedures[:-1])
    for number, procedure in enumerate(program.procedures):
        length = len(procedure.code)
        size = length // 2
        while size:
            for first in range(0, length - size + 1, size):
                if size < length:
                    yield with_procedure(program, number, without(procedure, first, size))
            size //= 2
        for place, instr in enumerate(procedure.code):
            for other in lower(instr):
                code = (*procedure.code[:place], other, *procedure.code[place + 1:])
                yield with_procedure(program, number, replace(procedure, code=code))
