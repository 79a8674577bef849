"""Makes random programs that the verifier accepts, with inputs and layouts for them."""

import random
from dataclasses import dataclass, field, replace

from typing import Callable

from tools.fuzz.oracle.code import (
    CLOSED, CONT, FIFTH, FORMS, INT, MAP, REF, SUM, TCONT, TEXT, TMAP, VAL, VERSIONS, WRITE, Instr, Param, Procedure, Program, Type, entry_of, instructions_of,
    is_container, is_map, is_sums, subscript_of,
)
from tools.fuzz.oracle.machine import LOCAL_TYPES, WANTED, Layout, Scalar, Value

Right = tuple[int, Type]

NUMBERS = [0, 1, -1, 2, 3, 7, 10, -10, 255, 256, 65535, 2**31, -(2**31), 2**62, -(2**62), 2**63 - 1, -(2**63), 2**63 - 2]
WORDS = ["", "a", "0", "-5", "-0", "007", "+1", "12", " ", "x y", "é", '"q"', "\\", "\n", "\x00\x7f", "😀", ";", "9223372036854775807", "-9223372036854775808"]
MAIN_TYPES: list[Type] = [(INT,), (TEXT,), (CONT, INT), (CONT, TEXT), (TCONT, INT), (TCONT, TEXT)]
MAPS: list[Type] = [(by, entry) for by in (MAP, TMAP) for entry in (INT, TEXT, SUM)]
MORE_TYPES: list[Type] = [(CONT, CONT, INT), (TCONT, CONT, TEXT), (CONT, TCONT, CONT, INT)]
MORE_MAPS: list[Type] = [(CONT, MAP, INT), (TCONT, CONT, TMAP, SUM)]


# The instructions that compute, before version 5 and in it.
FIRST = ["ADD", "SUB", "MUL", "DIV", "REM", "CAT", "LEN", "SHOW", "READI", "COPY"]
COMPUTING = (FIRST, FIRST + [name for name in FIFTH if name not in ("JTLT", "LAST")])


def is_scalar(type_: Type) -> bool:
    return len(type_) == 1


def is_shared(type_: Type) -> bool:
    """Whether write rights of this type can be copied."""
    return not is_scalar(type_)


def main_types(version: int) -> list[Type]:
    """Returns the types of main's parameters; from version 4 on rather maps."""
    return {1: MAIN_TYPES[:4], 2: MAIN_TYPES}.get(version, MAIN_TYPES + MAPS + MAPS)


def more_types(version: int) -> list[Type]:
    """Returns types that main's parameters can't have."""
    return {1: MORE_TYPES[:1], 2: MORE_TYPES}.get(version, MORE_TYPES + MORE_MAPS)


def scalar(chance: random.Random, type_: int) -> Scalar:
    if type_ == INT:
        return chance.choice(NUMBERS) if chance.random() < 0.5 else chance.randrange(-20, 21)
    return chance.choice(WORDS) + (chance.choice(WORDS) if chance.random() < 0.3 else "")


def value(chance: random.Random, type_: Type) -> Value:
    """Returns a random input of a type."""
    if is_scalar(type_):
        found = scalar(chance, type_[0])
        return found.replace("\n", " ") if isinstance(found, str) else found
    count = chance.randrange(0, 6)
    if subscript_of(type_) == TEXT:
        return {str(scalar(chance, TEXT)): scalar(chance, entry_of(type_)) for _ in range(count)}
    if chance.random() < 0.3:
        return {number: scalar(chance, entry_of(type_)) for number in range(count)}
    return {int(scalar(chance, INT)): scalar(chance, entry_of(type_)) for _ in range(count)}


def inputs_of(chance: random.Random, program: Program) -> list[Value]:
    return [value(chance, type_) for type_ in program.inputs]


def layout(chance: random.Random, least: tuple[int, int] = (0, 0)) -> Layout:
    """Returns a random layout that has so many engines and workers."""
    engines = chance.choice([1, 1, 2, 3, 4])
    workers = chance.choice([1, 1, 2, 3, 5, 16])
    return max(engines, least[0]), chance.choice([1, 1, 2, 4]), max(workers, least[1])


@dataclass
class Writer:
    """Writes the code of a procedure. Each block of code leaves the rights that it found, and what it makes it gives up."""

    chance: random.Random
    number: int
    heads: list[Procedure]
    version: int
    circles: bool
    rights: dict[int, Right] = field(default_factory=dict)
    mine: set[int] = field(default_factory=set)
    loops: int = 0
    turns: int = 1
    depth: int = 0
    calls: int = 0

    @property
    def head(self) -> Procedure:
        return self.heads[self.number]

    # --- Choices

    def register(self, type_: int) -> int:
        """Returns a value register of a type; each procedure has one of each."""
        return self.chance.choice([place for place, found in enumerate(self.head.registers) if found == type_])

    def free(self) -> list[int]:
        return [place for place in range(16) if place not in self.rights]

    def holding(self, modes: tuple[int, ...], mine: bool, is_of: Callable[[Type], bool] = lambda _: True) -> list[int]:
        """Returns right registers of these modes, on data of such types."""
        found = [place for place in (self.mine if mine else self.rights) if self.rights[place][0] in modes]
        return sorted(place for place in found if is_of(self.rights[place][1]))

    def own(self, place: int, right: Right) -> None:
        self.rights[place] = right
        self.mine.add(place)

    def give(self, place: int) -> None:
        del self.rights[place]
        self.mine.discard(place)

    # --- Blocks

    def dispose(self, place: int) -> list[Instr]:
        """Gives a right up."""
        mode, type_ = self.rights[place]
        self.give(place)
        if mode != WRITE:
            return [Instr("DROPR", (place,))]
        return [Instr("STORE", (place, self.register(type_[0])))] if is_scalar(type_) else [Instr("DROPW", (place,))]

    def block(self, size: int, given: dict[int, Right]) -> list[Instr]:
        """Writes a block that begins with further rights of its own, and leaves the rights as they were before."""
        outer = self.mine
        self.mine = set(given)
        self.rights.update(given)
        self.depth += 1
        code = self.statements(size)
        for place in sorted(self.mine, key=lambda _: self.chance.random()):
            code += self.dispose(place)
        self.depth -= 1
        self.mine = outer
        return code

    def statements(self, size: int) -> list[Instr]:
        return [instr for _ in range(size) for instr in self.statement()]

    def statement(self) -> list[Instr]:
        makers = [self.compute, self.compute, self.literal, self.new, self.use, self.give_up, self.copy, self.insert, self.look, self.measure]
        if self.depth < 3:
            makers += [self.branch, self.loop, self.stop]
        if self.version >= 4:
            makers += [self.put, self.put, self.read_entry]
        if self.version >= 5:
            makers += [lambda: [Instr("LAST")]]
        if self.head.kind == 0:
            makers += [self.start] * 6 + [self.new]
        return self.chance.choice(makers)()

    # --- Local instructions

    def literal(self) -> list[Instr]:
        type_ = self.chance.choice([INT, INT, TEXT])
        return [Instr("INT" if type_ == INT else "TEXT", (self.register(type_), scalar(self.chance, type_)))]

    def compute(self) -> list[Instr]:
        name = self.chance.choice(COMPUTING[self.version == 5])
        types = self.chance.choice(["ii", "tt"]) if name == "COPY" else LOCAL_TYPES[name]
        operands = tuple(self.register(WANTED[type_]) for type_ in types)
        if name in ("COPY", "LEN", "SHOW"):
            return [Instr(name, operands)]
        rest = self.block(self.chance.randrange(1, 3), {}) if self.depth < 3 and self.chance.random() < 0.3 else []
        return [Instr(name, (*operands, len(rest))), *rest]

    def condition(self, skip: int) -> Instr:
        name = self.chance.choice(["JEQ", "JEQ", "JLT"] + ["JTLT"] * (self.version == 5))
        type_ = {"JLT": INT, "JTLT": TEXT}.get(name, self.chance.choice([INT, TEXT]))
        return Instr(name, (self.register(type_), self.register(type_), skip))

    def branch(self) -> list[Instr]:
        first = self.block(self.chance.randrange(1, 4), {})
        if self.chance.random() < 0.5:
            return [self.condition(len(first)), *first]
        second = self.block(self.chance.randrange(1, 4), {})
        return [self.condition(len(first) + 1), *first, Instr("JMP", (len(second),)), *second]

    def stop(self) -> list[Instr]:
        """Ends the task in a branch, if that is in no loop."""
        if self.loops or self.chance.random() < 0.5:
            return self.compute()
        rights, mine = dict(self.rights), set(self.mine)
        code = [instr for place in sorted(rights) for instr in self.dispose(place)]
        self.rights, self.mine = rights, mine
        return [self.condition(len(code) + 1), *code, Instr("RET")]

    def loop(self) -> list[Instr]:
        turns = self.chance.choice([1, 2, 2, 3, 4, 7])
        if self.loops == 4 or self.turns * turns > 60:
            return self.compute()
        self.loops, self.turns = self.loops + 1, self.turns * turns
        code = self.block(self.chance.randrange(1, 4), {})
        self.loops, self.turns = self.loops - 1, self.turns // turns
        return [Instr("REPEAT", (turns,)), *code, Instr("END")]

    # --- Instructions on data

    def new(self) -> list[Instr]:
        free = self.free()
        if len(free) < 4:
            return self.compute()
        write, read = (free[0], free[1]) if self.chance.random() < 0.6 else self.chance.sample(free, 2)
        type_ = self.chance.choice(main_types(self.version) + more_types(self.version) + [(INT,), (TEXT,), (INT,)])
        self.own(write, (WRITE, type_))
        self.own(read, (REF, type_))
        return [Instr("NEW", (write, read, type_))]

    def give_up(self) -> list[Instr]:
        """Stores or drops a right."""
        found = sorted(self.mine)
        if not found or self.chance.random() < (0.9 if self.head.kind == 0 else 0.4):
            return self.compute()
        return self.dispose(self.chance.choice(found))

    def use(self) -> list[Instr]:
        closed = self.holding((CLOSED,), False, is_scalar)
        if not closed:
            return self.literal()
        place = self.chance.choice(closed)
        return [Instr("GET", (self.register(self.rights[place][1][0]), place))]

    def copy(self) -> list[Instr]:
        reads, writes, free = self.holding((CLOSED, REF), False), self.holding((WRITE,), False, is_shared), self.free()
        if len(free) < 4 or not reads + writes:
            return self.compute()
        of = self.chance.choice(reads + writes)
        to = self.chance.choice([free[0], *free])
        self.own(to, self.rights[of])
        return [Instr("DUPW" if self.rights[of][0] == WRITE else "DUPR", (to, of))]

    def insert(self) -> list[Instr]:
        """Inserts a member, and drops it if its subscript is taken."""
        pairs = [
            (into, member) for into in self.holding((WRITE,), False, is_container) for member in self.holding((CLOSED, REF), True)
            if self.rights[into][1][1:] == self.rights[member][1]
        ]
        if not pairs:
            return self.fill()
        into, member = self.chance.choice(pairs)
        name, subscript = ("INS", INT) if self.rights[into][1][0] == CONT else ("TINS", TEXT)
        self.give(member)
        return [Instr(name, (into, self.register(subscript), member, 1)), Instr("JMP", (1,)), Instr("DROPR", (member,))]

    def fill(self) -> list[Instr]:
        """Makes a member for a container that can be written, and inserts it."""
        into, free = self.holding((WRITE,), False, is_container), self.free()
        if not into or len(free) < 4:
            return self.compute()
        type_ = self.rights[self.chance.choice(into)][1][1:]
        self.own(free[0], (WRITE, type_))
        self.own(free[1], (REF, type_))
        made = [Instr("NEW", (free[0], free[1], type_))]
        return made + (self.dispose(free[0]) if self.chance.random() < 0.7 else []) + self.insert()

    def look(self) -> list[Instr]:
        """Looks a member up, and uses it in a block that is skipped if there is none."""
        found, free = self.holding((CLOSED,), False, is_container), self.free()
        if not found or len(free) < 4 or self.depth > 3:
            return self.compute()
        of = self.chance.choice(found)
        type_ = self.rights[of][1]
        name, subscript = ("LOOK", INT) if type_[0] == CONT else ("TLOOK", TEXT)
        code = self.block(self.chance.randrange(0, 3), {free[0]: (REF, type_[1:])})
        return [Instr(name, (free[0], of, self.register(subscript), len(code))), *code]

    def measure(self) -> list[Instr]:
        found = self.holding((CLOSED,), False, is_shared)
        if not found:
            return self.compute()
        of = self.chance.choice(found)
        if self.chance.random() < 0.4:
            return [Instr("SIZE", (self.register(INT), of))]
        subscript = subscript_of(self.rights[of][1])
        return [Instr("SUBAT" if subscript == INT else "TSUBAT", (self.register(subscript), of, self.register(INT), 0))]

    def put(self) -> list[Instr]:
        """Puts a value into a map, or adds to a map of sums."""
        found = self.holding((WRITE,), False, is_map)
        if not found:
            return self.new() if self.chance.random() < 0.3 else self.compute()
        into = self.chance.choice(found)
        type_ = self.rights[into][1]
        operands = (into, self.register(subscript_of(type_)), self.register(entry_of(type_)))
        if is_sums(type_):
            return [Instr("MADD", operands)]
        rest = self.block(1, {}) if self.depth < 3 and self.chance.random() < 0.3 else []
        return [Instr("MINS", (*operands, len(rest))), *rest]

    def read_entry(self) -> list[Instr]:
        """Reads a value of a map; what comes next is skipped if there is none."""
        found = self.holding((CLOSED,), False, is_map)
        if not found:
            return self.compute()
        of = self.chance.choice(found)
        type_ = self.rights[of][1]
        rest = self.block(1, {}) if self.depth < 3 and self.chance.random() < 0.5 else []
        return [Instr("MGET", (self.register(entry_of(type_)), of, self.register(subscript_of(type_)), len(rest))), *rest]

    # --- RULE and PUT

    def start(self) -> list[Instr]:
        """Starts a task, if its arguments can be had."""
        numbers = list(range(len(self.heads)) if self.circles else range(self.number + 1, len(self.heads)))
        if not numbers or self.calls >= (6 if self.depth == 1 else 3) or self.turns > 6:
            return self.new() if self.chance.random() < 0.2 else self.compute()
        number = self.chance.choice(numbers)
        is_rule = self.chance.random() < 0.6
        kept = (dict(self.rights), set(self.mine))
        code: list[Instr] = []
        args: list[int] = []
        for param in self.heads[number].params:
            found = self.argument(param, is_rule, args, code)
            if found is None:
                self.rights, self.mine = kept
                return self.compute()
            args.append(found)
        for param, place in zip(self.heads[number].params, args):
            if param.mode != VAL:
                self.give(place)
        self.calls += 1
        return [*code, self.call(number, is_rule, args)]

    def call(self, number: int, is_rule: bool, args: list[int]) -> Instr:
        target = self.chance.choice([0, 0, 0, 0, 1, 2])
        if self.version > 1 and self.chance.random() < 0.4:
            return Instr("RULEV" if is_rule else "PUTV", (number, self.register(INT), target, tuple(args)))
        return Instr("RULE" if is_rule else "PUT", (number, int(scalar(self.chance, INT)), target, tuple(args)))

    def argument(self, param: Param, is_rule: bool, taken: list[int], code: list[Instr]) -> int | None:
        """Returns a register for an argument; what makes its right is added to the code."""
        if param.mode == VAL:
            return self.register(param.type[0])
        modes = {WRITE: (WRITE,), REF: (REF, CLOSED), CLOSED: (REF, CLOSED) if is_rule else (CLOSED,)}[param.mode]
        fit = [place for place in self.holding(modes, False) if self.rights[place][1] == param.type and place not in taken]
        own = [place for place in fit if place in self.mine]
        if own and self.chance.random() < 0.8:
            return self.chance.choice(own)
        free = [place for place in self.free() if place not in taken]
        if len(free) < 4:
            return None
        if fit and (param.mode != WRITE or is_shared(param.type)):
            of = self.chance.choice(fit)
            self.own(free[0], self.rights[of])
            code.append(Instr("DUPW" if param.mode == WRITE else "DUPR", (free[0], of)))
            return free[0]
        if param.mode == CLOSED and not is_rule:
            return None
        self.own(free[0], (WRITE, param.type))
        self.own(free[1], (REF, param.type))
        code.append(Instr("NEW", (free[0], free[1], param.type)))
        return free[0] if param.mode == WRITE else free[1]

    # --- The whole

    def procedure(self) -> Procedure:
        rights = [(param.mode, param.type) for param in self.head.params if param.mode != VAL]
        size = self.chance.randrange(3, 14) if self.head.kind == 0 else self.chance.randrange(1, 8)
        code = self.block(size, dict(enumerate(rights)))
        return replace(self.head, code=(*code, Instr("RET")))


def head(chance: random.Random, number: int, version: int, is_plain: bool) -> Procedure:
    """Returns a procedure without code: its kind, parameters and registers. Parameters of a plain program are ints, mostly."""
    plain_maps = [(MAP, INT), (MAP, SUM)] if version >= 4 else []
    types: list[Type] = [*[(INT,)] * 6, (CONT, INT), *plain_maps] if is_plain else main_types(version)
    modes = [CLOSED, REF, WRITE, WRITE] if number == 0 else [VAL, CLOSED, CLOSED, REF, WRITE, WRITE]
    params = []
    for _ in range(chance.randrange(0, 5)):
        mode = chance.choice(modes)
        type_ = chance.choice(types + [(INT,), (INT,), (TEXT,)] + (more_types(version)[::3] if number else []))
        params.append(Param(mode, (entry_of(type_),) if mode == VAL else type_))
    values = [param.type[0] for param in params if param.mode == VAL]
    registers = values + chance.choices([INT, INT, TEXT], k=chance.randrange(0, 5)) + [INT, TEXT, INT]
    return Procedure(0 if number == 0 or chance.random() < 0.35 else 1, tuple(params), tuple(registers), ())


def program(chance: random.Random) -> Program:
    """Makes a program. One in ten may have procedures that start each other in a circle."""
    version = chance.choice([*VERSIONS, 4, 5])
    is_plain = chance.random() < 0.6
    heads = [head(chance, number, version, is_plain) for number in range(chance.choice([1, 2, 2, 3, 3, 4, 5]))]
    circles = chance.random() < 0.1
    procedures = tuple(Writer(chance, number, heads, version, circles).procedure() for number in range(len(heads)))
    return Program(procedures, version)


# --- Damage


def other_operand(chance: random.Random, form: str, version: int) -> int | str | Type:
    if form in "vd":
        return chance.choice([0, 1, 2, 3, 4, 5, chance.randrange(16)])
    if form == "n":
        return scalar(chance, INT)
    if form == "t":
        return scalar(chance, TEXT)
    if form == "y":
        return chance.choice(main_types(version) + more_types(version))
    if form == "g":
        return tuple(chance.randrange(6) for _ in range(chance.randrange(0, 5)))
    return {"s": chance.randrange(6), "k": chance.choice([1, 2, 3, 1000]), "p": chance.randrange(5), "a": chance.randrange(3)}[form]


def damaged_code(chance: random.Random, code: tuple[Instr, ...], version: int) -> tuple[Instr, ...]:
    """Returns code with an instruction changed, dropped, doubled, exchanged or put in."""
    place = chance.randrange(len(code))
    kind = chance.randrange(7)
    here = code[place]
    if kind < 3 and here.operands:
        at = chance.randrange(len(here.operands))
        return (*code[:place], here.with_operand(at, other_operand(chance, here.form[at], version)), *code[place + 1:])
    if kind == 3 and len(code) > 1:
        return code[:place] + code[place + 1:]
    if kind == 4 and len(code) > 1:
        other = chance.randrange(len(code))
        swapped = list(code)
        swapped[place], swapped[other] = swapped[other], swapped[place]
        return tuple(swapped)
    if kind == 5:
        return (*code[:place], here, *code[place:])
    name = chance.choice(sorted(instructions_of(version)))
    return (*code[:place], Instr(name, tuple(other_operand(chance, form, version) for form in FORMS[name][1])), *code[place:])


def damaged(chance: random.Random, made: Program, times: int) -> Program:
    """Returns a program with some instructions, parameters or registers changed."""
    procedures = list(made.procedures)
    for _ in range(times):
        number = chance.randrange(len(procedures))
        found = procedures[number]
        kind = chance.randrange(12)
        if kind == 0 and found.registers:
            found = replace(found, registers=found.registers[:-1])
        elif kind == 1 and found.params:
            found = replace(found, params=found.params[:-1])
        elif kind == 2:
            found = replace(found, kind=1 - found.kind)
        else:
            found = replace(found, code=damaged_code(chance, found.code, made.version))
        procedures[number] = found
    return replace(made, procedures=tuple(procedures))
