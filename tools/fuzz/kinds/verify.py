"""The verifier's rules (docs/MACHINE.md, "Which programs are accepted"), decided by a search of all paths; and the kind `verify`."""

import random
from dataclasses import dataclass, field
from typing import Iterator

from tools.fuzz import make
from tools.fuzz.oracle.bounds import budgets, partners
from tools.fuzz.oracle.code import (
    CALLS, CLOSED, CONT, INT, MAP, MODES, REF, TCONT, TEXT, TMAP, VAL, WRITE, Instr, Procedure, Program, Type, encode, entry_of, head_text, is_map, is_sums,
    labelled_lines, program_text, registers_text, smaller, subscript_of, type_text, version_lines,
)
from tools.fuzz.library import Library
from tools.fuzz.oracle.machine import LOCAL_TYPES
from tools.fuzz.common import Corpus, FuzzTest, difference, program_part, value

Typing = tuple[tuple[int, Type] | None, ...]
MOST_BUDGET = 1_000_000_000


@dataclass(frozen=True)
class Refusal:
    code: int
    procedure: int
    place: int

    def __str__(self) -> str:
        return f"refused V{self.code:02} in procedure {self.procedure} at place {self.place}"


# --- Structure


def structure_faults(code: tuple[Instr, ...]) -> list[tuple[int, int]]:
    ends = partners(code)
    bodies = [[begin for begin, end in ends.items() if begin < place <= end] for place in range(len(code))]
    faults = []
    for place, instr in enumerate(code):
        if instr.skip is not None:
            target = place + 1 + instr.skip
            if target >= len(code) or max(bodies[target], default=-1) != max(bodies[place], default=-1):
                faults.append((place, 5))
        if instr.name == "REPEAT" and (place not in ends or len(bodies[place]) >= 4):
            faults.append((place, 6))
        if instr.name == "END" and place not in ends.values():
            faults.append((place, 6))
        if instr.name == "RET" and bodies[place]:
            faults.append((place, 11))
    if code[-1].name != "RET":
        faults.append((len(code) - 1, 11))
    return faults


# --- What an instruction requires and leaves


@dataclass
class Here:
    """An instruction under a typing: the codes of what isn't met, and the typing that it leaves."""

    program: Program
    procedure: Procedure
    rights: list[tuple[int, Type] | None]
    codes: list[int] = field(default_factory=list)

    def ask(self, holds: bool, code: int) -> bool:
        if not holds:
            self.codes.append(code)
        return holds

    def value(self, register: int, type_: int | None) -> int | None:
        """Asks for a value register of a type, or of any; returns its type."""
        if not self.ask(register < len(self.procedure.registers), 1):
            return None
        found = self.procedure.registers[register]
        if type_ is not None:
            self.ask(found == type_, 2)
        return found

    def right(self, register: int, modes: tuple[int, ...]) -> Type | None:
        """Asks for a right of these modes; returns its type."""
        found = self.rights[register]
        if not self.ask(found is not None and found[0] in modes, 4) or found is None:
            return None
        return found[1]

    def empty(self, register: int) -> None:
        self.ask(self.rights[register] is None, 3)

    def scalar(self, register: int, mode: int) -> Type | None:
        type_ = self.right(register, (mode,))
        return type_ if type_ is not None and self.ask(len(type_) == 1, 4) else None

    def container(self, register: int, mode: int, kinds: tuple[int, ...]) -> Type | None:
        type_ = self.right(register, (mode,))
        return type_ if type_ is not None and self.ask(type_[0] in kinds, 4) else None


READ = (CLOSED, REF)


def of_local(here: Here, instr: Instr) -> None:
    before: int | None = None
    for place, wanted in enumerate(LOCAL_TYPES[instr.name]):
        if wanted == "=":
            found = here.value(instr.number(place), None)
            if found is not None and before is not None:
                here.ask(found == before, 2)
        else:
            before = here.value(instr.number(place), {"i": INT, "t": TEXT, "?": None}[wanted])


def of_new(here: Here, instr: Instr) -> None:
    write, read = instr.number(0), instr.number(1)
    here.empty(write)
    here.empty(read)
    here.ask(write != read, 3)
    here.rights[write], here.rights[read] = (WRITE, instr.items(2)), (REF, instr.items(2))


def of_store_or_get(here: Here, instr: Instr) -> None:
    is_store = instr.name == "STORE"
    right, value = (instr.number(0), instr.number(1)) if is_store else (instr.number(1), instr.number(0))
    type_ = here.scalar(right, WRITE if is_store else CLOSED)
    here.value(value, type_[0] if type_ else None)
    if is_store:
        here.rights[right] = None


def of_insert(here: Here, instr: Instr) -> None:
    kind, subscript = (TCONT, TEXT) if instr.name == "TINS" else (CONT, INT)
    here.value(instr.number(1), subscript)
    into = here.container(instr.number(0), WRITE, (kind,))
    member = here.right(instr.number(2), READ)
    if into and member:
        here.ask(into[1:] == member, 4)
    here.rights[instr.number(2)] = None


def of_look(here: Here, instr: Instr) -> None:
    kind, subscript = (TCONT, TEXT) if instr.name == "TLOOK" else (CONT, INT)
    here.empty(instr.number(0))
    here.value(instr.number(2), subscript)
    of = here.container(instr.number(1), CLOSED, (kind,))
    here.rights[instr.number(0)] = (REF, of[1:]) if of else None


def of_measure(here: Here, instr: Instr) -> None:
    kinds = {"SIZE": (CONT, TCONT, MAP, TMAP), "SUBAT": (CONT, MAP), "TSUBAT": (TCONT, TMAP)}[instr.name]
    here.container(instr.number(1), CLOSED, kinds)
    here.value(instr.number(0), TEXT if instr.name == "TSUBAT" else INT)
    if instr.name != "SIZE":
        here.value(instr.number(2), INT)


def of_entry(here: Here, instr: Instr) -> None:
    """MINS, MADD and MGET: the types of the value registers are required only if the right is one on such a map."""
    value, right, subscript = (0, 1, 2) if instr.name == "MGET" else (2, 0, 1)
    here.value(instr.number(subscript), None)
    here.value(instr.number(value), None)
    type_ = here.right(instr.number(right), (CLOSED if instr.name == "MGET" else WRITE,))
    is_fit = type_ is not None and is_map(type_) and (instr.name == "MGET" or is_sums(type_) == (instr.name == "MADD"))
    if type_ is not None and here.ask(is_fit, 4):
        here.value(instr.number(subscript), subscript_of(type_))
        here.value(instr.number(value), entry_of(type_))


def of_copy(here: Here, instr: Instr) -> None:
    here.empty(instr.number(0))
    type_ = here.right(instr.number(1), READ if instr.name == "DUPR" else (WRITE,))
    if type_ and instr.name == "DUPW":
        here.ask(len(type_) > 1, 15)
    here.rights[instr.number(0)] = here.rights[instr.number(1)]


def of_drop(here: Here, instr: Instr) -> None:
    type_ = here.right(instr.number(0), READ if instr.name == "DROPR" else (WRITE,))
    if type_ and instr.name == "DROPW":
        here.ask(len(type_) > 1, 15)
    here.rights[instr.number(0)] = None


def of_call(here: Here, instr: Instr) -> None:
    is_known = here.ask(instr.number(0) < len(here.program.procedures), 12)
    params = here.program.procedures[instr.number(0)].params if is_known else ()
    fits = is_known and here.ask(len(params) == len(instr.items(3)), 13)
    here.ask(here.procedure.kind == 0, 14)
    if instr.name.endswith("V"):
        here.value(instr.number(1), INT)
    if not fits:
        return
    for param, register in zip(params, instr.items(3)):
        if param.mode == VAL:
            here.value(register, param.type[0])
            continue
        modes = (WRITE,) if param.mode == WRITE else (CLOSED,) if param.mode == CLOSED and instr.name.startswith("PUT") else READ
        type_ = here.right(register, modes)
        if type_:
            here.ask(type_ == param.type, 4)
        here.rights[register] = None


ON_DATA = {
    "NEW": of_new, "STORE": of_store_or_get, "GET": of_store_or_get, "INS": of_insert, "TINS": of_insert, "LOOK": of_look, "TLOOK": of_look,
    "SIZE": of_measure, "SUBAT": of_measure, "TSUBAT": of_measure, "MINS": of_entry, "MADD": of_entry, "MGET": of_entry, "DUPR": of_copy, "DUPW": of_copy, "DROPR": of_drop, "DROPW": of_drop,
}


def under(program: Program, procedure: Procedure, instr: Instr, typing: Typing) -> Here:
    """Returns what an instruction requires of a typing, and leaves."""
    here = Here(program, procedure, list(typing))
    if instr.name in LOCAL_TYPES:
        of_local(here, instr)
    elif instr.name in CALLS:
        of_call(here, instr)
    elif instr.name == "RET":
        here.ask(not any(typing), 10)
    else:
        ON_DATA[instr.name](here, instr)
    return here


# --- All paths


@dataclass
class Paths:
    """The typings that paths bring to each place: from which place, by which outcome, which typing."""

    program: Program
    procedure: Procedure
    arrivals: dict[int, set[tuple[int, int, Typing]]] = field(default_factory=dict)
    loops_differ: set[int] = field(default_factory=set)

    def search(self) -> None:
        rights = [(param.mode, param.type) for param in self.procedure.params if param.mode != VAL]
        opening: Typing = (*rights, *[None] * (16 - len(rights)))
        self.arrivals[0] = {(-1, 0, opening)}
        left: list[tuple[int, Typing, tuple[tuple[int, Typing], ...]]] = [(0, opening, ())]
        seen = set(left)
        while left:
            for after in self.onward(*left.pop()):
                if after not in seen:
                    seen.add(after)
                    left.append(after)

    def onward(self, place: int, typing: Typing, loops: tuple[tuple[int, Typing], ...]) -> Iterator[tuple[int, Typing, tuple[tuple[int, Typing], ...]]]:
        """Yields where a path continues: each loop remembers its first place, and the typing there."""
        instr = self.procedure.code[place]
        here = under(self.program, self.procedure, instr, typing)
        if here.codes or instr.name == "RET":
            return
        left: Typing = tuple(here.rights)
        if instr.name == "REPEAT":
            loops = (*loops, (place + 1, left))
        if instr.name == "END":
            if loops[-1][1] != left:
                self.loops_differ.add(place)
            loops = loops[:-1]
        outcomes: list[tuple[int, int, Typing]] = [] if instr.name == "JMP" else [(place + 1, 0, left)]
        if instr.skip is not None:
            outcomes.append((place + 1 + instr.skip, 1, typing))
        for target, outcome, brought in outcomes:
            self.arrivals.setdefault(target, set()).add((place, outcome, brought))
            yield target, brought, loops

    def faults(self) -> list[tuple[int, int]]:
        faults = value_faults(self.procedure)
        for place, instr in enumerate(self.procedure.code):
            brought = self.arrivals.get(place)
            if not brought:
                faults.append((place, 9))
                continue
            if len({typing for _, _, typing in brought}) > 1:
                faults.append((place, 7))
            least = min(brought, key=lambda arrival: arrival[:2])[2]
            faults += [(place, code) for code in under(self.program, self.procedure, instr, least).codes]
            if place in self.loops_differ:
                faults.append((place, 8))
        return faults


def value_faults(procedure: Procedure) -> list[tuple[int, int]]:
    """Returns what is wrong with the value parameters at place 0."""
    values = [param.type[0] for param in procedure.params if param.mode == VAL]
    faults = [(0, 1)] if len(values) > len(procedure.registers) else []
    return faults + [(0, 2) for value, register in zip(values, procedure.registers) if value != register]


def refusal(program: Program) -> Refusal | None:
    """Returns the first error of a program, if it has one."""
    if program.main.kind or any(param.mode == VAL or param.type not in make.main_types(4) for param in program.main.params):
        return Refusal(16, 0, 0)
    for number, procedure in enumerate(program.procedures):
        found = min(structure_faults(procedure.code), default=None)  # the first place with a fault, and its lowest code
        if found is None:
            paths = Paths(program, procedure)
            paths.search()
            found = min(paths.faults(), default=None)
        if found is None and budgets(Program((procedure,)))[0] > MOST_BUDGET:
            found = (0, 17)
        if found is not None:
            return Refusal(found[1], number, found[0])
    return None


# --- The kind


def least_typing(paths: Paths, place: int) -> Typing | None:
    """Returns what the least earlier place brings to a place."""
    brought = paths.arrivals.get(place)
    return min(brought, key=lambda arrival: arrival[:2])[2] if brought else None


def rights_known(program: Program, found: Refusal | None) -> list[list[Typing | None]]:
    """Returns the typing of each place of each procedure that `check --places` shows: up to the place of an error."""
    known: list[list[Typing | None]] = []
    for number, procedure in enumerate(program.procedures):
        last = len(procedure.code) - 1
        if found is not None and found.code in (5, 6, 11, 16) and number >= found.procedure or found is not None and number > found.procedure:
            last = -1
        elif found is not None and number == found.procedure and found.code != 17:
            last = found.place
        paths = Paths(program, procedure)
        if last >= 0:
            paths.search()
        known.append([least_typing(paths, place) if place <= last else None for place in range(len(procedure.code))])
    return known


def listed(program: Program, found: Refusal | None) -> list[str]:
    """Returns the lines of `check --places` up to the answer, with single blanks."""
    lines: list[str] = []
    for number, (procedure, typings) in enumerate(zip(program.procedures, rights_known(program, found))):
        lines += [f"procedure {number}", head_text(procedure), registers_text(procedure)]
        place = 0
        for text in labelled_lines(procedure):
            is_label = text.endswith(":") and " " not in text
            rights = () if is_label else enumerate(typings[place] or ())
            shown = [f"d{register} {MODES[right[0]]} {type_text(right[1])}" for register, right in rights if right]
            lines.append(" ".join(([] if is_label else [str(place)]) + [text, *shown]))
            place += not is_label
    return lines


def line_of(program: Program, found: Refusal) -> int:
    """Returns the line of a text without labels that an error names: the procedure's first line for V16, else an instruction's."""
    before = sum(2 + len(procedure.code) for procedure in program.procedures[:found.procedure]) + len(version_lines(program))
    return before + (1 if found.code == 16 else 3 + found.place)


@dataclass(frozen=True)
class VerifyTest(FuzzTest):
    """A small program, damaged: the verifier's answer is that of the search."""

    program: Program

    def expected(self) -> str:
        found = refusal(self.program)
        return "accepted" if found is None else str(found)

    def fault(self, library: Library) -> str | None:
        data = encode(self.program)
        why = difference("verify", self.expected(), str(library.verify(data)))
        why = why or difference("check", self.expected(), library.session(["check"], data.hex())[1].split("\n")[0])
        return why or self.text_fault(library) or self.places_fault(library, data)

    def places_fault(self, library: Library, data: bytes) -> str | None:
        """Compares the rights that `check --places` lists, if no text has blanks side by side."""
        lines = listed(self.program, refusal(self.program))
        if any("  " in line for line in lines):
            return None
        got = [" ".join(line.split()) for line in library.session(["check", "--places"], data.hex())[1].split("\n")[:len(lines)]]
        return difference("check --places", "\n".join(" ".join(line.split()) for line in lines), "\n".join(got))

    def text_fault(self, library: Library) -> str | None:
        """Compares the source line that `check --text` prints after an error, and that a reason follows."""
        found = refusal(self.program)
        if found is None:
            return None
        text = program_text(self.program)
        source = text.split("\n")[line_of(self.program, found) - 1]
        lines = library.session(["check", "--text"], text)[1].split("\n")
        expected = [str(found), f"at line {line_of(self.program, found)}: {source}"]
        if len(source) <= 200 and (lines[:2] != expected or not lines[2:3] or not lines[2]):
            return f"check --text: expected {expected}, got {lines!r:.400}"
        return None

    def smaller(self) -> Iterator[FuzzTest]:
        return map(VerifyTest, smaller(self.program))

    def case(self) -> list[str]:
        return ["kind verify", *program_part(self.program), *value("output", self.expected())]


def make_verify(chance: random.Random, corpus: Corpus) -> FuzzTest:
    program = chance.choice(corpus.programs) if chance.random() < 0.15 else make.program(chance)
    return VerifyTest(make.damaged(chance, program, chance.choice([0, 1, 1, 1, 1, 2, 3])))
