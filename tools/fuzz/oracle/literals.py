"""Numbers and texts as operands (docs/NAMES.md): which instructions at the start of a procedure symbolic assembly writes as literals."""

import random
from dataclasses import replace
from typing import Iterator

from tools.fuzz.oracle.code import CALLS, INT, TEXT, VAL, Instr, Operand, Procedure, Program, quoted

COMPARES = {"JEQ", "JLT", "JTLT"}
REGISTERS = 16
FILLS = {"INT": INT, "TEXT": TEXT}


def value_places(instr: Instr) -> list[int]:
    """Returns the places of the value registers among the operands that the instruction reads."""
    return [at for at, form in enumerate(instr.form) if form == "v" and (at > 0 or instr.name in COMPARES)]


def kept_values(program: Program, instr: Instr) -> Iterator[int]:
    """Returns the value registers that the instruction fills or hands on."""
    if instr.form.startswith("v") and instr.name not in COMPARES:
        yield instr.number(0)
    if instr.name in CALLS and instr.number(0) < len(program.procedures):
        params = program.procedures[instr.number(0)].params
        yield from (register for param, register in zip(params, instr.items(len(instr.operands) - 1)) if param.mode == VAL)


def parameters(procedure: Procedure) -> int:
    return sum(param.mode == VAL for param in procedure.params)


def are_literals(program: Program, procedure: Procedure, count: int) -> bool:
    """Returns whether the first instructions, so many, are those to which literals expand: they fill the last registers, in the order of their first uses."""
    last = len(procedure.registers)
    hidden = list(range(last - count, last))
    front, rest = procedure.code[:count], procedure.code[count:]
    if last > REGISTERS or last - count < parameters(procedure) or any(FILLS.get(instr.name) != procedure.registers[place] for instr, place in zip(front, hidden)):
        return False
    read = [instr.number(at) for instr in rest for at in value_places(instr)]
    kept = [register for instr in rest for register in kept_values(program, instr)]
    first_uses = list(dict.fromkeys(register for register in read if register >= last - count))
    return ([instr.number(0) for instr in front], first_uses) == (hidden, hidden) and len({instr.operands[1] for instr in front}) == count and all(register < last - count for register in kept)


def literal_count(program: Program, procedure: Procedure) -> int:
    """Returns how many of the first instructions may be written as literals."""
    most = min(REGISTERS, len(procedure.registers), len(procedure.code))
    return next((count for count in range(most, 0, -1) if are_literals(program, procedure, count)), 0)


def word_of(chance: random.Random, literal: Operand) -> str:
    """Returns a word of a literal: a number may begin with zeros."""
    if isinstance(literal, str):
        return quoted(literal)
    assert isinstance(literal, int)
    return f"{'-' if literal < 0 else ''}{chance.choice(['', '', '', '00'])}{abs(literal)}"


def with_literals(chance: random.Random, program: Program) -> Program:
    """Returns the program with registers that the first instructions of its procedures fill, in the place of some that are read."""
    return replace(program, procedures=tuple(filled(chance, program, procedure) for procedure in program.procedures))


def filled(chance: random.Random, program: Program, procedure: Procedure) -> Procedure:
    first = len(procedure.registers)
    literals: list[Operand] = []
    if first < parameters(procedure) or any(instr.number(at) >= first for instr in procedure.code for at in value_places(instr)):
        return procedure
    if any(register >= first for instr in procedure.code for register in kept_values(program, instr)):
        return procedure
    pool: list[Operand] = [0, 1, -1, 10, 2**63 - 1, -2**63, "", ",", "a b, (c)", 'é"\\\n', *(chance.randrange(100) for _ in range(3))]
    code = []
    for instr in procedure.code:
        for at in value_places(instr):
            literal = chance.choice(pool)
            if chance.random() < 0.3 and (literal in literals or first + len(literals) < REGISTERS):
                literals += [literal] if literal not in literals else []
                instr = instr.with_operand(at, first + literals.index(literal))
        code.append(instr)
    front = [Instr("TEXT" if isinstance(literal, str) else "INT", (first + place, literal)) for place, literal in enumerate(literals)]
    types = tuple(TEXT if isinstance(literal, str) else INT for literal in literals)
    return replace(procedure, registers=procedure.registers + types, code=(*front, *code))
