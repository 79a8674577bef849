"""Budgets and bounds of programs, computed from their definitions: greatest walks through the code."""

from dataclasses import dataclass
from typing import Callable, Sequence

from tools.fuzz.oracle.code import CALLS, CLOSED, SEARCHES, TEXT, Instr, Procedure, Program

OVER = 1_000_000_000_000
Cost = Callable[[Instr], int]


def partners(code: Sequence[Instr]) -> dict[int, int]:
    """Returns the END of each REPEAT that has one."""
    opened: list[int] = []
    found: dict[int, int] = {}
    for place, instr in enumerate(code):
        if instr.name == "REPEAT":
            opened.append(place)
        elif instr.name == "END" and opened:
            found[opened.pop()] = place
    return found


def successors(instr: Instr, place: int) -> list[int]:
    """Returns where an instruction may continue, an END and a REPEAT apart."""
    if instr.name == "RET":
        return []
    skipped = [] if instr.skip is None else [place + 1 + instr.skip]
    return skipped if instr.name == "JMP" else [place + 1, *skipped]


def greatest(code: Sequence[Instr], cost: Cost, first: int, last: int, ends: dict[int, int]) -> int:
    """Returns the greatest cost of a walk from one place to another, the last one's cost included, or to a RET.

    Costs spread forward from place to place; a loop counts as its iterations, and continues after its END.
    """
    best: dict[int, int] = {first: 0}
    found = 0
    for place in range(first, last + 1):
        if place not in best:
            continue
        instr = code[place]
        spent = best[place] + cost(instr)
        if place == last or instr.name == "RET":
            found = max(found, spent)
            continue
        after = successors(instr, place)
        if instr.name == "REPEAT":
            end = ends[place]
            spent += instr.number(0) * greatest(code, cost, place + 1, end, ends)
            after = [end + 1]
        for other in after:
            best[other] = max(best.get(other, 0), spent)
    return found


def walk(code: Sequence[Instr], cost: Cost) -> int:
    return greatest(code, cost, 0, len(code) - 1, partners(code))


def budgets(program: Program) -> list[int]:
    """Returns the budget of each procedure: the most instructions that a task of it executes."""
    return [walk(procedure.code, lambda _: 1) for procedure in program.procedures]


# --- Bounds of a run


@dataclass(frozen=True)
class Weights:
    """The weights of what is counted: each task, instruction, NEW, RULE, event of a rule, what an instruction adds to the store, and each text."""

    task: int = 0
    instr: int = 0
    datum: int = 0
    rule: int = 0
    rule_event: int = 0
    member: int = 0
    text: int = 0


COUNTED = {
    "tasks": Weights(task=1),
    "instructions": Weights(instr=1),
    "data": Weights(datum=1),
    "members": Weights(member=1),
    "rules": Weights(rule=1),
    "bytes": Weights(text=4096),
    "events": Weights(task=1, instr=1, rule_event=1),
}


def callees(program: Program, number: int) -> set[int]:
    return {instr.number(0) for instr in program.procedures[number].code if instr.name in CALLS}


def reached(program: Program, number: int) -> set[int]:
    """Returns the procedures to which calls of one lead, by at least one call."""
    found: set[int] = set()
    left = callees(program, number)
    while left:
        found |= left
        left = {other for each in left for other in callees(program, each)} - found
    return found


def has_circle(program: Program, first: int = 0) -> bool:
    """Whether calls of a procedure lead to a circle."""
    return any(number in reached(program, number) for number in {first} | reached(program, first))


def is_circle(program: Program, number: int, place: int) -> bool:
    """Whether main's calls lead to a procedure, and its call at a place leads back to it."""
    instr = program.procedures[number].code[place]
    if instr.name not in CALLS or number not in {0} | reached(program, 0):
        return False
    callee = instr.number(0)
    return number in {callee} | reached(program, callee)


INSERTIONS = {"INS", "TINS", "MINS", "MADD"}
# The places of the operands of which an instruction keeps a copy, if it is a text.
KEPT = {"MINS": (1, 2), "MADD": (1,)}


def texts_added(procedure: Procedure, instr: Instr) -> int:
    """Returns how many texts an instruction makes: a scalar of texts, or subscripts and values that are texts."""
    if instr.name in ("NEW", "TINS"):
        return int(instr.name == "TINS" or instr.items(2) == (TEXT,))
    return sum(procedure.registers[instr.number(place)] == TEXT for place in KEPT.get(instr.name, ()))


def text_registers(procedure: Procedure) -> int:
    """Returns how many registers of texts a task has: from the call on, since values that it is given fill the first of them."""
    return procedure.registers.count(TEXT)


def bound(program: Program, weights: Weights, first: int = 0) -> int:
    """Returns the bound of a procedure's task, with all tasks that come of it. Its calls lead to no circle."""
    known: dict[int, int] = {}

    def of(number: int) -> int:
        if number not in known:
            procedure = program.procedures[number]
            own = weights.task + weights.text * text_registers(procedure)
            known[number] = own + walk(procedure.code, lambda instr: cost(procedure, instr))
        return known[number]

    def cost(procedure: Procedure, instr: Instr) -> int:
        if instr.name == "NEW":
            return weights.instr + weights.datum + weights.text * texts_added(procedure, instr)
        if instr.name in INSERTIONS:
            return weights.instr + weights.member + weights.text * texts_added(procedure, instr)
        if instr.name not in CALLS:
            return weights.instr
        called = of(instr.number(0)) + weights.instr
        if not instr.name.startswith("RULE"):
            return called
        closed = sum(param.mode == CLOSED for param in program.procedures[instr.number(0)].params)
        return called + weights.rule + weights.rule_event * (1 + 2 * closed)

    return of(first)


def reported(number: int) -> str:
    """Returns a bound as it is printed."""
    return "over" if number > OVER else str(number)


def bound_lines(program: Program) -> list[str]:
    """Returns the lines of `check --bounds`, for a program without a circle of calls."""
    return [f"bound {name} {reported(bound(program, weights))}" for name, weights in COUNTED.items()]


def each_lines(program: Program) -> list[str]:
    """Returns the lines of `check --bounds=all`, except those of a circle."""

    def found(weights: Weights, number: int) -> str:
        return "none" if has_circle(program, number) else reported(bound(program, weights, number))

    numbers = range(len(program.procedures))
    return [" ".join(["bounds", str(number), *(f"{name} {found(weights, number)}" for name, weights in COUNTED.items())]) for number in numbers]


def limited_lines(program: Program, limit: int) -> list[str]:
    """Returns the lines of the bounds of runs with so many events at most."""
    instrs = [(procedure, instr) for procedure in program.procedures for instr in procedure.code]
    names = {instr.name for _, instr in instrs}
    most = {
        "tasks": limit,
        "instructions": limit * max(budgets(program)),
        "data": limit if "NEW" in names else 0,
        "members": limit if names & INSERTIONS else 0,
        "rules": limit if any(name.startswith("RULE") for name in names) else 0,
        "bytes": 4096 * limit * max(*(texts_added(procedure, instr) for procedure, instr in instrs), *map(text_registers, program.procedures)),
        "events": limit,
    }
    return [f"limited {name} {reported(number)}" for name, number in most.items()]


def needs(program: Program) -> tuple[int, int]:
    """Returns how many engines and workers the targets need."""
    least = [0, 0]
    for procedure in program.procedures:
        for instr in procedure.code:
            if instr.name in CALLS:
                kind = program.procedures[instr.number(0)].kind
                least[kind] = max(least[kind], instr.number(2))
    return least[0], least[1]


def check_lines(program: Program) -> list[str]:
    """Returns what `check` writes of an accepted program."""
    heads = [f"proc {number} {('control', 'leaf')[found.kind]} budget {budget}" for number, (found, budget) in enumerate(zip(program.procedures, budgets(program)))]
    engines, workers = needs(program)
    searching = sum(any(instr.name in SEARCHES for instr in found.code) for found in program.procedures)
    return ["accepted", *heads, f"needs engines {engines} workers {workers}", *([f"searches {searching}"] if searching else [])]
