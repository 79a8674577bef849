"""Fuzz tests of orders: a program whose insertions go by no copied right has one result in each order of events and each layout.

The oracle has the rule of docs/FORMAT.md, `check --order`, and the machine of oracle/machine.py, which makes events in random orders.
"""

import json
import random
from dataclasses import dataclass
from typing import Iterator

from tools.fuzz import make
from tools.fuzz.oracle.bounds import needs
from tools.fuzz.oracle.code import CALLS, LOCAL, VAL, Instr, Program
from tools.fuzz.common import Corpus, FuzzTest, RunTest, difference
from tools.fuzz.library import Library
from tools.fuzz.oracle.machine import Event, Layout, Machine, actors_of, locals_ahead, run_in_turn
from tools.fuzz.oracle.report import report_lines, split_circle, status_of
from tools.fuzz.kinds.runs import has_targets, run_test

# How many orders of a program are compared, and how many programs of a hundred are also run in threads.
ORDERS = 5
IN_THREADS = 25

# --- The rule

Register = tuple[int, int]
"""A procedure, and one of its right registers."""


def instrs(program: Program) -> Iterator[tuple[int, int, Instr]]:
    """Yields each instruction with its procedure and place."""
    for number, procedure in enumerate(program.procedures):
        for place, instr in enumerate(procedure.code):
            yield number, place, instr


def passed(program: Program, number: int, instr: Instr) -> Iterator[tuple[Register, Register]]:
    """Yields for each right that a RULE or PUT passes its register, and that of the parameter."""
    callee = instr.number(0)
    if callee >= len(program.procedures):
        return
    rights = [arg for param, arg in zip(program.procedures[callee].params, instr.items(3)) if param.mode != VAL]
    for into, arg in enumerate(rights):
        yield (number, arg), (callee, into)


def copies(program: Program) -> set[Register]:
    """Returns the registers whose right may be a copy: those of a DUPW, and the parameters for which such a right is passed."""
    found = {(number, instr.number(place)) for number, _, instr in instrs(program) if instr.name == "DUPW" for place in (0, 1)}
    arcs = [arc for number, _, instr in instrs(program) if instr.name in CALLS for arc in passed(program, number, instr)]
    while new := {into for of, into in arcs if of in found} - found:
        found |= new
    return found


def first_copy_insertion(program: Program) -> tuple[int, int] | None:
    """Returns the first procedure and place that inserts by a right that may be a copy."""
    found = copies(program)
    return next(((number, place) for number, place, instr in instrs(program) if instr.name in ("INS", "TINS", "MINS") and (number, instr.number(0)) in found), None)


def line_of(at: tuple[int, int] | None) -> str:
    return "order same" if at is None else f"order may show in procedure {at[0]} at place {at[1]}"


def order_line(program: Program) -> str:
    return line_of(first_copy_insertion(program))


# --- Random orders


def job_events(machine: Machine, actor: str) -> list[Event]:
    frame = machine.frames[actor]
    procedure = machine.program.procedures[frame.procedure]
    if procedure.code[frame.place].name in LOCAL:
        return [("local", actor, locals_ahead(frame, procedure))]
    return [("end" if procedure.code[frame.place].name == "RET" else "call", actor)]


def idle_events(machine: Machine, actor: str) -> list[Event]:
    """Returns the events of an actor without a task."""
    if actor[0] == "s":
        return [("deliver", actor, *notice) for notice in machine.notices if notice[0] % machine.layout[1] == int(actor[1:])]
    events: list[Event] = [("take", actor)] if machine.best(actor) is not None else []
    if actor[0] == "e":
        for rule in machine.rules.values():
            if rule.engine == int(actor[1:]):
                asks: list[Event] = [("ask", actor, rule.number, param) for param, stage in rule.stages.items() if stage == "unasked"]
                waits = any(stage != "ready" for stage in rule.stages.values())
                events += asks or ([] if waits else [("release", actor, rule.number)])
    return events


def run_at_random(chance: random.Random, test: RunTest, layout: Layout) -> Machine:
    """Makes a run whose events are in a random order, up to the limit. Some actors are much slower than others."""
    machine = Machine(test.program, layout, test.inputs)
    actors = actors_of(layout)
    weights = [chance.choice([1, 1, 5, 30]) for _ in actors]
    while machine.events < test.limit and not machine.is_over:
        actor = chance.choices(actors, weights)[0]
        events = job_events(machine, actor) if actor in machine.frames else idle_events(machine, actor)
        if events:
            machine.make(chance.choice(events))
    return machine


# --- The tests


@dataclass(frozen=True)
class OrdersTest(RunTest):
    """A program in several orders and layouts. If one run contests no insertion, none does, and all that end have one report."""

    seed: int = 0
    in_threads: bool = False

    @property
    def marks(self) -> list[str]:
        return [order_line(self.program).split(" in ")[0]]

    def layouts(self, chance: random.Random) -> list[Layout]:
        return [self.layout, *(make.layout(chance, needs(self.program)) for _ in range(ORDERS - 1))]

    def fault(self, library: Library) -> str | None:
        if not self.is_accepted(library) or not has_targets(self.program, self.layout):
            return None
        return self.check_fault(library) or self.certificate_fault(library) or self.orders_fault(library)

    def check_fault(self, library: Library) -> str | None:
        """Compares the last line of the check, as text and as JSON."""
        _, text = library.session(["check", "--order"], self.hex)
        return difference("check --order", order_line(self.program), text.splitlines()[-1]) or self.json_fault(library)

    def json_fault(self, library: Library) -> str | None:
        at = first_copy_insertion(self.program)
        expected = "same" if at is None else {"procedure": at[0], "place": at[1]}
        found = json.loads(library.session(["check", "--order", "--json"], self.hex)[1])["order"]
        return None if found == expected else f"check --order --json: expected {expected}, got {found}"

    def certificate_fault(self, library: Library) -> str | None:
        """Compares the last line of `run --order`."""
        machine = run_in_turn(self.program, self.inputs, self.layout, self.limit)
        words = ["run", "--in-turn", "--order", "--limit", str(self.limit), *self.options, *self.words]
        line = line_of(machine.contested) if machine.contested or machine.is_over else "order may show after the last event"
        return difference("run --order", line, library.session(words, self.hex)[1].splitlines()[-1])

    def runs(self) -> list[Machine]:
        """Makes a run in turn, and one in a random order for each layout."""
        chance = random.Random(self.seed)
        at_random = [run_at_random(chance, self, layout) for layout in self.layouts(chance)]
        return [run_in_turn(self.program, self.inputs, self.layout, self.limit), *at_random]

    def orders_fault(self, library: Library) -> str | None:
        runs = self.runs()
        over = [machine for machine in runs if machine.is_over]
        if not any(machine.contested for machine in runs):
            return self.reports_fault(library, over)
        if first_copy_insertion(self.program) is None:
            return "an insertion is contested, though none is by a copy"
        return None if all(machine.contested for machine in over) else "one order contests an insertion, another that ends doesn't"

    def reports_fault(self, library: Library, over: list[Machine]) -> str | None:
        """Compares the reports of runs that contest no insertion, and a run by the library."""
        reports = ["\n".join(report_lines(machine, True)) for machine in over]
        faults = (difference("in another order", reports[0], report) for report in reports[1:])
        return next((why for why in faults if why), None) or (self.library_fault(library, reports[0]) if reports else None)

    def library_fault(self, library: Library, report: str) -> str | None:
        """Compares the library's run in the order of a seed, or the program's in threads, with the machine's."""
        words = ["--limit", str(self.limit), *self.options, *self.words]
        if not self.in_threads or any("\0" in word for word in self.words):
            status, text = library.session(["run", "--in-turn", "--seed", str(self.seed + 1), *words], self.hex)
        else:
            status, text = library.command(["run", "--quiet", *words], self.hex)
        if status == 4:
            return None
        return difference(f"run, status {status}", report, "\n".join(split_circle(text)[0]))

    def case(self) -> list[str]:
        machine = run_in_turn(self.program, self.inputs, self.layout, self.limit)
        words = ["run", "--in-turn", "--limit", str(self.limit), *self.options, *self.words]
        return self.case_of(words, status_of(machine), "\n".join(report_lines(machine, True)))


def make_orders(chance: random.Random, corpus: Corpus) -> FuzzTest:
    """Makes a test; of two programs, rather one that copies a write right."""
    tests = [run_test(chance, corpus) for _ in range(2)]
    with_copies = [test for test in tests if copies(test.program)]
    test = (with_copies or tests)[0]
    return OrdersTest(**test.fields, seed=chance.randrange(2**32), in_threads=chance.randrange(100) < IN_THREADS)
