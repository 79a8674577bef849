"""Kinds of fuzz tests of runs: `check`, `run`, `history` and `stats`. The oracle is the machine of oracle/machine.py."""

import random
from dataclasses import dataclass, replace
from typing import Iterator

from tools.fuzz import make
from tools.fuzz.oracle.bounds import COUNTED, OVER, bound, bound_lines, budgets, check_lines, each_lines, has_circle, is_circle, limited_lines, needs
from tools.fuzz.oracle.code import Program, encode
from tools.fuzz.library import Library
from tools.fuzz.oracle.machine import Event, Layout, Machine, NotEnabled, Trap, actors_of, run_by_seed, run_in_turn
from tools.fuzz.oracle.report import circle_fault, event_text, report_lines, split_circle, split_trace, stats_lines, status_of, trace_text
from tools.fuzz.common import Corpus, RunTest, FuzzTest, answer_part, case_word, difference, without_parts


def run_test(chance: random.Random, corpus: Corpus) -> RunTest:
    """Makes a random program, or takes one of the corpus, with inputs and a layout."""
    program = chance.choice(corpus.accepted) if chance.random() < 0.1 else make.program(chance)
    if chance.random() < 0.1:
        program = make.damaged(chance, program, 1)
    inputs = tuple(make.inputs_of(chance, program))
    least = needs(program) if not corpus.library.verify(encode(program)).code else (0, 0)
    limit = chance.choice([10, 50]) if chance.random() < 0.1 else 600
    return RunTest(program, inputs, make.layout(chance, least), limit)


def has_targets(program: Program, layout: Layout) -> bool:
    """Whether a layout has the actors that a program names."""
    engines, workers = needs(program)
    return engines <= layout[0] and workers <= layout[2]


def replayed(test: RunTest, text: str) -> tuple[Machine, dict[str, int]]:
    """Makes the events of a run's trace. Returns also how much more it held at any time than at first."""
    machine = Machine(test.program, test.layout, test.inputs)
    first = machine.held()
    most = dict.fromkeys(first, 0)
    for event in split_trace(text)[0]:
        machine.make(event)
        most = {name: max(most[name], number - first[name]) for name, number in machine.held().items()}
    return machine, most


def counted(machine: Machine) -> dict[str, int]:
    """Returns a run's numbers, by the names of the bounds."""
    return {
        "tasks": sum(made.event[0] == "take" for made in machine.made),
        "instructions": sum(machine.spent.values()),
        "data": machine.next_id - machine.opened,
        "rules": machine.next_rule - 1,
        "events": machine.events,
    }


# --- Checks


@dataclass(frozen=True)
class CheckTest(RunTest):
    """Compares what `check` writes, and checks that a run stays within it."""

    def fault(self, library: Library) -> str | None:
        if not self.is_accepted(library):
            return None
        return self.check_fault(library) or self.bounds_fault(library)

    def expected(self) -> list[str]:
        return check_lines(self.program) + ([] if has_circle(self.program) else bound_lines(self.program))

    def check_fault(self, library: Library) -> str | None:
        each = [*check_lines(self.program), *each_lines(self.program), *limited_lines(self.program, self.limit)]
        return self.lines_fault(library, ["--bounds"], self.expected()) or self.lines_fault(library, ["--bounds=all", "--limit", str(self.limit)], each)

    def lines_fault(self, library: Library, options: list[str], expected: list[str]) -> str | None:
        """Compares what a check prints; if main's calls lead to a circle, one line has to name a call of it."""
        lines = library.session(["check", *options], self.hex)[1].splitlines()
        circles = [line for line in lines if line.startswith("bound none: procedure ")]
        if [is_circle(self.program, *place_in(line)) for line in circles] != [True] * has_circle(self.program):
            return f"check {' '.join(options)}: expected a call that leads back, got {circles}"
        return difference(f"check {' '.join(options)}", "\n".join(expected), "\n".join(line for line in lines if line not in circles))

    def bounds_fault(self, library: Library) -> str | None:
        """Compares a run's numbers, by the library's trace, with budgets and bounds."""
        status, text = library.session(["run", "--in-turn", "--trace", "--limit", "5000", *self.options, *self.words], self.hex)
        if status in (1, 2):
            return f"run refused: {text[:200]}"
        machine, held = replayed(self, text)
        most = budgets(self.program)
        for task, spent in machine.spent.items():
            if spent > most[machine.procedures_of_tasks[task]]:
                return f"task {task} executed {spent} instructions, more than its budget"
        return None if has_circle(self.program) else self.over(machine, held)

    def over(self, machine: Machine, held: dict[str, int]) -> str | None:
        found = {**counted(machine), **held}
        for name, weights in COUNTED.items():
            if found[name] > min(bound(self.program, weights), OVER):
                return f"a run has {found[name]} {name}, more than the bound {bound(self.program, weights)}"
        return None

    def case(self) -> list[str]:
        return self.case_of(["check", "--bounds"], 0, "\n".join(self.expected()))


def place_in(line: str) -> tuple[int, int]:
    """Returns the procedure and place of a line such as `bound none: procedure 2 at place 1 leads back to itself`."""
    words = line.split(" ")
    return int(words[3]), int(words[6])


def make_check(chance: random.Random, corpus: Corpus) -> FuzzTest:
    return CheckTest(**run_test(chance, corpus).fields)


# --- Runs


@dataclass(frozen=True)
class InTurnTest(RunTest):
    """A run in turn, in the order of a seed if it has one: its trace and report, and the report of the trace's replay."""

    seed: int | None = None

    @property
    def arguments(self) -> list[str]:
        seed = ["--seed", str(self.seed)] if self.seed else []
        return ["run", "--in-turn", *seed, "--trace", "--limit", str(self.limit), *self.options, *self.words]

    def run(self) -> Machine:
        if self.seed:
            return run_by_seed(self.program, self.inputs, self.layout, self.limit, self.seed)
        return run_in_turn(self.program, self.inputs, self.layout, self.limit)

    def expected(self) -> tuple[Machine, str]:
        machine = self.run()
        trace = trace_text([made.event for made in machine.made])
        return machine, trace + "\n".join(report_lines(machine, True)) + "\n"

    def fault(self, library: Library) -> str | None:
        if not self.is_accepted(library):
            return None
        status, text = library.session(self.arguments, self.hex)
        if status in (1, 2):
            return None if text.startswith("refused O03") and not has_targets(self.program, self.layout) else f"run refused: {text[:200]}"
        machine, expected = self.expected()
        lines, circle = split_circle(text)
        why = difference("run in turn", expected, "\n".join(lines) + "\n") or circle_fault(machine, circle)
        if why is None and (bool(circle) != (status == 3) or status != status_of(machine)):
            why = f"status {status}, expected {status_of(machine)}, with {len(circle)} lines of a circle"
        return why or self.replay_fault(library, text)

    def replay_fault(self, library: Library, text: str) -> str | None:
        trace, _, report = text.partition("\nend\n")
        _, again = library.session(["replay", *self.options, *self.words], f"{self.hex}\n{trace}\n")
        return difference("replay of the run", report.replace("\nlimit\n", "\nrunning\n") if report != "limit\n" else "running\n", again)

    def case(self) -> list[str]:
        machine, text = self.expected()
        return self.case_of(self.arguments, status_of(machine), text)


@dataclass(frozen=True)
class ThreadsTest(InTurnTest):
    """A run in threads by the program: its trace is one of the machine's, and its report that of the run in turn if no order matters."""

    def fault(self, library: Library) -> str | None:
        if not self.is_accepted(library) or not has_targets(self.program, self.layout) or any("\0" in word for word in self.words):
            return None
        words = ["run", "--trace", "--quiet", "--limit", str(self.limit), *self.options, *self.words]
        status, text = library.command(words, self.hex)
        if status not in (0, 3, 4):
            return f"run in threads: status {status}: {text[:200]}"
        events, report = split_trace(text)
        machine = Machine(self.program, self.layout, self.inputs)
        for number, event in enumerate(events, 1):
            try:
                machine.make(event)
            except (Trap, NotEnabled) as why:
                return f"run in threads: event {number}, {event_text(event)}: {why!r}"
        return self.report_fault(machine, status, report)

    def report_fault(self, machine: Machine, status: int, report: str) -> str | None:
        lines, circle = split_circle(report)
        why = difference("run in threads", "\n".join(report_lines(machine, True)), "\n".join(lines)) or circle_fault(machine, circle)
        if why or status != status_of(machine):
            return why or f"run in threads: status {status}, expected {status_of(machine)}"
        other = run_in_turn(self.program, self.inputs, self.layout, self.limit)
        if other.has_refused or not other.is_over or not machine.is_over:
            return None
        return difference("in turn and in threads", "\n".join(report_lines(other, True)), "\n".join(lines))


def make_run(chance: random.Random, corpus: Corpus) -> FuzzTest:
    test = run_test(chance, corpus)
    if chance.random() < 0.04:
        return ThreadsTest(**test.fields)
    return InTurnTest(**test.fields, seed=chance.choice([None, chance.randrange(1, 200), chance.randrange(1, 2**64)]))


# --- Traces


@dataclass(frozen=True)
class HistoryTest(RunTest):
    """A trace, perhaps changed, replayed: each event is made, isn't enabled or traps as by the machine."""

    events: tuple[Event, ...] = ()

    def expected(self) -> tuple[int, str, Machine]:
        machine = Machine(self.program, self.layout, self.inputs)
        for number, event in enumerate(self.events, 1):
            try:
                machine.make(event)
            except NotEnabled:
                return 1, f"not enabled at event {number}\n", machine
            except Trap as trap:
                return 6, f"trap C{trap.cause} at event {number}\n", machine
        status = 3 if machine.is_over and machine.rules else 0
        return status, "\n".join(report_lines(machine, False)) + "\n", machine

    @property
    def data(self) -> str:
        return f"{self.hex}\n{trace_text(list(self.events))}"

    def fault(self, library: Library) -> str | None:
        main = self.program.main
        if main.kind or any(param.mode == 1 or len(param.type) > 2 for param in main.params):
            return None
        status, text, machine = self.expected()
        got_status, got = library.session(["replay", *self.options, *self.words], self.data)
        lines, circle = split_circle(got)
        why = difference("replay", text, "\n".join(lines) + "\n") or circle_fault(machine, circle)
        return why or (f"replay: status {got_status}, expected {status}" if status != got_status else None)

    def smaller(self) -> Iterator[FuzzTest]:
        yield from without_parts(self, "events")
        yield from super().smaller()

    def case(self) -> list[str]:
        status, text, _ = self.expected()
        lines = self.case_of(["replay", *self.options, *self.words], status, text)
        at = lines.index(f"status {status}")
        return lines[:at] + ["events", *(f"    {line}" for line in trace_text(list(self.events)).splitlines()[1:-1])] + lines[at:]


def other_event(chance: random.Random, event: Event) -> Event:
    """Returns an event of another actor or with another number."""
    place = chance.randrange(1, len(event))
    found = event[place]
    if isinstance(found, int):
        number = max(0, chance.choice([found - 1, found + 1, 0, 1, 2, found * 2]))
        return (*event[:place], max(1, number) if event[0] == "local" else number, *event[place + 1:])
    letter = found[0] if event[0] in ("ask", "release", "deliver") else chance.choice("ew")
    return (event[0], f"{letter}{chance.randrange(4)}", *event[2:])


def random_event(chance: random.Random) -> Event:
    actor = f"{chance.choice('ew')}{chance.randrange(2)}"
    small = [chance.randrange(4) for _ in range(3)]
    return chance.choice([
        ("take", actor), ("call", actor), ("end", actor), ("local", actor, 1 + small[0]), ("ask", f"e{small[0]}", small[1], small[2]),
        ("release", f"e{small[0]}", small[1]), ("deliver", f"s{small[0]}", chance.randrange(9), small[1], small[2]),
    ])


def changed_events(chance: random.Random, events: list[Event]) -> list[Event]:
    """Returns a trace with one event changed, dropped, exchanged, doubled or put in."""
    if not events:
        return [random_event(chance)]
    place, kind = chance.randrange(len(events)), chance.randrange(6)
    made = list(events)
    if kind == 0:
        made[place] = other_event(chance, made[place])
    elif kind == 1:
        del made[place]
    elif kind == 2:
        other = min(len(made) - 1, place + chance.choice([1, 1, 2, 5]))
        made[place], made[other] = made[other], made[place]
    elif kind == 3:
        made.insert(place, made[place])
    elif kind == 4:
        made.insert(place, random_event(chance))
    else:
        made = made[:place]
    return made


def possible_events(machine: Machine) -> list[Event]:
    """Returns events that are likely to be enabled, and some that aren't."""
    found: list[Event] = []
    for actor in actors_of(machine.layout):
        if actor in machine.frames:
            found += [("call", actor), ("end", actor), ("local", actor, 1)]
        elif actor[0] != "s":
            found.append(("take", actor))
    for rule in machine.rules.values():
        found += [("ask", f"e{rule.engine}", rule.number, param) for param in rule.stages] + [("release", f"e{rule.engine}", rule.number)]
    return found + [("deliver", f"s{datum % machine.layout[1]}", datum, rule_, param) for datum, rule_, param in machine.notices]


def random_trace(chance: random.Random, test: RunTest, most: int) -> list[Event]:
    """Makes events in a random order: those that the machine makes, and at the end perhaps one that it doesn't."""
    machine = Machine(test.program, test.layout, test.inputs)
    while machine.events < most:
        events = possible_events(machine)
        chance.shuffle(events)
        for event in events:
            try:
                machine.make(event)
                break
            except NotEnabled:
                continue
            except Trap:
                if chance.random() < 0.2:
                    return [made.event for made in machine.made] + [event]
        else:
            break
    return [made.event for made in machine.made]


def make_history(chance: random.Random, corpus: Corpus) -> FuzzTest:
    test = run_test(chance, corpus)
    if chance.random() < 0.4:
        test = replace(test, program=make.damaged(chance, test.program, chance.choice([1, 2, 4])))
        test = replace(test, inputs=tuple(make.inputs_of(chance, test.program)))
    if test.program.main.kind or any(param.mode == 1 or len(param.type) > 2 for param in test.program.main.params):
        return HistoryTest(**test.fields)
    events = random_trace(chance, test, chance.choice([20, 60, 150]))
    for _ in range(chance.choice([0, 1, 1, 2])):
        events = changed_events(chance, events)
    return HistoryTest(**test.fields, events=tuple(events))


# --- Statistics


@dataclass(frozen=True)
class StatsTest(HistoryTest):
    """Statistics of a trace against counting its events."""

    def fault(self, library: Library) -> str | None:
        if self.program.main.kind:
            return None
        status, text, machine = self.expected()
        if status not in (0, 3):
            return None
        accepted = self.is_accepted(library)
        expected = text + "\n".join(stats_lines(machine, budgets(self.program) if accepted else [], actors_of(self.layout))) + "\n"
        _, got = library.session(["replay", "--stats", *self.options, *self.words], self.data)
        return difference("replay --stats", expected, "\n".join(split_circle(got)[0]) + "\n") or self.run_fault(library, accepted)

    def run_fault(self, library: Library, accepted: bool) -> str | None:
        """Compares `run --stats` with `replay --stats` of the run's own trace."""
        if not accepted:
            return None
        words = ["run", "--in-turn", "--trace", "--stats", "--limit", str(self.limit), *self.options, *self.words]
        _, text = library.session(words, self.hex)
        machine = run_in_turn(self.program, self.inputs, self.layout, self.limit)
        expected = trace_text([made.event for made in machine.made]) + "\n".join(
            report_lines(machine, True) + stats_lines(machine, budgets(self.program), actors_of(self.layout))
        )
        return difference("run --stats", expected + "\n", "\n".join(split_circle(text)[0]) + "\n")

    def case(self) -> list[str]:
        status, text, machine = self.expected()
        lines = super().case()
        lines[0] = f"kind tw {' '.join(map(case_word, ['replay', '--stats', *self.options, *self.words]))}"
        stats = stats_lines(machine, budgets(self.program), actors_of(self.layout))
        return lines[:lines.index(f"status {status}")] + answer_part(status, text + "\n".join(stats))


def make_stats(chance: random.Random, corpus: Corpus) -> FuzzTest:
    test = run_test(chance, corpus)
    least = needs(test.program) if test.is_accepted(corpus.library) else None
    layout: Layout = make.layout(chance, least) if least else test.layout
    test = replace(test, layout=layout)
    if test.program.main.kind or least is None:
        return StatsTest(**test.fields)
    return StatsTest(**test.fields, events=tuple(random_trace(chance, test, chance.choice([20, 60, 200]))))
