"""Reports, traces and statistics of the machine, as docs/FORMAT.md says that they are written."""

from tools.fuzz.oracle.code import TEXT, WRITE, entry_of, is_map, quoted, subscript_of, type_text
from tools.fuzz.oracle.machine import Event, Machine, Made, Scalar, Value, key_of


def scalar_text(value: Scalar) -> str:
    return str(value) if isinstance(value, int) else quoted(value)


def datum_text(machine: Machine, number: int) -> str:
    made = machine.store.get(number)
    if made is None:
        return "gone"
    if made.is_scalar:
        return "unset" if made.value is None else f"{type_text(made.type)} {scalar_text(made.value)}"
    return f"{type_text(made.type)} {'closed' if made.is_closed else 'open'} {made.count}"


def output_lines(machine: Machine) -> list[str]:
    lines: list[str] = []
    for place, number in enumerate(machine.outputs):
        lines.append(f"out {place} {datum_text(machine, number)}")
        made = machine.store.get(number)
        for subscript, member in made.sorted_members() if made else []:
            lines.append(f"  at {scalar_text(subscript)} {datum_text(machine, member)}")
        if made and is_map(made.type):
            of = type_text((entry_of(made.type),))
            lines += [f"  at {scalar_text(subscript)} {of} {scalar_text(value)}" for subscript, value in made.sorted_entries()]
    return lines


def end_line(machine: Machine, is_limited: bool) -> str:
    if machine.is_over:
        return f"stuck {len(machine.rules)}" if machine.rules else "quiet"
    return "limit" if is_limited else "running"


def report_lines(machine: Machine, is_limited: bool) -> list[str]:
    """Returns a report without the lines of a circle."""
    return [*output_lines(machine), end_line(machine, is_limited)]


def status_of(machine: Machine) -> int:
    """Returns the exit status of a run that is over or limited."""
    return (3 if machine.rules else 0) if machine.is_over else 4


def split_circle(text: str) -> tuple[list[str], list[tuple[int, int, int]]]:
    """Parts a report into its lines without and with a circle."""
    lines = text.splitlines()
    circle = [line for line in lines if line.startswith("waits ")]
    found = [tuple(map(int, line.split(" ")[1:])) for line in circle]
    return [line for line in lines if line not in circle], [(a, b, c) for a, b, c in found]


def circle_fault(machine: Machine, circle: list[tuple[int, int, int]]) -> str | None:
    """Says what is wrong with a circle: each rule waits for a datum that the next one may write, and the last one leads to the first."""
    for place, (number, datum, writer) in enumerate(circle):
        rule, other = machine.rules.get(number), machine.rules.get(writer)
        if rule is None or other is None or writer != circle[(place + 1) % len(circle)][0]:
            return f"rule {number} or {writer} isn't of a circle"
        if not any(stage == "waiting" and rule.task.args[param][1] == datum for param, stage in rule.stages.items()):
            return f"rule {number} doesn't wait for datum {datum}"
        params = machine.program.procedures[other.task.procedure].params
        if not any(param.mode == WRITE and arg == (True, datum) for param, arg in zip(params, other.task.args)):
            return f"rule {writer} can't write datum {datum}"
    return None


# --- Traces


def event_text(event: Event) -> str:
    return " ".join(map(str, event))


def trace_text(events: list[Event]) -> str:
    return "\n".join(["events", *map(event_text, events), "end"]) + "\n"


def event_of(line: str) -> Event:
    word, actor, *numbers = line.split(" ")
    return (word, actor, *map(int, numbers))


def split_trace(text: str) -> tuple[list[Event], str]:
    """Parts what `run --trace` writes into its events and its report."""
    trace, _, report = text.partition("\nend\n")
    return [event_of(line) for line in trace.split("\n")[1:]], report


# --- Inputs


def input_word(value: Value) -> str:
    """Returns an input as an argument; a line feed is only possible in a container or a map."""
    if isinstance(value, int):
        return f"int:{value}"
    if isinstance(value, str):
        return f"text:{value}"
    raise TypeError


def container_word(value: Value, type_: tuple[int, ...]) -> str:
    assert isinstance(value, dict)
    name = ("t" if subscript_of(type_) == TEXT else "") + ("texts" if entry_of(type_) == TEXT else "ints")
    pairs: list[tuple[Scalar, Scalar]] = list(value.items())
    return f"{name}:" + ",".join(f"{scalar_text(subscript)}={scalar_text(member)}" for subscript, member in sorted(pairs, key=key_of))


def input_words(types: list[tuple[int, ...]], values: list[Value]) -> list[str]:
    return [container_word(value, type_) if len(type_) > 1 else input_word(value) for type_, value in zip(types, values)]


# --- Statistics

KINDS = ("take", "local", "call", "end", "ask", "deliver", "release")


def counted(machine: Machine) -> list[str]:
    """Returns the lines of statistics up to the procedures', by counting the events that were made."""
    words = [str(made.event[0]) for made in machine.made]
    return ["numbers", f"events {len(words)}", *(f"{kind} {words.count(kind)}" for kind in KINDS)]


def procedure_lines(machine: Machine, budgets: list[int]) -> list[str]:
    lines = []
    started = {made.task for made in machine.made if made.event[0] == "take"}
    for number in range(len(machine.program.procedures)):
        tasks = [task for task in started if machine.procedures_of_tasks[task] == number]
        spent = [machine.spent.get(task, 0) for task in tasks]
        line = f"procedure {number} tasks {len(tasks)} instructions {sum(spent)} most {max(spent, default=0)}"
        lines.append(line + (f" budget {budgets[number]}" if budgets else ""))
    return lines


def actor_lines(machine: Machine, actors: list[str]) -> list[str]:
    events = [str(made.event[1]) for made in machine.made]
    return [f"actor {actor} events {events.count(actor)}" for actor in actors]


def weight(event: Event) -> int:
    return int(event[2]) if event[0] == "local" else 1


class Chain:
    """The steps of the longest chain of events that wait for one another, up to each event."""

    def __init__(self) -> None:
        self.of_task: dict[int, int] = {}
        self.of_rule: dict[int, int] = {}
        self.of_parts: dict[int, int] = {}
        self.of_datum: dict[int, int] = {}
        self.longest = 0

    def add(self, made: Made) -> None:
        waits = [self.of_task.get(made.task, 0), self.of_datum.get(made.closed, 0)]
        word = made.event[0]
        if word in ("ask", "release"):
            waits.append(self.of_rule.get(made.rule, 0))
        if word == "release":
            waits.append(self.of_parts.get(made.rule, 0))
        length = max(waits) + weight(made.event)
        self.note(made, length)

    def note(self, made: Made, length: int) -> None:
        if made.task:
            self.of_task[made.task] = length
        if made.new_task:
            self.of_task[made.new_task] = length
        if made.new_rule:
            self.of_rule[made.new_rule] = length
        if made.event[0] in ("ask", "deliver"):
            self.of_parts[made.rule] = max(self.of_parts.get(made.rule, 0), length)
        for datum in made.wrote:
            self.of_datum[datum] = max(self.of_datum.get(datum, 0), length)
        self.longest = max(self.longest, length)


def chain_line(machine: Machine) -> str:
    chain = Chain()
    for made in machine.made:
        chain.add(made)
    return f"steps {sum(weight(made.event) for made in machine.made)} chain {chain.longest}"


def stats_lines(machine: Machine, budgets: list[int], actors: list[str]) -> list[str]:
    """Returns the statistics of the events that were made."""
    return [*counted(machine), *procedure_lines(machine, budgets), *actor_lines(machine, actors), chain_line(machine)]
