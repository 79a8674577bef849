"""The kind `bounds` of fuzz tests: programs whose calls end, run to their end with their bounds as limit and caps."""

import random
from dataclasses import dataclass, field
from typing import Sequence

from tools.fuzz.oracle.bounds import COUNTED, bound, budgets, has_circle
from tools.fuzz.library import Library
from tools.fuzz.kinds.runs import counted, has_targets, replayed, run_test
from tools.fuzz.common import Corpus, FuzzTest, RunTest

# Programs with a larger bound of events aren't run.
MOST_EVENTS = 20_000
# A random program often has no bound; so many are made until one has.
TRIES = 40
CAPPED = ("tasks", "instructions", "data", "bytes", "budget", "members")


@dataclass(frozen=True)
class BoundsTest(RunTest):
    """A run with its program's bounds as limit and caps: it ends by itself, within them; with smaller caps it is rejected."""

    reached: list[str] = field(default_factory=list, compare=False, repr=False)

    @property
    def marks(self) -> Sequence[str]:
        return self.reached

    @property
    def bounds(self) -> dict[str, int]:
        return {name: bound(self.program, weights) for name, weights in COUNTED.items()}

    @property
    def caps(self) -> dict[str, int]:
        """Returns the bounds to which a cap applies."""
        found = {**self.bounds, "budget": max(budgets(self.program))}
        return {name: found[name] for name in CAPPED}

    def is_bounded(self, library: Library) -> bool:
        if not self.is_accepted(library) or has_circle(self.program) or not has_targets(self.program, self.layout):
            return False
        return self.bounds["events"] <= MOST_EVENTS

    def fault(self, library: Library) -> str | None:
        if not self.is_bounded(library):
            return None
        return self.run_fault(library) or self.cap_fault(library)

    def arguments(self, caps: dict[str, int]) -> list[str]:
        given = [word for name, most in caps.items() for word in (f"--most-{name}", str(most))]
        return ["run", "--in-turn", "--trace", "--limit", str(self.bounds["events"]), *given, *self.options, *self.words]

    def run_fault(self, library: Library) -> str | None:
        """Runs the program with its bounds as limit and caps."""
        status, text = library.session(self.arguments({name: max(most, 1) for name, most in self.caps.items()}), self.hex)
        if status not in (0, 3):
            return f"a run with its bounds as limit and caps: status {status}: {text[-200:]}"
        machine, held = replayed(self, text)
        return self.number_fault({**counted(machine), **held})

    def number_fault(self, found: dict[str, int]) -> str | None:
        """Compares a run's numbers with the bounds, and keeps which of them are reached."""
        bounds = self.bounds
        for name, number in found.items():
            if number > bounds[name]:
                return f"a run has {number} {name}, more than the bound {bounds[name]}"
        equal = [name for name, number in found.items() if number == bounds[name]]
        self.reached[:] = ["programs", *equal, *(["all"] if len(equal) == len(found) else [])]
        return None

    def cap_fault(self, library: Library) -> str | None:
        """Runs the program with caps one below its bounds."""
        smaller = {name: most - 1 for name, most in self.caps.items() if most > 1}
        expected = "refused O07\n" + "".join(f"{name}: bound {most + 1}, at most {most}\n" for name, most in smaller.items())
        status, text = library.session(self.arguments(smaller), self.hex)
        if smaller and (status, text) != (1, expected):
            return f"caps below the bounds: expected {expected!r}, got {status}, {text[:300]!r}"
        return None

    def case(self) -> list[str]:
        return self.case_of(self.arguments(self.caps), 0, "?")


def make_bounds(chance: random.Random, corpus: Corpus) -> FuzzTest:
    """Makes random programs until one has bounds."""
    for _ in range(TRIES):
        test = BoundsTest(**run_test(chance, corpus).fields)
        if test.is_bounded(corpus.library):
            return test
    return test
