# SPDX-License-Identifier: Apache-2.0
"""Facts about an accepted program before it runs: its procedures, and bounds of its runs."""

from __future__ import annotations

import re
from dataclasses import dataclass
from typing import Iterator, List, NamedTuple, Optional, Sequence, Tuple

from ._native import NO_BOUND, OVER, Head
from ._shown import Shown

# The most seconds that an instruction and an event take, by the work of the program. No register holds a text, or one does, or texts are read as
# numbers, too, or searched. ./dev prices measures the dearest ones; examples/many/bound.sh has the same prices.
PRICES = {"ints": (1 / 50_000_000, 1 / 100_000), "texts": (1 / 2_000_000, 1 / 10_000), "numbers": (1 / 50_000, 1 / 10_000), "searches": (1 / 20_000, 1 / 10_000)}
# Likewise what they usually take on one core of a common machine.
_USUAL = {"ints": (2.5e-9, 3.3e-7), "texts": (2.5e-8, 1e-6), "numbers": (2.5e-8, 1e-6), "searches": (5e-8, 1e-6)}
_BEGIN = 1e-4
MOST_EVENTS = 1_000_000  # of a run

_MODES = ("val", "closed", "ref", "write")


class _Needs(NamedTuple):
    engines: int
    workers: int


class Needs(_Needs, metaclass=Shown):  # type: ignore[misc]  # of a tuple, in typeshed only
    """How many engines and workers the targets of a program need."""

    __slots__ = ()


@dataclass(frozen=True)
class Parameter(metaclass=Shown):
    """A parameter of a procedure: its mode ("val", "closed", "ref" or "write"), its type as "cont int", and its name if the text has one."""

    mode: str
    type: str
    name: Optional[str] = None

    def __str__(self) -> str:
        return f"{self.name}: {self.type}" if self.name else self.type


@dataclass(frozen=True)
class Procedure(metaclass=Shown):
    """A procedure: its number, kind ("control" or "leaf"), parameters, budget (the most instructions of a task), and its name if it has one."""

    number: int
    kind: str
    parameters: Tuple[Parameter, ...]
    budget: int
    name: Optional[str] = None


@dataclass(frozen=True)
class Bounds(metaclass=Shown):
    """Bounds of a run, whatever its inputs are, as they are proved: the greatest budget, `greatest`, and the most `tasks`, `instructions`, `data`,
    `members`, `rules`, `bytes` and `events`.

    All but the first are None past 1,000,000,000,000, or if a procedure starts itself, directly or through others (`is_endless`): then only the
    limit of events bounds a run. `members` and `bytes` are what a run holds at any time beyond those of the inputs, and of outputs that are texts.
    A text counts 4,096 bytes, also in a register of a task or an argument of a rule. `work` is "ints" if no register can hold a text, "searches" if FIND, SPAN or UNTIL may search one, else "numbers" if READI may read one, else "texts".
    """

    greatest: int
    tasks: Optional[int]
    instructions: Optional[int]
    data: Optional[int]
    members: Optional[int]
    rules: Optional[int]
    bytes: Optional[int]
    events: Optional[int]
    is_endless: bool = False
    work: str = "ints"

    def events_within(self, limit: int = MOST_EVENTS) -> int:
        """Returns how many events a run with this limit has at most."""
        return limit if self.events is None else min(limit, self.events)

    def instructions_within(self, limit: int = MOST_EVENTS) -> int:
        """Returns how many instructions a run with this limit does at most: no event does more than the greatest budget."""
        within = limit * self.greatest
        return within if self.instructions is None else min(within, self.instructions)

    def usual_seconds(self, limit: int = MOST_EVENTS) -> float:
        """Estimates what a run of as many events takes on one core of a common machine."""
        return _BEGIN + self._priced(_USUAL[self.work], limit)

    def seconds(self, limit: int = MOST_EVENTS) -> float:
        """Returns the seconds of processor time that a run takes at most, if all its instructions and events are the dearest of its kind."""
        return _BEGIN + self._priced(PRICES[self.work], limit)

    def _priced(self, prices: Tuple[float, float], limit: int) -> float:
        return self.instructions_within(limit) * prices[0] + self.events_within(limit) * prices[1]


def _parameters_of(words: List[str]) -> Tuple[Parameter, ...]:
    """Reads the parameters after `proc KIND`; a word that ends with a colon is a name."""
    found: List[Parameter] = []
    name: Optional[str] = None
    for word in words:
        if word.endswith(":"):
            name = word[:-1]
        elif word in _MODES:
            found.append(Parameter(word, "", name))
            name = None
        elif found:
            last = found[-1]
            found[-1] = Parameter(last.mode, f"{last.type} {word}".strip(), last.name)
    return tuple(found)


# A line `proc`. In symbolic assembly its brackets and commas are blanks.
_PROC = re.compile(r"^[ \t\r]*proc[ \t\r][^\n;]*", re.M)


def _names_of(source: str) -> Iterator[Tuple[Optional[str], List[Optional[str]]]]:
    """Yields the name of each procedure of an accepted text, and those of its parameters; None if it has none."""
    for line in _PROC.findall(source):
        words = re.sub(r"[(),]", " ", line).split()
        named = len(words) > 2 and words[2] not in _MODES and not words[2].endswith(":")
        yield words[2] if named else None, [it.name for it in _parameters_of(words[3:] if named else words[2:])]


def procedures_of(heads: Sequence[Head], source: str) -> Tuple[Procedure, ...]:
    """Returns the procedures that the library counts, with the names that the source's lines give them."""
    names = list(_names_of(source))
    found = []
    for number, head in enumerate(heads):
        name, its = names[number] if number < len(names) else (None, [])
        its = its if len(its) == len(head.parameters) else [None] * len(head.parameters)
        parameters = tuple(Parameter(mode, type_, it) for (mode, type_), it in zip(head.parameters, its))
        found.append(Procedure(number, head.kind, parameters, head.budget, name))
    return tuple(found)


def work_of(text: str) -> str:
    """Returns which work a program may do, by its text: one without these words does none of it."""
    if "text" not in text:
        return "ints"
    return "searches" if re.search("FIND|SPAN|UNTIL", text) else "numbers" if "READI" in text else "texts"


def bounds_of(found: List[int], procedures: Tuple[Procedure, ...], work: str) -> Bounds:
    """Reads the bounds that the library finds."""
    greatest = max(it.budget for it in procedures)
    tasks, instructions, data, members, rules, texts, events = (None if it in (OVER, NO_BOUND) else it for it in found)
    return Bounds(greatest, tasks, instructions, data, members, rules, texts, events, NO_BOUND in found, work)
