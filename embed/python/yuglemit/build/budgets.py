# SPDX-License-Identifier: Apache-2.0
"""The budget of a procedure, as the verifier counts it: the most instructions of a task."""

from __future__ import annotations

from dataclasses import dataclass
from typing import Dict, List, Sequence, Tuple

from .code import SKIPS, Line, Place

MOST_BUDGET = 1_000_000_000


@dataclass(frozen=True)
class Nest:
    """Loops in one another, the outermost first, each with its place and its iterations; and the instructions that they take."""

    steps: int = 0
    loops: Tuple[Tuple[Place, int], ...] = ()

    def within(self, place: Place, turns: int, steps: int) -> "Nest":
        """Returns these loops within another; of a loop that is two of the machine's both have the same place."""
        if self.loops and self.loops[0][0] == place:
            return Nest(turns * steps, ((place, turns * self.loops[0][1]), *self.loops[1:]))
        return Nest(turns * steps, ((place, turns), *self.loops))


def budget_of(lines: Sequence[Line]) -> Tuple[int, Nest]:
    """Returns the length of the longest walk through a procedure's code, and the loops that take most of it."""
    at_label: Dict[str, int] = {}
    around: List[Tuple[int, Nest]] = []
    steps, nest = 0, Nest()  # from the line that is read to the end of its block; jumps lead down, so lines are read from below
    for line in reversed(lines):
        words = line.text.split()
        if line.is_comment:
            continue
        if line.is_label:
            at_label[line.text[:-1]] = steps
        elif words[0] == "END":
            around.append((steps, nest))
            steps, nest = 1, Nest()
        elif words[0] == "REPEAT":
            turns, (after, beside) = int(words[1]), around.pop()
            nest = max(nest.within(line.place, turns, steps), beside, key=lambda it: it.steps)
            steps = 1 + turns * steps + after
        elif words[0] in ("RET", "JMP"):
            steps = 1 + (at_label[words[1]] if words[0] == "JMP" else 0)
        else:
            steps = 1 + max(steps, at_label.get(words[-1], 0) if words[0] in SKIPS else 0)
    return steps, nest
