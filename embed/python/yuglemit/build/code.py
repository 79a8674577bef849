# SPDX-License-Identifier: Apache-2.0
"""The text that is made: lines of one procedure, each with the place in the Python file from which it comes."""

from __future__ import annotations

import ast
from dataclasses import dataclass, field
from typing import Dict, List, Optional, Tuple

SKIPS = frozenset(
    "JMP JEQ JLT ADD SUB MUL DIV REM CAT READI INS LOOK SUBAT TINS TLOOK TSUBAT MINS MGET BYTE SLICE FIND SPAN UNTIL MULDIV AND OR XOR SHL SHR JTLT".split()
)
Place = Tuple[int, int]  # line, from 1, and offset in bytes, from 0, as ast has them


@dataclass(frozen=True)
class Line:
    """A line of the text, the place from which it comes, and what a comment after it says."""

    text: str
    place: Place
    note: str = ""

    @property
    def is_label(self) -> bool:
        """Whether it is a label."""
        return self.text.endswith(":") and not self.text.startswith(";")

    @property
    def is_comment(self) -> bool:
        """Whether it is a comment."""
        return self.text.startswith(";")

    @property
    def written(self) -> str:
        """The line with its note."""
        return f"{self.text} ; {self.note}" if self.note else self.text


@dataclass
class Code:
    """Lines that are added one after another; `place` is that of the lines to come."""

    lines: List[Line] = field(default_factory=list)
    place: Place = (1, 0)
    _comment: Optional[str] = None

    def put(self, *words: object, note: str = "") -> None:
        """Adds an instruction."""
        self.lines.append(Line(" ".join(str(it) for it in words), self.place, note))

    def label(self, name: str) -> None:
        """Adds a label."""
        self.lines.append(Line(f"{name}:", self.place))

    def at(self, node: ast.AST) -> None:
        """Sets the place of the lines to come."""
        self.place = (getattr(node, "lineno", 1), getattr(node, "col_offset", 0))

    def comment(self, text: str) -> None:
        """Adds a comment, once for a line of the Python file."""
        line = f"; {self.place[0]}: {text}"
        if self._comment != line:
            self._comment = line
            self.lines.append(Line(line, self.place))


def tidy(lines: List[Line]) -> List[Line]:
    """Shortens jumps: those to a jump go to its goal, and those to what follows at once, labels that nothing names, and what nothing reaches
    are taken out."""
    kept = list(lines)
    while True:
        shorter = _reached(_without_idle(_threaded(kept)))
        if shorter == kept:
            return kept
        kept = shorter


def _threaded(lines: List[Line]) -> List[Line]:
    """Redirects each jump whose target is itself a jump to that one's target."""
    goals: Dict[str, str] = {}
    after: Optional[Line] = None
    for line in reversed(lines):
        if line.is_label and after is not None and after.text.startswith("JMP "):
            goals[line.text[:-1]] = goals.get(after.text[4:], after.text[4:])  # jumps lead down, so that label is known
        elif not line.is_label and not line.is_comment:
            after = line
    return [it if it.is_label or it.is_comment else Line(_renamed(it.text, goals), it.place, it.note) for it in lines]


def _renamed(text: str, goals: Dict[str, str]) -> str:
    before, blank, last = text.rpartition(" ")
    return f"{before}{blank}{goals[last]}" if last in goals and text.split(" ")[0] in SKIPS else text


def _without_idle(lines: List[Line]) -> List[Line]:
    without = [it for number, it in enumerate(lines) if not _is_idle_jump(lines, number)]
    named = {it.text.rpartition(" ")[2] for it in without if not it.is_label and not it.is_comment}
    return [it for it in without if not it.is_label or it.text[:-1] in named]


def _reached(lines: List[Line]) -> List[Line]:
    """Removes instructions after a JMP or RET that no label precedes; an END is always kept."""
    kept: List[Line] = []
    open_way = True
    for line in lines:
        open_way = open_way or line.is_label
        if open_way or line.is_comment:
            kept.append(line)
        if line.text == "RET" or line.text.startswith("JMP "):
            open_way = False
    return kept


def _is_idle_jump(lines: List[Line], number: int) -> bool:
    if not lines[number].text.startswith("JMP "):
        return False
    goal = lines[number].text[4:] + ":"
    for at in range(number + 1, len(lines)):
        if lines[at].text == goal:
            return True
        if not lines[at].is_label and not lines[at].is_comment:
            return False
    return False
