# SPDX-License-Identifier: Apache-2.0
"""Registers of one procedure: 16 for values, each of one type, and 16 for rights; and their names in the text."""

from __future__ import annotations

import re
from dataclasses import dataclass, field
from typing import Callable, Dict, FrozenSet, List, Set, Tuple

from .types import DataType

MOST = 16
Fail = Callable[[str], None]


def name_in_text(wanted: str) -> str:
    """Returns a name that the text may have for another: letters, digits and _, at most 54, and no word of a register or a mode."""
    base = re.sub(r"\W", "_", wanted, flags=re.A)[:50] or "it"
    if re.fullmatch(r"any|val|closed|ref|write|[vd]\d+|_.*|\d.*", base):
        return f"the_{base}".replace("__", "_")
    return base


class Names:
    """Names of a procedure's registers, each used once, none of them a procedure's: these are called as functions, or so and a number."""

    def __init__(self, procedures: FrozenSet[str]) -> None:
        self._taken: Set[str] = set()
        self._numbers: Dict[str, int] = {}
        self._procedures = procedures

    def new(self, wanted: str) -> str:
        """Returns this name, or one like it that isn't taken."""
        base = name_in_text(wanted)
        if base in self._procedures or re.sub(r"_\d+$", "", base) in self._procedures:
            base = f"the_{base}"
        name, number = base, self._numbers.get(base, 1)
        while name in self._taken:
            number += 1
            name = f"{base}_{number}"
        self._numbers[base] = number
        self._taken.add(name)
        return name


@dataclass
class Values:
    """The value registers: variables keep theirs, temporary ones are returned."""

    names: Names
    listed: List[Tuple[str, DataType]] = field(default_factory=list)
    variables: Dict[str, str] = field(default_factory=dict)
    free: List[Tuple[str, DataType]] = field(default_factory=list)

    def variable(self, key: str, kind: DataType, fail: Fail, wanted: str = "") -> str:
        """Returns the register of a variable; at first it gets one, under the name that is asked for, or its own."""
        if key not in self.variables:
            self.variables[key] = self.temporary(kind, fail) if len(self.listed) == MOST else self._add(wanted or key, kind, fail)
        return self.variables[key]

    def temporary(self, kind: DataType, fail: Fail) -> str:
        """Returns a register for a moment."""
        for it in self.free:
            if it[1] == kind:
                self.free.remove(it)
                return it[0]
        return self._add("i" if kind.words == ("int",) else "t", kind, fail)

    def release(self, name: str) -> None:
        """Gives a register back, unless a variable has it."""
        if name not in self.variables.values() and all(it[0] != name for it in self.free):
            self.free.append(next(it for it in self.listed if it[0] == name))

    def _add(self, wanted: str, kind: DataType, fail: Fail) -> str:
        if len(self.listed) == MOST:
            held = ", ".join(sorted(self.variables))
            fail(f"more than {MOST} values at once; variables here are {held}: make two tasks of it, or shorter expressions")
        name = self.names.new(wanted.replace("out.", "out_"))
        self.listed.append((name, kind))
        return name


def has_name(key: str) -> bool:
    """Says whether the key of a right is that of a variable or an output; # begins one without a name, and ! ends that of a record."""
    return not key.startswith("#") and not key.endswith("!")


@dataclass
class Rights:
    """The right registers: `numbers` has that of every name, those of the parameters first. Which of them are held, each way through the code says."""

    taken: Names
    numbers: Dict[str, int] = field(default_factory=dict)
    parameters: int = 0
    _named: Dict[Tuple[str, int], str] = field(default_factory=dict)

    @property
    def names(self) -> List[Tuple[str, int]]:
        """The names that aren't parameters', with their numbers."""
        return list(self.numbers.items())[self.parameters :]

    def parameter(self, name: str) -> str:
        """Gives the next register to a parameter, which the head of the procedure names."""
        named = self.taken.new(name)
        self.numbers[named] = self.parameters
        self.parameters += 1
        return named

    def take(self, wanted: str, held: Dict[str, str], fail: Fail) -> str:
        """Returns the first register that isn't held, under a name; those that are held are given by the keys of their rights."""
        used = {self.numbers[it] for it in held.values()}
        number = next((it for it in range(MOST) if it not in used), MOST)
        if number == MOST:
            named = dict.fromkeys(it.rstrip(">") for it in held if has_name(it))
            others = sum(not has_name(it) for it in held)
            fail(f"more than {MOST} data at once; held here are {', '.join(named)}, and {others} of this line: make two tasks of it, or fewer variables")
        if (wanted, number) not in self._named:
            name = self._named[wanted, number] = self.taken.new(wanted)
            self.numbers[name] = number
        return self._named[wanted, number]
