# SPDX-License-Identifier: Apache-2.0
"""The state of compiling one procedure: its code, its registers, and what they hold on the way that is being compiled."""

from __future__ import annotations

import ast
from dataclasses import dataclass, field
from typing import Callable, Dict, FrozenSet, Iterable, List, NoReturn, Optional, Set, Tuple, Union

from .code import Code, Place
from .kinds import Kinds
from .registers import Names, Rights, Values, has_name, name_in_text
from .source import Function, Source
from .types import DataType
from .uses import Uses


@dataclass(frozen=True)
class Right:
    """A right in a register: "closed" or "ref" to read, "write" to write."""

    register: str
    mode: str
    type: DataType

    @property
    def may_drop(self) -> bool:
        """Whether the machine lets a task drop it; who may write a scalar has to."""
        return self.mode != "write" or not self.type.is_scalar


@dataclass
class State:
    """State on one way through the code: which variables are set, which rights are held, by their keys, and where an output that is a value may
    have been set."""

    assigned: Set[str] = field(default_factory=set)
    rights: Dict[str, Right] = field(default_factory=dict)
    outputs: Dict[str, ast.AST] = field(default_factory=dict)

    def copy(self) -> "State":
        """Returns a state of its own."""
        return State(set(self.assigned), dict(self.rights), dict(self.outputs))


@dataclass(frozen=True)
class Cause:
    """Why an instruction may be refused, where it is, and what avoids that."""

    reason: str
    place: Place
    advice: str = "put it into a check(..)"


@dataclass(frozen=True)
class Pad:
    """Where an instruction continues that is refused for a cause: a label, and the state there."""

    label: str
    state: State
    cause: Cause


@dataclass
class Failing:
    """Where refused instructions continue: a way for each set of rights that was held, and of each cause if `by_cause`. All lead to `home`."""

    home: State
    by_cause: bool
    pads: Dict[Tuple[FrozenSet[Tuple[str, Right]], Optional[Tuple[int, str]]], Pad] = field(default_factory=dict)
    first: Optional[Cause] = None

    @property
    def by_causes(self) -> List[List[Pad]]:
        """The ways, those of one cause together."""
        found: Dict[Optional[Tuple[int, str]], List[Pad]] = {}
        for (_, cause), pad in self.pads.items():
            found.setdefault(cause, []).append(pad)
        return list(found.values())


@dataclass
class Loop:
    """A loop that is being compiled: the label of the next turn, the labels of its ENDs, the innermost last, and the flag that says why it ended."""

    home: State
    next: str
    ends: List[str]
    flag: str
    is_ended: bool = False
    is_broken: bool = False
    return_sets: List[Set[str]] = field(default_factory=list)
    outputs: Dict[str, ast.AST] = field(default_factory=dict)
    failed: List[Cause] = field(default_factory=list)

    @property
    def end(self) -> str:
        """The label of its innermost END."""
        return self.ends[-1]


BREAK, RETURN, FAILED = 1, 2, 3
HELPERS = ("copy", "never", "guard")


@dataclass(frozen=True)
class Manner:
    """How a function is compiled: loops in one another over all values of maps, or over fewer; and refused instructions apart, or together."""

    is_wide: bool = True
    by_cause: bool = True


class Again(Exception):
    """Says that a function must be compiled in another manner."""

    def __init__(self, manner: Manner) -> None:
        super().__init__(manner)
        self.manner = manner


@dataclass(frozen=True)
class Variant:
    """A function with the modes of its parameters: "val", "closed" or "write" each."""

    function: Function
    modes: Tuple[str, ...]


@dataclass
class Unit:
    """Data that all procedures of a program share: names, functions still to be compiled, and other parts of the text. `refusable` has the leaf
    functions that write containers and in which an instruction may be refused, `notes` what `guards` say of these instructions."""

    source: Source
    names: Dict[Variant, str] = field(default_factory=dict)
    queue: List[Variant] = field(default_factory=list)
    helpers: Dict[str, List[str]] = field(default_factory=dict)
    version: int = 1
    procedures: FrozenSet[str] = frozenset()
    refusable: FrozenSet[str] = frozenset()
    notes: List[str] = field(default_factory=list)
    guards: Dict[str, Tuple[DataType, ...]] = field(default_factory=dict)
    _kinds: Dict[str, Kinds] = field(default_factory=dict)
    _uses: Dict[str, Uses] = field(default_factory=dict)
    _helped: Dict[Tuple[str, Tuple[DataType, ...]], str] = field(default_factory=dict)
    _taken: Set[str] = field(default_factory=set)

    @classmethod
    def of(cls, source: Source) -> "Unit":
        """Returns the unit of a file, of which nothing is compiled yet."""
        return cls(source, procedures=frozenset((*map(name_in_text, source.functions), *HELPERS)))

    def apart(self) -> "Unit":
        """Returns another unit of the same file, whose procedures aren't this one's."""
        return Unit(self.source, procedures=self.procedures, refusable=self.refusable)

    def need(self, version: int) -> None:
        """Notes that the program needs a version of the language."""
        self.version = max(self.version, version)

    def name_of(self, variant: Variant) -> str:
        """Returns the procedure's name of a variant, which is compiled once."""
        if variant not in self.names:
            base, number = name_in_text(variant.function.name), 1
            name = base
            while name in self._taken or name in self.source.functions and name != variant.function.name:
                number += 1
                name = f"{base}_{number}"
            self.names[variant] = name
            self._taken.add(name)
            self.queue.append(variant)
        return self.names[variant]

    def helper(self, what: str, types: Tuple[DataType, ...], lines: Callable[[str], List[str]]) -> str:
        """Returns the name of a procedure that is no function's, for data of these types. Its lines are made once."""
        if (what, types) not in self._helped:
            number = len(self.helpers) + 1
            while f"{what}_{number}" in self._taken:
                number += 1
            name = self._helped[what, types] = f"{what}_{number}"
            self._taken.add(name)
            self.helpers[name] = lines(name)
        return self._helped[what, types]

    def is_guarded(self, function: Function) -> bool:
        """Says whether a leaf function notes a refused instruction for the guard of its containers: it has no other result that could say so."""
        return function.name in self.refusable and not any(it.type.is_scalar for it in function.outputs)

    def number_of(self, note: str) -> int:
        """Returns the number of what guards say of a refused instruction, from 1."""
        if note not in self.notes:
            self.notes.append(note)
        return self.notes.index(note) + 1

    def kinds_of(self, function: Function) -> Kinds:
        """Returns the kinds of a function's variables, which all its variants share."""
        if function.name not in self._kinds:
            self._kinds[function.name] = Kinds(self.source, function)
        return self._kinds[function.name]

    def uses_of(self, function: Function) -> Uses:
        """Returns where a function uses its variables."""
        if function.name not in self._uses:
            self._uses[function.name] = Uses(function.node)
        return self._uses[function.name]


class Body:
    """A procedure that is being compiled."""

    def __init__(self, unit: Unit, variant: Variant, manner: Manner) -> None:
        self.unit, self.source, self.function = unit, unit.source, variant.function
        self.variant, self.manner = variant, manner
        self.by_cause = manner.by_cause and (variant.function.kind == "control" or unit.is_guarded(variant.function))
        self.kinds, self.uses = unit.kinds_of(variant.function), unit.uses_of(variant.function)
        self.code = Code()
        names = Names(unit.procedures)
        self.values, self.rights = Values(names), Rights(names)
        self.state: Optional[State] = State()
        self.failing: List[Failing] = []
        self.loops: List[Loop] = []
        self.node: ast.AST = variant.function.node
        self.places: Dict[str, str] = {}
        self.aliases: Dict[str, str] = {}
        self.groups: Optional[List[Tuple[str, ...]]] = None
        self._labels: Dict[str, int] = {}
        self._temporaries = 0

    # --- errors, labels, registers

    def fail(self, message: str, node: Optional[ast.AST] = None) -> NoReturn:
        """Raises the error at a node, or at the statement that is being compiled."""
        self.source.fail(node if node is not None and hasattr(node, "lineno") else self.node, message)

    def new_label(self, wanted: str) -> str:
        """Returns a label of this procedure."""
        self._labels[wanted] = self._labels.get(wanted, 0) + 1
        return f"{wanted}_{self._labels[wanted]}"

    def temporary(self, kind: DataType) -> str:
        """Returns a value register for a moment."""
        return self.values.temporary(kind, self.fail)

    def variable(self, key: str) -> str:
        """Returns the value register of a variable."""
        return self.values.variable(key, self.kinds.found[key].type, self.fail)

    @property
    def now(self) -> State:
        """The state of the way that is being compiled."""
        if self.state is None:
            self.fail("this line is never reached")
        return self.state

    # --- rights

    def hold(self, key: str, wanted: str, mode: str, kind: DataType) -> Right:
        """Takes a register for a right that the next instruction fills; a variable has the same register on each way."""
        held = {**self.places, **{its: it.register for its, it in self.now.rights.items()}}
        register = self.places.get(key) or self.rights.take(wanted, held, self.fail)
        if not key.startswith("#"):
            self.places[key] = register
        right = Right(register, mode, kind)
        self.now.rights[key] = right
        return right

    def forget(self, keys: Iterable[str]) -> None:
        """Gives the registers of variables back that nothing uses any more."""
        for key in keys:
            del self.places[key]

    def new_key(self) -> str:
        """Returns a key for a right without a variable."""
        self._temporaries += 1
        return f"#{self._temporaries}"

    def spend(self, key: str) -> Right:
        """Notes that the right with this key is gone: an instruction takes it."""
        return self.now.rights.pop(key)

    def drop(self, key: str) -> None:
        """Drops a right."""
        right = self.spend(key)
        self.code.put("DROPW" if right.mode == "write" else "DROPR", right.register)

    def come_home(self, home: State) -> None:
        """Drops what is held on this way and isn't held at home; what home holds must be held."""
        for key in [it for it in self.now.rights if it not in home.rights]:
            if not self.now.rights[key].may_drop:
                self.fail(f"{named(key)} is set on one way only: set it on each")
            self.drop(key)
        for key in home.rights:
            if key not in self.now.rights:
                self.fail(f"{named(key)} is spent on one way only, or in a loop: set it on each way, once, and not in a loop")

    # --- refused instructions

    def refused(self, cause: Union[str, Cause], advice: str = Cause.advice) -> str:
        """Returns the label to which an instruction skips if it is refused here, for this reason."""
        failing = self.failing[-1]
        found = cause if isinstance(cause, Cause) else Cause(cause, self.code.place, advice)
        failing.first = failing.first or found
        key = (frozenset(self.now.rights.items()), (found.place[0], found.reason) if failing.by_cause else None)
        if key not in failing.pads:
            failing.pads[key] = Pad(self.new_label("refused"), State(rights=dict(self.now.rights)), found)
        return failing.pads[key].label

    def begin_failing(self, by_cause: bool) -> Failing:
        """Begins a part in which refused instructions go on elsewhere."""
        self.failing.append(Failing(self.now.copy(), by_cause))
        return self.failing[-1]

    def shrink_home(self, failing: Failing) -> State:
        """Takes what a way has given away from the rights held at home, which is returned: nothing uses these rights any more."""
        for pad in failing.pads.values():
            failing.home.rights = {key: it for key, it in failing.home.rights.items() if key in pad.state.rights}
        return failing.home

    def put_pads(self, pads: Iterable[Pad], home: State, goal: str) -> None:
        """Writes the ways on which refused instructions come home, each to the label `goal`."""
        kept = self.state
        for pad in pads:
            self.state = pad.state.copy()
            self.code.label(pad.label)
            self.come_home(home)
            self.code.put("JMP", goal)
        self.state = kept


def named(key: str) -> str:
    """Returns the name of a right's key in errors."""
    return key.rstrip(">") if has_name(key) else "the result of a task"
