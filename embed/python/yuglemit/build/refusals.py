# SPDX-License-Identifier: Apache-2.0
"""Compiles where refused instructions lead, outside of check(..). A control function keeps what it could still write, for ever, so the run ends stuck. A leaf
function stores what `otherwise` says; one that writes containers alone notes the instruction in its record, and a guard then keeps the containers."""

from __future__ import annotations

import ast
import os
from typing import Dict, FrozenSet, List, Sequence, Tuple

from .body import Body, Cause, Pad, Right, Unit
from .constants import Constant
from .kinds import called, name_of
from .registers import MOST, has_name
from .source import MOST_ARGUMENTS, Function, printable
from .types import INT, SUMS, TEXT, DataType
from .values import put_constant

RECORD = "record!"
MOST_NOTES = 600
_MOST_SHOWN = 80
_HAPPENED = ((" may not be there", " isn't there"), (" may be ", " is "), (" may leave ", " leaves "), (" may have ", " has "))


def put_refusals(body: Body) -> None:
    """Writes the ends of a task in which an instruction is refused."""
    failing = body.failing.pop()
    if failing.first is not None and body.function.kind == "leaf" and body.function.otherwise is None:
        _check_otherwise(body, failing.first)
    groups: Dict[FrozenSet[Tuple[str, Right]], List[Pad]] = {}
    for (rights, _), pad in failing.pads.items():
        groups.setdefault(rights, []).append(pad)
    for pads in groups.values():
        _put_ends(body, pads)


def _check_otherwise(body: Body, cause: Cause) -> None:
    scalars = [str(it.type) for it in body.function.outputs if it.type.is_scalar]
    if scalars:
        advice = f"{cause.advice}, or " if cause.advice else ""
        message = f"{cause.reason}, and a leaf function can't end without a result: {advice}say what the result is then, @leaf(otherwise=..) with {', '.join(scalars)}"
        body.fail(message, ast.Pass(lineno=cause.place[0], col_offset=cause.place[1]))


def _put_ends(body: Body, pads: Sequence[Pad]) -> None:
    """Writes the ends of a task that holds the same rights at each of these causes."""
    gone = body.new_label("gone")
    for pad in pads:
        body.places.clear()
        body.state = pad.state.copy()
        body.code.place = pad.cause.place
        body.code.label(pad.label)
        _note(body, pad.cause)
        body.code.put("JMP", gone)
    body.code.label(gone)
    if body.unit.is_guarded(body.function):
        body.code.put("MADD", body.now.rights[RECORD].register, _spare(body, INT), _spare(body, INT))
    elif body.function.kind == "leaf":
        _store_otherwise(body)
    let_go(body)


def _note(body: Body, cause: Cause) -> None:
    """Notes the cause: where a rule keeps what is left unset, or in a register, for the record."""
    if body.unit.is_guarded(body.function):
        body.code.put("INT", _spare(body, INT), body.unit.number_of(_note_of(body, cause)))
    elif body.function.kind == "control":
        kept = [it for it, right in body.now.rights.items() if right.mode == "write" and has_name(it)]
        for first in range(0, len(kept), MOST_ARGUMENTS - 2):
            _leave_unset(body, kept[first : first + MOST_ARGUMENTS - 2], _note_of(body, cause))


def _note_of(body: Body, cause: Cause) -> str:
    """Returns the words on an instruction that is refused, with its line."""
    file, line = ascii(os.path.basename(body.source.file))[1:-1], cause.place[0]
    if not body.by_cause:
        return f"{file}:{body.function.node.lineno}: an instruction of {body.function.name} is refused"
    reason = cause.reason
    for may, has in _HAPPENED:
        before, found, after = reason.rpartition(may)
        reason = before + has + after if found else reason
    return f"{file}:{line}: " + printable(f"{body.source.lines[line - 1].strip()[:_MOST_SHOWN]}: {reason}")


def _spare(body: Body, kind: DataType) -> str:
    """Returns a register of a type; the task ends, so no value is needed any more."""
    return next((name for name, its in body.values.listed if its == kind), "") or body.temporary(kind)


def _store_otherwise(body: Body) -> None:
    scalars = [f"out.{it.name}" for it in body.function.outputs if it.type.is_scalar]
    for key, constant in zip(scalars, body.function.otherwise or ()):
        _store_constant(body, key, constant)


def _store_constant(body: Body, key: str, constant: Constant) -> None:
    register = put_constant(body, constant, body.function.node, _spare(body, body.now.rights[key].type))
    body.code.put("STORE", body.spend(key).register, register)


def let_go(body: Body) -> None:
    """Drops all rights, and ends the task."""
    for key in list(body.now.rights):
        body.drop(key)
    body.code.put("RET")
    body.state = None


# --- what stays unset


def _leave_unset(body: Body, keys: Sequence[str], note: str) -> None:
    """Writes the rule that holds these rights to write for ever, so that the data stay unset or open."""
    others = [it for it in body.now.rights if it not in keys]
    while len(body.now.rights) > MOST - 2 and others:
        body.drop(others.pop())
    own, waits = body.new_key(), body.new_key()
    rights = [body.hold(own, "own", "write", INT), body.hold(waits, "waits", "ref", INT)]
    body.code.put("NEW", rights[0].register, rights[1].register, INT.spelling)
    name = _never(body.unit, tuple(body.now.rights[it].type for it in keys))
    operands = [body.spend(it).register for it in (waits, own, *keys)]
    body.code.put("RULE", name, 0, "any", *operands, note=note)


def _never(unit: Unit, types: Tuple[DataType, ...]) -> str:
    """Returns the procedure of rules that hold rights to write data of these types."""

    def lines(name: str) -> List[str]:
        stored = [f"STORE d{number} v{int(it == TEXT)}" if it.is_scalar else f"DROPW d{number}" for number, it in enumerate(types, 2)]
        head = f"proc leaf {name}(closed int, write int, {', '.join(f'write {it.spelling}' for it in types)})"
        return ["; Waits for what it would store itself, so its task never comes, and its other data stay as they are.", head, "regs int text", "DROPR d0", "STORE d1 v0", *stored, "RET"]

    for it in types:
        unit.need(it.version)
    return unit.helper("never", types, lines)


# --- the records of leaf functions


def written_by(body: Body, function: Function, node: ast.Call) -> Tuple[str, ...]:
    """Returns the keys of the rights to write that a call gives copies of to a function."""
    names = [name_of(argument) or "" for parameter, argument in zip(function.parameters, node.args) if parameter.is_out]
    return tuple(it if it.startswith("out.") else body.aliases.get(it, f"{it}>") for it in names)


def record_of(keys: Sequence[str]) -> str:
    """Returns the key of the record that calls share which write the same containers."""
    return "+".join(keys) + "!"


def watch(body: Body) -> None:
    """Begins the record of each group of containers that a leaf function may leave incomplete, once all of them are made."""
    if body.groups is None:
        calls = [it for it in ast.walk(body.function.node) if isinstance(it, ast.Call) and body.function.kind == "control"]
        named = [(body.source.functions.get(called(it) or ""), it) for it in calls]
        body.groups = list(dict.fromkeys(written_by(body, its, it) for its, it in named if its and body.unit.is_guarded(its) and not its.results))
    for keys in body.groups:
        if record_of(keys) not in body.now.rights and all(it in body.now.rights for it in keys):
            begin_record(body, record_of(keys), keys)


def begin_record(body: Body, key: str, containers: Sequence[str]) -> str:
    """Makes a record, and the rule of the guard, which has copies of the rights to write the containers. Returns the key of the right to write the record."""
    read = body.new_key()
    to_write, to_read = body.hold(key, "record", "write", SUMS), body.hold(read, "record_in", "ref", SUMS)
    body.code.put("NEW", to_write.register, to_read.register, SUMS.spelling)
    body.unit.need(SUMS.version)
    copies = [body.new_key() for _ in containers]
    types = tuple(body.now.rights[it].type for it in containers)
    for copy, it, kind in zip(copies, containers, types):
        body.code.put("DUPW", body.hold(copy, "kept", "write", kind).register, body.now.rights[it].register)
    operands = [body.spend(it).register for it in (read, *copies)]
    body.code.put("RULE", guard(body.unit, types), 0, "any", *operands)
    return key


def guard(unit: Unit, types: Tuple[DataType, ...]) -> str:
    """Returns the procedure that waits for a record, and then gives up the rights to write containers of these types, or keeps them for ever."""
    _never(unit, types)
    name = unit.helper("guard", types, lambda name: [])
    unit.guards[name] = types
    return name


def guard_lines(unit: Unit, name: str, types: Tuple[DataType, ...]) -> List[str]:
    """Returns the lines of a guard, which knows all notes of the program."""
    kept = range(1, len(types) + 1)
    notes = unit.notes[:MOST_NOTES]
    lines = [f"proc control {name}(closed map sum, {', '.join(f'write {it.spelling}' for it in types)})", "regs int int int"]
    lines += ["SIZE v0 d0", "JLT v1 v0 refused", "DROPR d0", *(f"DROPW d{it}" for it in kept), "RET", "refused:", "SUBAT v1 d0 v1 +0", "DROPR d0"]
    for number in range(1, len(notes) + 1):
        lines += [f"INT v2 {number}", f"JEQ v1 v2 cause_{number}"]
    for number, note in ((0, "an instruction of a leaf function is refused"), *enumerate(notes, 1)):
        lines += [f"cause_{number}:", "NEW d15 d14 int", f"RULE {_never(unit, types)} 0 any 14 15 {' '.join(map(str, kept))} ; {note}", "RET"]
    return lines
