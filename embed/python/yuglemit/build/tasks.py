# SPDX-License-Identifier: Apache-2.0
"""Tasks: calls of other functions make rules, and what they give is a future."""

from __future__ import annotations

import ast
from dataclasses import dataclass, field
from typing import List, Optional, Sequence, Tuple

from .body import Body, Variant
from .constants import fits
from .kinds import called, name_of
from .refusals import begin_record, record_of, written_by
from .source import Function, Parameter
from .types import INT, DataType
from .uses import is_set_by
from .values import closed_container, kind_of, value

_TARGETS = {"worker": "leaf", "engine": "control"}


@dataclass
class _Call:
    """The operands of a call in the order of the parameters, their modes, and the registers that are consumed or returned after it."""

    operands: List[str] = field(default_factory=list)
    modes: List[str] = field(default_factory=list)
    spent: List[str] = field(default_factory=list)
    values: List[str] = field(default_factory=list)
    waits: bool = False


def call_task(body: Body, node: ast.Call, results: Sequence[Optional[str]]) -> None:
    """Writes a call of a function of the file. Each result is stored under a key: that of a variable or of the call around, which gets the right to
    read it; that of an output, whose right to write is given away; or None, and nobody reads it."""
    function = body.source.functions[called(node) or ""]
    if body.function.kind == "leaf":
        body.fail(f"a leaf function computes, and calls no task: {function.name} can be called by a control function", node)
    if function.name == "main":
        body.fail("main is called by the run alone", node)
    if len(results) != len(function.results):
        body.fail(f"{function.name} has {len(function.results) or 'no'} results, {len(results)} are asked here", node)
    gathered = _Call()
    _gather(body, function, node, gathered)
    priority, target = _options(body, function, node, gathered)
    discarded, moved = _results(body, function, results, gathered)
    if body.unit.is_guarded(function):
        _give_record(body, function, node, gathered)
    elif function.name in body.unit.refusable and function.results and not any(results) and not any(it.type.is_scalar for it in function.parameters if it.is_out):
        body.fail(f"nothing reads the result of {function.name}, which says whether an instruction was refused: give it a name, and give that to a task or an output", node)
    name = body.unit.name_of(Variant(function, tuple(gathered.modes)))
    instruction = ("RULE" if gathered.waits else "PUT") + ("V" if priority in gathered.values else "")
    body.unit.need(2 if instruction.endswith("V") else 1)
    body.code.at(node)
    body.code.put(instruction, name, priority, target, *gathered.operands)
    _finish(body, gathered, discarded, moved)


def _finish(body: Body, gathered: _Call, discarded: List[str], moved: List[Tuple[str, str]]) -> None:
    for key in gathered.spent:
        body.spend(key)
    for it in gathered.values:
        body.values.release(it)
    for key in discarded:
        body.drop(key)
    for temporary, key in moved:
        move(body, temporary, key)


def move(body: Body, source: str, key: str) -> None:
    """Moves a right to read to a variable's register: no instruction does, so it is copied and dropped."""
    right = body.now.rights[source]
    goal = body.hold(key, key, right.mode, right.type)
    body.code.put("DUPR", goal.register, right.register)
    body.drop(source)
    body.now.assigned.add(key)


def _gather(body: Body, function: Function, node: ast.Call, gathered: _Call) -> None:
    if len(node.args) != len(function.parameters) or any(isinstance(it, ast.Starred) for it in node.args):
        asked = ", ".join(f"{it.name}: {'Out[' if it.is_out else ''}{it.type}{']' if it.is_out else ''}" for it in function.parameters)
        body.fail(f"{function.name} takes {len(function.parameters)} arguments ({asked}), {len(node.args)} are given", node)
    for parameter, argument in zip(function.parameters, node.args):
        if parameter.is_out:
            _give_write(body, parameter, argument, gathered)
        elif parameter.type.is_scalar and kind_of(body, argument).form == "value":
            operand = value(body, argument, parameter.type)
            gathered.values.append(operand)
            _add(gathered, operand, "val")
        else:
            _give_read(body, parameter, argument, gathered)


def _add(gathered: _Call, operand: str, mode: str) -> None:
    gathered.operands.append(operand)
    gathered.modes.append(mode)


def _give_read(body: Body, parameter: Parameter, argument: ast.expr, gathered: _Call) -> None:
    kind = kind_of(body, argument)
    if kind.type != parameter.type:
        body.fail(f"{parameter.name} is {parameter.type}, and {body.source.shown(argument)} is {kind.type}", argument)
    key = read_right(body, argument)
    right = body.now.rights[key]
    if key in gathered.spent:
        body.fail("the same name twice: no right is left for the second", argument)
    gathered.waits = gathered.waits or right.mode == "ref"
    gathered.spent.append(key)
    _add(gathered, right.register, "closed")


def read_right(body: Body, node: ast.expr) -> str:
    """Returns the key of a right to read what an expression gives, that can be given away: of a future, a member or a container."""
    body.code.at(node)
    if isinstance(node, ast.Name):
        return _right_of_variable(body, node)
    key = body.new_key()
    if called(node) in body.source.functions and isinstance(node, ast.Call):
        call_task(body, node, [key])
        return key
    if isinstance(node, ast.Subscript):
        look(body, node, key)
        return key
    if name_of(node):
        body.fail(f"{body.source.shown(node)} can only be written here", node)
    body.fail(f"{body.source.shown(node)} can't be given to a task: give it a name before", node)


def look(body: Body, node: ast.Subscript, key: str, wanted: str = "member") -> None:
    """Writes the look-up of a member, which is refused if there is none."""
    if body.function.kind == "leaf":
        body.fail("a leaf function can't wait for a member: give it the member as an argument", node)
    over = closed_container(body, node.value)
    kind = kind_of(body, node.value).type
    subscript = value(body, node.slice, kind.subscript)
    label = body.refused(f"{body.source.shown(node)} may not be there")
    right = body.hold(key, wanted, "ref", kind.member)
    body.unit.need(kind.version)
    body.code.put("LOOK" if kind.subscript == INT else "TLOOK", right.register, over, subscript, label)
    body.values.release(subscript)


def _right_of_variable(body: Body, node: ast.Name) -> str:
    key = node.id
    if key in body.aliases:
        body.fail(f"{key} is the result of this function, which can't read it: make another container for that", node)
    right = body.now.rights.get(key)
    if right is None or right.mode == "write":
        body.fail(f"{key} may be unset here: set it on each way before", node)
    if is_last_use(body, node):
        return key
    copy = body.new_key()
    held = body.hold(copy, f"{key}_again", right.mode, right.type)
    body.code.put("DUPR", held.register, right.register)
    return copy


def is_last_use(body: Body, node: ast.Name) -> bool:
    """Whether nothing needs a variable's right after this use: then the right itself is given, and else a copy."""
    statement, name = body.node, node.id
    uses = body.uses.count(statement, name)
    is_kept = bool(body.loops) and name in body.loops[-1].home.rights
    if isinstance(statement, ast.Assign) and is_set_by(statement, name):
        return uses == 1 and (not is_kept or node is statement.value or node in getattr(statement.value, "args", ()))
    return uses <= 1 and not is_kept and body.uses.is_last(node)


def write_key(body: Body, node: ast.expr) -> str:
    """Returns the key of the right to write to `out.NAME`, or to a container that this function made."""
    key = name_of(node)
    if key is None:
        body.fail(f"expected out.NAME or a container made here, found {body.source.shown(node)}", node)
    if not key.startswith("out."):
        key = body.aliases.get(key, f"{key}>")
    if key not in body.now.rights:
        if key in body.kinds.found:
            body.fail(f"{key} is set already", node)
        body.fail(f"{body.source.shown(node)} can't be written here: expected out.NAME or a container made here", node)
    return key


def add_to_sum(body: Body, target: ast.Subscript, node: ast.AugAssign) -> None:
    """Adds to a value of a Sum, which is never refused."""
    key = write_key(body, target.value)
    kind = body.now.rights[key].type
    if not kind.is_sums or not isinstance(node.op, ast.Add):
        body.fail("only a variable can be changed so; a value of a Sum by += alone", target)
    at, number = value(body, target.slice, kind.subscript), value(body, node.value, INT)
    body.code.put("MADD", body.now.rights[key].register, at, number)
    for it in (at, number):
        body.values.release(it)


def _give_write(body: Body, parameter: Parameter, argument: ast.expr, gathered: _Call) -> None:
    key = write_key(body, argument)
    right = body.now.rights[key]
    if right.type != parameter.type:
        body.fail(f"{parameter.name} is Out[{parameter.type}], and {body.source.shown(argument)} is {right.type}", argument)
    if not right.type.is_scalar:
        copy = body.new_key()
        held = body.hold(copy, f"{parameter.name}_given", "write", right.type)
        body.code.put("DUPW", held.register, right.register)
        key, right = copy, held
    gathered.spent.append(key)
    _add(gathered, right.register, "write")


def _give_record(body: Body, function: Function, node: ast.Call, gathered: _Call) -> None:
    """Gives a leaf function the right to note a refused instruction: in the record of its containers, or in one of this call, if it makes containers."""
    keys = written_by(body, function, node)
    if function.results:
        keys = (*keys, *gathered.spent[-len(function.results) :])
        record = begin_record(body, body.new_key(), keys)
    else:
        kept, record = body.now.rights[record_of(keys)], body.new_key()
        body.code.put("DUPW", body.hold(record, "record_given", "write", kept.type).register, kept.register)
    gathered.spent.append(record)
    gathered.operands.append(body.now.rights[record].register)


def _options(body: Body, function: Function, node: ast.Call, gathered: _Call) -> Tuple[str, str]:
    priority, target = "0", "any"
    for it in node.keywords:
        constant = body.source.constants.of(it.value)
        if it.arg == "priority":
            if isinstance(constant, int) and fits(constant):
                priority = str(constant)
            else:
                priority = value(body, it.value, INT)
                gathered.values.append(priority)
        elif it.arg in _TARGETS and _TARGETS[it.arg] == function.kind:
            if not isinstance(constant, int) or not 0 <= constant < 16:
                body.fail(f"{it.arg}: expected a number from 0 to 15", it.value)
            target = str(constant)
        else:
            other = next(word for word, kind in _TARGETS.items() if kind == function.kind)
            body.fail(f"{it.arg}: a call of {function.name} takes the keywords priority and {other}", it.value)
    return priority, target


def _results(body: Body, function: Function, results: Sequence[Optional[str]], gathered: _Call) -> Tuple[List[str], List[Tuple[str, str]]]:
    """Makes the data for the results; returns the keys of those that nobody reads, and those to be moved to a variable after the call."""
    discarded: List[str] = []
    moved: List[Tuple[str, str]] = []
    for key, kind in zip(results, function.results):
        if key is not None and key.startswith("out."):
            _give_output(body, key, kind, gathered)
            continue
        goal = key if key is not None else body.new_key()
        if key is None:
            discarded.append(goal)
        elif key in gathered.spent:
            goal = body.new_key()
            moved.append((goal, key))
        elif key in body.now.rights:
            body.drop(key)
        write = new_datum(body, goal, kind, key if key and not key.startswith("#") else function.name)
        gathered.spent.append(write)
        gathered.operands.append(body.now.rights[write].register)
        if not goal.startswith("#"):
            body.now.assigned.add(goal)
    return discarded, moved


def _give_output(body: Body, key: str, kind: DataType, gathered: _Call) -> None:
    right = body.now.rights.get(key)
    if right is None:
        body.fail(f"{key} is set already")
    if right.type != kind:
        body.fail(f"{key} is {right.type}, and the result is {kind}")
    gathered.spent.append(key)
    gathered.operands.append(right.register)


def new_datum(body: Body, key: str, kind: DataType, wanted: str) -> str:
    """Writes a NEW: the right to read is stored under `key`; returns the key of the right to write."""
    write = body.new_key()
    to_write = body.hold(write, f"{wanted}_out", "write", kind)
    to_read = body.hold(key, wanted, "ref", kind)
    body.code.put("NEW", to_write.register, to_read.register, kind.spelling)
    body.unit.need(kind.version)
    return write


def stored(body: Body, node: ast.expr, key: str, kind: DataType, wanted: str) -> None:
    """Writes a datum with the value of an expression, the right to read it under `key`."""
    register = value(body, node, kind)
    if key in body.now.rights:
        body.drop(key)
    write = new_datum(body, key, kind, wanted)
    body.code.put("STORE", body.spend(write).register, register)
    body.values.release(register)


def copied_to(body: Body, key: str, output: str) -> None:
    """Writes the rule that copies a scalar, once it is known, to an output; the right to read it is given away."""
    right, goal = body.now.rights[key], body.now.rights[output]
    kind = goal.type

    def lines(name: str) -> List[str]:
        head = f"proc leaf {name}(given: closed {kind.spelling}, to: write {kind.spelling})"
        return [head, f"regs known: {kind.spelling}", "GET known given", "DROPR given", "STORE to known", "RET"]

    body.code.put("RULE", body.unit.helper("copy", (kind,), lines), 0, "any", right.register, goal.register)
    body.spend(key)
    body.spend(output)
