# SPDX-License-Identifier: Apache-2.0
"""Compiles a file: each function that main leads to becomes a procedure of the text."""

from __future__ import annotations

import ast
import os
from dataclasses import dataclass, replace
from functools import cached_property
from pathlib import Path
from typing import TYPE_CHECKING, FrozenSet, List, Tuple, Union

from .body import Again, Body, Manner, Right, Unit, Variant
from .budgets import MOST_BUDGET, budget_of
from .code import Line, Place, tidy
from .errors import BuildError
from .reading import MOST_BYTES, decoded, lines_of
from .refusals import RECORD, guard_lines, put_refusals, watch
from .source import MOST_ARGUMENTS, Function, Parameter, Source
from .statements import block, ends
from .toplevel import read_source
from .types import SUMS, DataType

if TYPE_CHECKING:
    from .._program import Program

MOST_INSTRUCTIONS = 4096
MOST_PROCEDURES = 64
MOST_LINES = 262_144


@dataclass(frozen=True)
class Built:
    """A compiled file: `text` is the program in symbolic assembly, `program` the loaded program."""

    text: str
    file: str
    places: Tuple[Place, ...]
    source: Source

    @cached_property
    def program(self) -> "Program":
        """The program, verified. An error of the verifier, such as a budget that is too large, names the Python line."""
        from .. import Refused, load

        try:
            return load(self.text)
        except Refused as why:
            refused = why
        line = refused.line or 0
        place = self.places[line - 1] if 0 < line <= len(self.places) else (1, 0)
        details = refused.text.strip().split("\n")
        self.source.fail(ast.Pass(lineno=place[0], col_offset=place[1]), f"the program is {details[0]} ({details[-1]})")


def _prologue(body: Body) -> Tuple[List[str], int]:
    """Gives the parameters their registers; returns how the head lists them, and how many are values."""
    listed: List[str] = []
    values = 0
    for parameter, mode in zip(body.function.parameters, body.variant.modes):
        if mode == "val":
            register = body.variable(parameter.name)
            body.now.assigned.add(parameter.name)
            values += 1
        else:
            register = body.rights.parameter(parameter.name)
            key = f"out.{parameter.name}" if parameter.is_out else parameter.name
            _hold(body, key, register, mode, parameter.type)
        listed.append(f"{register}: {mode} {parameter.type.spelling}")
    for name, kind in zip(body.function.result_names, body.function.results):
        register = body.rights.parameter(name)
        _hold(body, f"out.{name}", register, "write", kind)
        listed.append(f"{register}: write {kind.spelling}")
    if body.unit.is_guarded(body.function):
        _check_arguments(body, len(listed))
        register = body.rights.parameter("record")
        _hold(body, RECORD, register, "write", SUMS)
        listed.append(f"{register}: write {SUMS.spelling}")
    return listed, values


def _check_arguments(body: Body, count: int) -> None:
    if count == MOST_ARGUMENTS:
        message = f"{body.function.name} has {count} parameters and results, and an instruction in it may be refused"
        body.fail(f"{message}: give it one less, for what says so, or write check(..)", body.function.node)


def _hold(body: Body, key: str, register: str, mode: str, kind: DataType) -> None:
    body.places[key] = register
    body.now.rights[key] = Right(register, mode, kind)
    body.unit.need(kind.version)


def _read_scalars(body: Body) -> None:
    """Reads the parameters that come as data, and drops the right to them."""
    used = {it.id for it in ast.walk(body.function.node) if isinstance(it, ast.Name) and isinstance(it.ctx, ast.Load)}
    body.code.at(body.function.node)
    for parameter, mode in zip(body.function.parameters, body.variant.modes):
        if mode == "closed" and parameter.type.is_scalar:
            if parameter.name in used:
                register = body.values.variable(parameter.name, parameter.type, body.fail, f"{parameter.name}_value")
                body.code.put("GET", register, body.now.rights[parameter.name].register)
            body.now.assigned.add(parameter.name)
            body.drop(parameter.name)


def _find_aliases(body: Body) -> None:
    """A container that is made here and returned is the output itself."""
    if len(body.function.results) != 1 or body.function.results[0].is_scalar:
        return
    for node in ast.walk(body.function.node):
        if isinstance(node, ast.Return) and isinstance(node.value, ast.Name):
            name = node.value.id
            if name not in body.kinds.found or body.kinds.found[name].form != "container" or any(it.name == name for it in body.function.parameters):
                body.fail(f"{name} can't be returned: a container that is made here can, or the result of a task", node)
            body.aliases[name] = "out.result"
    if len(body.aliases) > 1:
        body.fail("one container is the result: return the same one on each way", body.function.node)


def _compile(unit: Unit, variant: Variant) -> List[Line]:
    """Compiles a function in the first manner in which the verifier accepts it."""
    manner = Manner()
    while True:
        try:
            return _compiled(unit, variant, manner)
        except Again as why:
            manner = why.manner


def _compiled(unit: Unit, variant: Variant, manner: Manner) -> List[Line]:
    body = Body(unit, variant, manner)
    listed, values = _put_body(body)
    put_refusals(body)
    lines = tidy(body.code.lines)
    _check_size(body, lines)
    _check_budget(body, lines)
    place = (variant.function.node.lineno, variant.function.node.col_offset)
    head = [f"proc {variant.function.kind} {unit.names[variant]}({', '.join(listed)})"]
    head.append(("regs " + ", ".join(f"{name}: {kind.spelling}" for name, kind in body.values.listed[values:])).strip())
    head.extend(f"let {name} = d{number}" for name, number in body.rights.names)
    return [*(Line(it, place) for it in head), *lines]


def _put_body(body: Body) -> Tuple[List[str], int]:
    """Compiles a function without the ways of its refused instructions; returns how the head lists its parameters, and how many are values."""
    listed, values = _prologue(body)
    _find_aliases(body)
    _read_scalars(body)
    watch(body)
    body.begin_failing(body.by_cause)
    block(body, body.function.node.body)
    if body.state is not None:
        body.node = body.function.node.body[-1]
        ends(body)
    return listed, values


def _check_size(body: Body, lines: List[Line]) -> None:
    count = sum(not it.is_label and not it.is_comment for it in lines)
    if count > MOST_INSTRUCTIONS and body.by_cause:
        raise Again(replace(body.manner, by_cause=False))
    if count > MOST_INSTRUCTIONS:
        body.fail(f"{body.function.name} has {count} instructions, and at most {MOST_INSTRUCTIONS} are allowed", body.function.node)


def _check_budget(body: Body, lines: List[Line]) -> None:
    """Raises the error of loops that take more instructions than the verifier accepts, which would be V17."""
    steps, nest = budget_of(lines)
    if steps <= MOST_BUDGET:
        return
    if body.manner.is_wide:
        raise Again(replace(body.manner, is_wide=False))
    (line, column), _ = nest.loops[0]
    turns = " times ".join(f"{count} (line {place[0]})" for place, count in nest.loops)
    advice = "read fewer by each(.., most), take smaller ranges, or make tasks of inner loops"
    message = f"a task of {body.function.name} may take {steps} instructions, and at most {MOST_BUDGET} are allowed (V17). Its loops make {turns} turns: {advice}"
    body.fail(message, ast.Pass(lineno=line, col_offset=column))


def _check_main(source: Source, main: Function) -> Variant:
    if main.kind != "control":
        source.fail(main.node, "main is a control function: @control")
    for it in (*main.parameters, *(Parameter("result", kind, True) for kind in main.results)):
        if len(it.type.words) > 2:
            source.fail(main.node, f"{it.name}: main takes and gives Int, Text, Array and Table of these, Map and Sum")
    return Variant(main, tuple("write" if it.is_out else "closed" for it in main.parameters))


def _program(unit: Unit, main: Function) -> List[List[Line]]:
    """Compiles all that main leads to."""
    unit.name_of(_check_main(unit.source, main))
    procedures: List[List[Line]] = []
    while unit.queue:
        procedures.append(_compile(unit, unit.queue.pop(0)))
        if len(procedures) + len(unit.helpers) > MOST_PROCEDURES:
            unit.source.fail(main.node, f"the program has more than {MOST_PROCEDURES} procedures")
        if sum(map(len, procedures)) > MOST_LINES:
            unit.source.fail(main.node, f"the program has more than {MOST_LINES} lines of assembly")
    for name, types in unit.guards.items():
        unit.helpers[name] = guard_lines(unit, name, types)
    return [*procedures, *([Line(it, (1, 0)) for it in lines] for lines in unit.helpers.values())]


def _alone(function: Function) -> Variant:
    modes = ("write" if it.is_out else "val" if it.type.is_scalar else "closed" for it in function.parameters)
    return Variant(function, tuple(modes))


def _check_others(unit: Unit) -> None:
    """Checks the functions that main doesn't lead to."""
    reached = {it.function.name for it in unit.names}
    for function in unit.source.functions.values():
        if function.name not in reached:
            apart = unit.apart()
            apart.name_of(_alone(function))
            _compile(apart, _alone(function))


def _refusable(unit: Unit) -> FrozenSet[str]:
    """Returns the leaf functions that write containers, and in which an instruction may be refused."""
    found = []
    for function in unit.source.functions.values():
        if function.kind == "leaf" and not all(it.type.is_scalar for it in function.outputs):
            body = Body(unit.apart(), _alone(function), Manner(is_wide=False))
            _put_body(body)
            found += [function.name] if body.failing[-1].first is not None else []
    return frozenset(found)


def _build(source: Source) -> Built:
    unit, main = Unit.of(source), source.functions.get("main")
    unit.refusable = _refusable(unit)
    procedures = _program(unit, main) if main is not None else []
    _check_others(unit)
    if main is None:
        raise BuildError(source.file, 1, 1, "there is no function main: @control def main(..) begins the program")
    name = ascii(os.path.basename(source.file))[1:-1]
    first = ["names", f"; Compiled from {name} by yuglemit.build."] + ([f"version {unit.version}"] if unit.version > 1 else [])
    lines = [Line(it, (1, 0)) for it in first]
    for procedure in procedures:
        lines.extend([Line("", (1, 0)), *procedure])
    return Built("\n".join(it.written for it in lines) + "\n", source.file, tuple(it.place for it in lines), source)


def build_text(text: str, file: str = "<text>") -> Built:
    """Compiles a Python file's text. Nothing of it is run, and whatever is wrong with it is a BuildError, so it may be a stranger's.

    >>> built = build_text('''
    ... @control
    ... def main(x: Int, out_total: Out[Int]):
    ...     out.out_total = x
    ... ''')
    >>> built.text.split()[0]
    'names'
    """
    source = Source(file, lines_of(text))
    try:
        read_source(source, text)
        return _build(source)
    except RecursionError:
        source.fail(source.reached or ast.Pass(), "this is nested too deeply for what is left of Python's stack")
    except MemoryError:
        source.fail(source.reached or ast.Pass(), "there isn't enough memory to compile this")


def build_file(path: Union[str, Path]) -> Built:
    """Compiles a Python file, as `build_text` does."""
    with open(path, "rb") as file:
        data = file.read(MOST_BYTES + 1)
    return build_text(decoded(data, str(path)), str(path))
