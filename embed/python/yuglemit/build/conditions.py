# SPDX-License-Identifier: Apache-2.0
"""Conditions: comparisons, `and`, `or`, `not`, `in`, as jumps."""

from __future__ import annotations

import ast
from typing import List

from .body import Body
from .kinds import called
from .texts import VERSION, begins, contains
from .types import INT, TEXT, DataType
from .values import closed_container, kind_of, value


def branch(body: Body, node: ast.expr, yes: str, no: str) -> None:
    """Writes code that jumps to one of two labels."""
    if isinstance(node, ast.UnaryOp) and isinstance(node.op, ast.Not):
        branch(body, node.operand, no, yes)
    elif isinstance(node, ast.BoolOp):
        _joined(body, node, yes, no)
    elif isinstance(node, ast.Compare):
        _compared(body, node, yes, no)
    elif isinstance(node, ast.Call) and isinstance(node.func, ast.Attribute) and node.func.attr == "startswith":
        begins(body, node, yes, no)
    elif isinstance(node, ast.Constant) and isinstance(node.value, bool):
        body.code.put("JMP", yes if node.value else no)
    elif called(node) == "check":
        body.fail("check(..) is the whole condition of an if, or none of it", node)
    else:
        body.fail(f"expected a comparison, found {body.source.shown(node)}", node)


def _joined(body: Body, node: ast.BoolOp, yes: str, no: str) -> None:
    for it in node.values[:-1]:
        more = body.new_label("and" if isinstance(node.op, ast.And) else "or")
        if isinstance(node.op, ast.And):
            branch(body, it, more, no)
        else:
            branch(body, it, yes, more)
        body.code.label(more)
    branch(body, node.values[-1], yes, no)


def _compared(body: Body, node: ast.Compare, yes: str, no: str) -> None:
    operands = [node.left, *node.comparators]
    for number, operator in enumerate(node.ops):
        more = yes if number == len(node.ops) - 1 else body.new_label("and")
        _compare(body, operator, operands[number : number + 2], more, no)
        if more != yes:
            body.code.label(more)


def _compare(body: Body, operator: ast.cmpop, operands: List[ast.expr], yes: str, no: str) -> None:
    left, right = operands
    if isinstance(operator, (ast.In, ast.NotIn)):
        _contained(body, left, right, *((yes, no) if isinstance(operator, ast.In) else (no, yes)))
        return
    kind = kind_of(body, left).type
    if isinstance(operator, (ast.Eq, ast.NotEq)):
        first, second = value(body, left), value(body, right, kind)
        body.code.put("JEQ", first, second, yes if isinstance(operator, ast.Eq) else no)
        body.code.put("JMP", no if isinstance(operator, ast.Eq) else yes)
    elif isinstance(operator, (ast.Lt, ast.Gt, ast.LtE, ast.GtE)):
        first, second = value(body, left, kind), value(body, right, kind)
        if kind == TEXT:
            body.unit.need(VERSION)
        ordered = (first, second) if isinstance(operator, (ast.Lt, ast.GtE)) else (second, first)
        strict = isinstance(operator, (ast.Lt, ast.Gt))
        body.code.put("JLT" if kind == INT else "JTLT", *ordered, yes if strict else no)
        body.code.put("JMP", no if strict else yes)
    else:
        body.fail("expected == != < <= > >= in, found another comparison", left)
    for it in (first, second):
        body.values.release(it)


def _contained(body: Body, subscript: ast.expr, over: ast.expr, yes: str, no: str) -> None:
    kind = kind_of(body, over).type
    if kind == TEXT:
        contains(body, value(body, over, TEXT), value(body, subscript, TEXT), yes, no)
        return
    if kind.is_scalar:
        body.fail("in is for containers and maps, whether a subscript is there, and for texts", over)
    register = closed_container(body, over)
    wanted = value(body, subscript, kind.subscript)
    if kind.is_map:
        _read_at(body, kind, register, wanted, yes, no)
        return
    key = body.new_key()
    missing = body.now.copy()
    found = body.hold(key, "found", "ref", kind.member)
    body.code.put("LOOK" if kind.subscript == INT else "TLOOK", found.register, register, wanted, no)
    body.unit.need(kind.version)
    body.values.release(wanted)
    body.drop(key)
    body.code.put("JMP", yes)
    assert set(body.now.rights) == set(missing.rights)


def _read_at(body: Body, kind: DataType, over: str, subscript: str, yes: str, no: str) -> None:
    """Writes code that jumps by whether a map has a value at a subscript."""
    found = body.temporary(kind.member)
    body.code.put("MGET", found, over, subscript, no)
    for it in (found, subscript):
        body.values.release(it)
    body.code.put("JMP", yes)
