# SPDX-License-Identifier: Apache-2.0
"""Parts of texts, what is sought in texts, and the bits of ints: what version 5 of the language has. Places are numbers of bytes of UTF-8, from 0."""

from __future__ import annotations

import ast
from typing import Callable, Dict, Optional, Type

from .body import Body
from .kinds import called
from .types import INT, TEXT
from .values import put_constant, put_result, value

VERSION = 5
_SOUGHT = {"byte": "BYTE", "find": "FIND", "span": "SPAN", "until": "UNTIL"}
_MOST_SHIFT = 63


def part(body: Body, node: ast.Subscript, into: Optional[str]) -> str:
    """Writes `text[i:j]`, which is refused unless both places are in the text, in this order, and neither is inside of a character."""
    assert isinstance(node.slice, ast.Slice)
    if node.slice.step is not None:
        body.fail("a part of a text has no step", node)
    text = value(body, node.value, TEXT)
    start = put_constant(body, 0, node) if node.slice.lower is None else value(body, node.slice.lower, INT)
    end = _length(body, text) if node.slice.upper is None else value(body, node.slice.upper, INT)
    body.code.at(node)
    body.unit.need(VERSION)
    return put_result(body, "SLICE", TEXT, into, text, start, end, cause=f"{body.source.shown(node)} may be no part of the text")


def _length(body: Body, text: str) -> str:
    register = body.temporary(INT)
    body.code.put("LEN", register, text)
    return register


def sought(body: Body, node: ast.Call, into: Optional[str]) -> str:
    """Writes byte(t, i), find(t, what, i), span(t, set, i), until(t, set, i) or muldiv(a, b, c)."""
    name = called(node) or ""
    if name == "muldiv":
        return _scaled(body, node, into)
    wanted = (2,) if name == "byte" else (2, 3)
    if len(node.args) not in wanted:
        body.fail(f"{name} takes a text, {'and a place' if name == 'byte' else 'a text, and perhaps the place from which it seeks'}", node)
    operands = [value(body, node.args[0], TEXT)]
    if name != "byte":
        operands.append(value(body, node.args[1], TEXT))
    last = node.args[1] if name == "byte" else node.args[2] if len(node.args) == 3 else None
    operands.append(put_constant(body, 0, node) if last is None else value(body, last, INT))
    body.code.at(node)
    body.unit.need(VERSION)
    shown = body.source.shown(node)
    cause = f"{shown} may not be there" if name in ("byte", "find") else f"the place of {shown} may be outside of the text"
    return put_result(body, _SOUGHT[name], INT, into, *operands, cause=cause)


def _scaled(body: Body, node: ast.Call, into: Optional[str]) -> str:
    if len(node.args) != 3:
        body.fail("muldiv takes three ints, and gives a * b / c, rounded towards zero", node)
    operands = [value(body, it, INT) for it in node.args]
    body.code.at(node)
    body.unit.need(VERSION)
    return put_result(body, "MULDIV", INT, into, *operands, cause="the divisor may be 0 or less, or the result may leave 64 bits")


# --- conditions


def begins(body: Body, node: ast.Call, yes: str, no: str) -> None:
    """Jumps by `text.startswith(what)`."""
    assert isinstance(node.func, ast.Attribute)
    if len(node.args) != 1 or node.keywords:
        body.fail("startswith takes a text", node)
    text, what = value(body, node.func.value, TEXT), value(body, node.args[0], TEXT)
    start, end, first = put_constant(body, 0, node), _length(body, what), body.temporary(TEXT)
    body.unit.need(VERSION)
    body.code.put("SLICE", first, text, start, end, no)
    body.code.put("JEQ", first, what, yes)
    body.code.put("JMP", no)
    for it in (text, what, start, end, first):
        body.values.release(it)


def contains(body: Body, text: str, what: str, yes: str, no: str) -> None:
    """Jumps by whether a text has another in it."""
    start, found = body.temporary(INT), body.temporary(INT)
    body.unit.need(VERSION)
    body.code.put("INT", start, 0)
    body.code.put("FIND", found, text, what, start, no)
    body.code.put("JMP", yes)
    for it in (text, what, start, found):
        body.values.release(it)


# --- bits


def bits(body: Body, node: ast.BinOp, left: str, right: str, into: Optional[str]) -> str:
    """Writes & | ^ << or >>, whose results are Python's, or are refused."""
    body.unit.need(VERSION)
    plain = _PLAIN.get(type(node.op))
    if plain is None:
        return _SHIFTS[type(node.op)](body, left, right, into)
    for it in (left, right):
        body.values.release(it)
    register = into or body.temporary(INT)
    body.code.put(plain, register, left, right, "+0")
    return register


def inverted(body: Body, register: str, node: ast.AST, into: Optional[str]) -> str:
    """Writes `~a`."""
    ones = put_constant(body, -1, node)
    body.unit.need(VERSION)
    for it in (register, ones):
        body.values.release(it)
    result = into or body.temporary(INT)
    body.code.put("XOR", result, register, ones, "+0")
    return result


def _shifted_up(body: Body, left: str, right: str, into: Optional[str]) -> str:
    """Multiplies by the power of two, so that a result that doesn't fit is refused; 2 to the 63 is none that fits."""
    power, zero = body.temporary(INT), body.temporary(INT)
    refused = body.refused(f"the shift may be outside of 0 to {_MOST_SHIFT - 1}")
    body.code.put("INT", power, 1)
    body.code.put("SHL", power, power, right, refused)
    body.code.put("INT", zero, 0)
    body.code.put("JLT", power, zero, refused)
    for it in (zero, right):
        body.values.release(it)
    return put_result(body, "MUL", INT, into, left, power)


def _shifted_down(body: Body, left: str, right: str, into: Optional[str]) -> str:
    """Shifts the bits of a negative int inverted: the machine's shift brings in zeros."""
    sign, zero = body.temporary(INT), body.temporary(INT)
    body.code.put("INT", sign, _MOST_SHIFT)
    body.code.put("SHR", sign, left, sign, "+0")
    body.code.put("INT", zero, 0)
    body.code.put("SUB", sign, zero, sign, "+0")
    body.code.put("XOR", zero, left, sign, "+0")
    body.code.put("SHR", zero, zero, right, body.refused(f"the shift may be outside of 0 to {_MOST_SHIFT}"))
    for it in (left, right):
        body.values.release(it)
    register = into or body.temporary(INT)
    body.code.put("XOR", register, zero, sign, "+0")
    for it in (zero, sign):
        if it != register:
            body.values.release(it)
    return register


_PLAIN: Dict[Type[ast.operator], str] = {ast.BitAnd: "AND", ast.BitOr: "OR", ast.BitXor: "XOR"}
_SHIFTS: Dict[Type[ast.operator], Callable[[Body, str, str, Optional[str]], str]] = {ast.LShift: _shifted_up, ast.RShift: _shifted_down}
