# SPDX-License-Identifier: Apache-2.0
"""Values: expressions of ints and texts, into registers."""

from __future__ import annotations

import ast
from typing import List, Optional, Tuple

from .advice import advice_on
from .body import Body
from .constants import Constant, fits
from .kinds import called
from .source import NEWER
from .types import INT, TEXT, DataType, Kind

_PLAIN = {ast.Add: "ADD", ast.Sub: "SUB", ast.Mult: "MUL"}
BITS = (ast.BitAnd, ast.BitOr, ast.BitXor, ast.LShift, ast.RShift)
_LEAVES = "the result may leave 64 bits"
_LONG = "the text may have more than 4096 bytes"


def spelled(value: Constant) -> str:
    """Returns a constant as the text has it."""
    if isinstance(value, int):
        return str(value)
    escape = {'"': '\\"', "\\": "\\\\", "\n": "\\n"}
    return '"' + "".join(escape.get(c) or (f"\\x{ord(c):02x}" if c < " " or c == "\x7f" else c) for c in value) + '"'


def value(body: Body, node: ast.expr, asked: Optional[DataType] = None, into: Optional[str] = None) -> str:
    """Writes code that evaluates an expression, and returns the register that has the value: `into` if it is given."""
    kind = _value_kind(body, node, asked)
    constant = body.source.constants.of(node)
    if constant is not None:
        return put_constant(body, constant, node, into)
    if isinstance(node, ast.Name):
        return _copied(body, _variable(body, node), into)
    return _computed(body, node, kind, into)


def _value_kind(body: Body, node: ast.expr, asked: Optional[DataType]) -> Kind:
    """Returns the kind of an expression, which is a value, and of the type that is asked for, if one is."""
    kind = kind_of(body, node)
    if kind.form != "value":
        what = "is known only when its task has run" if kind.form == "future" else "is a container"
        body.fail(f"{body.source.shown(node)} {what}: give it to a task as an argument", node)
    if asked is not None and kind.type != asked:
        body.fail(f"expected {asked}, found {body.source.shown(node)}, which is {kind.type}", node)
    return kind


def kind_of(body: Body, node: ast.expr) -> Kind:
    """Returns the kind of an expression, or raises the error that says why it has none."""
    kind = body.kinds.kind_of(node)
    if kind is not None:
        return kind
    functions = {it.func for it in ast.walk(node) if isinstance(it, ast.Call)}
    for it in ast.walk(node):
        advice = advice_on(it)
        if advice and isinstance(it, ast.expr) and body.kinds.kind_of(it) is None and (called(it) or "") not in body.source.functions:
            body.fail(f"{body.source.shown(it)} is not of the language: {advice}", it)
        if isinstance(it, ast.Name) and body.kinds.kind_of(it) is None and it not in functions:
            body.fail(f"{it.id} isn't known here: it is no variable, parameter, constant or function", it)
    name = called(node)
    if name is not None and name in body.source.functions:
        body.fail(f"{name} has {len(body.source.functions[name].results) or 'no'} results: one is needed here", node)
    if name is not None:
        body.fail(f"{name} is no function of this file, and not of the language", node)
    body.fail(f"{body.source.shown(node)} is not of the language here", node)


def put_constant(body: Body, constant: Constant, node: ast.AST, into: Optional[str] = None) -> str:
    """Writes a constant into a register."""
    if isinstance(constant, int):
        if not fits(constant):
            body.fail("the number doesn't fit in 64 bits", node)
        register = into or body.temporary(INT)
        body.code.put("INT", register, constant)
        return register
    register = into or body.temporary(TEXT)
    body.code.put("TEXT", register, spelled(constant))
    return register


def _variable(body: Body, node: ast.Name) -> str:
    if node.id not in body.now.assigned:
        body.fail(f"{node.id} may be unset here: set it on each way before", node)
    return body.variable(node.id)


def _copied(body: Body, register: str, into: Optional[str]) -> str:
    if into is None or into == register:
        return register
    body.code.put("COPY", into, register)
    return into


def _computed(body: Body, node: ast.expr, kind: Kind, into: Optional[str]) -> str:
    if isinstance(node, ast.BinOp):
        return _operations(body, node, into)
    if isinstance(node, ast.UnaryOp):
        return _unary(body, node, into)
    if isinstance(node, ast.IfExp):
        return _chosen(body, node, kind, into)
    if isinstance(node, ast.JoinedStr):
        return _formatted(body, node, into)
    if isinstance(node, ast.Call):
        return _called(body, node, into)
    if isinstance(node, ast.Subscript):
        if isinstance(node.slice, ast.Slice):
            from .texts import part

            return part(body, node, into)
        return _entry(body, node, into)
    if isinstance(node, ast.NamedExpr):
        body.fail(":= is for the argument of check(..)", node)
    body.fail(f"{body.source.shown(node)} is not of the language", node)


def _operations(body: Body, node: ast.BinOp, into: Optional[str]) -> str:
    """Evaluates `a + b - c`, or another chain of operations each of which is the left operand of the next."""
    chain, first = [node], node.left
    while isinstance(first, ast.BinOp) and body.source.constants.of(first) is None:
        _value_kind(body, first, _operands(body, chain[-1]))
        chain.append(first)
        first = first.left
    register = value(body, first, _operands(body, chain[-1]))
    while chain:
        it = chain.pop()
        if chain and _is_divided_product(body, it, chain[-1]):
            product, it = it, chain.pop()
            register = _divided_product(body, product, it, register, into if it is node else None)
        else:
            register = _operated(body, it, register, into if it is node else None)
    return register


def _operands(body: Body, node: ast.BinOp) -> DataType:
    """Returns the type of an operation's operands, which its result has too."""
    kind = kind_of(body, node)
    if kind.type == INT and not isinstance(node.op, (ast.Add, ast.Sub, ast.Mult, ast.FloorDiv, ast.Mod, *BITS)):
        advice = "; // divides ints" if isinstance(node.op, ast.Div) else ""
        body.fail(f"the operator of {body.source.shown(node)} is not of the language: + - * // % & | ^ << >> are{advice}", node)
    return kind.type


def _operated(body: Body, node: ast.BinOp, left: str, into: Optional[str]) -> str:
    """Writes one operation, whose left operand is in a register."""
    operands = _operands(body, node)
    right = value(body, node.right, operands)
    body.code.at(node)
    if operands == TEXT:
        return put_result(body, "CAT", TEXT, into, left, right, cause=_LONG)
    plain = _PLAIN.get(type(node.op))
    if plain is not None:
        return put_result(body, plain, INT, into, left, right)
    if isinstance(node.op, BITS):
        from .texts import bits

        return bits(body, node, left, right, into)
    result = _divided(body, node, left, right)
    for it in (left, right):
        body.values.release(it)
    return _moved(body, result, into)


def _divided(body: Body, node: ast.BinOp, left: str, right: str) -> str:
    """Writes // or %."""
    divisor = body.source.constants.of(node.right)
    divide = _floored if isinstance(node.op, ast.FloorDiv) else _remainder
    return divide(body, left, right, divisor if isinstance(divisor, int) else None)


def _is_divided_product(body: Body, product: ast.BinOp, node: ast.BinOp) -> bool:
    """Says whether an operation is `a * b // c` or `a * b % c`, whose c may be above 0."""
    divisor = body.source.constants.of(node.right)
    is_divided = isinstance(product.op, ast.Mult) and isinstance(node.op, (ast.FloorDiv, ast.Mod))
    return is_divided and _operands(body, product) == INT and not (isinstance(divisor, int) and divisor <= 0)


def _divided_product(body: Body, product: ast.BinOp, node: ast.BinOp, left: str, into: Optional[str]) -> str:
    """Writes `a * b // c` or `a * b % c`, whose product may leave 64 bits."""
    right, divisor = value(body, product.right, INT), value(body, node.right, INT)
    body.code.at(node)
    wide, done = body.new_label("wide"), body.new_label("exact")
    whole = body.temporary(INT)
    body.code.put("MUL", whole, left, right, wide)
    result = _divided(body, node, whole, divisor)
    body.code.put("JMP", done)
    body.code.label(wide)
    _divide_wide(body, isinstance(node.op, ast.FloorDiv), (left, right, divisor), whole, result, done)
    body.code.label(done)
    for it in (left, right, divisor, whole):
        body.values.release(it)
    return _moved(body, result, into)


def _divide_wide(body: Body, is_quotient: bool, operands: Tuple[str, str, str], whole: str, result: str, done: str) -> None:
    """Writes the same by MULDIV: what is left is the difference of two products modulo 2 to the 64."""
    from .texts import VERSION

    left, right, divisor = operands
    low, rest, one = body.new_label("low"), body.temporary(INT), body.temporary(INT) if is_quotient else result
    body.unit.need(VERSION)
    body.code.put("MULDIV", rest, left, right, divisor, body.refused(_LEAVES))
    if is_quotient:
        body.code.put("COPY", result, rest)
    body.code.put("WMUL", whole, left, right, "+0")
    body.code.put("WMUL", rest, rest, divisor, "+0")
    body.code.put("INT", one, -1)
    body.code.put("WMUL", rest, rest, one, "+0")
    body.code.put("WADD", whole, whole, rest, "+0")
    if not is_quotient:
        body.code.put("COPY", result, whole)
    body.code.put("INT", rest, 0)
    body.code.put("JLT", whole, rest, low)
    body.code.put("JMP", done)
    body.code.label(low)
    body.code.put("ADD", result, result, one if is_quotient else divisor, body.refused(_LEAVES))
    for it in (rest, one):
        if it != result:
            body.values.release(it)


def _moved(body: Body, register: str, into: Optional[str]) -> str:
    """Copies a temporary register to where it is required."""
    if into is None:
        return register
    body.code.put("COPY", into, register)
    body.values.release(register)
    return into


def put_result(body: Body, name: str, kind: DataType, into: Optional[str], *operands: str, cause: str = _LEAVES) -> str:
    """Writes an instruction that may be refused; its operands are returned, and its result may be in one of them."""
    register = into
    if register is None:
        for it in operands:
            body.values.release(it)
        register = body.temporary(kind)
    body.code.put(name, register, *operands, body.refused(cause))
    for it in operands:
        if it != register:
            body.values.release(it)
    return register


def _signs(body: Body, remainder: str, right: str, divisor: Optional[int], adjust: str, done: str) -> None:
    """Jumps to `adjust` if a remainder isn't 0 and has another sign than the divisor, else to `done`."""
    zero = body.temporary(INT)
    body.code.put("INT", zero, 0)
    if divisor is not None and divisor > 0:
        body.code.put("JLT", remainder, zero, adjust)
        body.code.put("JMP", done)
    else:
        negative = body.new_label("negative")
        body.code.put("JEQ", remainder, zero, done)
        body.code.put("JLT", remainder, zero, negative)
        body.code.put("JLT", right, zero, adjust)
        body.code.put("JMP", done)
        body.code.label(negative)
        body.code.put("JLT", right, zero, done)
    body.values.release(zero)
    body.code.label(adjust)


def _division(divisor: Optional[int]) -> str:
    """Says why a division may be refused."""
    return "the divisor may be 0" if not divisor else _LEAVES


def _floored(body: Body, left: str, right: str, divisor: Optional[int]) -> str:
    """Python's //: the quotient towards zero, and one less if what is left has another sign than the divisor."""
    adjust, done = body.new_label("floor"), body.new_label("divided")
    quotient, remainder = body.temporary(INT), body.temporary(INT)
    cause = _division(divisor)
    body.code.put("DIV", quotient, left, right, body.refused(cause))
    body.code.put("REM", remainder, left, right, body.refused(cause))
    _signs(body, remainder, right, divisor, adjust, done)
    body.code.put("INT", remainder, 1)
    body.code.put("SUB", quotient, quotient, remainder, body.refused(cause))
    body.code.label(done)
    body.values.release(remainder)
    return quotient


def _remainder(body: Body, left: str, right: str, divisor: Optional[int]) -> str:
    """Python's %: it has the divisor's sign. By -1 nothing is left; the machine refuses that of the least int."""
    adjust, done, none = body.new_label("floor"), body.new_label("divided"), body.new_label("none")
    result = body.temporary(INT)
    if divisor is None or divisor == -1:
        body.code.put("INT", result, -1)
        body.code.put("JEQ", right, result, none)
    cause = _division(divisor)
    body.code.put("REM", result, left, right, body.refused(cause))
    _signs(body, result, right, divisor, adjust, done)
    body.code.put("ADD", result, result, right, body.refused(cause))
    body.code.put("JMP", done)
    if divisor is None or divisor == -1:
        body.code.label(none)
        body.code.put("INT", result, 0)
    body.code.label(done)
    return result


def _unary(body: Body, node: ast.UnaryOp, into: Optional[str]) -> str:
    if isinstance(node.op, ast.UAdd):
        return value(body, node.operand, INT, into)
    if isinstance(node.op, ast.Invert):
        from .texts import inverted

        return inverted(body, value(body, node.operand, INT), node, into)
    if not isinstance(node.op, ast.USub):
        body.fail(f"{body.source.shown(node)} is no int or text", node)
    zero = put_constant(body, 0, node)
    return put_result(body, "SUB", INT, into, zero, value(body, node.operand, INT))


def _chosen(body: Body, node: ast.IfExp, kind: Kind, into: Optional[str]) -> str:
    from .conditions import branch

    yes, no, done = body.new_label("then"), body.new_label("else"), body.new_label("chosen")
    result = body.temporary(kind.type)
    branch(body, node.test, yes, no)
    body.code.label(yes)
    value(body, node.body, kind.type, result)
    body.code.put("JMP", done)
    body.code.label(no)
    value(body, node.orelse, kind.type, result)
    body.code.label(done)
    return _moved(body, result, into)


def _formatted(body: Body, node: ast.JoinedStr, into: Optional[str]) -> str:
    result: Optional[str] = None
    for part in node.values:
        if isinstance(part, ast.FormattedValue):
            if part.conversion != -1 or part.format_spec is not None:
                body.fail("a format in {} is not of the language", node)
            text = _as_text(body, part.value)
        else:
            text = value(body, part, TEXT)
        result = text if result is None else put_result(body, "CAT", TEXT, None, result, text, cause=_LONG)
    if result is None:
        return put_constant(body, "", node, into)
    return _copied_back(body, result, into)


def _copied_back(body: Body, register: str, into: Optional[str]) -> str:
    copied = _copied(body, register, into)
    if copied != register:
        body.values.release(register)
    return copied


def _as_text(body: Body, node: ast.expr, into: Optional[str] = None) -> str:
    if kind_of(body, node).type == TEXT:
        return value(body, node, TEXT, into)
    number = value(body, node, INT)
    register = into or body.temporary(TEXT)
    body.code.put("SHOW", register, number)
    body.values.release(number)
    return register


def _called(body: Body, node: ast.Call, into: Optional[str]) -> str:
    name = called(node)
    if node.keywords:
        body.fail(f"{name} takes no keywords", node)
    if name in NEWER:
        from .texts import sought

        return sought(body, node, into)
    counts = {"str": 1, "int": 1, "len": 1, "byte_length": 1, "abs": 1, "min": 2, "max": 2, "nth": 2}
    if name not in counts:
        body.fail(f"{body.source.shown(node)} is not of the language here", node)
    if len(node.args) != counts[name]:
        advice = advice_on(node)
        body.fail(f"{name} takes {counts[name]} argument{'s' if counts[name] > 1 else ''}{': ' + advice if advice else ''}", node)
    if name == "str":
        return _as_text(body, node.args[0], into)
    if name == "int":
        text = value(body, node.args[0], TEXT)
        body.code.at(node)
        return put_result(body, "READI", INT, into, text, cause="the text may be no number")
    if name == "byte_length":
        text = value(body, node.args[0], TEXT)
        register = into or body.temporary(INT)
        body.code.put("LEN", register, text)
        body.values.release(text)
        return register
    if name == "len":
        return _size(body, node, into)
    if name == "nth":
        return _nth(body, node, into)
    return _least(body, name, node.args, into)


def _size(body: Body, node: ast.Call, into: Optional[str]) -> str:
    if kind_of(body, node.args[0]).form == "value":
        body.fail("len is for containers; byte_length(text) counts a text's bytes", node)
    register = into or body.temporary(INT)
    body.code.put("SIZE", register, closed_container(body, node.args[0]))
    return register


def _nth(body: Body, node: ast.Call, into: Optional[str]) -> str:
    over = closed_container(body, node.args[0])
    kind = kind_of(body, node.args[0]).type
    index = value(body, node.args[1], INT)
    register = into or body.temporary(kind.subscript)
    body.code.put("SUBAT" if kind.subscript == INT else "TSUBAT", register, over, index, body.refused(f"{body.source.shown(node)} may not be there"))
    body.unit.need(kind.version)
    body.values.release(index)
    return register


def _entry(body: Body, node: ast.Subscript, into: Optional[str]) -> str:
    """Reads the value of a map at a subscript."""
    over = closed_container(body, node.value)
    kind = kind_of(body, node.value).type
    subscript = value(body, node.slice, kind.subscript)
    register = into or body.temporary(kind.member)
    body.code.put("MGET", register, over, subscript, body.refused(f"{body.source.shown(node)} may not be there"))
    body.values.release(subscript)
    return register


def closed_container(body: Body, node: ast.expr) -> str:
    """Returns the register of a container or a map that is complete: a parameter that isn't Out."""
    if isinstance(node, ast.Name):
        right = body.now.rights.get(node.id)
        if right is not None and right.mode == "closed" and not right.type.is_scalar:
            return right.register
    kind = kind_of(body, node)
    if kind.type.is_scalar:
        body.fail(f"{body.source.shown(node)} is no container", node)
    body.fail(f"{body.source.shown(node)} isn't complete here: give it to a task, whose parameter it is", node)


def _least(body: Body, name: str, arguments: List[ast.expr], into: Optional[str]) -> str:
    """abs, min and max: one of two values."""
    first = value(body, arguments[0], INT)
    if name == "abs":
        zero = put_constant(body, 0, arguments[0])
        result, done = body.temporary(INT), body.new_label("chosen")
        body.code.put("COPY", result, first)
        body.code.put("JLT", zero, first, done)
        body.code.put("SUB", result, zero, first, body.refused(_LEAVES))
        others = [first, zero]
    else:
        second = value(body, arguments[1], INT)
        result, done = body.temporary(INT), body.new_label("chosen")
        body.code.put("COPY", result, first)
        body.code.put("JLT", *((first, second) if name == "min" else (second, first)), done)
        body.code.put("COPY", result, second)
        others = [first, second]
    body.code.label(done)
    for it in others:
        body.values.release(it)
    return _moved(body, result, into)
