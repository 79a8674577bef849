# SPDX-License-Identifier: Apache-2.0
"""Statements: assignments, conditions, calls, and the ends of a task."""

from __future__ import annotations

import ast
from dataclasses import dataclass
from typing import Callable, Dict, List, Optional, Sequence, Type

from .advice import advice_on, advice_on_statement
from .body import BREAK, RETURN, Body, State
from .conditions import branch
from .kinds import called, name_of
from .loops import AnyLoop, loop, turn_ends
from .reading import is_elif
from .refusals import let_go, watch
from .source import container_type, printable
from .tasks import add_to_sum, call_task, copied_to, look, move, read_right, stored, write_key
from .types import INT, DataType
from .values import kind_of, value


MOST_LINES = 32_768


def block(body: Body, statements: Sequence[ast.stmt]) -> None:
    """Compiles statements one after another."""
    for statement in statements:
        if body.state is None:
            body.node = statement
            body.fail("this line is never reached")
        if statements is body.function.node.body:
            body.forget([it for it in body.places if it not in body.now.rights])
        _begin(body, statement)
        _statement(body, statement)
        if len(body.code.lines) > MOST_LINES:
            body.fail(f"{body.function.name} is too long: up to here it has {MOST_LINES} lines of assembly, and 4096 instructions are allowed")


def _begin(body: Body, statement: ast.stmt) -> None:
    body.node = body.source.reached = statement
    body.code.at(statement)
    line = body.source.lines[statement.lineno - 1][:400].strip()
    body.code.comment(printable(line[:120]))


def _statement(body: Body, node: ast.stmt) -> None:
    for kind, compile_one in _STATEMENTS.items():
        if isinstance(node, kind):
            compile_one(body, node)
            return
    word = body.source.shown(node).split(maxsplit=1)[0].rstrip(":.")
    body.fail(f"{word} is not of the language: {advice_on_statement(node) or 'assignments, if, for, while, return, break, continue and calls are'}")


def _assign(body: Body, node: ast.Assign) -> None:
    if len(node.targets) != 1:
        body.fail("one name a line is set")
    assign_to(body, node.targets[0], node.value)


def _annotated(body: Body, node: ast.AnnAssign) -> None:
    if node.value is None:
        body.fail("a name needs a value")
    assign_to(body, node.target, node.value)


def _augmented(body: Body, node: ast.AugAssign) -> None:
    if isinstance(node.target, ast.Subscript):
        add_to_sum(body, node.target, node)
        return
    if not isinstance(node.target, ast.Name):
        body.fail("only a variable, or a value of a Sum, can be changed so", node.target)
    load = ast.copy_location(ast.Name(node.target.id, ast.Load()), node.target)
    assign_to(body, node.target, ast.copy_location(ast.BinOp(load, node.op, node.value), node))


def assign_to(body: Body, target: ast.expr, node: ast.expr) -> None:
    """Compiles an assignment to a variable, an output, a member, or several variables."""
    if isinstance(target, ast.Tuple):
        _several(body, target, node)
    elif isinstance(target, ast.Subscript):
        insert(body, target.value, target.slice, node)
    elif isinstance(target, ast.Name):
        _set_variable(body, target, node)
    elif name_of(target):
        _check_output(body, name_of(target) or "", target)
        set_output(body, name_of(target) or "", target, node)
    else:
        body.fail(f"{body.source.shown(target)} can't be set: a name, out.NAME or a member can", target)


def _several(body: Body, target: ast.Tuple, node: ast.expr) -> None:
    if isinstance(node, ast.Tuple) and len(node.elts) == len(target.elts):
        _side_by_side(body, target, node)
        return
    if called(node) not in body.source.functions or not isinstance(node, ast.Call):
        body.fail("several names are set by a call of a function with as many results", node)
    keys: List[Optional[str]] = []
    for it in target.elts:
        key = name_of(it)
        if key is None:
            body.fail("expected a name", it)
        if isinstance(it, ast.Name):
            _check_settable(body, it)
        else:
            _check_output(body, key, it)
        keys.append(None if key == "_" else key)
    call_task(body, node, keys)


def _side_by_side(body: Body, target: ast.Tuple, node: ast.Tuple) -> None:
    """Compiles `a, b = x, y`: all values are found before the first is set."""
    set_names = {name_of(it) for it in target.elts}
    read = {name_of(it) for its in node.elts for it in ast.walk(its) if isinstance(it, ast.expr)}
    if not set_names & read:
        for it, its in zip(target.elts, node.elts):
            assign_to(body, it, its)
        return
    keys = [name_of(it) or "" for it in target.elts]
    if any(key not in body.kinds.found or body.kinds.found[key].form != "value" for key in keys):
        body.fail("names that are set side by side to each other's values are ints or texts: use one line each", target)
    found = []
    for its in node.elts:
        register = body.temporary(kind_of(body, its).type)
        value(body, its, None, register)
        found.append(register)
    for it, register in zip(target.elts, found):
        if isinstance(it, ast.Name):
            _check_settable(body, it)
        key = name_of(it) or ""
        body.code.put("COPY", body.variable(key), register)
        body.now.assigned.add(key)
        body.values.release(register)


def _set_variable(body: Body, target: ast.Name, node: ast.expr) -> None:
    key = target.id
    _check_settable(body, target)
    made = container_type(body.source, node)
    if made is not None:
        _make_container(body, key, made)
        return
    kind = body.kinds.found.get(key)
    if kind is None:
        kind_of(body, node)
        body.fail(f"{key} can't be set to this", node)
    if kind.form == "value":
        value(body, node, kind.type, body.variable(key))
        body.now.assigned.add(key)
    elif kind.form == "future":
        set_future(body, key, node)
    else:
        body.fail(f"{key} is a container: a container has one name, and is made as Array[..](), Table[..](), Map[..]() or Sum[..]()", node)


def _check_settable(body: Body, target: ast.Name) -> None:
    key = target.id
    if key in body.source.functions or key in body.source.constants.named or key in ("out", "check"):
        body.fail(f"{key} is a function, a constant or a word of the language: take another name", target)
    if any(it.name == key and (it.is_out or not it.type.is_scalar) for it in body.function.parameters):
        advice = f"out.{key} = .. sets the output" if any(it.name == key and it.is_out for it in body.function.parameters) else "take another name"
        body.fail(f"{key} is a parameter: {advice}", target)
    if not key.isascii():
        body.fail(f"{key}: names are ASCII letters, digits and _", target)


def _make_container(body: Body, key: str, kind: DataType) -> None:
    if key in body.aliases:
        body.now.assigned.add(key)
        return
    if f"{key}>" in body.now.rights or key in body.now.rights:
        body.fail(f"{key} is made already")
    write = body.hold(f"{key}>", f"{key}_out", "write", kind)
    read = body.hold(key, key, "ref", kind)
    body.code.put("NEW", write.register, read.register, kind.spelling)
    body.unit.need(kind.version)
    body.now.assigned.add(key)
    watch(body)


def set_future(body: Body, key: str, node: ast.expr) -> None:
    """Sets a variable that holds futures: to the result of a task, to a member, to another such variable, or to a value."""
    kind = body.kinds.found[key].type
    found = kind_of(body, node)
    if found.type != kind:
        body.fail(f"{key} is {kind}, and {body.source.shown(node)} is {found.type}", node)
    if found.form == "value":
        stored(body, node, key, kind, key)
    elif called(node) in body.source.functions and isinstance(node, ast.Call):
        call_task(body, node, [key])
    elif isinstance(node, ast.Name) and node.id == key:
        return
    else:
        source = read_right(body, node)
        if key in body.now.rights:
            body.drop(key)
        move(body, source, key)
    body.now.assigned.add(key)


def set_output(body: Body, key: str, target: ast.AST, node: ast.expr) -> None:
    """Sets a scalar output, or hands a container output to the task that fills it."""
    kind = body.kinds.found[key]
    if kind.form == "value":
        if key in body.now.outputs:
            line = getattr(body.now.outputs[key], "lineno", 1)
            body.fail(f"{key} may be set already, by line {line}: an output is set once; set a variable on each way, and {key} to it at the end", target)
        value(body, node, kind.type, body.variable(key))
        body.now.assigned.add(key)
        body.now.outputs[key] = target
        return
    if key not in body.now.rights:
        body.fail(f"{key} is set already", target)
    found = kind_of(body, node)
    if found.type != kind.type:
        body.fail(f"{key} is {kind.type}, and {body.source.shown(node)} is {found.type}", node)
    if called(node) in body.source.functions and isinstance(node, ast.Call):
        call_task(body, node, [key])
    elif not kind.type.is_scalar:
        body.fail(f"a container can't be copied: set members, {key}[..] = .., or the result of a task", node)
    elif found.form == "value":
        register = value(body, node, kind.type)
        body.code.put("STORE", body.spend(key).register, register)
        body.values.release(register)
    else:
        copied_to(body, read_right(body, node), key)


def _check_output(body: Body, key: str, target: ast.AST) -> None:
    """Raises the error of an output that this function doesn't have."""
    outputs = [f"out.{it.name}" for it in body.function.parameters if it.is_out]
    if key not in outputs:
        body.fail(f"{key} is no output of {body.function.name}; its outputs: {', '.join(outputs) or 'none'}", target)


def insert(body: Body, over: ast.expr, subscript: ast.expr, member: ast.expr) -> None:
    """Sets a member of a container or a value of a map; it is refused if the subscript has one."""
    key = write_key(body, over)
    kind = body.now.rights[key].type
    if kind.is_scalar:
        body.fail(f"{body.source.shown(over)} is no container", over)
    if kind.is_sums:
        body.fail(f"values of a Sum are added to: {body.source.shown(over)}[..] += ..", over)
    at = value(body, subscript, kind.subscript)
    cause = (f"the subscript {body.source.shown(subscript)} may be taken", _as_check(body, over, subscript, member))
    if kind.is_map:
        found = value(body, member, kind.member)
        body.code.put("MINS", body.now.rights[key].register, at, found, body.refused(*cause))
        body.values.release(found)
    else:
        source = _member_right(body, member, kind.member)
        label = body.refused(*cause)
        body.code.put("INS" if kind.subscript == INT else "TINS", body.now.rights[key].register, at, body.now.rights[source].register, label)
        body.spend(source)
    body.values.release(at)


def _as_check(body: Body, over: ast.expr, subscript: ast.expr, member: ast.expr) -> str:
    """Returns the advice to set a member in a condition."""
    words = ", ".join(map(body.source.shown, (over, subscript, member)))
    return f"write `if check(insert({words})):`"


def _member_right(body: Body, node: ast.expr, kind: DataType) -> str:
    found = kind_of(body, node)
    if found.type != kind:
        body.fail(f"the members are {kind}, and {body.source.shown(node)} is {found.type}", node)
    if found.form == "value":
        key = body.new_key()
        stored(body, node, key, kind, "member")
        return key
    return read_right(body, node)


def _expression(body: Body, node: ast.Expr) -> None:
    if isinstance(node.value, ast.Constant) and isinstance(node.value.value, str):
        return
    if called(node.value) in body.source.functions and isinstance(node.value, ast.Call):
        function = body.source.functions[called(node.value) or ""]
        call_task(body, node.value, [None] * len(function.results))
    elif called(node.value) == "insert":
        _insert_call(body, node.value)
    else:
        advice = advice_on(node.value)
        body.fail(f"{body.source.shown(node.value)} does nothing here{': ' + advice if advice else ''}", node.value)


def _insert_call(body: Body, node: ast.expr) -> None:
    if not isinstance(node, ast.Call) or len(node.args) != 3 or node.keywords:
        body.fail("insert takes a container or a map, a subscript, and a member or a value", node)
    insert(body, *node.args)


@dataclass
class _Way:
    """The first way of an `if`: its state at the end, after how many lines that is, and the label after both ways."""

    node: ast.If
    state: Optional[State]
    at: int
    done: str


def _if(body: Body, node: ast.If) -> None:
    """Compiles `if .. elif .. else` from the top, and joins the ways from the bottom."""
    ways = [_first_way(body, node)]
    while node.orelse and isinstance(node.orelse[0], ast.If) and is_elif(node, node.orelse[0]):
        node = node.orelse[0]
        _begin(body, node)
        ways.append(_first_way(body, node))
    block(body, node.orelse)
    for way in reversed(ways):
        _join(body, way)


def _first_way(body: Body, node: ast.If) -> _Way:
    yes, no, done = body.new_label("then"), body.new_label("else"), body.new_label("end_if")
    if called(node.test) == "check":
        otherwise = _check(body, node.test, yes, no)
    else:
        branch(body, node.test, yes, no)
        otherwise = body.now.copy()
    body.code.label(yes)
    block(body, node.body)
    way = _Way(node, body.state, len(body.code.lines), done)
    body.state = otherwise
    body.code.label(no)
    return way


def _join(body: Body, way: "_Way") -> None:
    """Makes both ways of an `if` hold the same rights: each drops what the other doesn't hold."""
    body.node = way.node
    then, at_then, done, other = way.state, way.at, way.done, body.state
    if then is None or other is None:
        if then is not None:
            _put_at(body, at_then, then, then, done)
            body.state = then
            body.code.label(done)
        return
    rights = {key: it for key, it in then.rights.items() if key in other.rights}
    common = State(then.assigned & other.assigned, rights, {**then.outputs, **other.outputs})
    body.come_home(common)
    _put_at(body, at_then, then, common, done)
    body.code.label(done)
    common.assigned = {it for it in common.assigned if it in common.rights or not _is_future(body, it)}
    body.state = common


def _is_future(body: Body, key: str) -> bool:
    kind = body.kinds.found.get(key)
    return kind is not None and kind.form == "future"


def _put_at(body: Body, at: int, state: State, home: State, done: str) -> None:
    """Ends the first way of an `if`, before the lines of the second."""
    after = body.code.lines[at:]
    del body.code.lines[at:]
    body.state = state.copy()
    body.come_home(home)
    body.code.put("JMP", done)
    body.code.lines.extend(after)


def _check(body: Body, node: ast.expr, yes: str, no: str) -> State:
    """Compiles `check(..)`: a refused instruction in it leads to the else. Returns the state there."""
    assert isinstance(node, ast.Call)
    if not node.args or node.keywords:
        body.fail("check takes expressions: what may be refused", node)
    failing = body.begin_failing(by_cause=False)
    for it in node.args:
        _attempt(body, it)
    body.failing.pop()
    if not failing.pads:
        body.fail(f"nothing in {body.source.shown(node)} can be refused", node)
    body.code.put("JMP", yes)
    otherwise = body.shrink_home(failing)
    body.put_pads(failing.pads.values(), otherwise, no)
    return otherwise


def _attempt(body: Body, node: ast.expr) -> None:
    if isinstance(node, ast.NamedExpr):
        assign_to(body, node.target, node.value)
    elif called(node) == "insert":
        _insert_call(body, node)
    elif isinstance(node, ast.Subscript) and not isinstance(node.slice, ast.Slice):
        key = body.new_key()
        look(body, node, key)
        body.drop(key)
    else:
        body.values.release(value(body, node))


def _return(body: Body, node: ast.Return) -> None:
    given = _set_results(body, node)
    if body.loops:
        home = body.loops[-1]
        home.return_sets.append(set(body.now.assigned))
        turn_ends(body, RETURN)
    else:
        ends(body, given)


def _set_results(body: Body, node: ast.Return) -> Dict[str, str]:
    """Sets the results; returns the registers of those that are values, unless a loop continues after them: then each has its own."""
    given: Dict[str, str] = {}
    names = body.function.result_names if body.function.results else ()
    if node.value is None or not names:
        if node.value is not None or names:
            body.fail(f"{body.function.name} has {len(names) or 'no'} results", node)
        return given
    is_alias = isinstance(node.value, ast.Name) and node.value.id in body.aliases
    if body.loops and not is_alias and any(body.kinds.found[f"out.{it}"].form != "value" for it in names):
        body.fail("a result that is known later, of a task or a member, can't be returned in a loop: set a variable there, and return that after the loop")
    if len(names) > 1 and isinstance(node.value, ast.Call) and called(node.value) in body.source.functions:
        call_task(body, node.value, [f"out.{it}" for it in names])
        return given
    items = node.value.elts if isinstance(node.value, ast.Tuple) else [node.value]
    if len(items) != len(names):
        body.fail(f"{body.function.name} has {len(names)} results, {len(items)} are returned", node)
    for name, it in zip(names, items):
        kind = body.kinds.found[f"out.{name}"]
        if kind.form == "value" and not body.loops:
            given[f"out.{name}"] = value(body, it, kind.type)
        elif not (isinstance(it, ast.Name) and it.id in body.aliases):
            set_output(body, f"out.{name}", it, it)
    return given


def ends(body: Body, given: Optional[Dict[str, str]] = None) -> None:
    """Writes the end of a task: outputs that are values are stored, and all rights dropped."""
    given = given or {}
    for it in body.function.outputs:
        key = f"out.{it.name}"
        if not it.type.is_scalar or key not in body.now.rights:
            continue
        if key not in body.now.assigned and key not in given:
            body.fail(f"{'the result' if it.name.startswith('result') and body.function.results else key} may be unset at the end of {body.function.name}: set it on each way")
        body.code.put("STORE", body.spend(key).register, given.get(key) or body.variable(key))
    for register in given.values():
        body.values.release(register)
    let_go(body)


def _break(body: Body, node: ast.Break) -> None:
    turn_ends(body, BREAK)


def _continue(body: Body, node: ast.Continue) -> None:
    turn_ends(body, 0)


def _loop(body: Body, node: AnyLoop) -> None:
    loop(body, node, block, ends)


def _pass(body: Body, node: ast.Pass) -> None:
    return


_Compile = Callable[[Body, ast.stmt], None]
_STATEMENTS: Dict[Type[ast.stmt], _Compile] = {
    ast.Assign: _assign,  # type: ignore[dict-item]
    ast.AnnAssign: _annotated,  # type: ignore[dict-item]
    ast.AugAssign: _augmented,  # type: ignore[dict-item]
    ast.Expr: _expression,  # type: ignore[dict-item]
    ast.If: _if,  # type: ignore[dict-item]
    ast.For: _loop,  # type: ignore[dict-item]
    ast.While: _loop,  # type: ignore[dict-item]
    ast.Return: _return,  # type: ignore[dict-item]
    ast.Break: _break,  # type: ignore[dict-item]
    ast.Continue: _continue,  # type: ignore[dict-item]
    ast.Pass: _pass,  # type: ignore[dict-item]
}
__all__ = ["block", "ends"]
