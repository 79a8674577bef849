# SPDX-License-Identifier: Apache-2.0
"""Loops: over a range, the members of a container, the values of a map or the words of a text, and `while`. LAST ends the machine's loops, of which each has
its most turns. A loop for which turns are left at its bound is refused there."""

from __future__ import annotations

import ast
from dataclasses import dataclass, replace
from functools import partial
from math import prod
from typing import Callable, List, Optional, Sequence, Tuple, Union

from .body import BREAK, FAILED, RETURN, Again, Body, Cause, Failing, Loop
from .code import Line
from .conditions import branch
from .kinds import called
from .texts import VERSION
from .types import INT, TEXT
from .values import closed_container, kind_of, value

MOST_TURNS = 1000
MOST_VALUES = 100_000
MOST_DEPTH = 4
Block = Callable[[Body, Sequence[ast.stmt]], None]
Ends = Callable[[Body], None]
AnyLoop = Union[ast.For, ast.While]


@dataclass
class _Shape:
    """A loop's iterations, and the register that each raises by a step; with a limit, the loop ends once the counter has reached it. `cut`
    says what is then left, and `held` which registers are the loop's own. Of a loop over words `words` has the text, what is between words, and the place that
    was reached."""

    turns: int
    counter: Optional[str]
    step: int
    limit: str = ""
    cut: str = ""
    held: Tuple[str, ...] = ()
    targets: Tuple[str, ...] = ()
    words: Tuple[str, ...] = ()

    @property
    def before_limit(self) -> Tuple[Optional[str], str]:
        """The operands of the JLT that says whether the counter hasn't reached the limit."""
        return (self.counter, self.limit) if self.step > 0 else (self.limit, self.counter or "")

    @property
    def repeats(self) -> Tuple[int, ...]:
        """The iterations of the machine's loops that make so many turns, or more: one in another if one isn't enough."""
        return (self.turns,) if self.turns <= MOST_TURNS else (-(-self.turns // MOST_TURNS), MOST_TURNS)


def loop(body: Body, node: AnyLoop, block: Block, ends: Ends) -> None:
    """Compiles a `for` or a `while`."""
    if node.orelse:
        body.fail(f"a {'for' if isinstance(node, ast.For) else 'while'} has no else", node.orelse[0])
    shape, begin = _shaped(body, node)
    _check_depth(body, shape)
    flag = body.temporary(INT) if isinstance(node, ast.While) or shape.words or _may_end(node) else ""
    turns = Loop(body.now.copy(), body.new_label("next"), [body.new_label("end") for _ in shape.repeats], flag)
    before, places = len(body.code.lines), set(body.places)
    top = _put_repeats(body, turns, shape)
    body.loops.append(turns)
    failing = body.begin_failing(body.by_cause)
    begin(turns)
    body.now.assigned.update(shape.targets)
    block(body, node.body)
    if body.state is not None:
        _check_outputs(body, turns)
        body.come_home(turns.home)
        body.code.put("JMP", turns.next)
    body.failing.pop()
    body.loops.pop()
    body.code.lines[top:] = _with_pads(body, turns, failing, shape, body.code.lines[top:])
    if turns.is_ended:
        body.code.lines.insert(before, Line(f"INT {turns.flag} 0", body.code.lines[before].place))
    _after(body, node, turns, shape, ends)
    body.forget([it for it in body.places if it not in places])


def _shaped(body: Body, node: AnyLoop) -> Tuple[_Shape, Callable[[Loop], None]]:
    """Returns the shape of a loop, and what writes the begin of a turn."""
    if isinstance(node, ast.While):
        test, shape = node.test, _Shape(_greatest(body, node), None, 1)
        shape.cut = f"{body.source.shown(test)} may still hold after {prod(shape.repeats)} turns, the most of this loop"
        return shape, lambda turns: None if _is_endless(node) else _ends_unless(body, lambda yes, no: branch(body, test, yes, no))
    over, most = _bounded(body, node)
    if called(over) == "range":
        return _counted(body, node, over, most), lambda turns: None
    if called(over) == "split":
        shape = _words(body, node, over, most)
        return shape, lambda turns: _word(body, shape)
    shape = _members(body, node, over, most)
    return shape, partial(_member, body, node, over, shape)


def _is_endless(node: AnyLoop) -> bool:
    """Says whether it is `while True`, which only `break` and `return` end."""
    return isinstance(node, ast.While) and isinstance(node.test, ast.Constant) and node.test.value is True


def _ends_unless(body: Body, test: Callable[[str, str], None]) -> None:
    """Ends the loop unless a test holds, which jumps to one of two labels."""
    there, stop = body.new_label("there"), body.new_label("stop")
    test(there, stop)
    kept = body.now.copy()
    body.code.label(stop)
    turn_ends(body, BREAK)
    body.state = kept
    body.code.label(there)


def _bounded(body: Body, node: ast.For) -> Tuple[ast.expr, Optional[int]]:
    """Returns what a loop is over, and the most turns that each(..) says."""
    if called(node.iter) != "each" or not isinstance(node.iter, ast.Call):
        return node.iter, None
    arguments = [*node.iter.args, *(it.value for it in node.iter.keywords if it.arg == "most")]
    most = body.source.constants.of(arguments[1]) if len(arguments) == 2 else None
    is_right = most is None and len(arguments) == 1 or isinstance(most, int) and 1 <= most <= MOST_VALUES
    if not is_right or len(arguments) != len(node.iter.args) + len(node.iter.keywords):
        body.fail(f"each takes a container, a map or a range, and the most turns, a constant from 1 to {MOST_VALUES}", node.iter)
    return arguments[0], most if isinstance(most, int) else None


def _greatest(body: Body, node: AnyLoop) -> int:
    """Returns how many values a loop takes that doesn't say it: fewer for loops in one another, if the verifier doesn't accept more."""
    nested = bool(body.loops) or any(isinstance(it, (ast.For, ast.While)) for its in node.body for it in ast.walk(its))
    return MOST_TURNS if nested and not body.manner.is_wide else MOST_VALUES


def _check_depth(body: Body, shape: _Shape) -> None:
    if sum(len(it.ends) for it in body.loops) + len(shape.repeats) > MOST_DEPTH:
        if body.manner.is_wide:
            raise Again(replace(body.manner, is_wide=False))
        body.fail(f"at most {MOST_DEPTH} loops in one another; one over more than {MOST_TURNS} values counts as two")


def _put_repeats(body: Body, turns: Loop, shape: _Shape) -> int:
    """Begins the machine's loops, the innermost of which ends once the limit is reached; returns where its first line is."""
    for count in shape.repeats:
        body.code.put("REPEAT", count)
    top = len(body.code.lines)
    if shape.limit:
        there = body.new_label("there")
        body.code.put("JLT", *shape.before_limit, there)
        _put_last(body)
        body.code.put("JMP", turns.end)
        body.code.label(there)
    return top


def _put_last(body: Body) -> None:
    """Makes this turn the last one of the innermost of the machine's loops."""
    body.unit.need(VERSION)
    body.code.put("LAST")


def _with_pads(body: Body, turns: Loop, failing: Failing, shape: _Shape, lines: List[Line]) -> List[Line]:
    """Returns the lines of a turn with the ways of refused instructions, the step to the next turn, and each END."""
    kept = body.code.lines
    body.code.lines = list(lines)
    for number, pads in enumerate(failing.by_causes, FAILED):
        turns.failed.append(pads[0].cause)
        failed = body.new_label("failed")
        body.put_pads(pads, failing.home, failed)
        body.code.label(failed)
        _put_flag(body, turns, number)
        body.code.put("JMP", turns.end)
    if any(turns.next in it.text.split() for it in body.code.lines):
        body.code.label(turns.next)
        _put_step(body, turns, shape)
    body.code.label(turns.end)
    body.code.put("END")
    for end in turns.ends[:-1]:
        _end_outer(body, turns, shape, end)
    made, body.code.lines = body.code.lines, kept
    return made


def _end_outer(body: Body, turns: Loop, shape: _Shape, end: str) -> None:
    """Ends an iteration of a loop around the innermost one: it is the last if the flag is set, or the limit reached."""
    if turns.is_ended:
        zero, unset = body.temporary(INT), body.new_label("unset")
        body.code.put("INT", zero, 0)
        body.code.put("JEQ", turns.flag, zero, unset)
        _put_last(body)
        body.code.label(unset)
        body.values.release(zero)
    if shape.limit:
        body.code.put("JLT", *shape.before_limit, end)
        _put_last(body)
    body.code.label(end)
    body.code.put("END")


def _put_flag(body: Body, turns: Loop, flag: int) -> None:
    """Sets the flag, after which no turn follows."""
    turns.is_ended = True
    body.code.put("INT", turns.flag, flag)
    _put_last(body)


def _put_step(body: Body, turns: Loop, shape: _Shape) -> None:
    """Raises the counter. If that leaves 64 bits, the limit is reached."""
    if shape.counter is None:
        return
    step = body.temporary(INT)
    body.code.put("INT", step, shape.step)
    if shape.limit and abs(shape.step) > 1:
        full = body.new_label("full")
        body.code.put("ADD", shape.counter, shape.counter, step, full)
        body.code.put("JMP", turns.end)
        body.code.label(full)
        body.code.put("COPY", shape.counter, shape.limit)
    else:
        body.code.put("ADD", shape.counter, shape.counter, step, "+0")
    body.values.release(step)


def _may_end(node: AnyLoop) -> bool:
    """Says whether an iteration may end the loop, by its text: then it has a flag, whose register nothing else may use from its begin on."""
    kinds = (ast.Break, ast.Return, ast.BinOp, ast.UnaryOp, ast.AugAssign, ast.Call, ast.Subscript, ast.JoinedStr, ast.For, ast.While)
    return any(isinstance(it, kinds) for statement in node.body for it in ast.walk(statement))


def _constants(body: Body, node: ast.expr) -> Optional[List[int]]:
    """Returns the numbers of a range that are all constants."""
    found = [body.source.constants.of(it) for it in node.args] if called(node) == "range" and isinstance(node, ast.Call) else [None]
    numbers = [it for it in found if isinstance(it, int)]
    return numbers if len(numbers) == len(found) else None


def _after(body: Body, node: AnyLoop, turns: Loop, shape: _Shape, ends: Ends) -> None:
    """Continues after the loop, as its flag says."""
    body.state = turns.home.copy()
    body.state.assigned.difference_update(shape.targets)
    body.state.outputs.update(turns.outputs)
    if turns.return_sets:
        _returns(body, turns, ends)
    for number, cause in enumerate(turns.failed, FAILED):
        _if_flag(body, turns, number, body.refused(cause))
    if shape.cut:
        done = body.new_label("all")
        if turns.is_broken:
            _if_flag(body, turns, BREAK, done)
        where = node.test if isinstance(node, ast.While) else node.iter
        refused = body.refused(Cause(shape.cut, (where.lineno, where.col_offset), ""))
        if isinstance(node, ast.While):
            branch(body, node.test, refused, done)
        elif shape.words:
            start = body.temporary(INT)
            _is_word_left(body, shape, start, refused, done)
            body.values.release(start)
        else:
            body.code.put("JLT", *shape.before_limit, refused)
        body.code.label(done)
    if _is_endless(node) and not turns.is_broken:
        body.state = None
    for it in (*shape.held, turns.flag):
        if it:
            body.values.release(it)


def _if_flag(body: Body, turns: Loop, flag: int, goal: str) -> None:
    """Jumps to a label if the loop ended with this flag."""
    its = body.temporary(INT)
    body.code.put("INT", its, flag)
    body.code.put("JEQ", turns.flag, its, goal)
    body.values.release(its)


def _returns(body: Body, turns: Loop, ends: Ends) -> None:
    returns, on = body.new_label("return"), body.new_label("on")
    _if_flag(body, turns, RETURN, returns)
    body.code.put("JMP", on)
    body.code.label(returns)
    kept = body.now.copy()
    body.now.assigned |= set.intersection(*turns.return_sets)
    if body.loops:
        body.loops[-1].return_sets.append(set(body.now.assigned))
        turn_ends(body, RETURN)
    else:
        ends(body)
    body.state = kept
    body.code.label(on)


def turn_ends(body: Body, flag: int) -> None:
    """Ends the iteration here: jumps to the next one, or with a flag to the END, after which no iteration follows."""
    if not body.loops:
        body.fail("this is for loops")
    turns = body.loops[-1]
    if flag == BREAK:
        turns.is_broken = True
        turns.outputs.update(body.now.outputs)
    if not flag:
        _check_outputs(body, turns)
    body.come_home(turns.home)
    if flag:
        _put_flag(body, turns, flag)
    body.code.put("JMP", turns.end if flag else turns.next)
    body.state = None


def _check_outputs(body: Body, turns: Loop) -> None:
    """Raises the error of an output that this iteration may have set, since another iteration follows."""
    for key, node in body.now.outputs.items():
        if key not in turns.home.outputs:
            body.fail(f"{key} may be set again by the next iteration: set a variable here, and {key} to it after the loop", node)


# --- range


def _counted(body: Body, node: ast.For, over: ast.expr, most: Optional[int]) -> _Shape:
    assert isinstance(over, ast.Call)
    if not 1 <= len(over.args) <= 3 or over.keywords:
        body.fail("range takes one to three ints", over)
    step = body.source.constants.of(over.args[2]) if len(over.args) == 3 else 1
    if not isinstance(step, int) or step == 0 or abs(step) >= 2**63:
        body.fail("the step of a range is a constant, and not 0", over)
    if not isinstance(node.target, ast.Name):
        body.fail("expected one name", node.target)
    _check_kept(body, node, node.target.id)
    numbers = _constants(body, over)
    if numbers is not None:
        return _constant_range(body, node.target.id, over, range(*numbers), most or MOST_VALUES)
    targets = (node.target.id,) if node.target.id != "_" else ()
    limit = body.temporary(INT)
    value(body, over.args[1] if len(over.args) > 1 else over.args[0], INT, limit)
    counter = body.variable(targets[0]) if targets else body.temporary(INT)
    if len(over.args) > 1:
        value(body, over.args[0], INT, counter)
    else:
        body.code.put("INT", counter, 0)
    shape = _Shape(most or _greatest(body, node), counter, step, limit, "", (limit,) if targets else (limit, counter), targets)
    shape.cut = f"{body.source.shown(over)} may have more than {prod(shape.repeats)} numbers, the most of this loop"
    return shape


def _constant_range(body: Body, name: str, node: ast.expr, counted: range, most: int) -> _Shape:
    """Returns the shape of a loop whose turns are known. It has a limit if the machine's loops make more."""
    turns = (counted[-1] - counted.start) // counted.step + 1 if counted else 0  # (len takes no more than a C size)
    if not 1 <= turns <= most:
        body.fail(f"this loop makes 1 to {most} turns, and {body.source.shown(node)} has {turns}: put one loop in another for more", node)
    end = counted.start + counted.step * turns
    if not all(-(2**63) <= it < 2**63 for it in (counted.start, end)):
        body.fail("the numbers of the range don't fit in 64 bits", node)
    if name == "_" and turns <= MOST_TURNS:
        return _Shape(turns, None, 1)
    counter = body.variable(name) if name != "_" else body.temporary(INT)
    body.code.put("INT", counter, counted.start)
    shape = _Shape(turns, counter, counted.step, targets=(name,) if name != "_" else (), held=() if name != "_" else (counter,))
    if turns > MOST_TURNS:
        shape.limit = body.temporary(INT)
        shape.held = (*shape.held, shape.limit)
        body.code.put("INT", shape.limit, end)
    return shape


def _check_kept(body: Body, node: ast.For, name: str) -> None:
    if any(it.name == name for it in body.function.parameters):
        body.fail(f"{name} is a parameter: take another name", node.target)
    if name in body.source.functions or name in body.source.constants.named or name in ("out", "check"):
        body.fail(f"{name} is a function, a constant or a word of the language: take another name", node.target)
    if not name.isascii():
        body.fail(f"{name}: names are ASCII letters, digits and _", node.target)
    for statement in node.body:
        for it in ast.walk(statement):
            if isinstance(it, ast.Name) and it.id == name and isinstance(it.ctx, ast.Store) and name != "_":
                body.fail(f"{name} counts the turns, and can't be set in them", it)


# --- members of a container


def _members(body: Body, node: ast.For, over: ast.expr, most: Optional[int]) -> _Shape:
    register = closed_container(body, over)
    is_map = kind_of(body, over).type.is_map
    size, index = body.temporary(INT), body.temporary(INT)
    shape = _Shape(most or (_greatest(body, node) if is_map else MOST_TURNS), index, 1, size, "", (size, index))
    shape.cut = f"{body.source.shown(over)} may have more than {prod(shape.repeats)} {'values' if is_map else 'members'}, the most of this loop"
    shape.targets = _names(body, node)
    body.code.put("SIZE", size, register)
    body.code.put("INT", index, 0)
    return shape


def _names(body: Body, node: ast.For) -> Tuple[str, ...]:
    targets = node.target.elts if isinstance(node.target, ast.Tuple) else [node.target]
    names = [it.id for it in targets if isinstance(it, ast.Name)]
    if len(names) != len(targets) or len(names) > 2:
        body.fail("expected a name for the subscript, or two for the subscript and the member", node.target)
    for name in names:
        _check_kept(body, node, name)
    if set(names) == {"_"}:
        body.fail("the loop uses neither subscript nor member: range counts turns", node.target)
    return tuple(names)


def _member(body: Body, node: ast.For, over: ast.expr, shape: _Shape, turns: Loop) -> None:
    """Writes the beginning of a turn: its subscript, and the member."""
    kind, register = kind_of(body, over).type, closed_container(body, over)
    by_text = kind.subscript != INT
    subscript, member = (*shape.targets, "_")[:2]
    at = body.variable(subscript) if subscript != "_" else body.temporary(kind.subscript)
    body.code.put("TSUBAT" if by_text else "SUBAT", at, register, shape.counter, turns.next)
    body.unit.need(kind.version)
    if member != "_" and kind.is_map:
        body.code.put("MGET", body.variable(member), register, at, turns.next)
    elif member != "_":
        if body.function.kind == "leaf":
            body.fail("a leaf function can't wait for members: give them to it as arguments", node.target)
        held = body.hold(member, member, "ref", kind.member)
        body.code.put("TLOOK" if by_text else "LOOK", held.register, register, at, turns.next)
    shape.targets = tuple(it for it in shape.targets if it != "_")
    if subscript == "_":
        body.values.release(at)


# --- words of a text


def _words(body: Body, node: ast.For, over: ast.expr, most: Optional[int]) -> _Shape:
    assert isinstance(over, ast.Call)
    if len(over.args) != 2 or over.keywords:
        body.fail("split takes a text, and a text of the signs that are between words", over)
    if not isinstance(node.target, ast.Name) or node.target.id == "_":
        body.fail("expected one name", node.target)
    _check_kept(body, node, node.target.id)
    text, blanks, reached = (body.temporary(it) for it in (TEXT, TEXT, INT))
    value(body, over.args[0], TEXT, text)
    value(body, over.args[1], TEXT, blanks)
    body.code.put("INT", reached, 0)
    body.unit.need(VERSION)
    own = (text, blanks, reached)
    shape = _Shape(most or _greatest(body, node), None, 1, "", "", own, (node.target.id,), own)
    shape.cut = f"{body.source.shown(over)} may have more than {prod(shape.repeats)} words, the most of this loop"
    return shape


def _is_word_left(body: Body, shape: _Shape, start: str, yes: str, no: str) -> None:
    """Finds the place of the next word, and jumps by whether there is one."""
    text, blanks, reached = shape.words
    length = body.temporary(INT)
    body.code.put("LEN", length, text)
    body.code.put("SPAN", start, text, blanks, reached, no)
    body.code.put("JLT", start, length, yes)
    body.code.put("JMP", no)
    body.values.release(length)


def _word(body: Body, shape: _Shape) -> None:
    """Writes the begin of a turn: the next word; without one the loop ends."""
    text, blanks, reached = shape.words
    start = body.temporary(INT)
    _ends_unless(body, lambda yes, no: _is_word_left(body, shape, start, yes, no))
    cause = "a word may begin or end inside of a character"
    body.code.put("UNTIL", reached, text, blanks, start, body.refused(cause))
    body.code.put("SLICE", body.variable(shape.targets[0]), text, start, reached, body.refused(cause))
    body.values.release(start)
