# SPDX-License-Identifier: Apache-2.0
"""Runs a builder's file as Python: its text is Python's own, only that ints have 64 bits, texts 4,096 bytes, a call in a control function is a task,
and `if check(..)` is try and except. Tasks run when what they wait for is there."""

from __future__ import annotations

import ast
from copy import copy
from functools import lru_cache
from traceback import extract_tb
from types import CodeType
from typing import Any, Callable, Dict, Iterable, Iterator, List, Optional, Sequence, Tuple, TypeVar, Union

from random_programs import PARTS, Number, Overflow, Parts, Word, read_int, word

Subscript = Union[int, str]
Item = TypeVar("Item")


class Future:
    """A result that is known later, or never. One that is set to another has that one's value."""

    def __init__(self, value: Any = None) -> None:
        self.source: Any = value

    @property
    def value(self) -> Any:
        return self.source.value if isinstance(self.source, Future) else self.source


class Box:
    """A container: it is complete when nobody may write it any more."""

    def __init__(self) -> None:
        self.members: Dict[Subscript, Future] = {}
        self.writers = 1

    def __setitem__(self, subscript: Subscript, member: Any) -> None:
        if subscript in self.members:
            raise Overflow
        self.members[subscript] = member if isinstance(member, Future) else Future(member)

    def __getitem__(self, subscript: Subscript) -> Future:
        if subscript not in self.members:
            raise Overflow
        return self.members[subscript]

    def __contains__(self, subscript: Subscript) -> bool:
        return subscript in self.members

    def __iter__(self) -> Iterator[Subscript]:
        return _at_most(map(_plain, self.order()), 1000)

    def order(self) -> List[Subscript]:
        return sorted(self.members, key=lambda it: it.encode() if isinstance(it, str) else it)


def _at_most(items: Iterable[Item], most: int) -> Iterator[Item]:
    """Yields items, and is refused if more are left. Above 1,000 the bound is the next thousand."""
    for number, it in enumerate(items):
        if number == (most if most <= 1000 else -(-most // 1000) * 1000):
            raise Overflow
        yield it


class Range:
    """A range of ints."""

    def __init__(self, *numbers: int) -> None:
        self.numbers = range(*map(int, numbers))

    def __iter__(self) -> Iterator[Any]:
        return _at_most(map(Number, self.numbers), 100_000)


def _plain(value: Any) -> Any:
    return Number(value) if isinstance(value, int) else Word(value)


class Outputs:
    """Is `out` of a function that runs. An int or a text is stored at its end, and the result of a task at once."""

    _scalars: Dict[str, Future]
    _at_end: Dict[str, Any]

    def __init__(self, boxes: Dict[str, Box], scalars: Dict[str, Future]) -> None:
        self.__dict__.update(boxes)
        self.__dict__["_scalars"] = scalars
        self.__dict__["_at_end"] = {}

    def __setattr__(self, name: str, value: Any) -> None:
        if isinstance(value, Future):
            self._scalars.pop(name).source = value
        else:
            self._at_end[name] = value

    def store(self) -> None:
        for name, value in self._at_end.items():
            self._scalars.pop(name).source = value


class Function:
    """A function of the file: a call of it is a task."""

    machine: "Machine"

    def __init__(self, node: ast.FunctionDef) -> None:
        self.name = node.name
        called = [it.func.id if isinstance(it, ast.Call) else it.id for it in node.decorator_list]  # type: ignore[attr-defined]
        self.is_leaf = called == ["leaf"]
        keywords = node.decorator_list[0].keywords if isinstance(node.decorator_list[0], ast.Call) else []
        self.otherwise = ast.unparse(keywords[0].value) if keywords else "()"
        self.outs = {it.arg: ast.unparse(it.annotation)[4:-1] for it in node.args.args if it.annotation and ast.unparse(it.annotation).startswith("Out[")}
        self.plain = [it.arg for it in node.args.args if it.arg not in self.outs]
        self.parameters = [it.arg for it in node.args.args]
        returned = ast.unparse(node.returns) if node.returns else ""
        self.results = returned[6:-1].split(", ") if returned.startswith("tuple[") else [returned] if returned and returned != "None" else []

    def __call__(self, *arguments: Any, **_: int) -> Any:
        results = [Box() if "[" in it else Future() for it in self.results]
        given = dict(zip(self.parameters, arguments))
        for name in self.outs:
            if isinstance(given[name], Box):
                given[name].writers += 1
        self.machine.waiting.append(Task(self, given, results))
        return results[0] if len(results) == 1 else tuple(results) if results else None


class Task:
    """A call that waits until its arguments are known and complete."""

    def __init__(self, function: Function, given: Dict[str, Any], results: Sequence[Any]) -> None:
        self.function, self.given, self.results = function, given, results

    @property
    def may_run(self) -> bool:
        its = [self.given[name] for name in self.function.plain]
        return all(it.writers == 0 if isinstance(it, Box) else it.value is not None if isinstance(it, Future) else True for it in its)

    def run(self) -> None:
        machine, function = self.function.machine, self.function
        plain = [it.value if isinstance(it, Future) else it for it in (self.given[name] for name in function.plain)]
        boxes = {name: self.given[name] for name in function.outs if isinstance(self.given[name], Box)}
        scalars = {name: self.given[name] for name in function.outs if isinstance(self.given[name], Future)}
        names = function.results
        results = dict(zip((f"result_{number}" for number in range(len(names))), self.results))
        out = Outputs(boxes, {**scalars, **{it: its for it, its in results.items() if isinstance(its, Future)}})
        machine.made.append([])
        try:
            returned = machine.names[function.name](out, *plain)
            for name, value in zip(results, returned if len(names) > 1 else (returned,)):
                self._return(out, name, results[name], value)
            out.store()
            machine.close([*boxes.values(), *machine.made.pop()])
        except Overflow as why:
            held = [*boxes.values(), *machine.made.pop(), *(it for it in results.values() if isinstance(it, Box))]
            futures = [*scalars.values(), *(it for it in results.values() if isinstance(it, Future))]
            if function.is_leaf and futures:
                otherwise = eval(function.otherwise, machine.names)
                for value, future in zip(otherwise if isinstance(otherwise, tuple) else (otherwise,), futures):
                    future.source = _plain(value)
                machine.close(held)
            elif held or out._scalars:
                machine.is_stuck = True
                machine.refused.append([it.lineno or 0 for it in extract_tb(why.__traceback__) if it.filename == "<run>"][-1])

    def _return(self, out: Outputs, name: str, result: Any, value: Any) -> None:
        if isinstance(result, Box):
            result.members = value.members
            self.function.machine.aliases.append((result, value))
        else:
            setattr(out, name, value)


@lru_cache(maxsize=1)
def _read(text: str) -> Tuple[List[Function], CodeType]:
    """Returns the functions of a file, and what Python runs."""
    tree = ast.parse(text)
    functions = {it.name: Function(it) for it in tree.body if isinstance(it, ast.FunctionDef)}
    return list(functions.values()), compile(ast.fix_missing_locations(_AsPython(functions).visit(tree)), "<run>", "exec")


class Machine:
    """A run of a file."""

    def __init__(self, text: str) -> None:
        functions, code = _read(text)
        self.names: Dict[str, Any] = dict(_NAMES)
        self.waiting: List[Task] = []
        self.made: List[List[Box]] = []
        self.aliases: List[Tuple[Box, Box]] = []
        self.is_stuck = False
        self.refused: List[int] = []
        self.functions = {it.name: copy(it) for it in functions}
        for it in self.functions.values():
            it.machine = self
        self.names["Array"] = self.names["Table"] = _Maker(self)
        exec(code, self.names)
        self.names.update({f"task_{name}": it for name, it in self.functions.items()})

    def close(self, boxes: Sequence[Box]) -> None:
        for box in boxes:
            box.writers -= 1
        for result, value in self.aliases:
            result.writers = value.writers

    def run(self, inputs: Sequence[Any]) -> Tuple[str, List[Any]]:
        """Runs main; returns how the run ends, and its outputs."""
        main = self.functions["main"]
        outs: List[Any] = [Box() if "[" in it else Future() for it in main.outs.values()]
        plain = dict(zip(main.plain, map(_as_input, inputs)))
        main(*(plain.get(name) if name in plain else outs[list(main.outs).index(name)] for name in main.parameters))
        self.close([it for it in outs if isinstance(it, Box)])
        while any(it.may_run for it in self.waiting):
            task = next(it for it in self.waiting if it.may_run)
            self.waiting.remove(task)
            task.run()
        return ("stuck" if self.is_stuck or self.waiting else "quiet"), [_reported(it) for it in outs]


def _as_input(value: Any) -> Any:
    if not isinstance(value, dict):
        return _plain(value)
    box = Box()
    for subscript, member in value.items():
        box[subscript] = _plain(member)
    box.writers = 0
    return box


def _reported(it: Any) -> Any:
    if isinstance(it, Box):
        return {subscript: _reported(it.members[subscript]) for subscript in it.order()}
    return None if it.value is None else int(it.value) if isinstance(it.value, int) else str(it.value)


class _Maker:
    """Array and Table: `Array[Int]()` makes a container, which the function that is running may write."""

    def __init__(self, machine: Machine) -> None:
        self.machine = machine

    def __getitem__(self, _: Any) -> Callable[[], Box]:
        def make() -> Box:
            self.machine.made[-1].append(Box())
            return self.machine.made[-1][-1]

        return make


def _each(over: Union[Box, Range, Iterator[Word]], most: int) -> Iterator[Any]:
    if not isinstance(over, Box):
        return _at_most(map(Number, over.numbers) if isinstance(over, Range) else over, most)
    return _at_most([(_plain(it), over.members[it]) for it in over.order()], most)


def _nth(box: Box, index: int) -> Any:
    if not 0 <= index < len(box.members):
        raise Overflow
    return _plain(box.order()[index])


def _insert(box: Box, subscript: Subscript, member: Any) -> None:
    box[subscript] = member


_NAMES: Dict[str, Any] = {
    **PARTS, "Overflow": Overflow, "N": Number, "W": word, "int": read_int, "str": lambda it: word(str(it)), "abs": lambda it: abs(Number(it)), "min": min, "max": max,
    "range": Range, "byte_length": lambda it: Number(len(it.encode())), "len": lambda it: Number(len(it.members)),
    "each": _each, "nth": _nth, "insert": _insert, "Int": int, "Text": str,
}


class _AsPython(Parts):
    """Makes a file's text what Python runs."""

    def __init__(self, functions: Dict[str, Function]) -> None:
        self.functions, self.inside = functions, False

    def visit_ImportFrom(self, node: ast.ImportFrom) -> Optional[ast.stmt]:
        return None

    def visit_AnnAssign(self, node: ast.AnnAssign) -> ast.stmt:
        assert node.value is not None
        return ast.Assign([node.target], self.visit(node.value))

    def visit_FunctionDef(self, node: ast.FunctionDef) -> ast.stmt:
        function = self.functions[node.name]
        node.decorator_list, node.returns = [], None
        node.args.args = [ast.arg("out"), *(ast.arg(it) for it in function.plain)]
        node.body = [its for it in node.body for its in _listed(self.visit(it))]
        return node

    def visit_Constant(self, node: ast.Constant) -> ast.expr:
        if type(node.value) not in (int, str):
            return node
        return ast.Call(ast.Name("N" if isinstance(node.value, int) else "W", ast.Load()), [node], [])

    def visit_JoinedStr(self, node: ast.JoinedStr) -> ast.expr:
        parts = [self.visit(it.value) if isinstance(it, ast.FormattedValue) else it for it in node.values]
        inner = ast.JoinedStr([it if isinstance(it, ast.Constant) else ast.FormattedValue(it, -1) for it in parts])
        return ast.Call(ast.Name("W", ast.Load()), [inner], [])

    def visit_Call(self, node: ast.Call) -> ast.expr:
        self.generic_visit(node)
        if isinstance(node.func, ast.Name) and node.func.id in self.functions:
            node.func.id = f"task_{node.func.id}"
        return node

    def visit_If(self, node: ast.If) -> Any:
        self.generic_visit(node)
        if not (isinstance(node.test, ast.Call) and isinstance(node.test.func, ast.Name) and node.test.func.id == "check"):
            return node
        tried: List[ast.stmt] = [
            ast.Assign([ast.Name(it.target.id, ast.Store())], it.value) if isinstance(it, ast.NamedExpr) and isinstance(it.target, ast.Name) else ast.Expr(it)
            for it in node.test.args
        ]
        refused = ast.ExceptHandler(ast.Name("Overflow", ast.Load()), None, [_set_ok(False)])
        return [ast.Try([*tried, _set_ok(True)], [refused], [], []), ast.If(ast.Name("is_ok", ast.Load()), node.body, node.orelse)]


def _set_ok(value: bool) -> ast.stmt:
    return ast.Assign([ast.Name("is_ok", ast.Store())], ast.Constant(value))


def _listed(found: Any) -> List[ast.stmt]:
    return found if isinstance(found, list) else [] if found is None else [found]
