# SPDX-License-Identifier: Apache-2.0
"""Finds the meaning of each variable of a function: one kind and one type throughout the function."""

from __future__ import annotations

import ast
from collections import deque
from typing import Deque, Dict, Iterator, List, Optional, Tuple

from .source import Function, Source, container_type
from .types import INT, TEXT, DataType, Kind, container, future, value

_INT_CALLS = frozenset("len byte_length int abs min max byte find span until muldiv".split())
_SETS = (ast.NamedExpr, ast.Assign, ast.AnnAssign, ast.Return, ast.For)


def name_of(node: ast.expr) -> Optional[str]:
    """Returns the key of a place to which one assigns: a variable's name, or "out.NAME"."""
    if isinstance(node, ast.Name):
        return node.id
    if isinstance(node, ast.Attribute) and isinstance(node.value, ast.Name) and node.value.id == "out":
        return f"out.{node.attr}"
    return None


def called(node: ast.expr) -> Optional[str]:
    """Returns the name of the function that a call calls."""
    return node.func.id if isinstance(node, ast.Call) and isinstance(node.func, ast.Name) else None


def iterated(node: ast.For) -> ast.expr:
    """Returns the container of a loop: the first argument of each(..), or what is there without it."""
    is_each = called(node.iter) == "each" and isinstance(node.iter, ast.Call) and node.iter.args
    return node.iter.args[0] if is_each and isinstance(node.iter, ast.Call) else node.iter


class Kinds:
    """The kinds of a function's variables, outputs among them as "out.NAME"."""

    def __init__(self, source: Source, function: Function) -> None:
        self.source, self.function = source, function
        self.found: Dict[str, Kind] = {}
        self._parameters = {it.name for it in function.parameters}
        self._known: Optional[Dict[ast.expr, Optional[Kind]]] = None
        for it in function.parameters:
            if not it.is_out:
                self.found[it.name] = value(it.type) if it.type.is_scalar else container(it.type)
        for it in function.outputs:
            self.found[f"out.{it.name}"] = value(it.type) if it.type.is_scalar else container(it.type)
        self._find()
        self._known = {}

    def _find(self) -> None:
        """Notes what each statement sets, again whenever the kind of a variable that it reads has changed."""
        waiting: Deque[ast.AST] = deque(it for its in self.function.node.body for it in ast.walk(its) if isinstance(it, _SETS))
        readers: Dict[str, List[ast.AST]] = {}
        for node in waiting:
            for name in _read_by(node):
                readers.setdefault(name, []).append(node)
        queued = set(waiting)
        while waiting:
            node = waiting.popleft()
            queued.discard(node)
            self.source.reached = node
            for key, kind, where in self._set_by(node):
                if not self._note(key, kind, where):
                    continue
                for reader in readers.get(key, ()):
                    if reader not in queued:
                        queued.add(reader)
                        waiting.append(reader)

    def _note(self, key: str, kind: Kind, node: ast.AST) -> bool:
        """Notes that something is set to a kind; says whether that changes its own."""
        known = self.found.get(key)
        if known is None:
            if not key.startswith("out."):
                self.found[key] = kind
            return not key.startswith("out.")
        if known.type != kind.type or "container" in (known.form, kind.form) and known.form != kind.form and not key.startswith("out."):
            self.source.fail(node, f"{self._named(key)} is {known}, and can't be set to {kind}: a name has one type")
        if known.form != "value" or kind.form != "future":
            return False
        if key in self._parameters:
            self.source.fail(node, f"{key} is a parameter: take another name for the result of a task")
        self.found[key] = kind
        return True

    def _named(self, key: str) -> str:
        """Returns the name of a variable, an output or a result in errors."""
        names = [f"out.{it}" for it in self.function.result_names]
        if key not in names:
            return key
        return f"the result of {self.function.name}" if len(names) == 1 else f"result {names.index(key) + 1} of {self.function.name}"

    def _set_by(self, node: ast.AST) -> Iterator[Tuple[str, Kind, ast.AST]]:
        if isinstance(node, ast.NamedExpr):
            yield from self._assigned(node.target, node.value)
        elif isinstance(node, ast.Assign):
            for target in node.targets:
                yield from self._assigned(target, node.value)
        elif isinstance(node, ast.AnnAssign) and node.value is not None:
            yield from self._assigned(node.target, node.value)
        elif isinstance(node, ast.Return) and node.value is not None:
            yield from self._returned(node.value)
        elif isinstance(node, ast.For):
            yield from self._looped(node)

    def _assigned(self, target: ast.expr, node: ast.expr) -> Iterator[Tuple[str, Kind, ast.AST]]:
        if isinstance(target, ast.Tuple) and isinstance(node, ast.Tuple):
            for it, its in zip(target.elts, node.elts):
                yield from self._assigned(it, its)
            return
        if isinstance(target, ast.Tuple):
            function = self.source.functions.get(called(node) or "")
            for it, kind in zip(target.elts, function.results if function else ()):
                key = name_of(it)
                if key:
                    yield key, future(kind), it
            return
        key, kind_found = name_of(target), self.kind_of(node)
        if key and kind_found:
            yield key, kind_found, target

    def _returned(self, node: ast.expr) -> Iterator[Tuple[str, Kind, ast.AST]]:
        names = self.function.result_names
        items = node.elts if isinstance(node, ast.Tuple) else [node]
        function = self.source.functions.get(called(node) or "")
        if function is not None and len(names) > 1:
            for name, kind in zip(names, function.results):
                yield f"out.{name}", future(kind), node
            return
        for name, it in zip(names, items):
            kind_found = self.kind_of(it)
            if kind_found:
                yield f"out.{name}", kind_found, it

    def _looped(self, node: ast.For) -> Iterator[Tuple[str, Kind, ast.AST]]:
        if called(iterated(node)) in ("range", "split"):
            if isinstance(node.target, ast.Name):
                yield node.target.id, value(INT if called(iterated(node)) == "range" else TEXT), node.target
            return
        kind = self.kind_of(iterated(node))
        if kind is None or kind.type.is_scalar:
            return
        targets = node.target.elts if isinstance(node.target, ast.Tuple) else [node.target]
        for it, found in zip(targets, (value(kind.type.subscript), _held_in(kind.type))):
            if isinstance(it, ast.Name) and it.id != "_":
                yield it.id, found, it

    def kind_of(self, node: ast.expr) -> Optional[Kind]:
        """Returns the kind of an expression, or None if a name in it isn't known yet, or it is none."""
        if self._known is None:
            return self._kind_of(node)
        if node not in self._known:
            self._known[node] = self._kind_of(node)
        return self._known[node]

    def _kind_of(self, node: ast.expr) -> Optional[Kind]:
        key = name_of(node)
        if key is not None and key in self.found:
            return self.found[key]
        constant = self.source.constants.of(node)
        if constant is not None:
            return value(INT if isinstance(constant, int) else TEXT)
        if isinstance(node, ast.JoinedStr):
            return value(TEXT)
        if isinstance(node, ast.UnaryOp):
            return value(INT)
        if isinstance(node, ast.BinOp):
            return self._kind_of_operation(node)
        if isinstance(node, ast.IfExp):
            return self.kind_of(node.body) or self.kind_of(node.orelse)
        if isinstance(node, ast.NamedExpr):
            return self.kind_of(node.value)
        if isinstance(node, ast.Subscript):
            kind = self.kind_of(node.value)
            if isinstance(node.slice, ast.Slice):
                return kind if kind and kind.form == "value" and kind.type == TEXT else None
            return _held_in(kind.type) if kind and not kind.type.is_scalar else None
        return self._kind_of_call(node)

    def _kind_of_operation(self, node: ast.BinOp) -> Kind:
        """Returns the kind of `a + b + c`, which its first operand says, or of another operation; all sums in it are of the same kind."""
        if not isinstance(node.op, ast.Add):
            return value(INT)
        sums = [node]
        while isinstance(sums[-1].left, ast.BinOp) and isinstance(sums[-1].left.op, ast.Add) and self.source.constants.of(sums[-1].left) is None:
            sums.append(sums[-1].left)
            if self._known is not None and sums[-1] in self._known:
                break
        first = self.kind_of(sums[-1].left) or self.kind_of(sums[-1].right)
        kind = value(first.type) if first else value(INT)
        if self._known is not None:
            self._known.update(dict.fromkeys(sums, kind))
        return kind

    def _kind_of_call(self, node: ast.expr) -> Optional[Kind]:
        made = container_type(self.source, node)
        if made:
            return container(made)
        name = called(node)
        function = self.source.functions.get(name or "")
        if function is not None:
            return future(function.results[0]) if len(function.results) == 1 else None
        if name in _INT_CALLS:
            return value(INT)
        if name == "str":
            return value(TEXT)
        if name == "nth" and isinstance(node, ast.Call) and node.args:
            kind = self.kind_of(node.args[0])
            return value(kind.type.subscript) if kind and not kind.type.is_scalar else None
        return None


def _held_in(data_type: DataType) -> Kind:
    """Returns the kind of a container's member, or of a map's value."""
    return value(data_type.member) if data_type.is_map else future(data_type.member)


def _read_by(node: ast.AST) -> Iterator[str]:
    """Yields the names that decide what a statement sets."""
    read = iterated(node) if isinstance(node, ast.For) else getattr(node, "value", None)
    if read is not None:
        yield from {it.id for it in ast.walk(read) if isinstance(it, ast.Name)}
