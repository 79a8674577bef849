# SPDX-License-Identifier: Apache-2.0
"""Reads the top level of a file: docstrings, imports, constants and decorated functions. All else is an error, since it wouldn't be run."""

from __future__ import annotations

import ast
from typing import Dict, List, Optional

from .constants import fits
from .reading import parse
from .source import BUILTINS, NEWER, Source, check_name, function_of, otherwise_of

LIBRARY = "yuglemit.build"
_MAY_HAVE = "the top level has docstrings, imports, NAME = constant, and functions with @leaf or @control"
_ADVICE = {
    ast.AugAssign: "a constant is set once: take another name for the new value",
    ast.If: "nothing is chosen here: write the constant that is meant",
    ast.For: "nothing is repeated here: write the constants themselves",
    ast.While: "nothing is repeated here: write the constants themselves",
    ast.Delete: "leave out what isn't used",
    ast.ClassDef: "types are Int, Text, Array[..], Table[..], Map[..] and Sum[..]",
    ast.AsyncFunctionDef: "write def; a call of a task is never waited for",
}


class _TopLevel:
    """The top level that is being read: the names that have a meaning, and where each got it."""

    def __init__(self, source: Source) -> None:
        self.source = source
        self.names: Dict[str, ast.AST] = {}
        self.modules: List[str] = []

    def read(self, node: ast.stmt) -> None:
        if isinstance(node, (ast.Import, ast.ImportFrom)):
            self._import(node)
        elif isinstance(node, ast.FunctionDef):
            self._function(node)
        elif isinstance(node, ast.Assign):
            for target in node.targets:
                self._assign(target, node.value)
        elif isinstance(node, ast.AnnAssign) and node.value is not None:
            self._assign(node.target, node.value)
        elif not (isinstance(node, ast.Expr) and isinstance(node.value, ast.Constant) and isinstance(node.value.value, str)):
            advice = _ADVICE.get(type(node), "nothing here is run: put it into a file of its own")
            self.source.fail(node, f"{self.source.shown(node)} isn't understood here: {_MAY_HAVE}; {advice}")

    def _name(self, node: ast.AST, name: str) -> None:
        check_name(self.source, node, name)
        if name in self.names:
            line = getattr(self.names[name], "lineno", 1)
            self.source.fail(node, f"{name} is set already, by line {line}: a name of the top level is set once, so take another one")
        self.names[name] = node

    def _import(self, node: ast.stmt) -> None:
        assert isinstance(node, (ast.Import, ast.ImportFrom))
        module = node.module if isinstance(node, ast.ImportFrom) else None
        for it in node.names:
            name = it.asname or it.name.partition(".")[0]
            where = it if hasattr(it, "lineno") else node
            if it.name == "*":
                if module != LIBRARY:
                    self.source.fail(where, f"import names, not *, which may be any: only from {LIBRARY} is it understood")
                continue
            if name in BUILTINS | NEWER or module == LIBRARY and it.name in BUILTINS:
                if module != LIBRARY or name != it.name:
                    self.source.fail(where, f"{name} is a word of the language: it is imported from {LIBRARY}, and under its own name")
                continue
            if f"{module}.{it.name}" == LIBRARY or it.name == LIBRARY and it.asname:
                self.modules.append(name)
            if not isinstance(self.names.get(name), (ast.Import, ast.ImportFrom)):
                self._name(node, name)

    def _assign(self, target: ast.expr, value: ast.expr) -> None:
        if isinstance(target, ast.Name):
            self._constant(target, value)
        elif isinstance(target, ast.Tuple) and isinstance(value, ast.Tuple) and len(target.elts) == len(value.elts):
            for it, its in zip(target.elts, value.elts):
                if not isinstance(it, ast.Name) or self.source.constants.of(its) is None:
                    self._refuse(it, its)
            for it, its in zip(target.elts, value.elts):
                self._assign(it, its)
        else:
            self._refuse(target, value)

    def _refuse(self, target: ast.expr, value: ast.expr) -> None:
        if isinstance(target, (ast.Name, ast.Tuple)):
            self.source.fail(value, f"{self.source.shown(value)} is no constant: an int, a text, or an expression of these and of constants above it; {_MAY_HAVE}")
        self.source.fail(target, f"{self.source.shown(target)} can't be set here: {_MAY_HAVE}")

    def _constant(self, target: ast.Name, value: ast.expr) -> None:
        found = self.source.constants.of(value)
        if found is None:
            self._refuse(target, value)
            return
        if isinstance(found, int) and not fits(found):
            self.source.fail(value, "the number doesn't fit in 64 bits")
        self._name(target, target.id)
        self.source.constants.named[target.id] = found

    def _function(self, node: ast.FunctionDef) -> None:
        decorators = [(self._kind(it), it) for it in node.decorator_list]
        if len(decorators) != 1 or decorators[0][0] is None:
            wrong = next((it for kind, it in decorators if kind is None), node)
            self.source.fail(wrong, f"{node.name} needs one decorator: @leaf if it computes, @control if it calls others")
        kind, decorator = decorators[0]
        if kind == "control" and isinstance(decorator, ast.Call):
            otherwise_of(self.source, decorator)
            self.source.fail(decorator, "otherwise is for leaf functions; what a control function doesn't set stays unset: write @control")
        self._name(node, node.name)
        self.source.functions[node.name] = function_of(self.source, node, kind or "", otherwise_of(self.source, decorator))

    def _kind(self, decorator: ast.expr) -> Optional[str]:
        called = decorator.func if isinstance(decorator, ast.Call) else decorator
        name = called.id if isinstance(called, ast.Name) else None
        if isinstance(called, ast.Attribute) and isinstance(called.value, ast.Name) and called.value.id in self.modules:
            name = called.attr
        return name if name in ("leaf", "control") else None


def _check_parameters(source: Source) -> None:
    """Parameters have other names than what the file has, since these would be meant elsewhere in it."""
    for function in source.functions.values():
        for it in function.node.args.args:
            if it.arg in source.functions or it.arg in source.constants.named:
                source.fail(it, f"{it.arg} is a function or a constant of this file: take another name")


def read_source(source: Source, text: str) -> None:
    """Reads a file's text into what is known of the file."""
    top = _TopLevel(source)
    for node in parse(text, source.file).body:
        source.reached = node
        top.read(node)
    _check_parameters(source)
