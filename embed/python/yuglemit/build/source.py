# SPDX-License-Identifier: Apache-2.0
"""The contents of a file: its constants, and its functions with their signatures. Nothing of it is run."""

from __future__ import annotations

import ast
from dataclasses import dataclass, field
from typing import Dict, List, NoReturn, Optional, Tuple

from .constants import Constant, Constants
from .errors import BuildError
from .reading import checked, column_of
from .types import CONTAINERS, DEEPEST, INT, MAPS, SCALARS, DataType

MOST_ARGUMENTS = 8
MOST_SHOWN = 60
BUILTINS = frozenset("check each insert nth len byte_length str int abs min max out Array Table Map Sum Int Text Out range leaf control tuple".split())
NEWER = frozenset("byte find span until muldiv split".split())  # a file may have functions of its own with these names


@dataclass(frozen=True)
class Parameter:
    """A parameter: its name, its type, and whether the task writes it."""

    name: str
    type: DataType
    is_out: bool


@dataclass(frozen=True)
class Function:
    """A decorated function: a task's code."""

    name: str
    kind: str
    parameters: Tuple[Parameter, ...]
    results: Tuple[DataType, ...]
    otherwise: Optional[Tuple[Constant, ...]]
    node: ast.FunctionDef

    @property
    def outputs(self) -> Tuple[Parameter, ...]:
        """The outputs of the task: its Out parameters, then its results."""
        named = [it for it in self.parameters if it.is_out]
        return (*named, *(Parameter(it, kind, True) for it, kind in zip(self.result_names, self.results)))

    @property
    def result_names(self) -> Tuple[str, ...]:
        """The names by which its results are known inside."""
        if len(self.results) == 1:
            return ("result",)
        return tuple(f"result_{number}" for number in range(1, len(self.results) + 1))


def printable(text: str) -> str:
    """Returns a text in which blanks are in place of what isn't printable, such as line ends, ESC and marks that reverse the text."""
    return "".join(it if it.isprintable() else " " for it in text)


@dataclass
class Source:
    """The contents of a file; `reached` is the node that is being compiled."""

    file: str
    lines: List[str]
    functions: Dict[str, Function] = field(default_factory=dict)
    reached: Optional[ast.AST] = None

    def __post_init__(self) -> None:
        self.constants = Constants(self.fail)

    def fail(self, node: ast.AST, message: str) -> NoReturn:
        """Raises the error at a node."""
        line = getattr(node, "lineno", 1)
        text = self.lines[line - 1] if line <= len(self.lines) else ""
        raise BuildError(self.file, line, column_of(text, getattr(node, "col_offset", 0)), message)

    def shown(self, node: ast.AST) -> str:
        """Returns the beginning of a node's text, for an error."""
        first, last = getattr(node, "lineno", 1), getattr(node, "end_lineno", 1)
        line = self.lines[first - 1].encode()
        end = getattr(node, "end_col_offset", None) if last == first else None
        text = printable(line[getattr(node, "col_offset", 0) : end].decode(errors="replace").strip())
        return text[:MOST_SHOWN] + ".." if len(text) > MOST_SHOWN or last > first else text


def _type_of(source: Source, node: Optional[ast.expr], where: ast.AST) -> DataType:
    if isinstance(node, ast.Constant) and isinstance(node.value, str):
        return _type_of(source, _in_quotes(source, node, node.value), where)
    if isinstance(node, ast.Name) and node.id in SCALARS:
        return SCALARS[node.id]
    if isinstance(node, ast.Subscript) and isinstance(node.value, ast.Name) and node.value.id in CONTAINERS:
        inner_type = _type_of(source, node.slice, node)
        if inner_type.depth == DEEPEST:
            source.fail(node, f"at most {DEEPEST} of Array and Table in one another")
        return DataType((CONTAINERS[node.value.id], *inner_type.words))
    if isinstance(node, ast.Subscript) and isinstance(node.value, ast.Name) and node.value.id in MAPS:
        return _map_type(source, node, node.value.id == "Sum")
    named = source.shown(node) if node is not None else "nothing"
    advice = {"int": "; Int is that of ints", "str": "; Text is that of texts", "list": "; Array[..] is like a list", "dict": "; Map[..] is like a dict"}
    source.fail(node or where, f"expected a type: Int, Text, Array[..], Table[..], Map[..] or Sum[..], found {named}{advice.get(named.partition('[')[0], '')}")


def _map_type(source: Source, node: ast.Subscript, is_sums: bool) -> DataType:
    """Returns the type of `Map[Int, Text]`, or of `Sum[Text]`."""
    items = node.slice.elts if isinstance(node.slice, ast.Tuple) else [node.slice]
    if len(items) != 2 - is_sums:
        wanted = "the type of its subscripts: Sum[Int] or Sum[Text]" if is_sums else "the types of its subscripts and of its values, such as Map[Int, Text]"
        source.fail(node, f"{'Sum' if is_sums else 'Map'} takes {wanted}")
    types = [_type_of(source, it, node) for it in items]
    for it, found in zip(items, types):
        if not found.is_scalar:
            source.fail(it, f"subscripts and values of a map are Int or Text, and {source.shown(it)} is neither: an Array or a Table has such members")
    return DataType(("map" if types[0] == INT else "tmap", "sum" if is_sums else types[1].words[0]))


def _in_quotes(source: Source, node: ast.expr, text: str) -> ast.expr:
    """Returns the type that a text says, as parts of the node that is the text."""
    try:
        statements = checked(text, source.file).body
    except BuildError:
        statements = []
    if len(statements) != 1 or not isinstance(statements[0], ast.Expr) or isinstance(statements[0].value, ast.Constant):
        source.fail(node, f"{source.shown(node)} is no type")
    for it in ast.walk(statements[0]):
        ast.copy_location(it, node)
    return statements[0].value


def container_type(source: Source, node: ast.expr) -> Optional[DataType]:
    """Returns the type of `Array[..]()`, `Table[..]()`, `Map[..]()` or `Sum[..]()`, or None if the expression is another."""
    if isinstance(node, ast.Call) and isinstance(node.func, ast.Subscript):
        if isinstance(node.func.value, ast.Name) and (node.func.value.id in CONTAINERS or node.func.value.id in MAPS):
            if node.args or node.keywords:
                source.fail(node, "a container begins empty: give no argument")
            return _type_of(source, node.func, node)
    return None


def _parameter(source: Source, argument: ast.arg) -> Parameter:
    annotation = argument.annotation
    if isinstance(annotation, ast.Subscript) and isinstance(annotation.value, ast.Name) and annotation.value.id == "Out":
        return Parameter(argument.arg, _type_of(source, annotation.slice, argument), True)
    if annotation is None:
        source.fail(argument, f"parameter {argument.arg} has no type: {argument.arg}: Int, Text, Array[..], Table[..], Map[..], Sum[..] or Out[..]")
    return Parameter(argument.arg, _type_of(source, annotation, argument), False)


def _results(source: Source, node: ast.FunctionDef) -> Tuple[DataType, ...]:
    returned = node.returns
    if returned is None or isinstance(returned, ast.Constant) and returned.value is None:
        return ()
    if isinstance(returned, ast.Subscript) and isinstance(returned.value, ast.Name) and returned.value.id in ("tuple", "Tuple"):
        items = returned.slice.elts if isinstance(returned.slice, ast.Tuple) else [returned.slice]
        return tuple(_type_of(source, it, node) for it in items)
    return (_type_of(source, returned, node),)


def otherwise_of(source: Source, decorator: ast.expr) -> Optional[Tuple[Constant, ...]]:
    """Returns what a decorator says as `otherwise`, or None if it says nothing."""
    if not isinstance(decorator, ast.Call):
        return None
    if decorator.args or any(it.arg != "otherwise" for it in decorator.keywords):
        source.fail(decorator, "a decorator takes `otherwise` alone, the result if an instruction is refused")
    for it in decorator.keywords:
        items = it.value.elts if isinstance(it.value, ast.Tuple) else [it.value]
        found = [source.constants.of(item) for item in items]
        if any(item is None for item in found):
            source.fail(it.value, "otherwise: expected a constant, or a tuple of constants")
        return tuple(item for item in found if item is not None)
    return None


def function_of(source: Source, node: ast.FunctionDef, kind: str, otherwise: Optional[Tuple[Constant, ...]]) -> Function:
    """Reads the signature of a function."""
    arguments = node.args
    if arguments.vararg or arguments.kwarg or arguments.kwonlyargs or arguments.defaults or arguments.posonlyargs:
        source.fail(node, "parameters have a name and a type, no defaults and no *")
    if getattr(node, "type_params", None):
        source.fail(node, "a function has no type parameters")
    parameters = tuple(_parameter(source, it) for it in arguments.args)
    made = Function(node.name, kind, parameters, _results(source, node), otherwise, node)
    if len(parameters) + len(made.results) > MOST_ARGUMENTS:
        source.fail(node, f"{len(parameters)} parameters and {len(made.results)} results: together at most {MOST_ARGUMENTS}")
    names = [*(it.name for it in parameters), *made.result_names]
    for number, it in enumerate(arguments.args):
        check_name(source, it, it.arg, words=("out", "check"))
        if it.arg in names[number + 1 :]:
            source.fail(it, f"{it.arg} is another parameter or what is returned: take another name")
    _check_otherwise(source, made)
    return made


def _check_otherwise(source: Source, function: Function) -> None:
    scalars = [it for it in function.outputs if it.type.is_scalar]
    if function.otherwise is None:
        return
    fits = len(function.otherwise) == len(scalars)
    if not fits or not all(isinstance(it, int) == (to.type.words == ("int",)) for it, to in zip(function.otherwise, scalars)):
        wanted = ", ".join(str(it.type) for it in scalars) or "(), no constant"
        source.fail(function.node, f"otherwise: expected {wanted}, one for each scalar that it writes")


def check_name(source: Source, node: ast.AST, name: str, words: Tuple[str, ...] = tuple(BUILTINS)) -> None:
    """Raises the error of a name that can't be given to anything here."""
    if name in words:
        source.fail(node, f"{name} is a word of the language: take another name")
    if not name.isascii():
        source.fail(node, f"{name[:MOST_SHOWN]}: names are ASCII letters, digits and _")
