# SPDX-License-Identifier: Apache-2.0
"""Advice on what Python has and the language hasn't."""

from __future__ import annotations

import ast
from typing import Dict, Optional, Tuple, Type, Union

_LOOP = "a for loop, which adds to a variable or sets members"
_MADE = "Array[..](), Table[..]() or Map[..]() makes a container, and a line for each sets its members"
_FORMS: Dict[Union[Type[ast.AST], Tuple[Type[ast.AST], ...]], str] = {
    (ast.GeneratorExp, ast.ListComp, ast.SetComp, ast.DictComp): f"write {_LOOP}",
    (ast.List, ast.Dict, ast.Set): _MADE,
    ast.Lambda: "write a function with @leaf",
    (ast.Await, ast.Yield, ast.YieldFrom): "a call is a task, and its result is given to another",
    ast.Slice: "a loop over a range reads a part",
}
_CONSTANTS = {float: "numbers are ints", bool: "1 and 0 say whether", type(None): "each name has an int or a text"}
_SMALLEST = "compare in a loop; min and max take two ints"
_CALLS = {
    "sum": "add in a loop: total += value",
    "print": "nothing is printed, an output is set",
    "input": "main's parameters are the inputs",
    "open": "main's parameters are the inputs",
    "list": _MADE,
    "dict": _MADE,
    "set": _MADE,
    "enumerate": "for subscript, member in each(..) has both",
    "zip": "for subscript, value in each(a): and b[subscript] in it",
    "map": f"write {_LOOP}",
    "filter": f"write {_LOOP}",
    "reversed": "range(len(a) - 1, -1, -1) counts down",
    "sorted": "a loop takes members by rising subscript: set one for each under what is to be sorted",
    "any": "write a for loop with break",
    "all": "write a for loop with break",
    "float": "numbers are ints",
    "round": "numbers are ints",
    "bool": "write a comparison, or 1 and 0",
    "pow": "multiply in a loop",
    "divmod": "write // and %",
    "min": _SMALLEST,
    "max": _SMALLEST,
}
_STATEMENTS: Dict[Type[ast.AST], str] = {
    ast.Try: "if check(..): has the ways of what may be refused",
    ast.Raise: "an instruction that is refused ends a task",
    ast.Assert: "write an if",
    ast.FunctionDef: "a function is at the top level",
    ast.With: "there is nothing to close",
    ast.Delete: "a member is set once, and stays",
}


def advice_on(node: ast.AST) -> Optional[str]:
    """Returns what to write in place of an expression that isn't of the language, or None if there is no advice."""
    if isinstance(node, ast.Call) and isinstance(node.func, ast.Name):
        return _CALLS.get(node.func.id)
    if isinstance(node, ast.Call) and isinstance(node.func, ast.Attribute):
        if node.func.attr == "split":
            return "for word in split(text, \" \") takes a text apart"
        return "there are no methods; each(..) has subscripts and members, and out.NAME[..] = .. sets one"
    if isinstance(node, ast.Constant) and not isinstance(node.value, str):
        return _CONSTANTS.get(type(node.value))
    return next((advice for forms, advice in _FORMS.items() if isinstance(node, forms)), None)


def advice_on_statement(node: ast.stmt) -> Optional[str]:
    """Likewise of a statement."""
    return _STATEMENTS.get(type(node))
