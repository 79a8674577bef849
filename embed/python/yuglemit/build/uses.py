# SPDX-License-Identifier: Apache-2.0
"""Where a function reads its variables: after the last use of a result, its right is given away."""

from __future__ import annotations

import ast
from collections import Counter
from typing import Dict, List, Tuple

from .kinds import name_of


class Uses:
    """The uses of a function's variables, each statement read once."""

    def __init__(self, function: ast.FunctionDef) -> None:
        self._last: Dict[str, Tuple[int, int]] = {}
        self._counts: Dict[ast.AST, Dict[str, int]] = {}
        for it in _loads(function):
            self._last[it.id] = max(self._last.get(it.id, (0, 0)), (it.lineno, it.col_offset))

    def count(self, statement: ast.AST, name: str) -> int:
        """Returns how often a statement reads a name."""
        if statement not in self._counts:
            self._counts[statement] = Counter(it.id for it in _loads(statement))
        return self._counts[statement].get(name, 0)

    def is_last(self, node: ast.Name) -> bool:
        """Says whether nothing after this use reads the name."""
        return self._last.get(node.id, (0, 0)) <= (node.lineno, node.col_offset)


def _loads(node: ast.AST) -> List[ast.Name]:
    return [it for it in ast.walk(node) if isinstance(it, ast.Name) and isinstance(it.ctx, ast.Load)]


def is_set_by(statement: ast.AST, name: str) -> bool:
    """Says whether a statement is an assignment to this name."""
    return isinstance(statement, ast.Assign) and any(name_of(it) == name for it in statement.targets)
