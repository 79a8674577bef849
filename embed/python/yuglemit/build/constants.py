# SPDX-License-Identifier: Apache-2.0
"""Constants: expressions of ints, texts and other constants are computed before the program runs, within 64 bits and 4,096 bytes."""

from __future__ import annotations

import ast
from typing import Callable, Dict, List, NoReturn, Optional, Union

Constant = Union[int, str]
MOST_TEXT = 4096
_Fail = Callable[[ast.AST, str], NoReturn]


def fits(number: int) -> bool:
    """Says whether an int has 64 bits."""
    return -(2**63) <= number < 2**63


class Constants:
    """The constants of a file, and the values of expressions of them, each computed once."""

    def __init__(self, fail: _Fail) -> None:
        self.named: Dict[str, Constant] = {}
        self._fail = fail
        self._known: Dict[ast.expr, Optional[Constant]] = {}

    def of(self, node: ast.expr) -> Optional[Constant]:
        """Returns the value of an expression, or None if it has others than constants. A step may be 2**63, which only a minus before it makes fit."""
        spine: List[ast.BinOp] = []
        while isinstance(node, ast.BinOp) and node not in self._known:
            spine.append(node)
            node = node.left
        if node not in self._known:
            self._known[node] = self._bounded(node, self._simple(node))
        found = self._known[node]
        for it in reversed(spine):
            right = None if found is None else self.of(it.right)
            found = None if found is None or right is None else self._bounded(it, _joined(it.op, found, right))
            self._known[it] = found
        return found

    def _simple(self, node: ast.expr) -> Optional[Constant]:
        if isinstance(node, ast.Constant) and isinstance(node.value, (int, str)) and not isinstance(node.value, bool):
            return node.value
        if isinstance(node, ast.Name):
            return self.named.get(node.id)
        if isinstance(node, ast.UnaryOp) and isinstance(node.op, ast.USub):
            inner = self.of(node.operand)
            return -inner if isinstance(inner, int) else None
        return None

    def _bounded(self, node: ast.expr, found: Optional[Constant]) -> Optional[Constant]:
        if isinstance(found, int) and abs(found) > 2**63:
            self._fail(node, "the number doesn't fit in 64 bits")
        if isinstance(found, str):
            try:
                size = len(found.encode())
            except UnicodeEncodeError:
                self._fail(node, "the text has half of a character, a lone surrogate")
            if size > MOST_TEXT:
                self._fail(node, f"the text has more than {MOST_TEXT} bytes")
        return found


def _joined(operator: ast.operator, left: Constant, right: Constant) -> Optional[Constant]:
    if isinstance(left, str) and isinstance(right, str) and isinstance(operator, ast.Add):
        return left + right
    if not isinstance(left, int) or not isinstance(right, int):
        return None
    if isinstance(operator, ast.Add):
        return left + right
    if isinstance(operator, ast.Sub):
        return left - right
    if isinstance(operator, ast.Mult):
        return left * right
    if isinstance(operator, ast.Pow) and 0 <= right <= 64:
        return int(left**right)
    if isinstance(operator, ast.FloorDiv) and right:
        return left // right
    if isinstance(operator, ast.Mod) and right:
        return left % right
    return _bits(operator, left, right)


def _bits(operator: ast.operator, left: int, right: int) -> Optional[int]:
    if isinstance(operator, ast.BitAnd):
        return left & right
    if isinstance(operator, ast.BitOr):
        return left | right
    if isinstance(operator, ast.BitXor):
        return left ^ right
    if not isinstance(operator, (ast.LShift, ast.RShift)) or not 0 <= right <= 64:
        return None
    return left << right if isinstance(operator, ast.LShift) else left >> right
