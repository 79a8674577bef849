# SPDX-License-Identifier: Apache-2.0
"""Reads a Python file's text as a tree. The file may be a stranger's: each fault of it is a BuildError, and its size and depth are bounded."""

from __future__ import annotations

import ast
import io
import re
import tokenize
from typing import Dict, List, Tuple

from .errors import BuildError

MOST_BYTES = 262_144
DEEPEST = 100
_COOKIE = re.compile(r"^[ \t\f]*#.*?coding[:=][ \t]*([-\w.]+)")
_NESTED = f"this is nested too deeply: at most {DEEPEST} levels of expressions and blocks are allowed"


def decoded(data: bytes, file: str) -> str:
    """Returns the text of a file's bytes, which are UTF-8."""
    if len(data) > MOST_BYTES:
        raise BuildError(file, 1, 1, f"the file has {len(data)} bytes, and at most {MOST_BYTES} are allowed")
    try:
        return data.decode("utf-8-sig")
    except UnicodeDecodeError as why:
        before = data[: why.start].decode("utf-8-sig")
        raise BuildError(file, *_place(before, len(before)), "the file isn't UTF-8 here") from None


def lines_of(text: str) -> List[str]:
    """Returns the lines of a text, as Python counts them."""
    return text.replace("\r\n", "\n").replace("\r", "\n").split("\n")


def _place(text: str, at: int) -> Tuple[int, int]:
    """Returns the line and the column of a character, from 1."""
    before = lines_of(text[:at])
    return len(before), len(before[-1]) + 1


def _check_characters(text: str, file: str) -> None:
    if len(text) > MOST_BYTES or len(text.encode(errors="surrogatepass")) > MOST_BYTES:
        raise BuildError(file, 1, 1, f"the text has more than {MOST_BYTES} bytes, which are the most")
    for wrong, what in (("\0", "NUL"), ("[\ud800-\udfff]", "half of a character, a lone surrogate")):
        found = re.search(wrong, text)
        if found:
            raise BuildError(file, *_place(text, found.start()), f"the text has {what} here")
    for number, line in enumerate(lines_of(text)[:2], 1):
        cookie = _COOKIE.match(line)
        if cookie and cookie[1].lower().replace("_", "-") not in ("utf-8", "utf8", "ascii", "us-ascii"):
            raise BuildError(file, number, cookie.start(1) + 1, f"{cookie[1][:40]}: a file is read as UTF-8, and can't say otherwise")


def parse(text: str, file: str) -> ast.Module:
    """Returns the tree of a text."""
    _check_characters(text, file)
    return checked(text, file)


def checked(text: str, file: str) -> ast.Module:
    """Returns the tree of a text that is part of a file, or the file itself."""
    try:
        tree = ast.parse(text, file)
    except (RecursionError, MemoryError):
        raise BuildError(file, _deepest_line(text), 1, "this is too long, or nested too deeply, for Python to read it") from None
    except (SyntaxError, ValueError) as why:
        raise _unread(why, text, file) from None
    _check_depth(tree, file, lines_of(text))
    return tree


def _unread(why: Exception, text: str, file: str) -> BuildError:
    """Returns the error of a text that Python can't read; of an int of too many digits it says so in one of two kinds of errors."""
    digits = re.search("[0-9_]{4300,}", text)
    if digits and "digits" in str(why):
        return BuildError(file, *_place(text, digits.start()), "the number doesn't fit in 64 bits")
    if isinstance(why, SyntaxError):
        return BuildError(file, why.lineno or 1, max(why.offset or 1, 1), why.msg)
    return BuildError(file, 1, 1, str(why))


def column_of(line: str, offset: int) -> int:
    """Returns the column, from 1, of a byte of a line."""
    return len(line.encode()[:offset].decode(errors="ignore")) + 1


def _check_depth(tree: ast.Module, file: str, lines: List[str]) -> None:
    """Raises the error at the first node that is nested too deeply. `a + b + c` is one level, as is `if .. elif .. elif`."""
    waiting: List[Tuple[ast.AST, int]] = [(tree, 0)]
    while waiting:
        node, depth = waiting.pop()
        if depth > DEEPEST and hasattr(node, "lineno"):
            raise BuildError(file, node.lineno, column_of(lines[node.lineno - 1], getattr(node, "col_offset", 0)), _NESTED)
        children = list(ast.iter_child_nodes(node))
        waiting.extend((it, depth + (not _is_flat(node, it))) for it in reversed(children))


def _is_flat(node: ast.AST, child: ast.AST) -> bool:
    if isinstance(node, ast.BinOp):
        return child is node.left and isinstance(child, ast.BinOp)
    return is_elif(node, child)


def is_elif(node: ast.AST, child: ast.AST) -> bool:
    """Says whether a node is all that an `if` has in its else."""
    return isinstance(node, ast.If) and isinstance(child, ast.If) and len(node.orelse) == 1 and child is node.orelse[0]


def _deepest_line(text: str) -> int:
    """Returns where the statement with the most tokens begins, or the `if` with the most `elif`; Python doesn't say what is too deep for it."""
    most, found = 0, 1
    chains: Dict[int, Tuple[int, int]] = {}
    tokens: List[tokenize.TokenInfo] = []
    try:
        for token in tokenize.generate_tokens(io.StringIO(text).readline):
            if token.type in (tokenize.NL, tokenize.COMMENT, tokenize.INDENT, tokenize.DEDENT):
                continue
            tokens.append(token)
            if token.type != tokenize.NEWLINE:
                continue
            (line, column), count = tokens[0].start, len(tokens)
            if tokens[0].string == "elif":
                line, count = chains.get(column, (line, 0))[0], chains.get(column, (line, 0))[1] + 1
            if tokens[0].string in ("if", "elif"):
                chains[column] = (line, count if tokens[0].string == "elif" else 0)
            most, found = max((most, found), (count, line), key=lambda it: it[0])
            tokens = []
    except (tokenize.TokenError, SyntaxError, RecursionError, MemoryError):
        pass
    return tokens[0].start[0] if len(tokens) > most else found
