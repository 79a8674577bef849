# SPDX-License-Identifier: Apache-2.0
"""Loads programs from texts, bytes and files. Whatever is wrong with a stranger's program is `Refused`."""

from __future__ import annotations

import os
import re
from functools import lru_cache
from pathlib import Path
from typing import Optional, Union

from . import _native
from ._commands import BytesLike, ask, refused, texted
from ._errors import Refused
from ._inputs import shown
from ._listing import Needs
from ._program import Program, program_of

Source = Union[str, bytes, bytearray, memoryview, "os.PathLike[str]"]
_MOST_TEXT = 16_777_216


def _needs_of(verdict: _native.Verdict) -> Needs:
    return Needs(verdict.engines, verdict.workers)


def _explained(verdict: _native.Verdict, words: list[str], source: bytes) -> Exception:
    """Returns the error of a text that isn't accepted, with the diagnostic that a command writes."""
    try:
        ask(words, source, _native.is_long_source(source))
    except Refused as why:
        if verdict.letter == "N" and verdict.column:  # the text of an error of names has no column
            why.column = verdict.column
        return why
    return refused(verdict)


def load_text(text: Union[str, BytesLike]) -> Program:
    """Loads and verifies a program in assembly text or symbolic assembly, given as a str or as its UTF-8. Raises Refused if it isn't accepted,
    whatever is in it.

    >>> load_text("RET")
    Traceback (most recent call last):
    ...
    yuglemit.Refused: refused A01 at line 1
    RET
    word 1, column 1: expected proc or version, found RET
    """
    if not isinstance(text, (str, bytes, bytearray, memoryview)):
        raise TypeError(f"expected a program's text as a str or bytes, got {shown(text)}")
    data = texted(text) if isinstance(text, str) else bytes(text)
    if len(data) > _MOST_TEXT:
        raise Refused("refused H02\n")
    verdict, kept = _native.load(data, "t")
    if kept is None:
        raise _explained(verdict, ["check", "--text"], data)
    return program_of(kept, _needs_of(verdict), text if isinstance(text, str) else data.decode(), None)


def load_bytes(code: BytesLike) -> Program:
    """Loads and verifies the bytes of a program. Raises Refused if they aren't accepted."""
    if not isinstance(code, (bytes, bytearray, memoryview)):
        raise TypeError(f"expected a program's bytes, got {shown(code)}; load_text takes assembly text")
    data = bytes(code)
    verdict, kept = _native.load(data, "b")
    if kept is None:
        raise refused(verdict)
    return program_of(kept, _needs_of(verdict), None, data)


def _load_hex(data: bytes) -> Program:
    """Loads a program from hex text."""
    if len(data) > _MOST_TEXT:
        raise Refused("refused H02\n")
    digits = re.sub(rb"[ \t\r\n]", b"", data)
    if len(digits) % 2 or re.search(rb"[^0-9A-Fa-f]", digits):
        raise Refused("refused H01\n")
    return load_bytes(bytes.fromhex(digits.decode("ascii")))


@lru_cache(maxsize=64)
def loaded_again(code: Optional[bytes], source: Optional[str]) -> Program:
    """Loads a program that came from another process; one process verifies it once."""
    return load_bytes(code or b"") if source is None else load_text(source)


def _is_hex(path: Path, data: bytes) -> bool:
    """Returns whether a file holds hex text, as `tw` reads it: by its name, or by its first six digits."""
    first = re.sub(rb"[ \t\r\n]", b"", data[:64])[:6]
    return path.suffix.lower() in (".hex", ".history") or first == b"545742"


def _load_python(path: Path) -> Union[Program, Exception]:
    """Compiles a file, or returns the compiler's error, which `load` raises: so its own frame is the only one after the user's."""
    from .build import BuildError, build_file

    try:
        return build_file(path).program
    except BuildError as why:
        return why.with_traceback(None)


def _load_file(path: Path) -> Program:
    data = path.read_bytes()
    if path.suffix.lower() not in (".tw", ".twn"):
        if data[:3] == b"TWB":
            return load_bytes(data)
        if _is_hex(path, data):
            return _load_hex(data)
    return load_text(data)


def _load_str(text: str) -> Program:
    """Loads a text. If it is one word, which no program is, the error says how a file is loaded."""
    try:
        return load_text(text)
    except Refused as why:
        if text and not re.search(r"\s", text):
            raise Refused(f"{why.text}this is no program's text; load(pathlib.Path(..)) loads a file\n") from None
        raise


def load(source: Source) -> Program:
    """Loads a program, and verifies it: from a path (assembly text, hex text, bytes, or a Python file that `yuglemit.build` compiles), from
    its assembly text (str), or from its bytes. Raises Refused if it isn't accepted. For a stranger's program `load_text` and `load_bytes` say which
    it is.

    >>> load("proc control write int\\nregs int\\nINT v0 7\\nRET\\n")
    Traceback (most recent call last):
    ...
    yuglemit.Refused: refused V10 in procedure 0 at place 1
    at line 4: RET
    d0 holds write int, required: empty
    """
    if isinstance(source, str):
        return _load_str(source)
    if isinstance(source, (bytes, bytearray, memoryview)):
        return load_bytes(source)
    if isinstance(source, os.PathLike):
        path = Path(source)
        made = _load_python(path) if path.suffix.lower() == ".py" else _load_file(path)
        if isinstance(made, Exception):
            raise made from None
        return made
    raise TypeError(f"expected a path, a str or bytes, got {shown(source)}")
