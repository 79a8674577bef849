# SPDX-License-Identifier: Apache-2.0
"""The commands of `tw` that need no loaded program."""

from __future__ import annotations

from typing import Optional, Sequence, Tuple, Union

from . import _native
from ._errors import Refused, Trap
from ._inputs import shown
from ._listing import Needs

BytesLike = Union[bytes, bytearray, memoryview]


def ask(words: Sequence[str], data: bytes, long: bool = False, flag: Optional[_native.Flag] = None) -> str:
    """Returns what a command writes, or raises what it rejects."""
    status, answer = _native.session(words, data, long, flag)
    text = answer.decode()
    if status == 5:
        raise MemoryError("yuglemit: out of memory")
    if status in (1, 2, 6):
        raise (Trap if status == 6 else Refused)(text)
    return text


def texted(text: str) -> bytes:
    """Returns the UTF-8 of a text; Refused (H03) if it has none, as a lone surrogate."""
    try:
        return text.encode()
    except UnicodeEncodeError:
        raise Refused("refused H03\n") from None


def refused(verdict: _native.Verdict) -> Exception:
    """Returns the error of a program's bytes that aren't accepted, with the text that `tw check` writes."""
    where = f" at byte {verdict.place}" if verdict.letter == "F" else f" in procedure {verdict.procedure} at place {verdict.place}"
    return Refused(f"refused {verdict.letter}{verdict.number:02}{where if verdict.letter in 'FV' else ''}\n")


def assemble(text: str) -> bytes:
    """Returns the bytes of a program in assembly text or symbolic assembly, without verifying it."""
    if not isinstance(text, str):
        raise TypeError(f"expected a program's text as a str, got {shown(text)}")
    return bytes.fromhex(ask(["asm", "--names"], texted(text)))


def verify(program: BytesLike) -> Needs:
    """Returns what an accepted program's bytes need; raises Refused if the verifier doesn't accept them."""
    if not isinstance(program, (bytes, bytearray, memoryview)):
        raise TypeError(f"expected a program's bytes, got {shown(program)}; assemble(text) makes them")
    verdict = _native.verify(bytes(program))
    if verdict.letter:
        raise refused(verdict)
    return Needs(verdict.engines, verdict.workers)


def explain(code: str) -> str:
    """Returns what the code of an error or a trap means, as "V04"."""
    if not isinstance(code, str) or not code[:1].isalpha() or not (code.isascii() and code.isalnum()):
        raise ValueError(f'expected a code as "V04", got {shown(code)}')
    try:
        return ask(["explain", code], b"")
    except Refused:
        raise ValueError(f"there is no code {code:.20}") from None


def session(words: Sequence[str], data: bytes = b"") -> Tuple[int, bytes]:
    """Returns the exit status of the command `tw` with these words and this input, and what it writes. The words are a command line: put no
    stranger's text there; `Program.run` takes values. Nothing stops a session, so `--seconds` is rejected; `run` takes a `timeout`."""
    if isinstance(words, str) or not all(isinstance(word, str) for word in words):
        raise TypeError(f"words: expected a list of str, got {shown(words)}")
    if not isinstance(data, (bytes, bytearray, memoryview)):
        raise TypeError(f"data: expected bytes, got {shown(data)}")
    return _native.session(words, bytes(data))
