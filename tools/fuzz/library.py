"""Calls the library, by the Python package, and the program `tw`. No other module of the fuzz tests does."""

import ctypes
import subprocess
from dataclasses import dataclass
from functools import cached_property
from typing import Any

from tools.common.program import package, program

Answer = tuple[int, str]
# How long the program may take, by the clock.
COMMAND_SECONDS = 900


@dataclass(frozen=True)
class Verdict:
    """The library's answer to a program's bytes; `code` is empty if it is accepted."""

    code: str
    procedure: int
    place: int

    def __str__(self) -> str:
        if not self.code:
            return "accepted"
        where = f"at byte {self.place}" if self.code[0] == "F" else f"in procedure {self.procedure} at place {self.place}"
        return f"refused {self.code} {where}"


class Library:
    """The library, and the program for what only that shows."""

    @cached_property
    def native(self) -> Any:
        return package("yuglemit._native")

    def session(self, words: list[str], data: str | bytes = b"") -> Answer:
        """Returns the status and the text of a command by the library."""
        status, text = self.native.session(words, data.encode() if isinstance(data, str) else data)
        return int(status), text.decode("utf-8", "backslashreplace")

    def command(self, words: list[str], data: str | bytes = b"") -> Answer:
        """Returns the status and the text of a command by the program."""
        data = data.encode() if isinstance(data, str) else data
        done = subprocess.run([program(), *words], input=data, stdout=subprocess.PIPE, stderr=subprocess.DEVNULL, timeout=COMMAND_SECONDS, check=False)
        return done.returncode, done.stdout.decode("utf-8", "backslashreplace")

    def verify(self, data: bytes) -> Verdict:
        answer = self.native.verify(data)
        return Verdict(f"{answer.letter}{answer.number:02}" if answer.letter else "", answer.procedure, answer.place)

    def into_room(self, line: bytes, data: bytes, size: int) -> tuple[int, int, bytes]:
        """Returns status, length and the buffer after a call with a buffer of this size, which has 16 bytes before and after it."""
        room = ctypes.create_string_buffer(b"\xa5" * (size + 32), size + 32)
        status = ctypes.c_uint8(0xA5)
        start = ctypes.addressof(room) + 16
        length = self.native.library().yuglemit_session(line, len(line), data, len(data), start, size, ctypes.byref(status))
        return status.value, int(length), room.raw

    def into_text(self, ended: bytes, data: bytes) -> tuple[int, bytes]:
        """Returns status and text of a call whose arguments end with NULs."""
        calls, output, length = self.native.short(), self.native.Handle(), ctypes.c_size_t()
        at = ctypes.byref(output)
        status = self.native.library().yuglemit_session_text(ended, len(ended), data, len(data), at)
        calls.yuglemit_raw_text_length(at, ctypes.byref(length))
        room = ctypes.create_string_buffer(length.value or 1)
        calls.yuglemit_raw_text_copy(at, room, length.value)
        calls.yuglemit_text_free(output)
        return int(status), room.raw[:length.value]
