# SPDX-License-Identifier: Apache-2.0
"""Calls the library in two wrong ways, which valgrind has to report: it reads beyond a block, and loses a handle."""

from __future__ import annotations

import ctypes

import yuglemit
from common import DOUBLE
from yuglemit._library import Handle, library, numbers, short


def read_too_far() -> None:
    """Verifies a program whose last byte isn't in its block."""
    program = yuglemit.assemble(DOUBLE)
    allocator = ctypes.CDLL(None)
    allocator.malloc.restype = ctypes.c_void_p
    block = ctypes.c_void_p(allocator.malloc(ctypes.c_size_t(len(program) - 1)))
    ctypes.memmove(block, program, len(program) - 1)
    verdict = numbers(*[0] * 9)
    library().yuglemit_raw_verify(ctypes.cast(block, ctypes.c_char_p), len(program), verdict, len(verdict))
    allocator.free(block)


def lose_a_handle() -> None:
    """Makes a stop flag, and forgets its handle."""
    short().yuglemit_stop_new(ctypes.byref(Handle()))


if __name__ == "__main__":
    read_too_far()
    lose_a_handle()
