"""Runs commands at a terminal."""

import contextlib
import os
import pty
import subprocess
from collections.abc import Mapping, Sequence


def read_to_end(ours: int) -> str:
    """Returns what is written to a terminal until nobody has it open."""
    shown = b""
    with contextlib.suppress(OSError):
        while more := os.read(ours, 65536):
            shown += more
    os.close(ours)
    return shown.decode().replace("\r\n", "\n")


def shown(command: Sequence[str], data: str = "", with_errors: bool = False, environment: Mapping[str, str] | None = None) -> str:
    """Returns what a command writes to a terminal as its standard output, and perhaps as its standard error."""
    ours, theirs = pty.openpty()
    process = subprocess.Popen(command, stdin=subprocess.PIPE, stdout=theirs, stderr=theirs if with_errors else subprocess.DEVNULL, env=environment)
    os.close(theirs)
    assert process.stdin
    with contextlib.suppress(BrokenPipeError), process.stdin:
        process.stdin.write(data.encode())
    written = read_to_end(ours)
    process.wait()
    return written
