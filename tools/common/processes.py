"""The use of processors and memory by processes."""

import os
from collections.abc import Sequence
from pathlib import Path

TICKS = os.sysconf("SC_CLK_TCK")


def fields_of(process: int) -> list[str]:
    """Returns the fields of a process's state, from its letter on."""
    text = Path(f"/proc/{process}/stat").read_text(encoding="utf-8", errors="replace")
    return text[text.rindex(")") + 2 :].split()


def states() -> dict[int, list[str]]:
    """Returns the state of each process that there is."""
    found = {}
    for entry in Path("/proc").iterdir():
        if entry.name.isdigit():
            try:
                found[int(entry.name)] = fields_of(int(entry.name))
            except (OSError, ValueError):
                continue
    return found


def seconds_in(state: Sequence[str]) -> float:
    """Returns the processor seconds of a process in this state, and of its children that have ended."""
    return sum(map(int, state[11:15])) / TICKS


def used_in_session(session: int) -> float:
    """Returns the processor seconds of a session's processes."""
    return sum(seconds_in(state) for state in states().values() if int(state[3]) == session)
