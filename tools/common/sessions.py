"""Reads examples/sessions.txt, which has commands on examples with what they print."""

import re
import shlex
from collections.abc import Iterator
from functools import cache
from pathlib import Path
from typing import NamedTuple

from tools import ROOT

INPUT = re.compile(r"(int|ints|text|texts|tints|ttexts):")


class Session(NamedTuple):
    """A command on a file of examples/, the other words, and the first line that is printed."""

    command: str
    path: Path
    words: tuple[str, ...]
    first: str

    @property
    def inputs(self) -> tuple[str, ...]:
        """Returns the words that are inputs."""
        return tuple(word for word in self.words if INPUT.match(word))

    @property
    def is_refused(self) -> bool:
        """Says if the program is rejected, or its inputs."""
        return self.first.startswith("refused") or " refused" in self.first


@cache
def sessions() -> tuple[Session, ...]:
    """Returns the commands that have a file, without those that other commands read."""
    text = (ROOT / "examples" / "sessions.txt").read_text(encoding="utf-8")
    return tuple(made(*found) for found in re.findall(r"^\$ \./tw (\w+) examples/([\w.]+)(.*)\n(.*)$", text, re.M) if not {"|", "<"} & {*found[2].split()})


def made(command: str, name: str, rest: str, first: str) -> Session:
    """Returns a session by the parts of its lines."""
    return Session(command, ROOT / "examples" / name, tuple(shlex.split(rest)), first)


def runs() -> Iterator[tuple[Path, tuple[str, ...], bool]]:
    """Yields each program that is run with its inputs, once, and whether it is rejected."""
    seen: set[tuple[Path, tuple[str, ...]]] = set()
    for session in sessions():
        if session.command == "run" and (session.path, session.inputs) not in seen:
            seen.add((session.path, session.inputs))
            yield session.path, session.inputs, session.is_refused
