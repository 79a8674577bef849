"""Finds what the tools test. script/pick.sh has the rule: the folder that TW_OUT names, else what is built of these sources, or the release's."""

import hashlib
import importlib
import os
import subprocess
import sys
from functools import cache
from pathlib import Path
from typing import Any, NamedTuple

from tools import ROOT

PROGRAM, LIBRARY, ARCHIVE = "tw_main", "tw_embed", "libyuglemit.a"
# The status of a tool that finds nothing to test.
NOTHING = 70


class Found(NamedTuple):
    """A program or a library, and what it is: built, same, same_code, unverified, release or named."""

    path: Path
    kind: str


@cache
def found(name: str) -> Found:
    """Returns what has a name; exits if there is none."""
    done = subprocess.run([ROOT / "script/pick.sh", "--kind", name], stdout=subprocess.PIPE, text=True, check=False)
    if done.returncode:
        raise SystemExit(NOTHING)
    kind, _, path = done.stdout.strip().partition(" ")
    return Found(Path(path), kind)


def program() -> str:
    """Returns the path of the program tw."""
    return str(found(PROGRAM).path)


def for_package() -> dict[str, str]:
    """Returns the variable by which the Python package finds the library."""
    return {"YUGLEMIT_LIBRARY": str(found(LIBRARY).path)}


@cache
def package(name: str = "yuglemit") -> Any:
    """Returns the Python package, or a module of it, which calls the library."""
    os.environ.update(for_package())
    sys.path.insert(0, str(ROOT / "embed" / "python"))
    return importlib.import_module(name)


def describe(name: str) -> str:
    """Returns what is tested: its file's name, the version, what it is and the first digits of its SHA-256."""
    path, kind = found(name)
    version = (ROOT / "VERSION").read_text(encoding="utf-8").strip()
    return f"{path.name} {version} ({kind}, {hashlib.sha256(path.read_bytes()).hexdigest()[:12]})"
