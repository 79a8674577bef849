"""Finds the toolchain, and makes folders that act as it."""

import importlib
import shutil
import sys
from pathlib import Path
from typing import Any


def folder() -> Path:
    """Returns the toolchain's folder, by the command rt on the PATH; exits if there is none."""
    found = shutil.which("rt")
    if not found:
        raise SystemExit(f"{sys.argv[0]} needs the command rt on the PATH")
    return Path(found).resolve().parent.parent


def identity(kit: Path) -> str:
    """Returns the toolchain's version, as `rt version` prints it."""
    return (kit / "KIT-ID").read_text(encoding="utf-8").strip()


def rtlib(kit: Path) -> Any:
    """Returns the module by which rt knows the words of checks and builds."""
    sys.dont_write_bytecode = True
    sys.path.insert(0, str(kit / "bin"))
    return importlib.import_module("rtlib")


def wrap(toolchain: Path, room: Path, name: str, script: str) -> None:
    """Makes a folder that acts as the toolchain. Its program of this name is a script."""
    (room / "bin").mkdir(parents=True)
    for entry in (*toolchain.iterdir(), *(toolchain / "bin").iterdir()):
        if entry not in (toolchain / "bin", toolchain / "bin" / name):
            (room / entry.relative_to(toolchain)).symlink_to(entry)
    (room / "bin" / name).write_text(script, encoding="utf-8")
    (room / "bin" / name).chmod(0o755)
