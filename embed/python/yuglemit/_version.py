# SPDX-License-Identifier: Apache-2.0
"""The version of the package: that of the repository's file VERSION, or of the installed package. The repository's wheel has it written here."""

from importlib import metadata
from pathlib import Path


def _version() -> str:
    folders = Path(__file__).resolve().parents
    if len(folders) > 3 and folders[2].name == "embed" and (folders[3] / "VERSION").exists():
        return (folders[3] / "VERSION").read_text(encoding="utf-8").strip()
    try:
        return metadata.version("yuglemit")
    except metadata.PackageNotFoundError:
        return "0"


__version__ = _version()
