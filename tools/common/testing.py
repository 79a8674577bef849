"""Has the folders, files and printed lines that tests of the tools share."""

import contextlib
import gzip
import hashlib
import io
import shutil
import subprocess
import tempfile
import unittest
from collections.abc import Callable
from pathlib import Path
from typing import Any
from unittest import mock

from tools import ROOT


def folder_of(test: unittest.TestCase) -> Path:
    """Returns a folder that is there while a test runs."""
    folder = tempfile.TemporaryDirectory()
    test.addCleanup(folder.cleanup)
    return Path(folder.name)


def put(root: Path, files: dict[str, str]) -> None:
    """Writes files, and makes their folders."""
    for name, text in files.items():
        (root / name).parent.mkdir(parents=True, exist_ok=True)
        (root / name).write_text(text, encoding="utf-8")


def fake_clone(test: unittest.TestCase, fake: bytes) -> Path:
    """Makes a clone of the script ./tw, with a script as the release's program, while a test runs."""
    top = folder_of(test) / "clone"
    shutil.copytree(ROOT / "script", top / "script")
    shutil.copy(ROOT / "tw", top / "tw")
    put(top, {"crates.txt": "tw_main:\n", "VERSION": "0.0\n", "crates/tw_main/src/main.rt": "fn main() {}\n"})
    (top / "release").mkdir()
    (top / "release/tw.gz").write_bytes(gzip.compress(fake))
    sums = subprocess.run([top / "script/sources.sh", "tw_main"], stdout=subprocess.PIPE, text=True, check=True).stdout.split()
    manifest = f"sources tw_main {sums[0]}\ncode tw_main {sums[1]}\nfile tw {len(fake)} {hashlib.sha256(fake).hexdigest()}\n"
    (top / "release/MANIFEST").write_text(manifest, encoding="utf-8")
    return top


def replace(test: unittest.TestCase, owner: object, **values: object) -> None:
    """Replaces attributes while a test runs."""
    patch = mock.patch.multiple(owner, **values)  # type: ignore[arg-type]
    patch.start()
    test.addCleanup(patch.stop)


def said(call: Callable[..., int], *given: object) -> tuple[int, str]:
    """Returns the status of a call, and what it prints."""
    printed = io.StringIO()
    with contextlib.redirect_stdout(printed), contextlib.redirect_stderr(printed):
        return call(*given), printed.getvalue()


class Table(unittest.TestCase):
    """Has tests whose checks are rows: what a row shows, what is given, and what is expected."""

    def compare(self, call: Callable[..., object], *rows: tuple[Any, ...]) -> None:
        """Compares what a call returns for each row."""
        for what, *given, expected in rows:
            with self.subTest(what):
                self.assertEqual(call(*given), expected)
