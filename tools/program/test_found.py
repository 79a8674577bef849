"""Tests of script/find.sh: each cause for which no program answers has its own message, and a failed unpack never begins a build."""

import gzip
import os
import subprocess
import unittest
from pathlib import Path

from tools.common.testing import fake_clone, folder_of, put

FAKE = b"#!/bin/sh\necho answered \"$@\"\n"


class Found(unittest.TestCase):
    def setUp(self) -> None:
        self.top = fake_clone(self, FAKE)
        # The folders of PATH without the command rt, and a folder for one that notes its calls.
        self.path = ":".join(place for place in os.environ["PATH"].split(":") if not (Path(place) / "rt").exists())
        self.tools = folder_of(self)

    def answer(self, *words: str, **variables: str) -> tuple[int, str, str]:
        """Returns the status of ./tw, what it printed, and its complaint."""
        done = subprocess.run([self.top / "tw", *words], capture_output=True, text=True, check=False, env={**os.environ, "TW_OUT": "", "PATH": self.path, **variables})
        return done.returncode, done.stdout, done.stderr

    def assert_fails(self, cause: str, *words: str, **variables: str) -> None:
        status, printed, complaint = self.answer(*(words or ("run",)), **variables)
        self.assertEqual((status, printed), (70, ""))
        self.assertIn(f"tw: {cause}", complaint)

    def test_the_release_answers(self) -> None:
        self.assertEqual(self.answer("run", "x"), (0, "answered run x\n", ""))

    def test_a_file_in_place_of_out(self) -> None:
        (self.top / "out").write_text("", encoding="utf-8")
        self.assertEqual(self.answer("run")[:2], (0, "answered run\n"))
        self.assert_fails("no folder can be made in /nothing", TMPDIR="/nothing")

    def test_other_sources(self) -> None:
        (self.top / "crates/tw_main/src/main.rt").write_text("fn other() {}\n", encoding="utf-8")
        self.assert_fails("the sources aren't the release's, and the command rt")
        self.assertEqual(self.answer("run", TW_OUT="release"), (0, "answered run\n", ""))
        self.assert_fails("TW_OUT has no tw", TW_OUT=str(self.tools))

    def test_a_build_answers_if_it_is_newer_than_its_sources(self) -> None:
        built = self.top / "crates/tw_main/out/tw_main"
        put(self.top, {"crates/tw_main/out/tw_main": "#!/bin/sh\necho built\n"})
        built.chmod(0o755)
        for written, answer in ((0, "answered run\n"), (2**32, "built\n")):
            os.utime(built, (written, written))
            self.assertEqual(self.answer("run")[:2], (0, answer))

    def test_changed_definitions(self) -> None:
        """The release answers, and a line says so; of other documents nothing is said."""
        put(self.top, {"crates/tw_main/specs/Lib.antt": "-- a comment\n", "docs/IDIOMS.md": "x\n"})
        status, printed, complaint = self.answer("run")
        self.assertEqual((status, printed, complaint.count("\n")), (0, "answered run\n", 1))

    def test_no_release(self) -> None:
        for name in ("release/tw.gz", "release/MANIFEST"):
            (self.top / name).rename(self.top / "away")
            self.assert_fails(f"{name} is missing, and the command rt")
            (self.top / "away").rename(self.top / name)

    def test_a_build_without_toolchain(self) -> None:
        self.assert_fails("./tw build proves the sources, and the command rt", "build")

    def test_a_failed_unpack_begins_no_build(self) -> None:
        called = self.tools / "called"
        (self.tools / "rt").write_text(f"#!/bin/sh\ntouch {called}\n", encoding="utf-8")
        (self.tools / "rt").chmod(0o755)
        path = f"{self.tools}:{self.path}"
        (self.top / "out").mkdir()
        (self.top / "out/release").write_text("", encoding="utf-8")
        self.assert_fails("release/tw.gz can't be unpacked into", PATH=path)
        (self.top / "out/release").unlink()
        (self.top / "release/tw.gz").write_bytes(gzip.compress(b"other"))
        self.assert_fails("release/tw.gz isn't the file that release/MANIFEST names", PATH=path)
        self.assertFalse(called.exists())

    def test_without_a_command_all_are_listed(self) -> None:
        status, printed, complaint = self.answer()
        self.assertEqual((status, printed), (2, "command line refused\n"))
        for command in ("run", "test", "install", "package", "build"):
            self.assertRegex(complaint, rf"(?m)^  {command} ")
