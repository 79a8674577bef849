"""Tests of ./dev scale in a small repository."""

import subprocess
import unittest

from tools.common.testing import folder_of, put, said
from tools.sources import scale

CRATES = "# Low ones: of all.\n# They are first.\nlow:\nmid may_wait=3: low slab\n\n# High.\nside: low\ntop staticlib: mid\n"
FILES = {"low/src/lib.rt": 3, "low/specs/Low.antt": 2, "low/proofs/lib/one/Proof.antt": 5, "mid/src/lib.rt": 20, "side/src/lib.rt": 30, "top/src/lib.rt": 40, "top/README.md": 9, "low/src/notes.txt": 99}


class ScaleTest(unittest.TestCase):
    def setUp(self) -> None:
        self.root = folder_of(self)
        put(self.root, {"crates.txt": CRATES, "tools/sources/ceilings.txt": "", **{f"crates/{name}": "x\n" * lines for name, lines in FILES.items()}})

    def call(self, *words: str) -> tuple[int, list[str]]:
        status, text = said(scale.main, list(words), self.root)
        return status, text.splitlines()

    def test_groups_and_lines_by_kind(self) -> None:
        self.assertEqual(scale.groups_of(CRATES), {"Low ones": ["low", "mid"], "High": ["side", "top"]})
        self.assertEqual(scale.lines_of(self.root / "crates/low"), scale.Lines(3, 2, 5))

    def test_a_group_above_its_ceiling_fails(self) -> None:
        self.assertEqual(self.call("--make")[0], 0)
        self.assertEqual((self.root / scale.CEILINGS).read_text(encoding="utf-8").splitlines()[1:], ["30 Low ones", "70 High"])
        self.assertEqual(self.call("--check"), (0, ["2 as wanted, 0 above their ceilings"]))
        put(self.root, {"crates/top/specs/Top.antt": "x\n"})
        self.assertEqual(self.call("--check"), (1, ["High: 71 lines, at most 70", "1 as wanted, 1 above their ceilings"]))

    def test_a_group_without_a_ceiling_fails(self) -> None:
        self.assertEqual(self.call("--check"), (1, ["Low ones has no ceiling", "High has no ceiling", "0 as wanted, 2 above their ceilings"]))
        self.assertEqual(self.call("--chek")[0], 2)

    def test_shares_of_an_edit(self) -> None:
        rows = {words[0]: words[-4:] for words in map(str.split, self.call()[1])}
        self.assertEqual({name: [int(rows[name][0]), int(rows[name][2])] for name in ("low", "mid", "side", "top")}, {"low": [3, 100], "mid": [1, 60], "side": [0, 30], "top": [0, 40]})

    def test_what_has_changed(self) -> None:
        self.assertEqual(self.call("--changed"), (0, ["no release in the history: all crates are proved that CI hasn't kept"]))
        put(self.root, {"release/MANIFEST": "version 1\n"})
        for words in (("init", "-q"), ("add", "-A"), ("-c", "user.name=A", "-c", "user.email=a@b", "commit", "-qm", "Release")):
            subprocess.run(["git", "-C", str(self.root), *words], check=True)
        rows: list[tuple[dict[str, str], str]] = [
            ({}, "0 crates have changed since the release; with those above them CI proves 0 of 4, 0 % of"),
            ({"crates/mid/proofs/New.antt": "", "crates/side/README.md": "x"}, "1 crates have changed since the release (mid); with those above them CI proves 2 of 4, 60 % of"),
            ({"crates.txt": CRATES.replace("side: low", "side: mid")}, "2 crates have changed since the release (mid, side); with those above them CI proves 3 of 4, 90 % of"),
        ]
        for files, begin in rows:
            put(self.root, files)
            self.assertTrue(self.call("--changed")[1][0].startswith(begin), begin)
