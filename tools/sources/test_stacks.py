"""Tests of ./dev stacks on small repositories."""

import pathlib
import tempfile
import unittest

from tools.common.testing import put, said
from tools.sources import stacks

CRATES = "# All.\nlow:\nmid: low\nside: low clap\ntop may_wait=2: low mid side\n"
BELOW: dict[str, list[str]] = {"low": [], "mid": ["low"], "side": ["low"], "top": ["low", "mid", "side"]}
GROUPS = {"First": ["low", "mid"], "Second": ["side", "top"]}
READMES = {"low": "Lowest.", "mid": "In between ([F](../F.md#a)). More\nof it.", "side": "Beside\n[low](../low). More.", "top": "Above: all."}
TABLE = """| Crate | What it is |
|---|---|
| **First** | |
| `low` |
| `mid` | |
| **Second** | |
| `side` | Somewhere. |
| `top` | Above. |
"""
DOCUMENT = "# Crates\n\n<!-- ./dev stacks -->\n\n" + TABLE + "<!-- end of stacks -->\n\nAfter.\n"
DIAGRAM = """```
    FIRST  SECOND
 2         top
 1  mid    side
 0  low
```
"""


def ran(document: str, *words: str, crates: str = CRATES) -> tuple[int, str, str]:
    """Returns the status, the output and the document after the script has run on a repository with these."""
    with tempfile.TemporaryDirectory() as folder:
        root = pathlib.Path(folder)
        put(root, {f"crates/{crate}/README.md": f"# {crate}\n\n{text}\n\n## Contract\n\nNone.\n" for crate, text in READMES.items()})
        put(root, {"crates.txt": crates, str(stacks.DOCUMENT): document})
        return *said(stacks.main, list(words), root), (root / stacks.DOCUMENT).read_text(encoding="utf-8")


class Shapes(unittest.TestCase):
    def test_heights(self) -> None:
        self.assertEqual(stacks.heights(BELOW), {"low": 0, "mid": 1, "side": 1, "top": 2})

    def test_groups(self) -> None:
        self.assertEqual(stacks.groups_of(DOCUMENT), GROUPS)

    def test_the_diagram(self) -> None:
        self.assertEqual(stacks.diagram(BELOW, GROUPS), DIAGRAM)

    def test_crates_of_one_height_are_below_each_other(self) -> None:
        lines = stacks.diagram({"a": [], "b": []}, {"One": ["a", "b"]}).splitlines()
        self.assertEqual(lines[1:4], ["    ONE", " 0  a", "    b"])


class Documents(unittest.TestCase):
    def test_it_is_written_once(self) -> None:
        status, _, once = ran(DOCUMENT, "--make")
        rows = ["| `low` | Lowest. |", "| `mid` | In between. |", "| `side` | Beside low. |", "| `top` | Above: all. |"]
        self.assertEqual([line for line in once.splitlines() if line.startswith("| `")], rows)
        self.assertEqual((status, DIAGRAM in once, once.endswith("\nAfter.\n")), (0, True, True))
        self.assertEqual(ran(once, "--make")[2], once)
        self.assertEqual(ran(once, "--check")[0], 0)

    def test_a_stale_document(self) -> None:
        status, out, after = ran(DOCUMENT, "--check")
        self.assertEqual((status, "stale" in out, after), (1, True, DOCUMENT))

    def test_a_crate_without_a_row(self) -> None:
        self.assertEqual(ran(DOCUMENT, "--make", crates=CRATES + "new: top\n")[:2], (1, "docs/ARCHITECTURE.md: new: no row\n"))

    def test_a_row_without_a_crate(self) -> None:
        self.assertEqual(ran(DOCUMENT, "--check", crates=CRATES.replace("mid", "mod"))[0], 1)
