"""Tests of ./dev walks on a small repository."""

from tools.common.testing import Table, folder_of, put
from tools.sources import walks

MAIN = """/// Begins.
fn main() {
    // Not noted(2).
    let named = made::<Vec<u8>>();
    read(1)
}

/// Like noted(3).
pub(crate) fn unused() {
    unused()
}

fn noted(x: u8) {}

fn named() {}

fn made() {}
"""
PARTS = """impl Parts {
    /// Reads.
    pub fn read(&self) -> u8
        ensures { result }
    {
        self.pieces()
    }

    fn pieces(&self) -> u8 {
        0
    }
}
"""
DOCUMENT = """# A document

`top/src/main.rt`: `ignored`, since no walk has begun.

## How a program passes through

**`run` of text.**

1. `top/src/main.rt`: `main` begins. `top/src/parts.rt`: `read`, with `--text` and a `Done`.
2. `top/src/parts.rt`: `pieces`.

**Second walk.** Step 1 is as above.

1. `top/src/parts.rt`: `pieces`.

## What follows

`top/src/main.rt`: `ignored`
"""


class Walks(Table):
    def faults(self, old: str, new: str) -> list[str]:
        """Returns what is wrong with the document's walks after an edit."""
        room = folder_of(self)
        put(room, {"top/src/main.rt": MAIN, "top/src/parts.rt": PARTS})
        return list(walks.faults_of(walks.walks_of(DOCUMENT.replace(old, new)), room))

    def test_walks_are_paragraphs_in_bold(self) -> None:
        """Text before the first walk and after the section has no steps; options and types are none."""
        found = walks.walks_of(DOCUMENT)
        self.assertEqual([walk.title for walk in found], ["`run` of text", "Second walk"])
        self.assertEqual([step.function for step in found[0].steps], ["main", "read", "pieces"])
        self.assertEqual(found[0].steps[2].file, "top/src/parts.rt")

    def test_faults(self) -> None:
        """A body before has to call the step; its own body doesn't count, nor do comments and names that aren't called."""
        fault = "{0}: top/src/{1}.rt has no {2} that a step before calls".format
        self.compare(
            self.faults, ("a later walk may follow the steps of an earlier one", "", "", []),
            ("a call may name its types", "`pieces`.\n\n**", "`pieces`. `top/src/main.rt`: `made`.\n\n**", []),
            ("a function has to be in the file before it", "2. `top/src/parts.rt`", "2. `top/src/main.rt`", [fault("`run` of text", "main", "pieces")]),
            ("a file has to be there, also the first", "Step 1 is as above.\n\n1. `top/src/parts.rt`", "It begins late.\n\n1. `top/src/gone.rt`", [fault("Second walk", "gone", "pieces")]),
            *((name, "`pieces`.\n\n**", f"`pieces`. `top/src/main.rt`: `{name}`.\n\n**", [fault("`run` of text", "main", name)]) for name in ("unused", "noted", "named")),
        )
