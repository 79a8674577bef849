"""Builds a program of this repository, unproved, with places of its sources broken. One build has all breaks: each asks whether it is the one that
is tried, and the number of that one is written into the program. For ./dev mutants."""

import re
import shutil
import subprocess
import sys
import tempfile
from dataclasses import dataclass
from pathlib import Path

from tools import ROOT
from tools.common import kit

# Is in the program where the number of a break is written.
MARK = int.from_bytes(b"mutants!", "little")
TRIED = f"""//! Which break is tried.

/// Returns whether this break is tried. The number is written over this one in the program.
#[inline(never)]
pub fn is_tried(number: u64) -> bool {{
    number == {MARK}
}}
"""


@dataclass(frozen=True)
class Place:
    """A text that a file has once, and the text in its place in the copy, in which @NAME@ asks whether the break NAME is tried."""

    file: str
    old: str
    new: str


def names_of(places: tuple[Place, ...]) -> list[str]:
    """Returns the names of the breaks by their numbers; number 0 is none."""
    return ["", *(name for place in places for name in re.findall(r"@(\w+)@", place.new))]


def copy_to(folder: Path) -> None:
    """Copies the sources of all crates."""
    for name in ("crates.txt", "HANDLES"):
        shutil.copy2(ROOT / name, folder)
    for crate in (ROOT / "crates").iterdir():
        for part in ("src", "specs", "proofs"):
            if (crate / part).is_dir():
                shutil.copytree(crate / part, folder / "crates" / crate.name / part)


def add_breaks(folder: Path, places: tuple[Place, ...]) -> None:
    """Puts all breaks into a copy. Exits if a place isn't there once."""
    numbers = names_of(places)
    for place in places:
        file = folder / place.file
        text = file.read_text()
        if text.count(place.old) != 1:
            sys.exit(f"{Path(sys.argv[0]).name}: {place.old.strip()!r} is {text.count(place.old)} times in {place.file}")
        asks = re.sub(r"@(\w+)@", lambda found: f"tw_types::is_tried({numbers.index(found[1])})", place.new)
        file.write_text(text.replace(place.old, asks))
    root = folder / "crates/tw_types/src/lib.rt"
    (root.parent / "tried.rt").write_text(TRIED)
    root.write_text(root.read_text().replace("\nmod value;\n", "\nmod tried;\nmod value;\n") + "pub use tried::is_tried;\n")


def built(crate: str, places: tuple[Place, ...]) -> bytes:
    """Returns the program of a crate with all breaks, which is built unproved."""
    name = Path(sys.argv[0]).name
    with tempfile.TemporaryDirectory() as room:
        folder = Path(room)
        copy_to(folder)
        add_breaks(folder, places)
        program = folder / crate
        subprocess.run([sys.executable, "-B", ROOT / "tools/proofs/unverified.py", kit.folder(), folder, crate, program], check=True)
        made = program.read_bytes()
    if MARK.to_bytes(8, "little") not in made:
        sys.exit(f"{name}: the program has no place for the number of a break")
    return made


def write_broken(program: Path, made: bytes, number: int) -> None:
    """Writes the program in which the break of a number is tried, also while one before it still runs."""
    program.unlink(missing_ok=True)
    program.write_bytes(made.replace(MARK.to_bytes(8, "little"), number.to_bytes(8, "little")))
    program.chmod(0o755)
