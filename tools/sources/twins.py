"""Keeps what is made from examples/ and the documents like its source.

    ./dev twins --check    fails if a file is stale, and names it
    ./dev twins --make     writes the stale files

An example that is there as `.twn` and as `.tw` is written once: the `.tw` is the expansion of the `.twn`. crates/tw_cases/data has copies of
examples/ and of what documents show, which copy.sh writes. The program that expands is that of ./tw, or of TW_OUT.
"""

import subprocess
import tempfile
from collections.abc import Callable
from pathlib import Path

from tools import ROOT
from tools.common.program import program

COPIES = Path("crates/tw_cases/data")
MAKER = Path("crates/tw_cases/copy.sh")
Call = Callable[[Path], int]


def twins_of(examples: Path) -> list[Path]:
    """Returns the symbolic examples whose expansion is there too."""
    return [path for path in sorted(examples.glob("*.twn")) if path.with_suffix(".tw").exists()]


def expansion_of(program: Path, source: Path) -> bytes:
    """Returns the expansion of symbolic assembly, which has to be one."""
    done = subprocess.run([program, "asm", "--names", "--plain"], input=source.read_bytes(), stdout=subprocess.PIPE, check=False)
    if done.returncode:
        raise SystemExit(f"twins: {source.name} has no expansion: {done.stdout.decode(errors='replace').strip()}")
    return done.stdout


def stale_twins(program: Path, examples: Path) -> dict[Path, bytes]:
    """Returns the expansions that aren't those of their sources, with what they have to be."""
    made = {source.with_suffix(".tw"): expansion_of(program, source) for source in twins_of(examples)}
    return {path: text for path, text in made.items() if path.read_bytes() != text}


def files_below(folder: Path) -> dict[str, bytes]:
    """Returns the files of a folder, by their paths in it."""
    return {str(path.relative_to(folder)): path.read_bytes() for path in sorted(folder.rglob("*")) if path.is_file()}


def differences(made: Path, kept: Path) -> list[str]:
    """Returns the files that one of two folders has otherwise, or doesn't have."""
    new, old = files_below(made), files_below(kept)
    return sorted(name for name in new.keys() | old.keys() if new.get(name) != old.get(name))


def stale_copies(root: Path) -> list[str]:
    """Returns the copies that aren't what copy.sh writes."""
    with tempfile.TemporaryDirectory() as folder:
        made = Path(folder, "data")
        subprocess.run([root / MAKER, made], check=True)
        return [str(COPIES / name) for name in differences(made, root / COPIES)]


def check(root: Path) -> int:
    """Names the stale files, and returns the exit status."""
    stale = [str(path.relative_to(root)) for path in stale_twins(Path(program()), root / "examples")] + stale_copies(root)
    count = len(twins_of(root / "examples")) + len(files_below(root / COPIES))
    print("\n".join([*(f"{path} is stale; ./dev twins --make writes it" for path in stale), f"{count} checked, {len(stale)} stale"]))
    return 1 if stale else 0


def make(root: Path) -> int:
    """Writes the stale files, and returns the exit status."""
    for path, text in stale_twins(Path(program()), root / "examples").items():
        path.write_bytes(text)
    subprocess.run([root / MAKER], check=True)
    return check(root)


def main(words: list[str]) -> int:
    """Does what the arguments say, and returns the exit status."""
    if words not in (["--check"], ["--make"]):
        print(__doc__)
        return 2
    return check(ROOT) if words == ["--check"] else make(ROOT)
