"""Puts wrong bodies under the contracts of public functions, which the prover has to refuse. The bodies are those of `rt plant`.

  ./dev bodies                      prints release/BODIES with its sums, and names the crates of which it has no row of these sources
  ./dev bodies NAME..               tries bodies in these crates, prints those let through, and notes how many; at most ten minutes each
  ./dev bodies --minutes 30 NAME..  at most so many, and those of the last check
  ./dev bodies --each 1 NAME..      of each function one body that gives up, and one that calls it; else two of both

A crate's libraries have to be there, as `rt check` makes them. What was judged isn't judged again while the sources stay (out/bodies). A row has a
crate, the version, a sum of its sources and those below, and how many functions have a contract. Its last counts are of how many no body was judged,
and how many bodies were refused, do what the function does, were let through, and weren't judged.
"""

import argparse
import tempfile
import time
from pathlib import Path

from tools import ROOT
from tools.common import kit
from tools.proofs.hollow import Trial, name_of
from tools.release.release import sums_of_sources

COUNTED = ("functions", "untried", "refused", "equal", "through", "unjudged")


def crates_in(root: Path) -> list[str]:
    """Returns the names of the crates."""
    return sorted(folder.parent.name for folder in root.glob("crates/*/src"))


def rows_in(root: Path) -> dict[str, list[str]]:
    """Returns the words of the rows of release/BODIES by their crates, without those of an earlier form."""
    file = root / "release/BODIES"
    rows = [line.split() for line in file.read_text(encoding="utf-8").splitlines()] if file.is_file() else []
    return {row[0]: row for row in rows if len(row) == 3 + 2 * len(COUNTED)}


def sources_of(root: Path, name: str) -> str:
    """Returns the beginning of the sum of the sources of a crate and those below it."""
    return sums_of_sources(root, name)[0][:16]


def counted(counts: list[int]) -> list[str]:
    """Returns the words of counts."""
    return [word for count, what in zip(counts, COUNTED) for word in (str(count), what)]


def note(root: Path, name: str, counts: list[int]) -> None:
    """Notes a crate's row. Drops those of crates that are gone."""
    version = (root / "VERSION").read_text(encoding="utf-8").strip()
    found = rows_in(root) | {name: [name, version, sources_of(root, name), *counted(counts)]}
    (root / "release/BODIES").write_text("".join(f"{' '.join(found[name])}\n" for name in crates_in(root) if name in found), encoding="utf-8")


def report(root: Path) -> str:
    """Returns the table, its sums, and which crates have no row of these sources."""
    rows = rows_in(root)
    total = ["all", *counted([sum(map(int, counts)) for counts in zip(*(row[3::2] for row in rows.values()))])]
    left = [name for name in crates_in(root) if rows.get(name, [])[2:3] != [sources_of(root, name)]]
    return "\n".join([*map(" ".join, [*rows.values(), total]), f"none of these sources: {', '.join(left) or 'no crate'}"])


def attempt(root: Path, name: str, each: int, minutes: float) -> list[int]:
    """Tries bodies in a crate, and prints those let through."""
    with tempfile.TemporaryDirectory(prefix="bodies-") as room:
        trial = Trial(kit.folder(), root / "crates" / name, Path(room), root / "out/bodies" / name, each)
        trial.go_on(time.monotonic() + 60 * minutes)
    print("".join(f"let through  {name_of(plant)}\n" for plant in trial.let_through()), end="", flush=True)
    return trial.counts()


def main(words: list[str]) -> int:
    """Reads the command line."""
    parser = argparse.ArgumentParser(description="Puts wrong bodies under contracts.")
    parser.add_argument("--each", type=int, default=2)
    parser.add_argument("--minutes", type=float, default=10)
    parser.add_argument("names", nargs="*", metavar="NAME")
    given = parser.parse_args(words)
    if unknown := {*given.names} - {*crates_in(ROOT)}:
        raise SystemExit(f"bodies: there is no crate {min(unknown)}")
    for name in given.names:
        note(ROOT, name, attempt(ROOT, name, given.each, given.minutes))
    if not given.names:
        print(report(ROOT))
    return 0
