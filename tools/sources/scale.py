"""Prints how many lines of code, definitions and proofs the crates have, and compares each group of crates.txt with its ceiling.

    ./dev scale             a line for each crate and each group; fails if a group is above its ceiling
    ./dev scale --check     prints only what is above its ceiling, likewise
    ./dev scale --make      writes the numbers of now into tools/sources/ceilings.txt
    ./dev scale --changed   prints which crates have changed since the release was made, and how much CI proves again, unless it has kept it

A ceiling is raised only in a commit that says why. The percentage of a crate is the share of all lines that an edit of it has proved again: its own,
and those of all crates that depend on it.
"""

import re
import subprocess
import sys
from pathlib import Path
from typing import NamedTuple

from tools import ROOT

CEILINGS = "tools/sources/ceilings.txt"
ENDINGS = {"src": ".rt", "specs": ".antt", "proofs": ".antt"}


class Lines(NamedTuple):
    """Lines of code, of definitions and of proofs."""

    code: int = 0
    definitions: int = 0
    proofs: int = 0

    @property
    def all(self) -> int:
        """Returns their sum."""
        return sum(self)


def groups_of(text: str) -> dict[str, list[str]]:
    """Returns the groups of crates.txt, each named by the first words of the comment before it, with their crates."""
    groups: dict[str, list[str]] = {}
    before, last = "", ""
    for line in text.splitlines():
        if line.startswith("#"):
            before, last = (before if last.startswith("#") else re.split(r"[:.,]", line.lstrip("# "))[0]), line
            continue
        if line.strip():
            groups.setdefault(before, []).append(re.split(r"[ :]", line)[0])
        last = line
    return groups


def lines_of(folder: Path) -> Lines:
    """Returns the lines of a crate."""
    return Lines(*(sum(path.read_bytes().count(b"\n") for path in (folder / part).rglob(f"*{ending}")) for part, ending in ENDINGS.items()))


def added(parts: list[Lines]) -> Lines:
    """Returns the sums of lines."""
    return Lines(*map(sum, zip(*parts))) if parts else Lines()


def row(name: str, lines: Lines) -> str:
    """Returns a line that is printed."""
    return f"{name:32} {lines.code:7} code {lines.definitions:7} definitions {lines.proofs:7} proofs {lines.all:8}"


def ceilings(root: Path) -> dict[str, int]:
    """Returns the most lines that each group may have."""
    found = re.findall(r"^(\d+) (.*)$", (root / CEILINGS).read_text(encoding="utf-8"), re.M)
    return {name: int(most) for most, name in found}


def excesses(now: dict[str, Lines], most: dict[str, int]) -> list[str]:
    """Returns what is above its ceiling, and groups without one."""
    found = [f"{name} has no ceiling" for name in now if name not in most]
    return found + [f"{name}: {lines.all} lines, at most {most[name]}" for name, lines in now.items() if lines.all > most.get(name, lines.all)]


def dependencies(text: str) -> dict[str, list[str]]:
    """Returns the crates of crates.txt, in its order, each with those that it names. Libraries of the toolchain are left out."""
    named: dict[str, list[str]] = {}
    for line in text.splitlines():
        head, colon, names = line.partition(":")
        if colon and not line.startswith("#"):
            named[head.split()[0]] = names.split()
    return {crate: [name for name in names if name in named] for crate, names in named.items()}


def above(crate: str, below: dict[str, list[str]]) -> set[str]:
    """Returns the crates that depend on a crate, directly or through others."""
    found = {crate}
    while True:
        more = {other for other, names in below.items() if found.intersection(names)} - found
        if not more:
            return found - {crate}
        found |= more


def percent_of(some: set[str], lines: dict[str, Lines]) -> int:
    """Returns the share that crates have of all lines."""
    return round(100 * sum(lines[crate].all for crate in some) / max(sum(each.all for each in lines.values()), 1))


def git(root: Path, *words: str) -> str:
    """Returns what git prints in the repository, or nothing if it fails."""
    ran = subprocess.run(["git", "-C", str(root), *words], stdout=subprocess.PIPE, stderr=subprocess.DEVNULL, text=True, check=False)
    return ran.stdout if ran.returncode == 0 else ""


def changed(root: Path, commit: str) -> set[str]:
    """Returns the crates whose code, definitions or proofs, or whose line of crates.txt, differ from those of a commit."""
    files = git(root, "diff", "--name-only", commit, "--", "crates").splitlines() + git(root, "ls-files", "-o", "--exclude-standard", "--", "crates").splitlines()
    found = {name.split("/")[1] for name in files if re.search(r"/(?:src|specs|proofs)/.*\.(?:rt|antt)$", name)}
    now = dependencies((root / "crates.txt").read_text(encoding="utf-8"))
    before = dependencies(git(root, "show", f"{commit}:crates.txt"))
    return {crate for crate in now if crate in found or now[crate] != before.get(crate)}


def since_release(root: Path) -> str:
    """Says which crates have changed since the release was made, and how much is proved again."""
    commit = git(root, "log", "-1", "--format=%H", "--", "release/MANIFEST").strip()
    if not commit:
        return "no release in the history: all crates are proved that CI hasn't kept"
    below = dependencies((root / "crates.txt").read_text(encoding="utf-8"))
    own = changed(root, commit)
    again = own.union(*(above(crate, below) for crate in own))
    percent = percent_of(again, {crate: lines_of(root / "crates" / crate) for crate in below})
    names = f" ({', '.join(sorted(own))})" if own else ""
    return f"{len(own)} crates have changed since the release{names}; with those above them CI proves {len(again)} of {len(below)}, {percent} % of the lines, unless it has kept them"


def main(words: list[str], root: Path = ROOT) -> int:
    """Does what the arguments say; returns an exit status."""
    if words == ["--changed"]:
        print(since_release(root))
        return 0
    if words not in ([], ["--check"], ["--make"]):
        print(__doc__, file=sys.stderr)
        return 2
    groups = groups_of((root / "crates.txt").read_text(encoding="utf-8"))
    crates = {name: lines_of(root / "crates" / name) for names in groups.values() for name in names}
    now = {group: added([crates[name] for name in names]) for group, names in groups.items()}
    if words == ["--make"]:
        text = "".join(f"{lines.all} {name}\n" for name, lines in now.items())
        (root / CEILINGS).write_text(f"# The most lines that each group of crates.txt may have: ./dev scale --make writes them.\n{text}", encoding="utf-8")
    if words != ["--check"]:
        below = dependencies((root / "crates.txt").read_text(encoding="utf-8"))
        for group, names in groups.items():
            again = {name: {name} | above(name, below) for name in names}
            rows = (f"{row(f'  {name}', crates[name])}  {len(again[name]) - 1:2} above  {percent_of(again[name], crates):3} %" for name in names)
            print("\n".join([*rows, row(group, now[group])]))
        print(row("all", added([*now.values()])))
    wrong = excesses(now, ceilings(root))
    print("\n".join([*wrong, f"{len(now) - len(wrong)} as wanted, {len(wrong)} above their ceilings"]))
    return 1 if wrong or not now else 0
