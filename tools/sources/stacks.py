"""Draws which crate depends on which: the diagram of docs/ARCHITECTURE.md, and its table of crates.

    ./dev stacks            prints the diagram
    ./dev stacks --make     writes both into the document
    ./dev stacks --check    fails if either is stale, or a crate of crates.txt has no row

A row of the diagram holds crates of one height, the number of crates in the longest chain below. A column is a group of the table. A row of
the table has the first sentence of the crate's README.
"""

import re
import sys
from pathlib import Path

from tools import ROOT
from tools.sources.scale import dependencies

DOCUMENT = Path("docs/ARCHITECTURE.md")
BEGIN, END = "<!-- ./dev stacks -->\n", "<!-- end of stacks -->\n"
HEAD = "| Crate | What it is |\n"
GAP = 2


def heights(below: dict[str, list[str]]) -> dict[str, int]:
    """Returns the number of crates in the longest chain below each. A crate names only crates that precede it."""
    found: dict[str, int] = {}
    for crate, names in below.items():
        found[crate] = 1 + max((found[name] for name in names), default=-1)
    return found


def groups_of(document: str) -> dict[str, list[str]]:
    """Returns the crates of each group of the table."""
    groups: dict[str, list[str]] = {}
    table = document.partition(HEAD)[2].partition("\n\n")[0]
    for name, crate in re.findall(r"^\| (?:\*\*([^*]+)\*\*|`(\w+)`) \|", table, re.M):
        if name:
            groups[name] = []
        elif groups:
            groups[list(groups)[-1]].append(crate)
    return groups


def diagram(below: dict[str, list[str]], groups: dict[str, list[str]]) -> str:
    """Returns the diagram, the highest row first. Crates of one group and height are below each other."""
    height = heights(below)
    cells = {(name, high): [it for it in crates if height[it] == high] for name, crates in groups.items() for high in height.values()}
    widths = {name: max(map(len, [name, *crates])) + GAP for name, crates in groups.items()}
    lines = [" " * 4 + "".join(name.upper().ljust(widths[name]) for name in groups)]
    for high in sorted(set(height.values()), reverse=True):
        for at in range(max(len(cells[name, high]) for name in groups)):
            words = "".join((cells[name, high] + [""] * (at + 1))[at].ljust(widths[name]) for name in groups)
            lines.append((f"{high:2}  " if at == 0 else "    ") + words)
    return "```\n" + "".join(line.rstrip() + "\n" for line in lines) + "```\n"


def purpose(readme: str) -> str:
    """Returns the first sentence of a crate's README, without its links."""
    text = re.sub(r" ?\(\[[^]]*\]\([^)]*\)\)", "", " ".join(readme.split("\n\n")[1].split()))
    return re.sub(r"\[([^]]*)\]\([^)]*\)", r"\1", text).partition(". ")[0].removesuffix(".") + "."


def rows(table: str, root: Path) -> str:
    """Returns the table's rows, which say of each crate what it is."""

    def row(found: re.Match[str]) -> str:
        return f"| `{found[1]}` | {purpose((root / 'crates' / found[1] / 'README.md').read_text(encoding='utf-8'))} |"

    return re.sub(r"^\| `(\w+)` \|.*$", row, table, flags=re.M)


def made(document: str, below: dict[str, list[str]], root: Path) -> str:
    """Returns a document with its diagram and its table."""
    front, begin, rest = document.partition(BEGIN)
    old, end, back = rest.partition(END)
    if not begin or not end:
        raise SystemExit(f"{DOCUMENT}: no lines {BEGIN.strip()} and {END.strip()}")
    return front + begin + diagram(below, groups_of(document)) + "\n" + HEAD + rows(old.partition(HEAD)[2], root) + end + back


def missing(document: str, below: dict[str, list[str]]) -> list[str]:
    """Returns what crates the table lacks, or has without being in crates.txt."""
    rows = {crate for crates in groups_of(document).values() for crate in crates}
    return [f"{crate}: no row" for crate in below if crate not in rows] + [f"{crate}: no such crate" for crate in sorted(rows - below.keys())]


def main(words: list[str], root: Path = ROOT) -> int:
    below = dependencies((root / "crates.txt").read_text(encoding="utf-8"))
    path = root / DOCUMENT
    document = path.read_text(encoding="utf-8")
    wrong = missing(document, below)
    for line in wrong:
        print(f"{DOCUMENT}: {line}")
    if words not in ([], ["--make"], ["--check"]):
        print(__doc__, file=sys.stderr)
        return 1
    if wrong:
        return 1
    new = made(document, below, root)
    if words == ["--make"]:
        path.write_text(new, encoding="utf-8")
    elif words == ["--check"]:
        print(f"{len(below)} checked" if new == document else f"{DOCUMENT}: the diagram or the table is stale: ./dev stacks --make writes them")
        return int(new != document)
    elif not words:
        print(diagram(below, groups_of(document)), end="")
    return 0
