"""Checks the walks of docs/ARCHITECTURE.md: each function that they name is called by one that they name before it. So a reader finds each step from
one before.

    ./dev walks           prints, for each walk, how many functions, files and crates it names
    ./dev walks --check   fails if a step isn't reached by one before

The first function of a walk needs none before it. Names aren't resolved: a call of a namesake counts, too. That a file and the function named after
it are there is also what ./dev words checks.
"""

import re
from pathlib import Path
from typing import Iterator, NamedTuple

from tools import ROOT

DOCUMENT = ROOT / "docs/ARCHITECTURE.md"
HEADING = "## How a program passes through\n"


class Step(NamedTuple):
    """A function of a walk, and the file that the document names for it."""

    file: str
    function: str


class Walk(NamedTuple):
    """A walk: its title, and its steps in the order of the document."""

    title: str
    steps: list[Step]


def walks_of(document: str) -> list[Walk]:
    """Returns the walks of the document: paragraphs that begin in bold, each with the list below it."""
    section = document.partition(HEADING)[2].partition("\n## ")[0]
    parts = re.split(r"^\*\*(.+?)\.\*\*", section, flags=re.M)
    return [Walk(title, list(steps_of(text))) for title, text in zip(parts[1::2], parts[2::2])]


def steps_of(text: str) -> Iterator[Step]:
    """Yields the functions that a walk's text names, each with the last file named before it. Text before the first file has none."""
    file = ""
    for name in re.findall(r"`([^`]+)`", text):
        if re.fullmatch(r"\w+/src/[\w/]+\.rt", name):
            file = name
        elif file and re.fullmatch(r"[a-z][a-z0-9_]*", name):
            yield Step(file, name)


def bodies_of(path: Path) -> dict[str, str]:
    """Returns the bodies of a file's functions by their names, without comments; those of namesakes are joined. A missing file has none."""
    source = re.sub(r"//.*", "", path.read_text(encoding="utf-8")) if path.is_file() else ""
    found: dict[str, str] = {}
    for part in re.split(r"^(?=\s*(?:pub(?:\(\w+\))? )?(?:const )?fn )", source, flags=re.M)[1:]:
        name = re.match(r"\s*(?:pub(?:\(\w+\))? )?(?:const )?fn (\w+)", part)
        if name:
            found[name[1]] = found.get(name[1], "") + part[name.end() :]
    return found


def calls(body: str, function: str) -> bool:
    """Says if a body calls a function, or a namesake."""
    return bool(re.search(rf"\b{function}(?:::<[^()]*>)?\(", body))


def faults_of(walks: list[Walk], crates: Path) -> Iterator[str]:
    """Yields the steps of the walks that none before them calls."""
    before: list[str] = []
    for walk in walks:
        for number, step in enumerate(walk.steps):
            body = bodies_of(crates / step.file).get(step.function)
            if body is None or not (number == 0 or any(calls(other, step.function) for other in before)):
                yield f"{walk.title}: {step.file} has no {step.function} that a step before calls"
            before.append(body or "")


def main(words: list[str]) -> int:
    """Prints the walks or what is wrong with them; returns an exit status."""
    walks = walks_of(DOCUMENT.read_text(encoding="utf-8"))
    if words != ["--check"]:
        for walk in walks:
            files = {step.file for step in walk.steps}
            crates = {file.partition("/")[0] for file in files}
            print(f"{walk.title}: {len(walk.steps)} functions, {len(files)} files, {len(crates)} crates")
        return 0
    faults = list(faults_of(walks, ROOT / "crates"))
    if not walks:
        faults.append(f"{DOCUMENT.name} has no walks")
    print("\n".join([*faults, f"{sum(len(walk.steps) for walk in walks)} checked"]))
    return 1 if faults else 0
