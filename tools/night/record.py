"""The record of what harnesses passed: release/HARNESSES, a row each. It is written from the results of nights.

    ./dev record             takes the whole runs of the last night that passed; --quick runs don't count
    ./dev record FOLDER..    those of these folders of out/night
    ./dev record --stale     prints the rows that are of other sources than these

A row has the harness, the version, a sum of what it depends on, how many things passed, the seconds, the date, and the parts that were left out.
The sum is that of the sources of what it tests, and of its own files. A release needs a row of this version or the one before it for each
harness, with no fewer things than the release before had, unless its time is bounded or the program decides how many there are."""

import datetime
import hashlib
import json
import re
import subprocess
import sys
from functools import cache
from pathlib import Path
from typing import Any, NamedTuple

from tools import ROOT
from tools.harnesses import TOOLS, Run, Tool, path_of
from tools.night.runner import OK, Ended

RECORD = ROOT / "release" / "HARNESSES"
NIGHTS = ROOT / "out" / "night"


class Row(NamedTuple):
    """A row of the record."""

    name: str
    version: str
    sum: str
    passed: int
    seconds: int
    date: str
    left_out: str = ""

    def text(self) -> str:
        """Returns the row's line."""
        return f"{self.name} {self.version} {self.sum} {self.passed} {self.seconds} {self.date}{f' without {self.left_out}' if self.left_out else ''}"


def read_rows(text: str) -> dict[str, Row]:
    """Returns the rows of a record by their names."""
    found = re.findall(r"^(\w+) (\S+) (\w+) (\d+) (\d+) (\S+)(?: without (.*))?$", text, re.M)
    return {name: Row(name, version, digest, int(passed), int(seconds), date, left_out) for name, version, digest, passed, seconds, date, left_out in found}


def rows_at_hand() -> dict[str, Row]:
    """Returns the rows of release/HARNESSES."""
    return read_rows(RECORD.read_text(encoding="utf-8")) if RECORD.exists() else {}


@cache
def sources_of(crate: str) -> str:
    """Returns the sum of a crate's sources and of those below it."""
    return subprocess.run([ROOT / "script/sources.sh", crate], stdout=subprocess.PIPE, text=True, check=True).stdout.split()[0]


def own_files(tool: Tool) -> list[Path]:
    """Returns the files of a harness, and those that it names, without what was built there."""
    named = [path_of(name) for name in (tool.file, *tool.depends.split())]
    return sorted(file for path in named for file in ([path] if path.is_file() else path.rglob("*")) if file.is_file() and not {"__pycache__", "out", "target"} & {*file.relative_to(ROOT).parts})


def sum_of(tool: Tool) -> str:
    """Returns the sum of what a harness depends on."""
    made = hashlib.sha256()
    for crate in tool.tests.split():
        made.update(sources_of("tw_embed" if crate == "libyuglemit.a" else crate).encode())
    for file in own_files(tool):
        made.update(file.read_bytes())
    return made.hexdigest()[:16]


def version() -> str:
    """Returns the version of the sources."""
    return (ROOT / "VERSION").read_text(encoding="utf-8").strip()


def result_of(ended: Ended, whole: bool) -> dict[str, Any]:
    """Returns what a night keeps of a harness."""
    row = Row(ended.tool.name, version(), sum_of(ended.tool), ended.passed, round(ended.seconds), str(datetime.date.today()), ", ".join(ended.parts))
    return {"outcome": ended.outcome, "whole": whole, **row._asdict()}


def read_results(folder: Path) -> list[Row]:
    """Returns the rows of a night's harnesses that passed whole."""
    found = [json.loads(line) for line in (folder / "results").read_text(encoding="utf-8").splitlines()]
    return [Row(*(it[key] for key in Row._fields)) for it in found if it["outcome"] == OK and it["whole"]]


def previous_versions() -> list[str]:
    """Returns the versions by which a row may be: this one and the one before it."""
    return re.findall(r"(?m)^## ([0-9.]+)", (ROOT / "CHANGELOG.md").read_text(encoding="utf-8"))[:2]


def rows_before() -> dict[str, Row]:
    """Returns the rows that the release before had."""
    git = ["git", "-C", str(ROOT)]
    commit = subprocess.run([*git, "log", "-1", "--format=%H", "--", "release/MANIFEST"], stdout=subprocess.PIPE, text=True, check=False).stdout.strip()
    return read_rows(subprocess.run([*git, "show", f"{commit}:release/HARNESSES"], capture_output=True, text=True, check=False).stdout)


def faults(rows: dict[str, Row], before: dict[str, Row], tools: tuple[Tool, ...] = TOOLS) -> list[str]:
    """Returns why there can be no release with these rows, where the release before had those."""
    found: list[str] = []
    for tool in (it for it in tools if it.is_harness):
        row = rows.get(tool.name)
        if row is None:
            found.append(f"{tool.name} has no row")
        elif row.version not in previous_versions():
            found.append(f"{tool.name} passed last with version {row.version}")
        elif tool.name in before and row.passed < before[tool.name].passed and not tool.may_fall and "@seconds" not in (tool.whole or Run()).words:
            found.append(f"{tool.name} passed {before[tool.name].passed} in the release before, and {row.passed} now")
    return found


def stale() -> list[str]:
    """Returns the rows of other sources, and the harnesses without one."""
    rows, lines = rows_at_hand(), list[str]()
    for tool in (it for it in TOOLS if it.is_harness):
        row = rows.get(tool.name)
        if row is None or row.sum != sum_of(tool):
            lines.append(f"{tool.name} {'has no row' if row is None else f'passed last with version {row.version}, {row.date}, on other sources'}")
    return lines


def main(words: list[str]) -> int:
    """Does what the arguments say; returns an exit status."""
    if words == ["--stale"]:
        print("".join(line + "\n" for line in stale()), end="")
        return 0
    folders = [Path(word) for word in words] or [path.parent for path in sorted(NIGHTS.glob("*/results"))[-1:]]
    if not folders or any(word.startswith("-") for word in words):
        print(__doc__, file=sys.stderr)
        return 2
    names = {tool.name for tool in TOOLS if tool.is_harness}
    rows = {name: row for name, row in rows_at_hand().items() if name in names}
    made = [row for folder in folders for row in read_results(folder)]
    rows.update((row.name, row) for row in made)
    RECORD.write_text("".join(rows[name].text() + "\n" for name in sorted(rows)), encoding="utf-8")
    print(f"{len(made)} rows written, {len(names - rows.keys())} harnesses have none")
    return 0
