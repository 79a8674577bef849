"""Counts the instructions of an event with valgrind's callgrind. In turn they depend on the program alone, in threads on who comes first, too.

    ./dev events            prints them for each row, and those of bench/events.csv
    ./dev events --check    fails if a row takes over 2 percent more than there, in threads over 15
    ./dev events --write    writes bench/events.csv

A row is a run of 100,000 events of a program of bench/, in threads or in turn, with so many engines, servers and workers.
"""

import argparse
import csv
import re
import subprocess
import tempfile
from pathlib import Path

from tools import ROOT
from tools.common.program import PROGRAM, found, program

FIGURES = ROOT / "bench" / "events.csv"
EVENTS = 100_000
# How much more than its figure a row may take. Runs in threads wait for one another at other places each time: up to 5 percent were seen.
MOST, MOST_IN_THREADS = 1.02, 1.15
MODES: dict[str, list[str]] = {"in turn, 1/1/1": ["--in-turn"], "in turn, 4/4/16": ["--in-turn", "--engines=4", "--servers=4", "--workers=16"], "in threads": []}
PROGRAMS = ("put", "rules", "cont")


def counted(words: list[str], code: bytes, log: Path) -> float:
    """Runs a command under callgrind, up to its limit, which is status 4; returns its instructions an event."""
    command = ["valgrind", "--tool=callgrind", "--callgrind-out-file=/dev/null", f"--log-file={log}", *words]
    status = subprocess.run(command, input=code, stdout=subprocess.DEVNULL, check=False).returncode
    found = re.search(r"Collected : (\d+)", log.read_text(encoding="utf-8"))
    if status != 4 or not found:
        raise SystemExit(f"events: {' '.join(words)} ends with {status} under callgrind, or counts nothing")
    return int(found[1]) / EVENTS


def measured() -> dict[str, float]:
    """Returns the instructions of each row."""
    rows = {}
    with tempfile.TemporaryDirectory() as room:
        for name in PROGRAMS:
            text = (ROOT / "bench" / f"{name}.tw").read_bytes()
            code = subprocess.run([program(), "asm"], input=text, stdout=subprocess.PIPE, check=True).stdout
            for mode, words in MODES.items():
                rows[f"{name} {mode}"] = counted([program(), "run", f"--limit={EVENTS}", *words], code, Path(room) / "log")
    return rows


def committed() -> dict[str, float]:
    """Returns the figures in bench/events.csv."""
    with FIGURES.open(encoding="utf-8", newline="") as lines:
        return {row["row"]: float(row["instructions"]) for row in csv.DictReader(lines)}


def risen(rows: dict[str, float], figures: dict[str, float]) -> list[str]:
    """Returns a line for each row that takes more than it may, or has no figure."""
    most = {row: figures.get(row, 0) * (MOST_IN_THREADS if row.endswith("in threads") else MOST) for row in rows}
    return [f"events: {row}: {count:.0f}, before {figures.get(row, 0):.0f}" for row, count in rows.items() if count > most[row]]


def main(words: list[str]) -> int:
    """Does what the arguments say; returns an exit status."""
    parser = argparse.ArgumentParser(prog="./dev events", description=__doc__, formatter_class=argparse.RawDescriptionHelpFormatter)
    parser.add_argument("--check", action="store_true")
    parser.add_argument("--write", action="store_true")
    asked = parser.parse_args(words)
    rows = measured()
    if asked.write:
        FIGURES.write_text("row,instructions\n" + "".join(f'"{row}",{count:.0f}\n' for row, count in rows.items()), encoding="utf-8")
    figures = committed()
    for row, count in rows.items():
        print(f"{count:8.0f} instructions an event of {row}; {figures.get(row, 0):.0f} before")
    compared = asked.check and found(PROGRAM).kind != "unverified"
    if asked.check and not compared:
        print("left out: the comparison, since an unverified program takes more")
    wrong = risen(rows, figures) if compared else []
    print(*wrong, f"{len(rows) - len(wrong)} passed, {len(wrong)} failed", sep="\n")
    return int(bool(wrong))
