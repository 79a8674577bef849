#!/usr/bin/env python3
# SPDX-License-Identifier: Apache-2.0
"""Plots bench/results.csv as an SVG text: plot.py [ROW..] >FILE

Without arguments it plots each row that has at least two sittings, one chart a row. The horizontal axis is the order of sittings.
"""

from __future__ import annotations

import csv
import pathlib
import sys
from collections import defaultdict
from typing import NamedTuple
from xml.sax.saxutils import escape

RESULTS = pathlib.Path(__file__).resolve().parent / "results.csv"
COLUMNS = 3
WIDTH, HEIGHT = 300, 130
INSIDE_WIDTH, INSIDE_HEIGHT = 220, 60


class Result(NamedTuple):
    """A figure of a sitting."""

    date: str
    commit: str
    machine: str
    row: str
    value: float
    unit: str


def read(path: pathlib.Path) -> list[Result]:
    """Reads the results, in the order of the file, which is that of the sittings."""
    with path.open(encoding="utf-8", newline="") as file:
        return [Result(it["date"], it["commit"], it["machine"], it["row"], float(it["value"]), it["unit"]) for it in csv.DictReader(file)]


def by_row(results: list[Result]) -> dict[str, list[Result]]:
    """Groups results by their row."""
    grouped: dict[str, list[Result]] = defaultdict(list)
    for result in results:
        grouped[result.row].append(result)
    return dict(grouped)


def points(results: list[Result]) -> list[tuple[float, float]]:
    """Returns where the figures of a row are drawn, in a chart that begins at 0."""
    top = max(result.value for result in results) or 1
    step = INSIDE_WIDTH / max(len(results) - 1, 1)
    return [(index * step, INSIDE_HEIGHT * (1 - result.value / top)) for index, result in enumerate(results)]


def chart(results: list[Result], left: float, top: float) -> str:
    """Returns the chart of a row."""
    places = points(results)
    line = " ".join(f"{x:.1f},{y:.1f}" for x, y in places)
    parts = [f'<g transform="translate({left:.0f},{top:.0f})">', f'<text y="-12">{escape(results[0].row)} ({escape(results[0].unit)})</text>']
    parts.append(f'<path d="M0 {INSIDE_HEIGHT}H{INSIDE_WIDTH}" stroke="#999"/><polyline points="{line}" fill="none" stroke="#1f5fa8"/>')
    for (x, y), result in zip(places, results):
        title = escape(f"{result.date} {result.commit} {result.machine}: {result.value:g}")
        parts.append(f'<circle cx="{x:.1f}" cy="{y:.1f}" r="3" fill="#1f5fa8"><title>{title}</title></circle>')
        parts.append(f'<text x="{x:.1f}" y="{y - 5:.1f}" font-size="9">{result.value:g}</text>')
    return "\n".join([*parts, "</g>"])


def plot(groups: dict[str, list[Result]]) -> str:
    """Returns the charts of rows as one SVG text."""
    height = HEIGHT * -(-len(groups) // COLUMNS) + 20
    charts = [chart(results, 20 + index % COLUMNS * WIDTH, 50 + index // COLUMNS * HEIGHT) for index, results in enumerate(groups.values())]
    head = f'<svg xmlns="http://www.w3.org/2000/svg" width="{COLUMNS * WIDTH}" height="{height}" font-family="sans-serif" font-size="11">'
    return "\n".join([head, '<rect width="100%" height="100%" fill="#fff"/>', *charts, "</svg>"])


def main(names: list[str]) -> int:
    """Prints the plot of the named rows, or of all with two sittings, and returns the exit status."""
    groups = by_row(read(RESULTS))
    unknown = [name for name in names if name not in groups]
    if unknown:
        print("plot: no rows", ", ".join(unknown), file=sys.stderr)
        return 2
    print(plot({name: groups[name] for name in names} if names else {name: it for name, it in groups.items() if len(it) > 1}))
    return 0


if __name__ == "__main__":
    sys.exit(main(sys.argv[1:]))
