# SPDX-License-Identifier: Apache-2.0
"""Functions that the scripts here share: a folder's inputs (NAME.in, an input a line), and the table that table.sh prints of results."""

from __future__ import annotations

import pathlib
import sys
from collections.abc import Iterable
from dataclasses import dataclass
from typing import Any, TextIO

import yuglemit

STATUS = {"quiet": 0, "stuck": 3, "limit": 4, "memory": 5}
TYPES = {"int": "int", "text": "text", "ints": "cont int", "texts": "cont text", "tints": "tcont int", "ttexts": "tcont text"}


@dataclass(frozen=True)
class File:
    """A file of inputs, which are None if the program's run can't begin with them."""

    path: pathlib.Path
    inputs: tuple[yuglemit.Value, ...] | None


def words(data: bytes) -> list[str]:
    """Returns the words of a file, as `tw run --inputs` reads them: a line each, up to a line `end`."""
    lines = data.decode().split("\n")
    lines = [it[:-1] if it.endswith("\r") else it for it in lines[:-1]] + lines[-1:]
    return [it for it in lines[: lines.index("end") if "end" in lines else None] if it]


def inputs_of(program: yuglemit.Program, data: bytes) -> tuple[yuglemit.Value, ...] | None:
    """Returns the inputs in a file, or None if it has others than the program takes."""
    try:
        its = words(data)
        found = tuple(map(yuglemit.read_input, its))
    except ValueError:
        return None
    return found if [TYPES[it.partition(":")[0]] for it in its] == [it.type for it in program.parameters] else None


def read(program: yuglemit.Program, folder: str) -> list[File]:
    """Reads the files of a folder, by their names."""
    return [File(it, inputs_of(program, it.read_bytes())) for it in sorted(pathlib.Path(folder).glob("*.in"))]


def answer(program: yuglemit.Program, file: File) -> tuple[int, str]:
    """Returns the status and the report of `tw run` for a file that is wrong."""
    source = program.bytes.hex() if program.source is None else program.source
    text = [] if program.source is None else ["--text"]
    status, report = yuglemit.session(["run", "--inputs", *text], source.encode() + b"\ninputs\n" + file.path.read_bytes())
    return status, report.decode()


def line(program: yuglemit.Program, file: File, report: yuglemit.Report | None) -> tuple[int, str]:
    """Returns the status and the report of a file's run."""
    if report is None or report.end == "refused":
        return answer(program, file)
    return STATUS[report.end], "memory\n" if report.error else report.text


def table(
    program: yuglemit.Program,
    files: Iterable[File],
    executor: Any = None,
    file: TextIO = sys.stdout,
    on_broken: str = "raise",
) -> None:
    """Runs a program on files, by this executor, and prints the table: a line for each file with its name, the status and the report."""
    files = list(files)
    reports = yuglemit.map(program, [it.inputs for it in files if it.inputs is not None], executor, on_broken=on_broken, text=True)
    for it in files:
        status, text = line(program, it, None if it.inputs is None else next(reports))
        print(it.path.stem, status, text.replace("\n", ";"), sep="\t", file=file)
