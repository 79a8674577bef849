# SPDX-License-Identifier: Apache-2.0
"""The command `python -m yuglemit`: compiles a Python file, verifies the program, and writes its text, runs it or prints its budgets."""

from __future__ import annotations

import argparse
import ast
import sys
from pathlib import Path
from typing import NoReturn, Optional, Sequence

from ._errors import Refused
from ._inputs import Input, read_input
from ._listing import Parameter
from ._program import Program
from ._report import Report
from ._visible import visible
from .build import BuildError, Built, build_file

_STATUS = {"quiet": 0, "stuck": 3, "limit": 4, "stopped": 4}
_KINDS = ("int:", "text:", "ints:", "texts:")


class _Parser(argparse.ArgumentParser):
    """A parser whose errors quote arguments without hidden characters."""

    def error(self, message: str) -> NoReturn:
        super().error(visible(message))


def _complain(why: object) -> None:
    print(visible(str(why)), file=sys.stderr)


def _write(text: str, output: Optional[str] = None) -> int:
    """Writes a text into a file, or to standard output if there is none, as UTF-8. Returns the exit status."""
    try:
        if output is None:
            sys.stdout.buffer.write((visible(text) if sys.stdout.isatty() else text).encode())
            sys.stdout.buffer.flush()
        else:
            Path(output).write_text(text, encoding="utf-8")
    except OSError as why:
        _complain(f"{output or 'standard output'}: {why}")
        return 73
    return 0


def _input_of(word: str, parameter: Parameter, number: int) -> Input:
    """Reads an input: as `tw run` does, or a Python value; that of a text may be the text itself."""
    if word.startswith(_KINDS):
        return read_input(word)
    if parameter.type == "text" and word[:1] not in ("'", '"'):
        return word
    try:
        value: Input = ast.literal_eval(word)
    except (ValueError, SyntaxError, MemoryError, RecursionError):
        raise ValueError(f"input {number} ({parameter}): expected a value such as 7, [1, 2] or {{1: 2}}, got {word:.60}") from None
    return dict(enumerate(value)) if isinstance(value, list) else value


def _report_of(program: Program, words: Sequence[str], limit: Optional[int], seconds: Optional[float]) -> Report:
    asked = program.parameters
    words = words[1:] if words[:1] == ["--"] else words
    if any(it.startswith("--") for it in words):
        raise ValueError("put options before FILE.py")
    if len(words) != len(asked):
        raise ValueError(f"the program takes {len(asked)} inputs ({', '.join(map(str, asked))}), {len(words)} are given")
    inputs = [_input_of(word, it, number) for number, (word, it) in enumerate(zip(words, asked), 1)]
    return program.run(*inputs, timeout=seconds) if limit is None else program.run(*inputs, limit=limit, timeout=seconds)


def _run(program: Program, words: argparse.Namespace) -> int:
    """Runs a program, and writes the report, and of a run that is stuck the lines that were refused."""
    try:
        report = _report_of(program, words.inputs, words.limit, words.seconds)
    except (Refused, TypeError, ValueError) as why:
        _complain(why)
        return 2
    return _write(report.text + "".join(f"{it}\n" for it in report.refused())) or _STATUS[report.end]


def _act(built: Built, words: argparse.Namespace) -> int:
    program = built.program  # raises what the verifier finds
    if words.command == "run":
        return _run(program, words)
    return _write(program.checked) if words.command == "check" else _write(built.text, words.output)


def _words() -> argparse.Namespace:
    parser = _Parser(prog="python -m yuglemit", description="Compiles programs from a subset of Python.")
    commands = parser.add_subparsers(dest="command", required=True)
    build = commands.add_parser("build", help="writes FILE.py as assembly text with names (.twn)")
    run = commands.add_parser("run", help="runs FILE.py, and prints the report")
    check = commands.add_parser("check", help="prints the budgets of FILE.py")
    for it in (build, run, check):
        it.add_argument("file", metavar="FILE.py")
    build.add_argument("-o", "--output", help="the file to write; standard output if it isn't given")
    run.add_argument("inputs", metavar="INPUT", nargs=argparse.REMAINDER, help="one for each parameter of main, such as 7, text, [1, 2] or {1: 2}")
    run.add_argument("--limit", type=int, help="the most events")
    run.add_argument("--seconds", type=float, help="after so many seconds the run is stopped")
    return parser.parse_args()


def main() -> int:
    """Runs the command.

    Returns its exit status: 0, or 1 if the file can't be compiled, 2 if an input is wrong, 3 if the run is stuck, 4 if its limit or its time has
    ended it. It is 66 if the file can't be read, 70 if the library isn't found, 73 if the answer can't be written.
    """
    words = _words()
    try:
        return _act(build_file(words.file), words)
    except (BuildError, Refused) as why:
        _complain(why)
        return 1
    except ImportError as why:
        _complain(f"{words.file} isn't verified: {why}")
        return 70
    except OSError as why:
        _complain(f"{words.file}: {why}")
        return 66


if __name__ == "__main__":
    sys.exit(main())
