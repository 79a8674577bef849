# SPDX-License-Identifier: Apache-2.0
"""Assembles, verifies, runs and replays dataflow programs that you don't trust.

    program = yuglemit.load(pathlib.Path("sum.twn"))    # verified here, or Refused
    report = program.run({1: 7, 5: -3})
    report.outputs                                      # the answer, or Unfinished

A run has one thread, 1,000,000 events or fewer, up to 4 engines, 4 servers and 16 workers; a text has up to 4,096 bytes, a container of inputs 1,000 members,
a map 100,000 values.

`load` makes a `Program`, `Program.run` a `Report`, `map` many reports over any executor; `yuglemit.build` compiles programs from Python.
"""

from ._commands import assemble, explain, session, verify
from ._errors import Refused, Trap, Unfinished
from ._inputs import Input, Value, read_input
from ._listing import Bounds, Needs, Parameter, Procedure
from ._load import load, load_bytes, load_text
from ._map import map
from ._native import Meter, Output
from ._program import Program
from ._report import Report, Wait
from ._stop import Stop
from ._version import __version__

for _public in (Refused, Trap, Bounds, Meter, Needs, Parameter, Procedure, Program, Report, Stop, Unfinished, Wait):
    _public.__module__ = "yuglemit"

__all__ = [
    "Bounds",
    "Input",
    "Meter",
    "Needs",
    "Output",
    "Parameter",
    "Procedure",
    "Program",
    "Refused",
    "Report",
    "Stop",
    "Trap",
    "Unfinished",
    "Value",
    "Wait",
    "__version__",
    "assemble",
    "explain",
    "load",
    "load_bytes",
    "load_text",
    "map",
    "read_input",
    "session",
    "verify",
]
