"""Tests of ./dev manual on small texts."""

from tools.common.testing import Table
from tools.sources import manual

TOP = "Usage: tw\n\nCommands:\n  run   Runs a program\n  help  Helps\n\nOptions:\n  -h, --help  Print help\n"
RUN = """Runs a program

Options:
      --limit <N>  The most events: 1 to 9 (default: 3)
      --trace      Write a line `events` of "e"
Input:
      --inputs [DATA]
          Read a file DATA
  -h, --help
          Print help
"""
PAGE = """.SH COMMANDS
.TP
.B run
Runs a program and reports.
.SH OPTIONS
.TP
.BI \\-\\-limit " N"
The most events: 1 to 9 (default: 3). For
.BR run .
.TP
.B \\-\\-trace
Write a line
.B events
of \\(dqe\\(dq. For
.B run
with
.BR \\-\\-limit .
.TP
.BR \\-\\-inputs " [\\fIDATA\\fR]"
Read a file
.IR DATA .
For
.BR run .
.TP
.B \\-\\-help
The help.
"""


CHECK = ".TP\n.B check\nChecks.\n.SH OPTIONS"


def found(old: str, new: str, run: str = RUN, top: str = TOP, check: str | None = None) -> list[str]:
    """Returns what the page says otherwise than the help texts, if this text is in place of that one."""
    assert old in PAGE, old
    texts = {"run": run} | ({"check": check} if check else {})
    return list(manual.differences(manual.helps_of(top, texts), PAGE.replace(old, new), ["--inputs"]))


class Differences(Table):
    def test_nothing_differs(self) -> None:
        self.compare(found, ("the page", "", "", []), ("an entry says more", "3). For", "3). It stops then. For", []))

    def test_entries(self) -> None:
        self.compare(
            lambda old, new: [it.split(":")[0] for it in found(old, new)],
            ("a sentence that differs", "1 to 9", "1 to 8", ["--limit begins with"]), ("the beginning of a word", "a program and", "a programme and", ["run begins with"]),
            ("an option without an entry", '\\-\\-limit " N"', '\\-\\-max " N"', ["--limit has no entry", "--max is no option of tw"]),
            ("a command without an entry", ".B run\nRuns", ".B go\nRuns", ["run has no entry"]),
            ("no command after For", "3). For\n.BR run .", "3).", ["--limit is for"]),
            ("a file of another name", "[\\fIDATA\\fR]", "[\\fITRACE\\fR]", ["--inputs names the file TRACE, and its help DATA"]),
        )

    def test_helps(self) -> None:
        other = TOP.replace("  help ", "  check  Checks\n  help ")
        self.assertEqual(found("", "", RUN + "      --new  New\n"), ["--new has no entry"])
        unnamed = ["--inputs names the file DATA, and its help None", "--inputs takes a file, and its help names none"]
        self.assertEqual(found("", "", RUN.replace(" DATA", "")), unnamed)
        taken = found(".SH OPTIONS", CHECK, RUN, other, "      --limit <N>\n          The most events: 1 to 9 (default: 3)\n")
        self.assertEqual(taken, ["--limit is for: run; and taken by: check, run"])
