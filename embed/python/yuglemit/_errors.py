# SPDX-License-Identifier: Apache-2.0
"""The exceptions of the package, and how an error is read."""

from __future__ import annotations

import re
from typing import TYPE_CHECKING, Dict, Optional

from ._shown import Shown

if TYPE_CHECKING:
    from ._report import Report

# The lines that only the library writes. Each begins an answer, or follows a check's listing. The first such line counts, since later
# lines may quote the program. A listing has none: each of its lines is a statement or begins with `;`.
_HEADS = (
    re.compile(
        r"refused (?P<code>[A-Z]\d+)(?: at line (?P<line>\d+)| at byte (?P<byte>\d+)| in procedure (?P<procedure>\d+) at place (?P<place>\d+))?(?!\S)"
    ),
    re.compile(r"trap (?P<code>C\d+) at event (?P<event>\d+)(?!\S)"),
    re.compile(r"not enabled at event (?P<event>\d+)(?!\S)"),
    re.compile(r"input word (?P<input>\d+) refused(?!\S)"),
    re.compile(r"command line refused(?!\S)"),
)
_NUMBERS = ("line", "byte", "procedure", "place", "event", "input")


def read_refusal(text: str) -> Dict[str, Optional[str]]:
    """Reads the code and the position of an error off its own lines, never off a line of the program.

    >>> read_refusal("refused V10 in procedure 1 at place 4\\nat line 9: RET ; at line 3\\n")["line"]
    '9'
    >>> read_refusal("refused V10 in procedure 1 at place 4\\nat line 9 in work: RET ; at line 3\\n")["line"]
    '9'
    >>> read_refusal("refused A01 at line 1\\nplace 7\\nword 1, column 1: expected proc, found place\\n")["place"]
    """
    lines = text.split("\n")
    for number, line in enumerate(lines):
        for head in _HEADS:
            found = head.match(line)
            if found:
                fields: Dict[str, Optional[str]] = dict.fromkeys((*_NUMBERS, "code", "column"))
                fields.update(found.groupdict())
                fields.update(_read_details(fields["code"] or "", lines[number + 1 :]))
                return fields
    return dict.fromkeys((*_NUMBERS, "code", "column"))


def _read_details(code: str, rest: list[str]) -> Dict[str, str]:
    """Reads the lines after an error's first one, as far as the library wrote their beginning."""
    if code[:1] == "V":
        pattern, candidates = r"at line (?P<line>\d+)(?: in [^\s:]+)?: ", rest[:1]
    elif code[:1] == "O":
        pattern, candidates = r"input (?P<input>\d+)(?!\S)", rest[:1]
    elif code[:1] in ("A", "N"):
        pattern, candidates = r"word \d+, column (?P<column>\d+): ", rest[1:]  # the first of them is the program's line
    else:
        return {}
    for line in candidates:
        found = re.match(pattern, line)
        if found:
            return found.groupdict()
    return {}


class Refused(Exception, metaclass=Shown):
    """Says that a program, an input or a trace is rejected.

    `text` is what the library wrote, `code` as "V04" (`explain` says more), and the numbers say where; each of them is None if the
    error doesn't say it. `line` and `column` count from 1, `procedure` and `place` from 0, `input` and `event` from 1.
    """

    code: Optional[str]
    line: Optional[int]
    column: Optional[int]
    byte: Optional[int]
    procedure: Optional[int]
    place: Optional[int]
    event: Optional[int]
    input: Optional[int]

    def __init__(self, text: str) -> None:
        super().__init__(text)
        self.text = text
        fields = read_refusal(text)
        self.code = fields.pop("code")
        for name, number in fields.items():
            setattr(self, name, None if number is None else int(number))

    def __str__(self) -> str:
        return self.text.strip()


class Trap(Refused):
    """Says that an event of a replayed trace traps, which no event of an accepted program does."""


class Unfinished(Exception, metaclass=Shown):
    """Says that there is no answer: a run didn't end quiet, or what reads it was stopped. `report` is its report, and the message says what to
    pass. `report.partial` has what there is of its outputs.

    >>> import yuglemit
    >>> endless = yuglemit.load("proc control write int\\nregs\\nPUT 0 0 any 0\\nRET\\n")
    >>> try:
    ...     endless.run(limit=10).outputs
    ... except yuglemit.Unfinished as why:
    ...     print(why, why.report.partial, sep="\\n")
    the run ended with "limit" after 10 events, its limit is 10: pass a larger limit, up to 1000000. `partial` has what there is of its outputs
    [None]
    """

    def __init__(self, report: "Report", text: str) -> None:
        super().__init__(report, text)
        self.report = report

    def __str__(self) -> str:
        return str(self.args[1])
