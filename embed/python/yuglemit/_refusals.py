# SPDX-License-Identifier: Apache-2.0
"""The lines of a Python file whose instructions were refused in a run that is stuck. The built text has them beside its rules."""

from __future__ import annotations

import re
from typing import List

_MADE = re.compile(r"rule \d+ runs procedure [^,]*, made at line (\d+): ")
_NOTE = re.compile(r"RULE never_\d+ [^;\"]* ; (.+)")


def refusals(source: str, rules: str) -> List[str]:
    """Returns the notes of a program's text on the rules of a circle.

    >>> text = "RET\\nRULE never_1 0 any 1 0 2 ; a.py:5: x // y: the divisor is 0\\n"
    >>> refusals(text, "stuck 1\\nrule 1 runs procedure 3 (never_1), made at line 2: RULE ..\\n")
    ['a.py:5: x // y: the divisor is 0']
    """
    lines = source.split("\n")
    made = [int(it[1]) for it in map(_MADE.match, rules.split("\n")) if it]
    notes = [_NOTE.match(lines[number - 1]) for number in made if number <= len(lines)]
    return [it[1] for it in notes if it]
