# SPDX-License-Identifier: Apache-2.0
"""Shows texts on a terminal without what controls it or changes the direction of text."""

from __future__ import annotations

import re

_HIDDEN = re.compile("[\x01-\x09\x0b-\x1f\x7f-\x9f\u061c\u200e\u200f\u202a-\u202e\u2066-\u2069]")


def visible(text: str) -> str:
    r"""Returns a text as the command `tw` prints it: a hidden character by its code, and a blank for a tab.

    >>> visible("a\tb\x1b[2K\u202e\n")
    'a b\\u{1b}[2K\\u{202e}\n'
    """
    return _HIDDEN.sub(lambda it: " " if it[0] == "\t" else f"\\u{{{ord(it[0]):x}}}", text)
