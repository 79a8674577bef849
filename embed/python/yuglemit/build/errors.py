# SPDX-License-Identifier: Apache-2.0
"""The error of a program that can't be compiled."""

from __future__ import annotations

from typing import Tuple

from .._visible import visible


class BuildError(Exception):
    """Says what can't be compiled, and where: `file`, `line` and `column`, both counted from 1, and `message`."""

    def __init__(self, file: str, line: int, column: int, message: str) -> None:
        super().__init__(file, line, column, message)
        self.file, self.line, self.column, self.message = file, line, column, message

    def __str__(self) -> str:
        return visible(f"{self.file}:{self.line}:{self.column}: {self.message}")

    def __reduce__(self) -> Tuple[object, ...]:
        return BuildError, (self.file, self.line, self.column, self.message)
