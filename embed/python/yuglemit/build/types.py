# SPDX-License-Identifier: Apache-2.0
"""Types of the language: Int, Text, Array, Table, Map and Sum, and the meaning of a name."""

from __future__ import annotations

from dataclasses import dataclass
from typing import Tuple


@dataclass(frozen=True)
class DataType:
    """A type, as its words in assembly text: ("cont", "int") is Array[Int], ("map", "sum") is Sum[Int]."""

    words: Tuple[str, ...]

    @property
    def is_scalar(self) -> bool:
        """Whether it is Int or Text."""
        return len(self.words) == 1

    @property
    def is_map(self) -> bool:
        """Whether it is a Map or a Sum, which holds values."""
        return self.words[0] in ("map", "tmap")

    @property
    def is_sums(self) -> bool:
        """Whether it is a Sum, to whose values one adds."""
        return self.is_map and self.words[1] == "sum"

    @property
    def depth(self) -> int:
        """How many Arrays and Tables are in one another."""
        return sum(word in CONTAINERS.values() for word in self.words)

    @property
    def member(self) -> "DataType":
        """The type of a container's members, or of a map's values."""
        return INT if self.is_sums else DataType(self.words[1:])

    @property
    def subscript(self) -> "DataType":
        """The type of a container's or a map's subscripts."""
        return INT if self.words[0] in ("cont", "map") else TEXT

    @property
    def spelling(self) -> str:
        """Returns the type in assembly text."""
        return " ".join(self.words)

    @property
    def version(self) -> int:
        """The first version of programs that have it."""
        return 4 if "map" in self.words or "tmap" in self.words else 2 if "tcont" in self.words else 1

    def __str__(self) -> str:
        if self.is_scalar:
            return {"int": "Int", "text": "Text"}[self.words[0]]
        if self.is_map:
            return f"Sum[{self.subscript}]" if self.is_sums else f"Map[{self.subscript}, {self.member}]"
        return f"{'Array' if self.words[0] == 'cont' else 'Table'}[{self.member}]"


INT = DataType(("int",))
TEXT = DataType(("text",))
SUMS = DataType(("map", "sum"))

CONTAINERS = {"Array": "cont", "Table": "tcont"}
MAPS = ("Map", "Sum")
SCALARS = {"Int": INT, "Text": TEXT}
DEEPEST = 3


@dataclass(frozen=True)
class Kind:
    """The kind of an expression: a "value", known while the task runs; a "future", the result of a task or a member, known later; or a
    "container" or map that the task itself fills or reads."""

    form: str
    type: DataType

    def __str__(self) -> str:
        return str(self.type)


def value(data_type: DataType) -> Kind:
    """Returns the kind of a value of this type."""
    return Kind("value", data_type)


def future(data_type: DataType) -> Kind:
    """Returns the kind of a future of this type."""
    return Kind("future", data_type)


def container(data_type: DataType) -> Kind:
    """Returns the kind of a container of this type."""
    return Kind("container", data_type)
