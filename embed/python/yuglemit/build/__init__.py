# SPDX-License-Identifier: Apache-2.0
"""Compiles programs from a subset of Python. docs/BUILD.md is the manual.

    @leaf(otherwise=-1)
    def square(n: Int) -> Int:
        return n * n

    @control
    def main(x: Int, y: Int, total: Out[Int]):
        out.total = add(square(x), square(y))

The functions are read and compiled, and never run: `build_file` gives the program. All else that is defined here is for editors and type
checkers, and lets a leaf function be called as plain Python.
"""

from __future__ import annotations

from typing import TYPE_CHECKING, Annotated, Any, Callable, Dict, Iterator, List, Optional, Protocol, Tuple, TypeVar, Union, overload

from .compiler import Built, build_file, build_text
from .errors import BuildError

Int = int
Text = str
Member = TypeVar("Member")
Subscript = TypeVar("Subscript", int, str)
Result = TypeVar("Result", covariant=True)
Function = TypeVar("Function", bound=Callable[..., Any])
Otherwise = Union[int, str, Tuple[Union[int, str], ...]]

Out = Annotated[Member, "written by the task, as out.NAME"]
"""The type of a parameter that the task writes, as `out.NAME`."""

if TYPE_CHECKING:
    from typing_extensions import ParamSpec

    Parameters = ParamSpec("Parameters")

    class Task(Protocol[Parameters, Result]):
        """A decorated function, as type checkers see it: a call of it may also say priority, worker or engine."""

        @overload
        def __call__(self, *arguments: Parameters.args, **keywords: Parameters.kwargs) -> Result: ...
        @overload
        def __call__(self, *arguments: Any, priority: int, worker: int = ..., engine: int = ...) -> Result: ...
        @overload
        def __call__(self, *arguments: Any, worker: int) -> Result: ...
        @overload
        def __call__(self, *arguments: Any, engine: int) -> Result: ...

    @overload
    def leaf(function: Callable[Parameters, Result]) -> Task[Parameters, Result]: ...
    @overload
    def leaf(*, otherwise: Otherwise) -> Callable[[Callable[Parameters, Result]], Task[Parameters, Result]]: ...
    def leaf(function: Any = None, *, otherwise: Any = None) -> Any:
        """Marks a function that computes; it runs on a worker. `otherwise` is its result if an instruction is refused."""

    def control(function: Callable[Parameters, Result]) -> Task[Parameters, Result]:
        """Marks a function that calls others; it runs on an engine."""

else:

    def leaf(function: Optional[Function] = None, *, otherwise: Optional[Otherwise] = None) -> Any:
        """Marks a function that computes; it runs on a worker. `otherwise` is its result if an instruction is refused."""
        return (lambda it: it) if function is None else function

    def control(function: Function) -> Function:
        """Marks a function that calls others; it runs on an engine."""
        return function


class Array(Dict[int, Member]):
    """A container whose subscripts are ints."""

    def __iter__(self) -> Iterator[Any]:
        return iter(self.items())


class Table(Dict[str, Member]):
    """A container whose subscripts are texts."""

    def __iter__(self) -> Iterator[Any]:
        return iter(self.items())


class Map(Dict[Subscript, Member]):
    """Values by subscripts that are ints or texts."""

    def __iter__(self) -> Iterator[Any]:
        return iter(self.items())


class Sum(Dict[Subscript, int]):
    """Ints by subscripts that are ints or texts, to which tasks add, modulo 2^64."""

    def __iter__(self) -> Iterator[Any]:
        return iter(self.items())

    def __missing__(self, subscript: Subscript) -> int:
        return 0

    def __setitem__(self, subscript: Subscript, number: int) -> None:
        dict.__setitem__(self, subscript, (number + 2**63) % 2**64 - 2**63)


class _Outputs:
    def __getattr__(self, name: str) -> Any:
        raise AttributeError(f"out.{name}: out is for functions that are compiled")

    def __setattr__(self, name: str, value: object) -> None:
        raise AttributeError(f"out.{name}: out is for functions that are compiled")


out: Any = _Outputs()


def check(*values: object) -> bool:
    """As the condition of an `if`: evaluates its arguments; if an instruction in them is refused, the else is taken."""
    return all(it is not False and (not isinstance(it, int) or -(2**63) <= it < 2**63) for it in values)


def each(over: Union[Dict[Subscript, Any], range, List[str]], most: Optional[int] = None) -> Iterator[Any]:
    """Gives to a `for` the subscripts, or with two names the subscripts and the members or values; or the numbers of a range, or the words of a text. If more are left after
    `most`, the loop is refused there. Above 1,000 it is the next thousand; without it, 1,000 for an Array or a Table, and else 100,000."""
    bound = most if most is not None else 1000 if isinstance(over, (Array, Table)) else 100_000
    for number, it in enumerate(sorted(over.items()) if isinstance(over, dict) else over):
        if number == (bound if bound <= 1000 else -(-bound // 1000) * 1000):
            raise OverflowError(f"each: there are more than {number}, the most of this loop")
        yield it


def insert(container: Dict[Subscript, Member], subscript: Subscript, member: Member) -> bool:
    """Puts a member into a container, or a value into a map; it is refused if the subscript has one. As plain Python it says whether it has put it there."""
    is_free = subscript not in container.keys()
    container.setdefault(subscript, member)
    return is_free


def nth(container: Dict[Subscript, Any], index: int) -> Subscript:
    """The subscript with exactly as many smaller ones as `index` says."""
    return sorted(container.keys())[index]


def byte_length(text: str) -> int:
    """How many bytes of UTF-8 a text has."""
    return len(text.encode())


def byte(text: str, place: int) -> int:
    """The byte of a text's UTF-8 at a place, from 0; it is refused if there is none."""
    return text.encode()[place]


def find(text: str, what: str, start: int = 0) -> int:
    """The least place, of bytes, from `start` on at which a text has another; it is refused if there is none."""
    return text.encode().index(what.encode(), start)


def span(text: str, signs: str, start: int = 0) -> int:
    """The least place from `start` on whose byte is none of these signs, or the length in bytes."""
    return next((it for it in range(start, byte_length(text)) if byte(text, it) not in signs.encode()), byte_length(text))


def until(text: str, signs: str, start: int = 0) -> int:
    """The least place from `start` on whose byte is one of these signs, or the length in bytes."""
    return next((it for it in range(start, byte_length(text)) if byte(text, it) in signs.encode()), byte_length(text))


def split(text: str, blanks: str) -> List[str]:
    """Gives to a `for` the words of a text: what is between any number of these signs."""
    words, at = [], span(text, blanks)
    while at < byte_length(text):
        end = until(text, blanks, at)
        words.append(text.encode()[at:end].decode())
        at = span(text, blanks, end)
    return words


def muldiv(a: int, b: int, c: int) -> int:
    """a * b / c, rounded towards zero, for c above 0: only the result has to fit in 64 bits."""
    return abs(a * b) // c * (1 if (a < 0) == (b < 0) else -1)


BuildError.__module__ = __name__

__all__ = [
    "Array",
    "BuildError",
    "Built",
    "Int",
    "Map",
    "Out",
    "Sum",
    "Table",
    "Text",
    "build_file",
    "build_text",
    "byte",
    "byte_length",
    "check",
    "control",
    "each",
    "find",
    "insert",
    "leaf",
    "muldiv",
    "nth",
    "out",
    "span",
    "split",
    "until",
]
