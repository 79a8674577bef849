# SPDX-License-Identifier: Apache-2.0
"""Inputs: Python values, checked, and the words of a command line that have such values."""

from __future__ import annotations

import operator
import re
from array import array
from itertools import islice
from typing import Any, Callable, Dict, List, Mapping, Optional, Sequence, SupportsIndex, Union

from ._native import Given, Members, Scalar

Value = Union[int, str, Mapping[int, int], Mapping[int, str], Mapping[str, int], Mapping[str, str]]

# Outputs may be inputs, so a value or a member may be None for a type checker; `given` rejects it.
Input = Union[None, SupportsIndex, str, Mapping[Any, Union[SupportsIndex, str, None]], Sequence[Union[SupportsIndex, str]]]

_MANY = {"cont": ("int", "text"), "tcont": ("int", "text"), "map": ("int", "text", "sum"), "tmap": ("int", "text", "sum")}
TYPES = ("int", "text", *(f"{outer} {inner}" for outer, inners in _MANY.items() for inner in inners))
_MOST_MEMBERS = 1000
_MOST_VALUES = 100_000
_MOST_BYTES = 4096


def quoted(text: str) -> str:
    """Writes a text between quotes, as the formats have it."""
    escape = {'"': '\\"', "\\": "\\\\", "\n": "\\n"}
    return '"' + "".join(escape.get(c) or (f"\\x{ord(c):02x}" if c < " " or c == "\x7f" else c) for c in text) + '"'


def unquoted(text: str) -> str:
    """Reads a text between quotes."""
    return re.sub(r"\\(?:x([0-9a-fA-F]{2})|(.))", lambda found: _escaped(found.group(1), found.group(2)), text[1:-1], flags=re.S)


def _escaped(code: Optional[str], character: str) -> str:
    if code:
        return chr(int(code, 16))
    return "\n" if character == "n" else character


def _asked(kind: str) -> str:
    """Returns the Python type that a type asks, in words."""
    if kind in ("int", "text"):
        return "an int" if kind == "int" else "a str"
    outer, inner = kind.split()
    many = f"a dict of {_NAMED[inner]} by {'str' if _is_by_text(outer) else 'int'}"
    return f"{many}, or a list" if outer == "map" else many


def _is_by_text(outer: str) -> bool:
    """Whether the subscripts of such containers or maps are texts."""
    return outer in ("tcont", "tmap")


_NAMED = {"int": "int", "sum": "int", "text": "str"}


def _prefix(kind: str) -> str:
    """Returns what the word of such a container or map begins with."""
    outer, inner = kind.split()
    return f"{'t' if _is_by_text(outer) else ''}{'texts' if inner == 'text' else 'ints'}:"


def _advice(value: object) -> str:
    if isinstance(value, (bytes, bytearray)):
        return "; decode bytes first, value.decode()"
    if isinstance(value, (list, tuple)):
        return "; dict(enumerate(values)) numbers members from 0"
    if isinstance(value, float):
        return "; there are no fractions"
    return ""


def shown(value: object, with_type: bool = True) -> str:
    """Writes a value for a message: at most 60 characters, whatever it is."""
    if isinstance(value, int) and value.bit_length() > 200:
        text = f"of {value.bit_length()} bits"
        return f"{type(value).__name__} {text}" if with_type else f"a number {text}"
    try:
        text = repr(value)
    except Exception as why:  # whoever made the value wrote its repr
        text = f"(its repr raises {type(why).__name__})"
    cut = text if len(text) <= 60 else text[:57] + "..."
    return f"{type(value).__name__} {cut}" if with_type else cut


def _wrong(where: str, asked: str, value: object) -> TypeError:
    return TypeError(f"{where}: expected {asked}, got {shown(value)}{_advice(value)}")


def _is_bool(value: object) -> bool:
    return isinstance(value, bool) or type(value).__name__ in ("bool_", "bool")


def _is_int(value: object) -> bool:
    return hasattr(value, "__index__") and not _is_bool(value)


def _int(value: object, where: str) -> int:
    if not _is_int(value):
        raise _wrong(where, "an int", value)
    number = operator.index(value)  # type: ignore[arg-type]
    if not -(2**63) <= number < 2**63:
        raise ValueError(f"{where}: {shown(number, with_type=False)} doesn't fit in 64 bits")
    return number


def _text(value: object, where: str) -> str:
    if not isinstance(value, str):
        raise _wrong(where, "a str", value)
    try:
        size = len(value.encode())
    except UnicodeEncodeError as why:
        raise ValueError(f"{where}: the text is no UTF-8: {why.reason} at {why.start}") from None
    if size > _MOST_BYTES:
        raise ValueError(f"{where}: the text has {size} bytes of UTF-8, and at most {_MOST_BYTES} are taken")
    return str(value)


def _scalar(value: object, kind: str, where: str) -> Scalar:
    return _text(value, where) if kind == "text" else _int(value, where)


def _type_of(value: object, where: str) -> str:
    """Finds the type of a value for which no parameter asks one."""
    if _is_int(value):
        return "int"
    if isinstance(value, str):
        return "text"
    if isinstance(value, Mapping):
        key, member = next(iter(value.items()), (0, 0))
        return f"{'tcont' if isinstance(key, str) else 'cont'} {'text' if isinstance(member, str) else 'int'}"
    raise _wrong(where, "an int, a str, or a dict of one of these by int or str", value)


def _column(values: List[Any], kind: str, where: Callable[[int], str]) -> Sequence[Scalar]:
    """Checks scalars, those of Python's own types at once: numbers are an array then. `where` says what is at a place."""
    types = set(map(type, values))
    if kind != "text":
        if types <= {int}:
            try:
                return array("q", values)
            except OverflowError:
                pass
        return array("q", [_int(it, where(place)) for place, it in enumerate(values)])
    if types <= {str} and all(map(str.isascii, values)) and max(map(len, values), default=0) <= _MOST_BYTES:
        return values
    return [_text(it, where(place)) for place, it in enumerate(values)]


def _members(value: Union[Mapping[object, object], Sequence[object]], kind: str, where: str) -> Members:
    """Returns the members of a container or the values of a map, of a dict by rising subscripts. Texts rise by their bytes, as strs do."""
    outer, inner = kind.split()
    what, most = ("values", _MOST_VALUES) if "map" in outer else ("members", _MOST_MEMBERS)
    if len(value) > most:
        raise ValueError(f"{where}: {len(value)} {what}, and at most {most} are taken")
    if not isinstance(value, Mapping):
        return Members(None, _column(list(value), inner, lambda place: f"{where}, member at {place}"))
    keys = list(value)
    subscripts = _column(keys, "text" if _is_by_text(outer) else "int", lambda place: f"{where}, subscript {shown(keys[place], with_type=False)}")
    members = _column(list(value.values()), inner, lambda place: f"{where}, member at {shown(keys[place], with_type=False)}")
    if all(map(operator.lt, subscripts, islice(subscripts, 1, None))):
        return Members(subscripts, members)
    order = sorted(range(len(keys)), key=subscripts.__getitem__)
    return Members(_picked(subscripts, order), _picked(members, order))


def _picked(column: Sequence[Scalar], places: List[int]) -> Sequence[Scalar]:
    """Returns the scalars at these places."""
    found: List[Any] = list(map(column.__getitem__, places))
    return array("q", found) if isinstance(column, array) else found


def given(value: object, kind: Optional[str] = None, where: str = "input") -> Given:
    """Checks a value, which has to be of the type `kind` if there is one.

    >>> given({2: 7, 1: -3})
    Given(kind='cont int', value=Members(subscripts=array('q', [1, 2]), values=array('q', [-3, 7])))
    >>> given({1: 1.9})
    Traceback (most recent call last):
    ...
    TypeError: input, member at 1: expected an int, got float 1.9; there are no fractions
    """
    kind = kind or _type_of(value, where)
    if kind in ("int", "text"):
        return Given(kind, _scalar(value, kind, where))
    if not isinstance(value, Mapping) and not (isinstance(value, (list, tuple)) and kind.startswith("map ")):
        raise _wrong(where, _asked(kind), value)
    return Given(kind, _members(value, kind, where))


def _spelled(value: Scalar) -> str:
    return quoted(value) if isinstance(value, str) else str(value)


def word_of(checked: Given) -> str:
    """Returns the word for a value that is checked.

    No word is an option, whatever the value is, since each begins with its type.

    >>> word_of(given(39)), word_of(given("--help")), word_of(given({2: 7, 1: -3})), word_of(given({}, "tcont text"))
    ('int:39', 'text:--help', 'ints:1=-3,2=7', 'ttexts:')
    """
    kind, value = checked
    if isinstance(value, Members):
        return _prefix(kind) + ",".join(f"{_spelled(subscript)}={_spelled(member)}" for subscript, member in value.pairs())
    return f"{kind}:{value}"


_NUMBER = "-?[0-9]+"
_QUOTED = r'"(?:[^"\\]|\\["\\n]|\\x[0-7][0-9a-fA-F])*"'
_LISTS = {"ints": (_NUMBER, _NUMBER), "texts": (_NUMBER, _QUOTED), "tints": (_QUOTED, _NUMBER), "ttexts": (_QUOTED, _QUOTED)}
_SIDES = {_NUMBER: "NUMBER", _QUOTED: '"TEXT"'}


def read_scalar(text: str) -> Scalar:
    """Reads a number, or a text between quotes."""
    return unquoted(text) if text[:1] == '"' else int(text)


def read_input(word: str) -> Value:
    """Returns the value that an input's word has, as `tw run` takes it. ValueError says what is wrong, also of subscripts that don't rise.

    >>> read_input("ints:1=7,5=-3"), read_input("text:a b"), read_input("int:-4")
    ({1: 7, 5: -3}, 'a b', -4)
    """
    if not isinstance(word, str):
        raise TypeError(f"expected a str, got {shown(word)}")
    kind, colon, rest = word.partition(":")
    try:
        word.encode()
    except UnicodeEncodeError as why:
        raise ValueError(f"{word!r:.60} is no UTF-8: {why.reason} at {why.start}") from None
    if colon and kind in _LISTS:
        return _read_members(word, rest, *_LISTS[kind])  # type: ignore[return-value]
    if kind == "text" and colon:
        return rest
    if kind == "int" and re.fullmatch(_NUMBER, rest):
        return _number(word, rest)
    raise ValueError(f"{word!r:.60} is no input: int: and a number, text:, ints:, texts:, tints: or ttexts: begins one")


def _side(word: str, text: str) -> Scalar:
    return unquoted(text) if text[0] == '"' else _number(word, text)


def _number(word: str, digits: str) -> int:
    """Reads a number, which may have any number of leading zeros."""
    number = int(digits.lstrip("-0")[:40] or "0")
    return _int(-number if digits[0] == "-" else number, f"{word!r:.60} is no input")


def _read_members(word: str, rest: str, subscripts: str, members: str) -> Dict[Scalar, Scalar]:
    """Reads a list of pairs, whose sides have these forms."""
    pair = re.compile(rf"({subscripts})=({members})(,|\Z)")
    found: Dict[Scalar, Scalar] = {}
    last: Optional[Scalar] = None
    place, more = 0, ","
    while more and rest:
        at = pair.match(rest, place)
        if not at:
            form = f"{_SIDES[subscripts]}={_SIDES[members]}"
            raise ValueError(f"{word!r:.60} is no input: expected {form},{form} at {rest[place:]!r:.60}")
        subscript, member = _side(word, at[1]), _side(word, at[2])
        if last is not None and not _before(last, subscript):
            raise ValueError(f"{word!r:.60} is no input: its subscripts have to rise")
        found[subscript] = member
        last, place, more = subscript, at.end(), at[3]
    return found


def _before(first: Scalar, second: Scalar) -> bool:
    """Whether a subscript comes before another: texts by their bytes."""
    if isinstance(first, str):
        return isinstance(second, str) and first.encode() < second.encode()
    return isinstance(second, int) and first < second
