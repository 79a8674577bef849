# SPDX-License-Identifier: Apache-2.0
"""Finds and loads libyuglemit.so, with the types of its calls, as embed/yuglemit.h has them."""

from __future__ import annotations

import ctypes
import os
from functools import lru_cache
from pathlib import Path
from typing import Any, Callable, Dict, Sequence, Tuple

from ._released import released_library


class Handle(ctypes.Structure):
    """A pointer to memory of the library."""

    _fields_ = [("at", ctypes.c_void_p)]


class Item(ctypes.Structure):
    """A datum of a report."""

    _fields_ = [
        ("number", ctypes.c_int64),
        ("length", ctypes.c_size_t),
        ("kind", ctypes.c_uint8),
        ("closed", ctypes.c_uint8),
        ("scalar", ctypes.c_uint8),
        ("by", ctypes.c_uint8),
    ]


class Member(ctypes.Structure):
    """A member of a container in a report."""

    _fields_ = [("subscript", Item), ("value", Item)]


def numbers(*values: int) -> "ctypes.Array[ctypes.c_uint64]":
    """Returns the fields of a struct of the library after its size: a call takes them as a list of numbers, and how many there are."""
    return (ctypes.c_uint64 * len(values))(*values)


def _place() -> str:
    """Returns where the library is: in the package, at YUGLEMIT_LIBRARY, in the repository's build, in its release, where the system looks."""
    here = Path(__file__).resolve().parent
    named = os.environ.get("YUGLEMIT_LIBRARY")
    for place in (str(here / "lib" / "libyuglemit.so"), named):
        if place and os.path.exists(place):
            return place
    if named is None and here.parent.name == "python" and here.parent.parent.name == "embed":
        root = here.parents[2]
        built = root / "crates" / "tw_embed" / "out" / "libyuglemit.so"
        found = str(built) if built.exists() else released_library(root)
        if found:
            return found
    return named or "libyuglemit.so"


_AT = ctypes.POINTER(Handle)
_BYTES = (ctypes.c_char_p, ctypes.c_size_t)
_ROOM = (ctypes.c_void_p, ctypes.c_size_t)
_KINDS = ("program", "inputs", "container", "stop", "report", "text")

_NUMBERS = (ctypes.POINTER(ctypes.c_uint64), ctypes.c_size_t)
_SIZE = ctypes.c_size_t

# A run of a program: inputs, options, caps, stop flag, report.
_RUN = (_AT, _AT, *_NUMBERS, *_NUMBERS, _AT, _AT)

# The types of calls that release the GIL, and of those that keep it. The latter return 0 or the code of an error. A run may be either.
_LONG_CALLS: Dict[str, Tuple[Any, Sequence[Any]]] = {
    "session": (_SIZE, (*_BYTES, *_BYTES, *_ROOM, ctypes.POINTER(ctypes.c_uint8))),
    "session_text": (ctypes.c_uint8, (*_BYTES, *_BYTES, _AT)),
    "raw_verify": (ctypes.c_uint8, (*_BYTES, *_NUMBERS)),
    "raw_load_source": (ctypes.c_uint8, (*_BYTES, ctypes.c_uint8, *_NUMBERS, _AT, *_NUMBERS)),
    "raw_run": (ctypes.c_uint8, _RUN),
    "raw_print_report": (ctypes.c_uint8, (_AT, _AT)),
    "raw_print_trace": (ctypes.c_uint8, (_AT, _AT)),
    "raw_print_json": (ctypes.c_uint8, (_AT, _AT)),
}
_SHORT_CALLS: Dict[str, Sequence[Any]] = {
    "raw_program_procedures": (_AT, ctypes.POINTER(_SIZE)),
    "raw_program_procedure": (_AT, _SIZE, *_NUMBERS),
    "raw_program_parameter": (_AT, _SIZE, _SIZE, *_NUMBERS),
    "raw_program_budget": (_AT, _SIZE, ctypes.POINTER(ctypes.c_uint64)),
    "raw_program_bounds": (_AT, _SIZE, *_NUMBERS),
    "raw_program_order": (_AT, *_NUMBERS),
    "input_int": (_AT, ctypes.c_int64),
    "input_text": (_AT, *_BYTES),
    "raw_input_container": (_AT, _AT),
    "container_new": (_AT, ctypes.c_uint8, ctypes.c_uint8),
    "member_int": (_AT, ctypes.c_int64, ctypes.c_int64),
    "member_text": (_AT, ctypes.c_int64, *_BYTES),
    "member_int_by_text": (_AT, *_BYTES, ctypes.c_int64),
    "member_text_by_text": (_AT, *_BYTES, *_BYTES),
    "stop_new": (_AT,),
    "raw_stop_raise": (_AT,),
    "raw_run": _RUN,
    "raw_unfit_input": (_AT, _AT, ctypes.POINTER(_SIZE)),
    "raw_report_ending": (_AT, *_NUMBERS),
    "raw_report_output": (_AT, _SIZE, ctypes.POINTER(Item)),
    "raw_report_members": (_AT, _SIZE, _SIZE, ctypes.POINTER(Member), _SIZE),
    "raw_report_text": (_AT, _SIZE, *_ROOM),
    "raw_report_member_text": (_AT, _SIZE, _SIZE, *_ROOM),
    "raw_report_subscript_text": (_AT, _SIZE, _SIZE, *_ROOM),
    "raw_report_meter": (_AT, *_NUMBERS),
    "raw_report_order": (_AT, *_NUMBERS),
    "raw_text_length": (_AT, ctypes.POINTER(_SIZE)),
    "raw_text_copy": (_AT, *_ROOM),
}

# Calls of newer libraries: lists of numbers, and of texts in one buffer, with their ends.
_NUMBERS_IN = (ctypes.c_void_p, _SIZE)
_TEXTS_IN = (*_BYTES, ctypes.c_void_p, _SIZE)
_LIST_CALLS: Dict[str, Sequence[Any]] = {
    "raw_input_ints": (_AT, *_NUMBERS_IN, *_NUMBERS_IN),
    "raw_input_texts": (_AT, *_NUMBERS_IN, *_TEXTS_IN),
    "raw_input_ints_by_text": (_AT, *_TEXTS_IN, *_NUMBERS_IN),
    "raw_input_texts_by_text": (_AT, *_TEXTS_IN, *_TEXTS_IN),
}


def _typed(library: ctypes.CDLL, name: str, returned: Any, types: Sequence[Any]) -> None:
    try:
        call = getattr(library, f"yuglemit_{name}")
    except AttributeError:
        raise ImportError(f"the library has no call yuglemit_{name}: it is older than this package") from None
    call.argtypes, call.restype = types, returned


def _check_processor() -> None:
    """Raises ImportError on a processor that would end the process at the library's first instruction that it lacks. A wheel has no tag for that."""
    try:
        flags = Path("/proc/cpuinfo").read_text(encoding="ascii", errors="replace").partition("\nflags")[2].partition("\n")[0].split()
    except OSError:
        return
    missing = [name for name in ("sse4_2", "popcnt") if flags and name not in flags]
    if missing:
        raise ImportError(f"the library is for x86-64-v2, and this processor lacks {' and '.join(missing)}")


def _opened(kind: Callable[[str], ctypes.CDLL]) -> ctypes.CDLL:
    _check_processor()
    try:
        return kind(_place())
    except OSError as why:
        raise ImportError(f"{why}; the wheel of ./tw package has it, ./tw install installs it, a clone has the release's, and YUGLEMIT_LIBRARY may say where it is") from None


@lru_cache(maxsize=1)
def library() -> ctypes.CDLL:
    """Loads the library, at the first call that needs it; `yuglemit.build` makes texts without it."""
    opened = _opened(ctypes.CDLL)
    for name, (returned, types) in _LONG_CALLS.items():
        _typed(opened, name, returned, types)
    return opened


@lru_cache(maxsize=1)
def short() -> ctypes.CDLL:
    """Loads the library for the calls that keep the GIL."""
    opened = _opened(ctypes.PyDLL)
    for name, types in _SHORT_CALLS.items():
        _typed(opened, name, ctypes.c_uint8, types)
    for kind in _KINDS:
        _typed(opened, f"{kind}_free", None, (Handle,))
    if hasattr(opened, "yuglemit_raw_input_ints"):
        for name, types in _LIST_CALLS.items():
            _typed(opened, name, ctypes.c_uint8, types)
    return opened


@lru_cache(maxsize=1)
def has_lists() -> bool:
    """Returns whether the library takes a container by one call."""
    return hasattr(short(), "yuglemit_raw_input_ints")
