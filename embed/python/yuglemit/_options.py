# SPDX-License-Identifier: Apache-2.0
"""The options of runs, checked before anything runs."""

from __future__ import annotations

import threading
from typing import NamedTuple, Optional

from . import _native
from ._inputs import shown
from ._listing import MOST_EVENTS
from ._stop import Stop

MOST_SEED = 2**64 - 1


class RunOptions(NamedTuple):
    """The options of a run: its layout, what its report keeps (trace, text, JSON line), and what stops it."""

    layout: _native.Layout
    trace: bool = False
    text: bool = False
    line: bool = False
    stop: Optional[Stop] = None
    timeout: Optional[float] = None


def within(name: str, number: object, most: int, least: int = 1) -> int:
    """Checks a number that has to be in a range."""
    if isinstance(number, bool) or not hasattr(number, "__index__"):
        raise TypeError(f"{name}: expected an int, got {shown(number)}")
    value = number.__index__()
    if not least <= value <= most:
        raise ValueError(f"{name}: expected {least} to {most}, got {shown(value, with_type=False)}")
    return int(value)


def _cap(name: str, most: Optional[int]) -> Optional[int]:
    return None if most is None else within(name, most, _native.NO_CAP)


def _stop_of(stop: object) -> Optional[Stop]:
    if stop is None or isinstance(stop, Stop):
        return stop
    raise TypeError(f"stop: expected a yuglemit.Stop, got {shown(stop)}")


def seconds_of(name: str, seconds: object) -> Optional[float]:
    """Checks a number of seconds; None if it is none, or longer than a thread can wait."""
    if seconds is None:
        return None
    if isinstance(seconds, (bool, str, bytes)) or not hasattr(seconds, "__float__"):
        raise TypeError(f"{name}: expected a number of seconds, got {shown(seconds)}")
    try:
        value = float(seconds)  # type: ignore[arg-type]
    except OverflowError:
        value = float("inf")
    if not value >= 0:
        raise ValueError(f"{name}: expected at least 0, got {shown(seconds, with_type=False)}")
    return value if value < threading.TIMEOUT_MAX else None


def layout_of(
    engines: int = 1,
    servers: int = 1,
    workers: int = 1,
    limit: Optional[int] = None,
    most_tasks: Optional[int] = None,
    most_instructions: Optional[int] = None,
    most_data: Optional[int] = None,
    most_bytes: Optional[int] = None,
    most_budget: Optional[int] = None,
    most_members: Optional[int] = None,
    most_rules: Optional[int] = None,
    seed: Optional[int] = None,
) -> _native.Layout:
    """Returns the layout of a run, or raises the error that says which number is out of its range."""
    counts = (within("engines", engines, 4), within("servers", servers, 4), within("workers", workers, 16))
    caps = (
        _cap("most_tasks", most_tasks),
        _cap("most_instructions", most_instructions),
        _cap("most_data", most_data),
        _cap("most_bytes", most_bytes),
        _cap("most_budget", most_budget),
        _cap("most_members", most_members),
        _cap("most_rules", most_rules),
    )
    chosen = 0 if seed is None else within("seed", seed, MOST_SEED)
    return _native.Layout(*counts, 0 if limit is None else within("limit", limit, MOST_EVENTS), chosen, *caps)


def options_of(
    layout: _native.Layout, trace: bool = False, text: bool = False, line: bool = False, stop: object = None, timeout: object = None
) -> RunOptions:
    """Returns the options of a run, or raises the error that says which is wrong."""
    return RunOptions(layout, bool(trace), bool(text), bool(line), _stop_of(stop), seconds_of("timeout", timeout))
