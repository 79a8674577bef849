# SPDX-License-Identifier: Apache-2.0
"""Stopping runs from outside."""

from __future__ import annotations

import threading
from contextlib import contextmanager
from typing import Iterator, NoReturn, Optional
from weakref import WeakSet

from . import _native
from ._shown import Shown


class Stop(metaclass=Shown):
    """Stops runs. Give it to `Program.run` as `stop`; `set` ends all its runs soon, from any thread or signal handler.

    A run that was stopped has the end "stopped", and the events so far. A `Stop` that is set stays so until `clear`; runs that
    begin meanwhile have no event.

    >>> import yuglemit
    >>> endless = yuglemit.load('''
    ... proc control
    ... regs
    ... PUT 0 0 any
    ... RET
    ... ''')
    >>> stop = yuglemit.Stop()
    >>> stop.set()
    >>> report = endless.run(stop=stop)
    >>> report.end, report.events
    ('stopped', 0)
    """

    def __init__(self) -> None:
        self._event = threading.Event()
        self._flags: "WeakSet[_native.Flag]" = WeakSet()

    def set(self) -> None:
        """Stops the runs that have it, and those that begin with it."""
        self._event.set()
        for flag in list(self._flags):
            flag.set()

    def clear(self) -> None:
        """Lets later runs go on. Runs that it has stopped stay stopped."""
        self._event.clear()

    def is_set(self) -> bool:
        """Returns whether it is set."""
        return self._event.is_set()

    def __reduce__(self) -> NoReturn:
        raise TypeError("a Stop stops runs of its own process; it can't be sent to another")

    def _attach(self, flag: _native.Flag) -> None:
        """Stops the run that has this flag, too."""
        self._flags.add(flag)  # first, so that no set() is missed
        if self._event.is_set():
            flag.set()


def attach(stop: Stop, flag: _native.Flag) -> None:
    """Lets a stop end the run that has this flag."""
    stop._attach(flag)


@contextmanager
def ended_by(stop: Optional[Stop], seconds: Optional[float], flag: Optional[_native.Flag] = None) -> Iterator[Optional[_native.Flag]]:
    """Yields a flag that a stop raises, and so many seconds do unless the work within is done before; None if nothing does."""
    if flag is None and (stop is not None or seconds is not None):
        flag = _native.Flag()
    if flag is None or (stop is None and seconds is None):
        yield flag
        return
    if stop is not None:
        attach(stop, flag)
    timer = threading.Timer(seconds, flag.set) if seconds is not None else None
    if timer is not None:
        timer.daemon = True
        timer.start()
    try:
        yield flag
    finally:
        if timer is not None:
            timer.cancel()
