# SPDX-License-Identifier: Apache-2.0
"""Reports of runs, and how they are read."""

from __future__ import annotations

import json
import re
import reprlib
from dataclasses import dataclass, field, replace
from typing import TYPE_CHECKING, Any, Callable, Dict, List, NamedTuple, Optional, Tuple, TypeVar

from ._errors import Refused, Unfinished
from ._inputs import read_scalar
from ._listing import MOST_EVENTS
from ._native import Flag, Kept, Layout, Meter, Output, Ran, Stopped
from ._options import RunOptions, options_of, within
from ._refusals import refusals
from ._shown import Shown
from ._stop import Stop, ended_by
from ._version import __version__

if TYPE_CHECKING:
    from ._program import Program

_SCALAR = r'(-?\d+|"(?:\\.|[^"\\])*")'
_SET = re.compile(rf"out \d+ (?:int|text) {_SCALAR}$", re.S)
_MANY = re.compile(r"out \d+ t?(?:cont|map) ")
_MEMBER = re.compile(rf"  at {_SCALAR} (?:(?:int|text) {_SCALAR})?", re.S)
_ENDS = ("quiet", "stuck", "limit", "running", "stopped")
Result = TypeVar("Result")


class _Wait(NamedTuple):
    rule: int
    datum: int
    writer: int


class Wait(_Wait, metaclass=Shown):  # type: ignore[misc]  # of a tuple, in typeshed only
    """A rule of a circle, the datum for which it waits, and the rule that would write it."""

    __slots__ = ()


def read_outputs(text: str) -> Tuple[List[Output], List[int]]:
    """Reads the outputs of a report, and the numbers of those that aren't closed."""
    outputs: List[Output] = []
    unfinished: List[int] = []
    for line in text.split("\n"):
        if line.startswith("out "):
            found = _SET.match(line)
            outputs.append(read_scalar(found[1]) if found else {} if _MANY.match(line) else None)
            if not found and " closed " not in line:
                unfinished.append(len(outputs) - 1)
        elif line.startswith("  at ") and outputs:
            _put_member(outputs[-1], line)
        elif line.split(" ")[0] in _ENDS:
            break
    return outputs, unfinished


def _put_member(output: Output, line: str) -> None:
    found = _MEMBER.match(line)
    if found and isinstance(output, dict):
        output[read_scalar(found[1])] = read_scalar(found[2]) if found[2] else None


def read_end(text: str) -> str:
    """Returns how the run of a report ended."""
    for line in text.split("\n"):
        word = line.split(" ")[0]
        if word in _ENDS:
            return word
    return "refused"


def read_circle(text: str) -> List[Wait]:
    """Reads the circle of rules of a run that is stuck."""
    return [Wait(int(a), int(b), int(c)) for a, b, c in re.findall(r"^waits (\d+) (\d+) (\d+)$", text, re.M)]


def _caps(layout: Layout) -> Tuple[str, ...]:
    """Returns the options of `tw run` for the caps, which has none for rules."""
    given = ((name, most) for name, most in zip(layout._fields[5:11], layout[5:11]) if most is not None)
    return tuple(word for name, most in given for word in (f"--{name.replace('_', '-')}", str(most)))


def actors(layout: Layout) -> Tuple[str, ...]:
    """Returns the options of a command that say how many actors there are."""
    return ("--engines", str(layout.engines), "--servers", str(layout.servers), "--workers", str(layout.workers))


@dataclass(frozen=True)
class Made:
    """The causes of a report: the same again makes the same run, since its actors take turns in a fixed order."""

    program: "Program"
    inputs: Tuple[object, ...]
    layout: Layout

    def words(self) -> Tuple[str, ...]:
        """Returns the options of `tw run`."""
        seed = ("--in-turn", "--seed", str(self.layout.seed)) if self.layout.seed else ()
        return (*actors(self.layout), "--limit", str(self.layout.limit), *seed, *_caps(self.layout))

LAST_EVENT = (1 << 32) - 1


def range_of(first: object, last: object) -> Tuple[str, ...]:
    """Returns the options of a command that draws the events from one number to another."""
    return ("--from", str(within("first", first, LAST_EVENT)), "--to", str(within("last", last, LAST_EVENT)))


@dataclass(frozen=True, repr=False)
class Report(metaclass=Shown):
    """The report of a run.

    `end` is "quiet", "stuck" (rules wait for one another), "limit" (as many events as allowed) or "stopped" (by a `Stop` or a timeout). A report
    of `map` may have no run: then `end` is "refused", "memory" or "lost" (its worker ended), and `error` says why. `outputs` is the answer of a
    run that is quiet, and raises `Unfinished` for all others. `partial` is what there is, an int, a str or a dict for each output of main, None
    for one that is unset; `unfinished` has the numbers of those that are unset or still open.

    The library keeps the run for the report of `Program.run`, so `text`, `trace` and `line` only print. A report of `map`, or one that was pickled, has
    those that were asked for, by `text=True` and so on. No property makes a run again; `again`, `rules`, `refused`, `timeline` and `same_in_every_order`
    do, in up to four times its time. Their `timeout` and `stop` end the wait by `Unfinished`.
    """

    end: str
    partial: List[Output] = field(default_factory=list)
    unfinished: List[int] = field(default_factory=list)
    error: Optional[Exception] = None
    _made: Optional[Made] = field(default=None, repr=False, compare=False)
    _meter: Optional[Meter] = field(default=None, repr=False, compare=False)
    _printed: Dict[str, Optional[str]] = field(default_factory=dict, repr=False, compare=False)
    _kept: Optional[Kept] = field(default=None, repr=False, compare=False)

    def __repr__(self) -> str:
        """Shows the first members of the first outputs alone."""
        outputs = f"{'outputs' if self.end == 'quiet' else 'partial'}={_CUT.repr(self.partial)}"
        rest = (f"{name}={_CUT.repr(getattr(self, name))}" for name in ("unfinished", "error") if getattr(self, name))
        return f"Report({', '.join((f'end={self.end!r}', outputs, *rest))})"

    def __getstate__(self) -> Dict[str, object]:
        """Returns the fields, with a number for their form, by which another version rejects it. Named tuples are plain ones there."""
        if self.end == "stuck":
            self._print("report")  # for `circle`
        made, meter = self._made, self._meter
        plain = {"_made": made and (made.program, made.inputs, tuple(made.layout)), "_meter": meter and tuple(meter), "_kept": None}
        return {**self.__dict__, **plain, "form": _FORM, "version": __version__}

    def __setstate__(self, state: Dict[str, Any]) -> None:
        version = state.pop("version", "of an earlier version")
        if state.pop("form", None) != _FORM:
            raise ValueError(f"the report was pickled by yuglemit {version}, and this is {__version__}: run the program again")
        made, meter = state["_made"], state["_meter"]
        state["_made"] = made and Made(made[0], made[1], Layout(*made[2]))
        state["_meter"] = meter and Meter(*meter)
        self.__dict__.update(state)

    @property
    def outputs(self) -> List[Output]:
        """The outputs of main, of a run that ended quiet; of any other it raises `Unfinished`."""
        if self.end != "quiet":
            raise Unfinished(self, f'the run ended with "{self.end}"{self._advice()}') from self.error
        return self.partial

    def _advice(self) -> str:
        """Says after how many events a run ended, and what to pass instead."""
        if self.error is not None:
            return f": {self.error}"
        most = self._made.layout.limit if self._made is not None else 0
        advice = "no run has more events" if self.end == "limit" and most == MOST_EVENTS else _ADVICE[self.end]
        events = f" after {self.events} events, its limit is {most}" if most else ""
        return f"{events}: {'; '.join(self._noted()) or advice}. `partial` has what there is of its outputs"

    def _noted(self) -> List[str]:
        """Returns the lines of `refused` for a message, if the run had so little that it can be made again for that."""
        if self.end != "stuck" or self._made is None or self.events > 10 * _DRAWN or self.instructions > 1000 * _DRAWN:
            return []
        try:
            return self.refused()
        except ValueError:  # no command line has such inputs
            return []

    def _print(self, what: str) -> Optional[str]:
        """Returns the "report", the "trace" or the "json" line, and keeps it."""
        if what not in self._printed:
            if self._kept is None:
                raise ValueError(f"the report has no {_ASKED[what]}: {self._why_not(what)}")
            self._printed[what] = self._kept.printed(what)
        return self._printed[what]

    def _why_not(self, what: str) -> str:
        if self._made is None:
            return _NO_RUN
        return f"reports of map and pickled ones have it if {_ASKED[what]}=True asked for it; again() makes the run again"

    @property
    def text(self) -> str:
        """The report as `tw run` writes it for a program's bytes. That of a run that was stopped ends with `running`."""
        return self._print("report") or ""

    @property
    def trace(self) -> str:
        """The events of the run, which `Program.replay` takes."""
        return self._print("trace") or ""

    @property
    def line(self) -> Optional[str]:
        """The line of `tw run --json`; None of a run that was stopped."""
        return self._print("json")

    @property
    def circle(self) -> List[Wait]:
        """The rules that wait for one another in a circle, if the run is stuck."""
        return read_circle(self.text) if self.end == "stuck" else []

    @property
    def events(self) -> int:
        """How many events the run had."""
        return self.meter.events

    @property
    def tasks(self) -> int:
        """How many tasks the run took, main's included."""
        return self.meter.tasks

    @property
    def instructions(self) -> int:
        """How many instructions its tasks did."""
        return self.meter.instructions

    @property
    def meter(self) -> Meter:
        """How much the run did, and what its store held at the end, also if it was stopped."""
        if self._meter is None:
            raise ValueError(_NO_RUN)
        return self._meter

    def again(self, *, stop: Optional[Stop] = None, timeout: Optional[float] = None) -> "Report":
        """Makes the run again, with the same events, and returns its report. One that was stopped ends with "limit" then."""
        made = self._cause()
        return made.program._run(made.inputs, options_of(made.layout, stop=stop, timeout=timeout))

    def rules(self, *, stop: Optional[Stop] = None, timeout: Optional[float] = None) -> str:
        """Returns the report of a run that is stuck with a line for each rule of the circle, which has the line of the program's text. It makes
        the run again."""
        return self._made_again("rules", lambda made, flag: made.program._answer(made, flag, as_text=True), stop, timeout)

    def refused(self, *, stop: Optional[Stop] = None, timeout: Optional[float] = None) -> List[str]:
        """Returns the line whose instruction was refused, as "squares.py:12: x // y: the divisor is 0", of a run that is stuck. The builder writes it
        into the program's text; another program has none. It makes the run again."""
        source = self._cause().program.source if self.end == "stuck" else None
        return refusals(source, self.rules(stop=stop, timeout=timeout)) if source else []

    def timeline(self, first: int = 1, last: int = LAST_EVENT, *, stop: Optional[Stop] = None, timeout: Optional[float] = None) -> str:
        """Draws the events of the run, from one number to another, as an SVG timeline. It makes the run again."""
        words = ("--picture", *range_of(first, last))
        return self._made_again("timeline", lambda made, flag: made.program._answer(made, flag, *words), stop, timeout)

    def same_in_every_order(self, *, stop: Optional[Stop] = None, timeout: Optional[float] = None) -> Optional[bool]:
        """Returns whether each order of events, in any layout, ends like this run with its outputs, for its inputs. False if tasks competed for a
        subscript: another order may have other outputs. None if the limit ended the run and none had competed. It makes the run again."""
        return self._made_again("same_in_every_order", lambda made, flag: made.program._is_same(made, flag), stop, timeout)

    def _made_again(
        self, name: str, call: Callable[["Made", Optional[Flag]], Result], stop: Optional[Stop], timeout: Optional[float]
    ) -> Result:
        """Makes a call that makes the run again, until a stop or a timeout."""
        made = self._cause()
        options = options_of(made.layout, stop=stop, timeout=timeout)
        try:
            with ended_by(options.stop, options.timeout) as flag:
                return call(made, flag)
        except Stopped:
            raise Unfinished(self, f"{name}() was stopped, since it makes a run of {self.events} events again: pass a longer timeout") from None

    def _repr_svg_(self) -> Optional[str]:
        """Draws the timeline for a notebook, if the run is brief."""
        made = self._made
        is_brief = made is not None and 0 < self.events <= _DRAWN and not made.program.is_long(self.events)
        return self.timeline() if is_brief else None

    def _cause(self) -> Made:
        if self._made is None:
            raise ValueError(_NO_RUN)
        if self.end != "stopped":
            return self._made
        if self.events == 0:
            raise ValueError("the run was stopped before its first event")
        return replace(self._made, layout=self._made.layout._replace(limit=self.events))

    @property
    def json(self) -> str:
        """The report as JSON, with the outputs as they are at the `end`. A container or a map is an object whose names are its subscripts, a number
        as its decimal digits."""
        fields: Dict[str, object] = {"end": self.end, "outputs": self.partial, "unfinished": self.unfinished}
        if self.end == "stuck":
            fields["circle"] = [wait._asdict() for wait in self.circle]
        if self.error is not None:
            fields["error"] = str(self.error)
            fields["code"] = self.error.code if isinstance(self.error, Refused) else None
        return json.dumps(fields, ensure_ascii=False)


_DRAWN = 10_000  # the most events that a notebook draws
_FORM = 1  # of a pickled report: another number for other fields
_CUT = reprlib.Repr()
_CUT.maxother = 100
_ADVICE = {
    "limit": f"pass a larger limit, up to {MOST_EVENTS}",
    "stopped": "pass a longer timeout, and a `Stop` that isn't set",
    "stuck": "its rules wait for one another, or a task left an output open, which no option changes; `circle` and rules() say more",
    "running": "give replay() the whole trace of a run",
}
_NO_RUN = "there was no run, since it is of a rejected input or of a replay"
_ASKED = {"report": "text", "trace": "trace", "json": "line"}


def report_of(ran: Ran, made: Made, options: RunOptions) -> Report:
    """Makes the report of a run, and prints what its options say."""
    report = Report(ran.end, ran.outputs, ran.unfinished, None, made, ran.meter, {}, ran.kept)
    for what, asked in (("trace", options.trace), ("report", options.text), ("json", options.line)):
        if asked:
            report._print(what)
    return report


def failed_report(why: Exception, end: str = "refused") -> Report:
    """Makes the report of a run that couldn't be made. Its error keeps no traceback, and so nothing of the run."""
    why.__context__ = None
    return Report("memory" if isinstance(why, MemoryError) else end, error=why.with_traceback(None))


def sent(report: Report) -> Report:
    """Returns a report without its run, which takes memory, and without the causes, which whoever receives it has."""
    if report.end == "stuck":
        report._print("report")  # for `circle`
    return replace(report, _made=None, _kept=None)


def received(report: Report, made: Made) -> Report:
    """Returns a report with the causes of its run."""
    return report if report.error is not None else replace(report, _made=made)


def report_of_text(text: str) -> Report:
    """Reads a report that a command wrote."""
    outputs, unfinished = read_outputs(text)
    return Report(read_end(text), outputs, unfinished, _printed={"report": text})
