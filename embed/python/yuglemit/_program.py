# SPDX-License-Identifier: Apache-2.0
"""Programs: loaded and verified once, then run as often as one likes."""

from __future__ import annotations

import hashlib
from functools import cached_property, partial
from typing import Iterator, Optional, Sequence, Tuple

from . import _native
from ._commands import ask, assemble, texted
from ._errors import Refused
from ._inputs import Input, given, shown, word_of
from ._listing import MOST_EVENTS, Bounds, Needs, Parameter, Procedure, bounds_of, procedures_of, work_of
from ._options import RunOptions, layout_of, options_of, within
from ._report import LAST_EVENT, Made, Report, actors, range_of, report_of, report_of_text
from ._shown import Shown
from ._stop import Stop, ended_by

Bytes = bytes  # in a class that has a property of this name
_BOUNDS = ("tasks", "instructions", "data", "members", "rules", "bytes", "events")
_SURE = 10  # a run may take so many times as long as its bound says, on a machine that has other work


class Program(metaclass=Shown):
    """An accepted program, which `load` makes.

    The library keeps it, verified, so that a run only runs. `source` is its text if it was loaded from one, `needs` how many engines and workers
    its runs need. A program that is pickled is verified again where it arrives.
    """

    needs: Needs
    source: Optional[str]
    _kept: _native.Loaded
    _code: Optional[Bytes]

    def __repr__(self) -> str:
        return f"<Program {self.hash[:12]}: {', '.join(f'{it.mode} {it}' for it in self.procedures[0].parameters)}>"

    def __eq__(self, other: object) -> bool:
        return isinstance(other, Program) and other.source == self.source and (self.source is not None or other.bytes == self.bytes)

    def __hash__(self) -> int:
        return hash(self.source if self.source is not None else self.bytes)

    def __reduce__(self) -> Tuple[object, ...]:
        from ._load import loaded_again

        return loaded_again, (self._code, self.source)

    @cached_property
    def bytes(self) -> Bytes:
        """Its bytes."""
        return self._code if self._code is not None else assemble(self.source or "")

    @property
    def _hex(self) -> Bytes:
        return self.bytes.hex().encode()

    @cached_property
    def checked(self) -> str:
        """Its budgets and needs, as `tw check` writes them."""
        return ask(["check", *self._format], self._data)

    @cached_property
    def hash(self) -> str:
        """The SHA-256 of its bytes, as hexadecimal digits."""
        return hashlib.sha256(self.bytes).hexdigest()

    @cached_property
    def text(self) -> str:
        """Its assembly text, as `tw disasm` writes it. Refused (H02) if its hex text has more than 16 MiB."""
        return ask(["disasm"], self._hex)

    @cached_property
    def procedures(self) -> Tuple[Procedure, ...]:
        """Its procedures, main first, each with its budget."""
        return procedures_of(self._kept.heads(), self.source or "")

    @cached_property
    def parameters(self) -> Tuple[Parameter, ...]:
        """The inputs that `run` takes, in their order."""
        return tuple(it for it in self.procedures[0].parameters if it.mode != "write")

    @cached_property
    def bounds(self) -> Bounds:
        """The bounds of its runs."""
        return bounds_of(self._kept.bounds(0), self.procedures, self._work)

    @cached_property
    def _work(self) -> str:
        try:
            return work_of(self.source if self.source is not None else self.text)
        except Refused:  # it is too long to be listed
            return "numbers"

    def bounds_within(self, limit: int = MOST_EVENTS) -> Bounds:
        """Returns the bounds of its runs with at most so many events, with which `run` compares its caps."""
        return bounds_of(self._kept.bounds(within("limit", limit, MOST_EVENTS)), self.procedures, self._work)

    @cached_property
    def same_in_every_order(self) -> bool:
        """Whether, with any inputs, all runs that end by themselves have the same outputs, in any layout and order of events. If false they may
        differ, or the check doesn't see that they don't: `tw check --order` names an instruction."""
        return not self._kept.may_show_order()

    def is_long(self, limit: int = MOST_EVENTS) -> bool:
        """Returns whether a run with this limit may take so long that one waits for it."""
        return self.bounds.usual_seconds(limit) > _native.LONG_SECONDS

    def places(self) -> str:
        """Lists each instruction with the rights that it finds, as `tw check --places` does."""
        return ask(["check", *self._format, "--places"], self._data)

    @property
    def _format(self) -> Tuple[str, ...]:
        """The option by which a command reads `_data`."""
        return () if self.source is None else ("--text",)

    @property
    def _data(self) -> Bytes:
        return self._hex if self.source is None else self.source.encode()

    def _given(self, inputs: Sequence[object]) -> Tuple[_native.Given, ...]:
        """Checks inputs; raises TypeError or ValueError with the number and the name of the first that is none."""
        asked = self.parameters
        if len(inputs) != len(asked):
            expected = f" ({', '.join(map(str, asked))})" if asked else ""
            raise TypeError(f"the program takes {len(asked)} inputs{expected}, got {len(inputs)}")
        return tuple(
            given(value, it.type, f"input {number}" + (f" ({it.name})" if it.name else ""))
            for number, (value, it) in enumerate(zip(inputs, asked), 1)
        )

    def words(self, inputs: Sequence[object]) -> Tuple[str, ...]:
        """Returns the words of inputs on a command line."""
        return tuple(map(word_of, self._given(inputs)))

    def run(
        self,
        *inputs: Input,
        engines: int = 1,
        servers: int = 1,
        workers: int = 1,
        limit: Optional[int] = None,
        seed: Optional[int] = None,
        most_tasks: Optional[int] = None,
        most_instructions: Optional[int] = None,
        most_data: Optional[int] = None,
        most_bytes: Optional[int] = None,
        most_budget: Optional[int] = None,
        most_members: Optional[int] = None,
        most_rules: Optional[int] = None,
        trace: bool = False,
        text: bool = False,
        line: bool = False,
        stop: Optional[Stop] = None,
        timeout: Optional[float] = None,
    ) -> Report:
        """Runs the program on these inputs, one for each of `parameters`: an int, a str, or a dict of these by int or str.

        The run makes at most `limit` events: without one, 1,000,000, the most of any run, or the program's bound if that is smaller. If a bound of such
        runs, or the greatest budget, is above its cap (`most_tasks` and so on), nothing is run, and Refused has the code O07. Its actors take turns
        in the caller's thread, so `workers=4` are no faster, and the same run has the same events each time; `seed`, from 1 to 2**64 - 1,
        decides another order of the turns. Other threads continue meanwhile. `trace`, `text` and `line` say what the report keeps when it is pickled.

        `stop` ends the run when another thread sets it, and so does `timeout` after so many seconds; then `end` is "stopped". Ctrl-C stops a
        run too. A task that works at that time is cut off within 65,536 of its instructions, and its event isn't made. `outputs` of a run
        that didn't end quiet raises `Unfinished`.

        >>> import yuglemit
        >>> program = yuglemit.load('''
        ... proc control closed int write int
        ... regs int int
        ... GET v0 d0
        ... DROPR d0
        ... ADD v0 v0 v0 too_large
        ... too_large:
        ... STORE d1 v0
        ... RET
        ... ''')
        >>> program.run(21).outputs
        [42]
        """
        caps = (most_tasks, most_instructions, most_data, most_bytes, most_budget, most_members, most_rules)
        return self._run(inputs, options_of(layout_of(engines, servers, workers, limit, *caps, seed=seed), trace, text, line, stop, timeout))

    async def run_async(
        self,
        *inputs: Input,
        engines: int = 1,
        servers: int = 1,
        workers: int = 1,
        limit: Optional[int] = None,
        seed: Optional[int] = None,
        most_tasks: Optional[int] = None,
        most_instructions: Optional[int] = None,
        most_data: Optional[int] = None,
        most_bytes: Optional[int] = None,
        most_budget: Optional[int] = None,
        most_members: Optional[int] = None,
        most_rules: Optional[int] = None,
        trace: bool = False,
        text: bool = False,
        line: bool = False,
        stop: Optional[Stop] = None,
        timeout: Optional[float] = None,
    ) -> Report:
        """Like `run`, in a thread of the event loop's executor. If the task that awaits it is cancelled, the run is stopped."""
        import asyncio

        caps = (most_tasks, most_instructions, most_data, most_bytes, most_budget, most_members, most_rules)
        options = options_of(layout_of(engines, servers, workers, limit, *caps, seed=seed), trace, text, line, stop, timeout)
        flag = _native.Flag()
        try:
            return await asyncio.get_running_loop().run_in_executor(None, partial(self._run, inputs, options, flag))
        except asyncio.CancelledError:
            flag.set()
            raise

    def _run(self, inputs: Tuple[object, ...], options: RunOptions, flag: Optional[_native.Flag] = None) -> Report:
        """Makes a run, which `flag` ends, too."""
        checked, made = self._given(inputs), self._made(inputs, options.layout)
        layout, seconds = made.layout, self.bounds.usual_seconds(made.layout.limit)
        timeout = options.timeout if options.timeout is not None and self._may_take(options.timeout, layout.limit) else None
        try:
            with ended_by(options.stop, timeout, flag) as flag:
                ran = _native.run(self._kept, checked, layout, flag, seconds if timeout is None else max(seconds, _native.BRIEF_SECONDS))
        except _native.RunError as why:
            raise self._error(why, layout) from None
        if ran.end == "memory":
            del ran  # what the run holds, which the error would keep
            raise MemoryError("yuglemit: out of memory")
        return report_of(ran, made, options)

    def _made(self, inputs: Tuple[object, ...], layout: _native.Layout) -> Made:
        """Returns the causes of a run. Without a limit it has that of the bound, with which it ends by itself, or the most."""
        return Made(self, inputs, layout if layout.limit else layout._replace(limit=self.bounds.events_within()))

    def _is_same(self, made: Made, flag: Optional[_native.Flag]) -> Optional[bool]:
        """Makes a run again, and returns whether each order of events has its outputs. The flag stops the run, and the wait for its replay."""
        seconds = max(self.bounds.usual_seconds(made.layout.limit), _native.BRIEF_SECONDS)
        call = partial(_native.run, self._kept, self._given(made.inputs), made.layout, flag, seconds, order=True)
        ran = call() if flag is None else _native.aside(call, flag.set, flag)
        if ran.end == "memory":
            raise MemoryError("yuglemit: out of memory")
        if flag is not None and flag.is_raised:
            raise _native.Stopped
        return ran.kept.same_in_every_order()

    def _may_take(self, seconds: float, limit: int) -> bool:
        """Returns whether a run may take so long, by its bounds."""
        return self.bounds.seconds(limit) * _SURE > seconds

    def _error(self, why: _native.RunError, layout: _native.Layout) -> Exception:
        """Returns the error of a run that can't begin, with the text that `tw run` writes."""
        if why.number is None:
            return RuntimeError(f"yuglemit: a run returned the error {why}")
        lines = self._excess(layout) if why.number == 7 else [f"input {why.input}\n"] if why.input else []
        return Refused(f"refused {why}\n" + "".join(lines))

    def _excess(self, layout: _native.Layout) -> Iterator[str]:
        """Yields a line for each bound of a run that is above its cap."""
        numbers = dict(zip(_BOUNDS, self._kept.bounds(layout.limit)), budget=self.bounds.greatest)
        words = {_native.OVER: "bound over 1000000000000", _native.NO_BOUND: "no bound"}
        for name, most in zip(layout._fields[5:], layout[5:]):
            kind = name[len("most_") :]
            number = numbers[kind]
            if most is not None and most < _native.NO_CAP and (number > most or number in words):
                yield f"{kind}: {words.get(number, f'bound {number}')}, at most {most}\n"

    def _answer(self, made: Made, flag: Optional[_native.Flag], *options: str, as_text: bool = False) -> str:
        """Makes a run again, of the program's text or of its bytes, and returns what `tw run` writes with these options. The flag ends the wait."""
        words = ["run", *(self._format if as_text else ()), *made.words(), *options, *self.words(made.inputs)]
        return ask(words, self._data if as_text else self._hex, self.is_long(made.layout.limit), flag)

    def replay(self, trace: str, *inputs: Input, engines: int = 1, servers: int = 1, workers: int = 1) -> Report:
        """Makes the events of a trace, from a run of any machine, and returns the report of the state to which they lead."""
        words = ["replay", *actors(layout_of(engines, servers, workers)), *self.words(inputs)]
        return report_of_text(ask(words, self._with(trace), True))

    def picture(
        self, trace: str, *inputs: Input, engines: int = 1, servers: int = 1, workers: int = 1, first: int = 1, last: int = LAST_EVENT
    ) -> str:
        """Draws the events of a trace, from one number to another, as an SVG timeline."""
        options = (*actors(layout_of(engines, servers, workers)), *range_of(first, last))
        return ask(["picture", *options, *self.words(inputs)], self._with(trace), True)

    def _with(self, trace: object) -> Bytes:
        """Returns the program and a trace as a command reads them."""
        if not isinstance(trace, str):
            raise TypeError(f"trace: expected a str, got {shown(trace)}")
        return self._hex + b"\n" + texted(trace)


def program_of(kept: _native.Loaded, needs: Needs, source: Optional[str], code: Optional[Bytes]) -> Program:
    """Makes the program that the library keeps, from its text or from its bytes."""
    program = Program()
    program._kept, program.needs, program.source, program._code = kept, needs, source, code
    return program
