# SPDX-License-Identifier: Apache-2.0
"""Calls the library. Only this module and `_library` know how it is called.

A program that is loaded is kept by the library as a handle, and so are inputs, reports and stop flags (embed/yuglemit.h). Once it is made, any
number of threads use a handle at once. Runs, sessions and loading release the GIL; brief runs and other short calls keep it, since they take less time than a thread
needs to get it again.
"""

from __future__ import annotations

import ctypes
import itertools
import threading
from array import array
from typing import Any, Callable, Dict, Iterable, Iterator, List, NamedTuple, Optional, Sequence, Tuple, TypeVar, Union

from ._library import Handle, Item, Member, has_lists, library, numbers, short
from ._shown import Shown

Answer = Tuple[int, bytes]
Result = TypeVar("Result")
Scalar = Union[int, str]
Output = Union[None, int, str, Dict[Scalar, Optional[Scalar]]]

# The end of a run by its status.
ENDS = {0: "quiet", 3: "stuck", 4: "limit", 5: "memory", 8: "stopped"}
_INTERRUPTED_SECONDS = 0.05


class Verdict(NamedTuple):
    """The verifier's answer to a program; `letter` is "" if it accepts it."""

    letter: str
    number: int
    engines: int
    workers: int
    procedure: int
    place: int
    column: int = 0  # in the line of a text, from 1; 0 if the error has none


class Head(NamedTuple):
    """A procedure as the library counts it: its kind, its parameters' modes and types, and its budget."""

    kind: str
    parameters: List[Tuple[str, str]]
    budget: int


class Members(NamedTuple):
    """The members of a container or the values of a map: their subscripts, which rise, or None for 0, 1, 2 and so on. Numbers are arrays of 64 bits."""

    subscripts: Optional[Sequence[Scalar]]
    values: Sequence[Scalar]

    def pairs(self) -> Iterator[Tuple[Scalar, Scalar]]:
        """Yields each with its subscript."""
        return zip(itertools.count() if self.subscripts is None else self.subscripts, self.values)


class Given(NamedTuple):
    """A value that is checked: its type, as "cont int", and its text, number or members."""

    kind: str
    value: Union[int, str, Members]


class Layout(NamedTuple):
    """How many engines, servers and workers a run has; its most events, or 0: as many as the program's bound; its seed or 0; its caps, None is none."""

    engines: int
    servers: int
    workers: int
    limit: int
    seed: int = 0
    most_tasks: Optional[int] = None
    most_instructions: Optional[int] = None
    most_data: Optional[int] = None
    most_bytes: Optional[int] = None
    most_budget: Optional[int] = None
    most_members: Optional[int] = None
    most_rules: Optional[int] = None


class _Meter(NamedTuple):
    events: int
    tasks: int
    instructions: int
    data: int
    members: int
    bytes: int


class Meter(_Meter, metaclass=Shown):  # type: ignore[misc]  # of a tuple, in typeshed only
    """How much a run did: its `events`, the `tasks` that it took, the `instructions` that it executed, and the `data` that it made, with inputs, outputs
    and the members of inputs. At its end the store held so many `members` of containers and maps, and `bytes` of texts."""

    __slots__ = ()


class Ran(NamedTuple):
    """A report: the end, what the run did, the outputs, the numbers of outputs that are unset or open, and what the library keeps of it."""

    end: str
    meter: Meter
    outputs: List[Output]
    unfinished: List[int]
    kept: "Kept"


class RunError(Exception):
    """Says that a run isn't begun: `code` is what the call returned, and `number` that of the error O01 to O04 or O07, or None. `input` is the
    number of the input that doesn't fit, from 1, if the error is O02."""

    def __init__(self, code: int, input_: Optional[int] = None) -> None:
        self.code, self.input = code, input_
        self.number = code - _RUN_CODES if _RUN_CODES < code <= _ABOVE_CAP else None
        super().__init__(f"code {code}" if self.number is None else f"O{self.number:02}")


# Codes of the library (yuglemit_code of embed/yuglemit.h). That of O01 is 201, and so on.
_RUN_CODES = 200
_INPUT_TYPE, _NO_MEMORY, _ABOVE_CAP, _NO_END, _REJECTED = 202, 205, 207, 227, 229


# ---- Handles


class _Owner:
    """Owns a handle of the library, which begins empty, and frees it once."""

    __slots__ = ("at", "handle", "_free")

    def __init__(self, free: Callable[[Handle], None]) -> None:
        self._free = free
        self.handle = Handle()
        self.at = ctypes.byref(self.handle)

    def __del__(self) -> None:
        self._free(self.handle)

    def seen(self) -> Any:
        """Returns where a copy of the handle is, for a call that only reads it: the call may write the copy, and nothing that other threads
        read."""
        return ctypes.byref(Handle(self.handle.at))


def _owner(kind: str) -> _Owner:
    return _Owner(getattr(short(), f"yuglemit_{kind}_free"))


def _done(code: int) -> None:
    """Raises the error of a call, if there is one. The callers rule out all but a failed allocation."""
    if code == _NO_MEMORY:
        raise MemoryError("yuglemit: out of memory")
    if code:
        raise RuntimeError(f"yuglemit: a call returned the code {code}")


class Loaded:
    """A program that the library keeps, for all threads."""

    def __init__(self, root: _Owner) -> None:
        self.root = root

    def bounds(self, limit: int) -> List[int]:
        """Returns the bounds of runs with at most so many events, or of all runs if it is 0: tasks, instructions, data, members, rules, bytes,
        events. One over 1,000,000,000,000 is OVER, and none NO_BOUND."""
        found = numbers(*[0] * 7)
        _done(short().yuglemit_raw_program_bounds(self.root.seen(), limit, found, len(found)))
        return list(found)

    def may_show_order(self) -> bool:
        """Returns whether the order of events may show in outputs."""
        found = numbers(0, 0, 0)
        _done(short().yuglemit_raw_program_order(self.root.seen(), found, len(found)))
        return found[0] != 0

    def heads(self) -> List[Head]:
        """Returns its procedures, main first."""
        count = ctypes.c_size_t()
        _done(short().yuglemit_raw_program_procedures(self.root.seen(), ctypes.byref(count)))
        return [self._head(number) for number in range(count.value)]

    def _head(self, number: int) -> Head:
        found, budget = numbers(0, 0), ctypes.c_uint64()
        _done(short().yuglemit_raw_program_procedure(self.root.seen(), number, found, len(found)))
        _done(short().yuglemit_raw_program_budget(self.root.seen(), number, ctypes.byref(budget)))
        count, kind = found
        parameters = [self._parameter(number, index) for index in range(count)]
        return Head("control" if kind == ord("c") else "leaf", parameters, budget.value)

    def _parameter(self, number: int, index: int) -> Tuple[str, str]:
        found = numbers(*[0] * 7)
        _done(short().yuglemit_raw_program_parameter(self.root.seen(), number, index, found, len(found)))
        mode, depth, scalar, *around, by_map = found
        outer = "".join("tcont " if by == ord("t") else "cont " for by in around[:depth])
        return _MODES[mode], outer + _MAPS[by_map] + _SCALARS[scalar]


_MODES = {ord("v"): "val", ord("c"): "closed", ord("r"): "ref", ord("w"): "write"}
_MAPS = {0: "", ord("i"): "map ", ord("t"): "tmap "}
_SCALARS = {ord("i"): "int", ord("t"): "text", ord("s"): "sum"}


def _no_report() -> None:
    """Returns what another process gets of a kept report: nothing."""


class Kept:
    """A report that the library keeps, which it prints without another run. A pickled one is None where it arrives."""

    __slots__ = ("_report",)

    def __init__(self, report: _Owner) -> None:
        self._report = report

    def __reduce__(self) -> Tuple[Callable[[], None], Tuple[()]]:
        return _no_report, ()

    def printed(self, what: str) -> Optional[str]:
        """Returns the "report", the "trace" or the "json" line; a run that was broken off has no such line."""
        text = _owner("text")
        code = getattr(library(), f"yuglemit_raw_print_{what}")(self._report.seen(), text.at)
        if code == _NO_END:
            return None
        _done(code)
        return _read_text(text).decode()

    def same_in_every_order(self) -> Optional[bool]:
        """Returns whether each order of events has the run's outputs, of a run with its order; None if it was cut off before that shows."""
        found = numbers(0, 0, 0)
        _done(short().yuglemit_raw_report_order(self._report.seen(), found, len(found)))
        return (True, False, None)[found[0]]


def _read_text(text: _Owner) -> bytes:
    length = ctypes.c_size_t()
    _done(short().yuglemit_raw_text_length(text.seen(), ctypes.byref(length)))
    room = ctypes.create_string_buffer(length.value or 1)
    _done(short().yuglemit_raw_text_copy(text.seen(), room, length.value))
    return ctypes.string_at(room, length.value)


class Stopped(Exception):
    """Says that a flag was raised before an answer was there."""


class Flag:
    """Stops one run, from another thread or from a signal handler."""

    def __init__(self) -> None:
        self.is_raised = False
        self.of_run = _owner("stop")
        _done(short().yuglemit_stop_new(self.of_run.at))

    def set(self) -> None:
        """Ends the run before its next turn, or within a task."""
        self.is_raised = True
        _done(short().yuglemit_raw_stop_raise(self.of_run.seen()))


_MOST_SOURCE, _LANGUAGE = 16_777_216, 5  # bytes of a source, and the highest version of the language


def load(source: bytes, format_: str) -> Tuple[Verdict, Optional[Loaded]]:
    """Verifies a program, and keeps it if it is accepted. The format is "b" for bytes, "h" for hex text, "t" for assembly text. A long one gives
    way to Ctrl-C, and continues in its thread."""
    root, verdict, usual = _owner("program"), numbers(*[0] * 9), numbers(*([_MOST_SOURCE, _LANGUAGE] if has_lists() else []))

    def call() -> int:
        code = library().yuglemit_raw_load_source(source, len(source), ord(format_), usual, len(usual), root.at, verdict, len(verdict))
        return int(code)

    is_aside = is_long_source(source) and threading.current_thread() is threading.main_thread()
    code = aside(call) if is_aside else call()
    if code != _REJECTED:
        _done(code)
    return _verdict_of(verdict), Loaded(root) if code == 0 else None


def is_long_source(source: bytes) -> bool:
    """Returns whether reading a source takes so long that one waits for it."""
    return len(source) > 500_000


def _verdict_of(found: Iterable[int]) -> Verdict:
    letter, number, engines, workers, procedure, place, _line, _word, column = found
    return Verdict(chr(letter) if letter else "", number, engines, workers, procedure, place, column)


# ---- Runs

OVER, NO_BOUND = (1 << 64) - 2, (1 << 64) - 1
NO_CAP = (1 << 64) - 1
LONG_SECONDS = 0.03  # a run that may take longer is made so that Ctrl-C can stop it
BRIEF_SECONDS = 0.001  # one that takes less keeps the GIL


def _add_container(inputs: _Owner, kind: str, members: Members) -> None:
    """Appends a container or a map to inputs: by one call, or by one for each member if the library has only that."""
    outer, inner = kind.split()
    scalar, by = "text" if inner == "text" else "int", "_by_text" if outer in ("tcont", "tmap") else ""
    if has_lists():
        lists = (*_list(members.subscripts or (), bool(by)), *_list(members.values, scalar == "text"))
        _done(getattr(short(), f"yuglemit_raw_input_{scalar}s{by}")(inputs.at, *lists))
        return
    container = _owner("container")
    _done(short().yuglemit_container_new(container.at, ord("t" if by else "i"), ord(scalar[0])))
    add = getattr(short(), f"yuglemit_member_{scalar}{by}")
    for subscript, member in members.pairs():
        _done(add(container.at, *_words(subscript), *_words(member)))
    _done(short().yuglemit_raw_input_container(inputs.at, container.at))


def _list(scalars: Sequence[Any], is_text: bool) -> Tuple[Any, ...]:
    """Returns numbers as the arguments of a call, an array and its length; before those of texts come all their bytes, and the array says where each ends."""
    texts: Tuple[Any, ...] = ()
    if is_text:
        parts = [it.encode() for it in scalars]
        texts = (b"".join(parts), sum(map(len, parts)))
        scalars = array("Q", itertools.accumulate(map(len, parts)))
    found = ctypes.c_int64 * len(scalars)
    return (*texts, found.from_buffer(scalars) if scalars else found(), len(scalars))  # type: ignore[arg-type]  # an array


def _words(value: Scalar) -> Tuple[Any, ...]:
    """Returns a scalar as the arguments of a call: a number, or a text with its length."""
    if isinstance(value, int):
        return (value,)
    text = value.encode()
    return (text, len(text))


def _inputs_of(given: Sequence[Given]) -> _Owner:
    inputs, calls = _owner("inputs"), short()
    for kind, value in given:
        if isinstance(value, Members):
            _add_container(inputs, kind, value)
        elif isinstance(value, int):
            _done(calls.yuglemit_input_int(inputs.at, value))
        else:
            _done(calls.yuglemit_input_text(inputs.at, *_words(value)))
    return inputs


def _call_run(calls: ctypes.CDLL, program: Loaded, inputs: _Owner, layout: Layout, stop: Optional[Flag], order: bool) -> _Owner:
    """Makes a run by calls that release the GIL or keep it, and returns the handle of its report."""
    options = numbers(layout.limit, layout.engines, layout.servers, layout.workers, layout.seed, int(order))
    caps = numbers(*(NO_CAP if cap is None else cap for cap in layout[5:]))
    flag = stop.of_run.seen() if stop is not None else ctypes.byref(Handle())
    report, given = _owner("report"), (program.root.seen(), inputs.seen())
    code = calls.yuglemit_raw_run(*given, options, len(options), caps, len(caps), flag, report.at)
    if code == _NO_MEMORY:
        raise MemoryError("yuglemit: out of memory")
    if code:
        raise RunError(code, _unfit_input(*given) if code == _INPUT_TYPE else None)
    return report


def _unfit_input(*given: Any) -> Optional[int]:
    """Returns the number of the first input that doesn't fit main, from 1."""
    index = ctypes.c_size_t()
    code = short().yuglemit_raw_unfit_input(*given, ctypes.byref(index))
    return None if code else index.value + 1


def run(program: Loaded, given: Sequence[Given], layout: Layout, stop: Optional[Flag], seconds: float, order: bool = False) -> Ran:
    """Makes a run of a program on these values, of so many seconds at most; raises RunError if it can't begin. `order` says whether its report has the
    run's order.

    A brief run keeps the GIL, since getting it back from other threads takes longer than the run. A long one gives way to Ctrl-C, which only the
    main thread gets: its flag is raised, so that it ends soon.
    """
    inputs = _inputs_of(given)
    calls = short() if seconds < BRIEF_SECONDS else library()
    if seconds > LONG_SECONDS and threading.current_thread() is threading.main_thread():
        flag = stop if stop is not None else Flag()
        return _ran(aside(lambda: _call_run(calls, program, inputs, layout, flag, order), flag.set))
    return _ran(_call_run(calls, program, inputs, layout, stop, order))


def _ran(report: _Owner) -> Ran:
    """Reads a report."""
    ending, meter = numbers(0, 0, 0), numbers(*[0] * len(Meter._fields))
    _done(short().yuglemit_raw_report_ending(report.seen(), ending, len(ending)))
    _done(short().yuglemit_raw_report_meter(report.seen(), meter, len(meter)))
    _, count, status = ending
    outputs: List[Output] = []
    unfinished: List[int] = []
    for number in range(count):
        item = Item()
        _done(short().yuglemit_raw_report_output(report.seen(), number, ctypes.byref(item)))
        outputs.append(_output(report, number, item))
        if item.kind not in b"it" and not (item.kind in b"cm" and item.closed):
            unfinished.append(number)
    return Ran(ENDS[status], Meter(*meter), outputs, unfinished, Kept(report))


def _output(report: _Owner, number: int, item: Item) -> Output:
    if item.kind not in b"cm":
        return _scalar(item, "text", report, number)
    return _members(report, number, item)


# A member as the library writes it, in words: number, length and kind of the subscript, and of the value.
_WORDS = ctypes.sizeof(Member) // 8


def _members(report: _Owner, number: int, item: Item) -> Dict[Scalar, Optional[Scalar]]:
    """Reads the members or values of an output by one call, and each text of them by another. Numbers are taken from their array at once."""
    room = bytearray(ctypes.sizeof(Member) * item.length)
    if not room:
        return {}
    found = (Member * item.length).from_buffer(room)
    _done(short().yuglemit_raw_report_members(report.seen(), number, 0, found, item.length))
    words = memoryview(room).cast("q")
    subscripts: Sequence[Scalar] = words[0::_WORDS].tolist()
    if item.by == ord("t"):
        subscripts = [_text(found[place].subscript, "subscript_text", report, number, place) for place in range(item.length)]
    values: Sequence[Optional[Scalar]] = words[3::_WORDS].tolist()
    if any(kind & 255 != ord("i") for kind in words[5::_WORDS].tolist()):
        values = [_scalar(found[place].value, "member_text", report, number, place) for place in range(item.length)]
    return dict(zip(subscripts, values))


def _scalar(item: Item, call: str, report: _Owner, *places: int) -> Optional[Scalar]:
    """Returns an item's number, or its text, which a call writes; None if the item is unset."""
    if item.kind == ord("i"):
        return int(item.number)
    return _text(item, call, report, *places) if item.kind == ord("t") else None


def _text(item: Item, call: str, report: _Owner, *places: int) -> str:
    room = ctypes.create_string_buffer(item.length or 1)
    _done(getattr(short(), f"yuglemit_raw_report_{call}")(report.seen(), *places, room, item.length))
    return room.raw[: item.length].decode()


# ---- Sessions

_MEMORY_STATUS = 5
_FIRST_ROOM = 1 << 16


def _session(words: Sequence[str], data: bytes) -> Answer:
    """Makes a session with words that have no NUL, since each ends with one."""
    ended, output = "".join(word + "\0" for word in words).encode(), _owner("text")
    status = library().yuglemit_session_text(ended, len(ended), data, len(data), output.at)
    return status, b"memory\n" if status == _MEMORY_STATUS else _read_text(output)


def _session_by_lines(words: Sequence[str], data: bytes) -> Answer:
    """Makes a session with words that have a NUL, but no line feed; again if its text is longer than the buffer."""
    lines, length, status = "".join(word + "\n" for word in words).encode(), _FIRST_ROOM, ctypes.c_uint8()
    while True:
        room = ctypes.create_string_buffer(length)
        length = library().yuglemit_session(lines, len(lines), data, len(data), room, len(room), ctypes.byref(status))
        if length <= len(room):
            return status.value, ctypes.string_at(room, length)


def _ignore() -> None:
    """Does nothing: a session can't be stopped."""


def aside(call: Callable[[], Result], interrupt: Callable[[], None] = _ignore, flag: Optional[Flag] = None) -> Result:
    """Makes a call in a thread of its own, and waits for it. Ctrl-C ends the wait, and so does the flag, by `Stopped`: then `interrupt` is called, and
    whatever the call still does is done in its thread."""
    results: list[Result] = []
    errors: list[BaseException] = []
    done = threading.Lock()
    done.acquire()

    def work() -> None:
        try:
            results.append(call())
        except BaseException as why:
            errors.append(why)
        finally:
            done.release()

    try:
        threading.Thread(target=work, daemon=True, name="yuglemit").start()
        while not done.acquire(timeout=0.05):  # Python looks for signals between two
            if flag is not None and flag.is_raised:
                raise Stopped
    except BaseException:
        interrupt()
        done.acquire(timeout=_INTERRUPTED_SECONDS)
        raise
    if errors:
        raise errors[0]
    return results[0]


def session(words: Sequence[str], data: bytes = b"", long: bool = False, flag: Optional[Flag] = None) -> Answer:
    """Returns the exit status of the command `tw` with these words and this input, and what it writes.

    A call that may be long gives way to Ctrl-C, which only the main thread gets, and one with a flag to that.
    """
    has_nul, has_line_feed = (any(sign in word for word in words) for sign in "\0\n")
    if has_nul and has_line_feed:
        raise ValueError("no command line has both a NUL and a line feed in its words")
    call = _session_by_lines if has_nul else _session
    if flag is not None or long and threading.current_thread() is threading.main_thread():
        return aside(lambda: call(words, data), flag=flag)
    return call(words, data)


def verify(program: bytes) -> Verdict:
    """Returns what the verifier says of a program's bytes."""
    verdict = numbers(*[0] * 9)
    code = library().yuglemit_raw_verify(program, len(program), verdict, len(verdict))
    if code != _REJECTED:
        _done(code)
    return _verdict_of(verdict)
