"""The kind `handles`: programs that are loaded once and run many times (embed/yuglemit.h), against the machine."""

import ctypes
import itertools
import random
import threading
from dataclasses import dataclass
from typing import Any, Callable, Iterator

from tools.fuzz import make
from tools.fuzz.oracle.bounds import COUNTED, bound, budgets, has_circle, limited_lines, needs, reported
from tools.fuzz.oracle.code import CONT, INT, TCONT, TEXT, VERSIONS, Type, encode, entry_of, is_map, is_sums, subscript_of
from tools.fuzz.common import Corpus, FuzzTest, RunTest
from tools.fuzz.kinds.inputs import form_of
from tools.fuzz.library import Library
from tools.fuzz.oracle.machine import Datum, Machine, Scalar, Value, run_in_turn
from tools.fuzz.kinds.orders import first_copy_insertion
from tools.fuzz.oracle.report import status_of

ROOM = 64
OVER, NO_BOUND = (1 << 64) - 2, (1 << 64) - 1
NEWEST = (1 << 24, VERSIONS[-1])  # the options of a load: the most bytes, and the newest version
OLDER = 4  # the newest version that a load takes without options
# Codes of calls (yuglemit_code).
INPUT_COUNT, INPUT_TYPE, NO_LIMIT, ABOVE_CAP = 201, 202, 204, 207
NO_PROGRAM, NO_CONTAINER, NO_REPORT, NO_LAYOUT, NO_INDEX, NO_TEXT, NO_UTF8, NO_ROOM, REJECTED, NO_LIST, UNFINISHED = 211, 213, 215, 222, 223, 224, 225, 226, 229, 231, 232


class Fault(Exception):
    """A call answers otherwise than expected."""


def expect(what: str, expected: object, got: object) -> None:
    if expected != got:
        raise Fault(f"{what}: expected {expected!r}, got {got!r}")


class Calls:
    """The library's calls, by their names in embed/yuglemit.h. Bytes and lists of numbers are passed with their lengths, and what a call writes by where it is."""

    def __init__(self, library: Library) -> None:
        self.native = library.native
        at, size, place = ctypes.POINTER(self.native.Handle), ctypes.c_size_t, ctypes.POINTER(ctypes.c_size_t)
        # Those that the package doesn't call.
        for name, types in {
            "program_share": [at, at], "stop_share": [at, at], "report_member": [at, size, size, ctypes.POINTER(self.native.Member)],
            "report_find_int": [at, size, ctypes.c_int64, place], "report_find_text": [at, size, ctypes.c_char_p, size, place],
        }.items():
            call = getattr(self.native.short(), f"yuglemit_raw_{name}")
            call.argtypes, call.restype = types, ctypes.c_uint8

    def handle(self) -> Any:
        """Returns an empty handle."""
        return self.native.Handle()

    def numbers(self, *values: int) -> Any:
        """Returns a list of numbers."""
        return self.native.numbers(*values)

    def __getattr__(self, name: str) -> Callable[..., int]:
        library = self.native.library() if name == "raw_load_source" else self.native.short()
        call = getattr(library, f"yuglemit_{name}")

        def made(*given: Any) -> int:
            words: list[Any] = []
            for one in given:
                is_list = isinstance(one, (bytes, ctypes.Array))
                is_written = isinstance(one, (ctypes.Structure, ctypes.c_size_t, ctypes.c_uint64)) and not name.endswith("_free")
                words += [one, len(one)] if is_list else [ctypes.byref(one)] if is_written else [one]
            return int(call(*words) or 0)

        return made


def column(scalars: list[Any]) -> list[Any]:
    """Returns numbers, or texts in one buffer with their ends, as a call takes them."""
    if scalars and isinstance(scalars[0], str):
        texts = [text.encode() for text in scalars]
        ends = itertools.accumulate(map(len, texts))
        return [b"".join(texts), (ctypes.c_uint64 * len(texts))(*ends)]
    return [(ctypes.c_int64 * len(scalars))(*scalars)]


def near_by(subscript: Scalar) -> list[Scalar]:
    """Returns subscripts beside one, and one of the other type."""
    if isinstance(subscript, int):
        return [max(subscript - 1, -1 << 63), min(subscript + 1, (1 << 63) - 1), str(subscript)]
    return [subscript + "\0", subscript[:-1], len(subscript)]


@dataclass
class Report:
    """A report's handle, and the machine's state with which it is compared."""

    calls: Calls
    handle: Any
    machine: Machine

    def compare(self, output: int, number: int) -> None:
        """Compares an output, and its members or values by their order."""
        datum = self.machine.store[number]
        self.compare_item(f"output {output}", self.item(output), datum, [self.calls.raw_report_text, output])
        members = [(subscript, self.machine.store[member]) for subscript, member in datum.sorted_members()]
        entries = [(subscript, Datum((entry_of(datum.type),), 0, 0, value)) for subscript, value in datum.sorted_entries()]
        self.compare_members(output, [*members, *entries])

    def compare_members(self, output: int, members: list[tuple[Scalar, Datum]]) -> None:
        every, some = (self.calls.native.Member * (len(members) + 1))(), (self.calls.native.Member * len(members))()
        expect("report_members", 0, self.calls.raw_report_members(self.handle, output, 0, some))
        for place, (subscript, member) in enumerate(members):
            found = self.calls.native.Member()
            expect("report_member", 0, self.calls.raw_report_member(self.handle, output, place, found))
            self.compare_scalar(f"subscript {place}", found.subscript, subscript, [self.calls.raw_report_subscript_text, output, place])
            self.compare_item(f"member {place}", found.value, member, [self.calls.raw_report_member_text, output, place])
            expect(f"member {place} of all", listed(found), listed(some[place]))
            expect(f"the place of {subscript!r}", (0, place), self.place_of(output, subscript))
        expect("more members than there are", NO_INDEX, self.calls.raw_report_members(self.handle, output, 0, every))
        given = {subscript for subscript, _ in members}
        for other in {near for subscript in given for near in near_by(subscript)} - given:
            expect(f"no place of {other!r}", (NO_INDEX, 77), self.place_of(output, other))
        found, half = self.calls.native.Member(), len(members) // 2
        rest, none = (self.calls.native.Member * (len(members) - half))(), (self.calls.native.Member * 0)()
        expect("the members from the middle on", 0, self.calls.raw_report_members(self.handle, output, half, rest))
        expect("the members from the middle on", [listed(it) for it in some[half:]], [listed(it) for it in rest])
        answers = [self.calls.raw_report_members(self.handle, output, first, none) for first in (len(members), len(members) + 1, (1 << 64) - 1)]
        expect("no members from the last on, and past it", [0, NO_INDEX, NO_INDEX], answers)
        expect("the member after the last", NO_INDEX, self.calls.raw_report_member(self.handle, output, len(members), found))
        for call in (self.calls.raw_report_subscript_text, self.calls.raw_report_member_text):
            expect("its texts", NO_INDEX, self.written([call, output, len(members)], ROOM)[0])
        expect("no UTF-8", NO_UTF8, self.calls.raw_report_find_text(self.handle, output, b"\xff", ctypes.c_size_t(77)))

    def compare_none(self, output: int, expected: int) -> None:
        """Compares what is said of an output that there isn't, or that is of an unfinished run."""
        item, member = self.calls.native.Item(), self.calls.native.Member()
        answers = [self.calls.raw_report_output(self.handle, output, item), self.calls.raw_report_member(self.handle, output, 0, member)]
        answers += [self.written([self.calls.raw_report_text, output], ROOM)[0], self.place_of(output, 0)[0], self.place_of(output, "")[0]]
        answers += [self.written([call, output, 0], ROOM)[0] for call in (self.calls.raw_report_member_text, self.calls.raw_report_subscript_text)]
        answers += [self.calls.raw_report_members(self.handle, output, 0, (self.calls.native.Member * count)()) for count in (0, 1)]
        expect(f"output {output}", {expected}, {*answers})

    def place_of(self, output: int, subscript: Scalar) -> tuple[int, int]:
        """Returns the answer of the call that finds a member, and the place, which is 77 if it writes none."""
        place = ctypes.c_size_t(77)
        if isinstance(subscript, int):
            return self.calls.raw_report_find_int(self.handle, output, subscript, place), place.value
        return self.calls.raw_report_find_text(self.handle, output, subscript.encode(), place), place.value

    def item(self, output: int) -> Any:
        found = self.calls.native.Item()
        expect("report_output", 0, self.calls.raw_report_output(self.handle, output, found))
        return found

    def compare_item(self, what: str, item: Any, datum: Datum, text: list[Any]) -> None:
        expect(f"{what}: closed", int(datum.is_closed), item.closed)
        expect(f"{what}: scalar", "s" if is_sums(datum.type) else "i" if entry_of(datum.type) == INT else "t", chr(item.scalar))
        if not datum.is_scalar:
            by = "i" if subscript_of(datum.type) == INT else "t"
            kind = "m" if is_map(datum.type) else "c"
            expect(f"{what}: container", (kind, datum.count, by), (chr(item.kind), item.length, chr(item.by)))
        elif datum.value is None:
            expect(f"{what}: kind", "u", chr(item.kind))
        else:
            self.compare_scalar(what, item, datum.value, text)

    def compare_scalar(self, what: str, item: Any, value: Scalar, text: list[Any]) -> None:
        if isinstance(value, int):
            expect(what, ("i", value), (chr(item.kind), item.number))
            expect(f"{what}: its text", NO_TEXT, self.written(text, ROOM)[0])
            return
        data = value.encode()
        expect(what, ("t", len(data)), (chr(item.kind), item.length))
        expect(f"{what}: its text", (0, data + b"\xa5" * 8), self.written(text, len(data) + 8))
        if data:
            expect(f"{what}: a short buffer", (NO_ROOM, b"\xa5" * (len(data) - 1)), self.written(text, len(data) - 1))

    def written(self, text: list[Any], size: int) -> tuple[int, bytes]:
        """Returns the answer of a call that writes a text, and the buffer; the buffer's neighbours have to stay."""
        room = ctypes.create_string_buffer(b"\xa5" * (size + 32), size + 32)
        call, *places = text
        answer = call(self.handle, *places, ctypes.addressof(room) + 16, size)
        expect("the buffer's neighbours", b"\xa5" * 32, room.raw[:16] + room.raw[size + 16:])
        return answer, room.raw[16:size + 16]


def listed(member: Any) -> list[object]:
    """Returns the fields of a member."""
    return [getattr(item, name) for item in (member.subscript, member.value) for name, _ in item._fields_]


def number_of(printed: str) -> int:
    """Returns a bound as the library writes it."""
    return OVER if printed == "over" else int(printed)


@dataclass(frozen=True)
class HandlesTest(RunTest):
    """A program is loaded, shared and run: twice to its end with caps at its bounds, once with a cap below, and once with a raised stop flag."""

    @property
    def partial(self) -> int:
        """Returns the option for outputs of an unfinished run, which every second limit has."""
        return self.limit % 2

    def fault(self, library: Library) -> str | None:
        native = Calls(library)
        program, shared, inputs, report = (native.handle() for _ in range(4))
        try:
            self.compare(library, native, program, shared, inputs, report)
        except Fault as why:
            return f"handles: {why}"
        finally:
            for handle, name in ((program, "program"), (shared, "program"), (inputs, "inputs"), (report, "report")):
                getattr(native, f"{name}_free")(handle)
        return None

    def compare(self, library: Library, native: Calls, program: Any, shared: Any, inputs: Any, report: Any) -> None:
        data = encode(self.program)
        verdict = native.numbers(*[0] * 9)
        answered = native.raw_load_source(data, ord("b"), native.numbers(*NEWEST), program, verdict)
        letter, number, _, _, procedure, place, *_ = verdict
        expect("the code of a load", REJECTED if letter else 0, answered)
        answer = library.verify(data)
        expect("verdict", (answer.code, answer.procedure, answer.place), (f"{chr(letter)}{number:02}" if letter else "", procedure, place))
        expect("a handle", not answer.code, bool(program.at))
        self.compare_program(native, program, not answer.code)
        if not answer.code:
            self.compare_options(native, data)
            expect("share", 0, native.raw_program_share(program, shared))
            self.append(native, inputs)
            self.compare_run(native, program, inputs, report)
            self.compare_above(native, program, inputs)
            self.compare_unfit(native, program, inputs)
            self.compare_stopped(native, program, inputs)
            self.compare_hex(native, data, program)
            native.program_free(program)
            program.at = None
            self.compare_aside(native, shared, inputs, report)

    def compare_program(self, native: Calls, program: Any, is_accepted: bool) -> None:
        count, budget = ctypes.c_size_t(77), ctypes.c_uint64(77)
        answer = native.raw_program_procedures(program, count)
        expected = (0, len(self.program.procedures)) if is_accepted else (NO_PROGRAM, 77)
        expect("procedures", expected, (answer, count.value))
        procedures = [*enumerate([*budgets(self.program), None]), ((1 << 64) - 1, None)]
        for number, most in procedures if is_accepted else []:
            answer = native.raw_program_budget(program, number, budget)
            expect("budget", (0, most) if most is not None else NO_INDEX, (answer, budget.value) if most is not None else answer)
        for limit in (0, 1, 600, 1_000_001):
            self.compare_bounds(native, program, limit, is_accepted)
        self.compare_order(native, program, is_accepted)

    def compare_bounds(self, native: Calls, program: Any, limit: int, is_accepted: bool) -> None:
        unchanged = [77] * len(COUNTED)
        found = native.numbers(*unchanged)
        answer = native.raw_program_bounds(program, limit, found)
        expected = (NO_PROGRAM, unchanged) if not is_accepted else (NO_LIMIT, unchanged) if limit > 1_000_000 else (0, self.least(limit))
        expect(f"bounds by {limit}", expected, (answer, list(found)))

    def compare_order(self, native: Calls, program: Any, is_accepted: bool) -> None:
        found = native.numbers(77, 77, 77)
        answer = native.raw_program_order(program, found)
        at = first_copy_insertion(self.program) if is_accepted else None
        expected = (NO_PROGRAM, 77, 77, 77) if not is_accepted else (0, 0, 0, 0) if at is None else (0, 1, *at)
        expect("order", expected, (answer, *found))

    def least(self, limit: int) -> list[int]:
        """Returns the bounds of runs with so many events at most, or of all runs if it is 0."""
        whole = [NO_BOUND if has_circle(self.program) else number_of(reported(bound(self.program, weights))) for weights in COUNTED.values()]
        limited = [number_of(line.split()[2]) for line in limited_lines(self.program, limit)] if limit else whole
        return [min(pair) for pair in zip(whole, limited)]

    def caps(self) -> list[int]:
        """Returns the least caps that admit the program, in the order of the library."""
        found = {name: NO_BOUND if number == OVER else number for name, number in zip(COUNTED, self.least(self.limit))}
        return [found["tasks"], found["instructions"], found["data"], found["bytes"], max(budgets(self.program)), found["members"], found["rules"]]

    def run_capped(self, native: Calls, program: Any, inputs: Any, caps: list[int], report: Any) -> int:
        return self.run_until(native, program, inputs, caps, native.handle(), report)

    def run_until(self, native: Calls, program: Any, inputs: Any, caps: list[int], stop: Any, report: Any) -> int:
        return native.raw_run(program, inputs, native.numbers(self.limit, *self.layout, 0, 1, self.partial), native.numbers(*caps), stop, report)

    def compare_above(self, native: Calls, program: Any, inputs: Any) -> None:
        """Makes no run, since a bound is above its cap; or it is none for another reason."""
        report = native.handle()
        is_layout, is_limit = self.expected() != NO_LAYOUT, 1 <= self.limit <= 1_000_000
        expected = (ABOVE_CAP if is_layout and is_limit else self.expected(), None)
        caps = self.caps()
        for index in (index for index, most in enumerate(caps) if most):
            smaller = [most - (place == index) for place, most in enumerate(caps)][: index + 1]
            expect(f"a bound above cap {index}", expected, (self.run_capped(native, program, inputs, smaller, report), report.at))

    def compare_unfit(self, native: Calls, program: Any, inputs: Any) -> None:
        """Finds the input that doesn't fit, if the run has the error O02."""
        types, index = self.program.inputs, ctypes.c_size_t(77)
        unfit = [index for index, (type_, value) in enumerate(zip(types, self.inputs)) if form_of(type_) != self.type_of(index, value)]
        expected = (INPUT_COUNT, 77) if len(types) != len(self.inputs) else (0, unfit[0]) if unfit else (NO_INDEX, 77)
        expect("the input that doesn't fit", expected, (native.raw_unfit_input(program, inputs, index), index.value))

    def append(self, native: Calls, inputs: Any) -> None:
        for index, value in enumerate(self.inputs):
            if isinstance(value, str):
                answer = native.input_text(inputs, value.encode())
            elif isinstance(value, dict):
                answer = self.append_container(native, inputs, value, self.type_of(index, value))
            else:
                answer = native.input_int(inputs, value)
            expect("input", 0, answer)
        expect("an input that isn't UTF-8", NO_UTF8, native.input_text(inputs, b"a\xff"))

    def type_of(self, index: int, value: Value) -> Type:
        """Returns the type of an input: its own as a container, or that of the parameter's argument if it has no members."""
        if not isinstance(value, dict):
            return (INT,) if isinstance(value, int) else (TEXT,)
        for subscript, member in value.items():
            return (CONT if isinstance(subscript, int) else TCONT, INT if isinstance(member, int) else TEXT)
        types = self.program.inputs
        return form_of(types[index]) if index < len(types) and len(types[index]) == 2 else (CONT, INT)

    def append_lists(self, native: Calls, inputs: Any, value: dict[Any, Scalar]) -> int:
        """Appends a container with members by one call. The same without its last value is refused."""
        subscripts = sorted(value, key=lambda s: s.encode() if isinstance(s, str) else s)
        values = [value[subscript] for subscript in subscripts]
        kinds = ["texts" if isinstance(scalars[0], str) else "ints" for scalars in (values, subscripts)]
        call = getattr(native, f"raw_input_{kinds[0]}{'_by_text' if kinds[1] == 'texts' else ''}")
        expect("a value too few", NO_LIST, call(inputs, *column(subscripts), *column(values[:-1])))
        return int(call(inputs, *column(subscripts), *column(values)))

    def append_container(self, native: Calls, inputs: Any, value: dict[Any, Scalar], type_: Type) -> int:
        """Makes a container and moves it to the inputs; then it is empty, and is begun anew by the next one. One of an even number of members is appended by
        one call."""
        if value and len(value) % 2 == 0:
            return self.append_lists(native, inputs, value)
        container, letters = native.handle(), {INT: ord("i"), TEXT: ord("t"), CONT: ord("i"), TCONT: ord("t")}
        try:
            expect("container", 0, native.container_new(container, letters[type_[0]], letters[type_[1]]))
            for of, by in itertools.product(("int", "text"), ("", "_by_text")):
                words = [b"a" if by else 1, b"a" if of == "text" else 1]
                is_its = (of == "text", by != "") == (type_[1] == TEXT, type_[0] == TCONT)
                expect("a member of another type", NO_CONTAINER, NO_CONTAINER if is_its else getattr(native, f"member_{of}{by}")(container, *words))
            expect("members that are no UTF-8", [NO_UTF8] * 2, [native.member_text_by_text(container, *words) for words in ((b"a", b"\xff"), (b"\xff", b"a"))])
            for subscript in sorted(value, key=lambda s: s.encode() if isinstance(s, str) else s):
                words = [word.encode() if isinstance(word, str) else word for word in (subscript, value[subscript])]
                name = ("text" if isinstance(value[subscript], str) else "int") + ("_by_text" if isinstance(subscript, str) else "")
                expect("a member", 0, getattr(native, f"member_{name}")(container, *words))
            return native.raw_input_container(inputs, container)
        finally:
            native.container_free(container)

    def expected(self) -> int:
        """Returns the answer of a run: the number of its error, or 0."""
        engines, servers, workers = self.layout
        if not 1 <= engines <= 4 or not 1 <= servers <= 4 or not 1 <= workers <= 16:
            return NO_LAYOUT
        types = self.program.inputs
        if len(types) != len(self.inputs):
            return INPUT_COUNT
        if any(form_of(type_) != self.type_of(index, value) for index, (type_, value) in enumerate(zip(types, self.inputs))):
            return INPUT_TYPE
        return 0 if 1 <= self.limit <= 1_000_000 else NO_LIMIT

    def compare_run(self, native: Calls, program: Any, inputs: Any, report: Any) -> None:
        answer = self.run_capped(native, program, inputs, self.caps(), report)
        expect("run", self.expected(), answer)
        ending = native.numbers(0, 0, 0)
        if answer:
            expect("a report of no run", NO_REPORT, native.raw_report_ending(report, ending))
            return
        machine = run_in_turn(self.program, self.inputs, self.layout, self.limit)
        expect("ending", 0, native.raw_report_ending(report, ending))
        expect("ending", (machine.events, len(machine.outputs), status_of(machine)), tuple(ending))
        self.compare_meter(native, report, machine)
        self.compare_run_order(native, report, machine)
        is_shown = not ending[2] or self.partial
        for output in (*(() if is_shown else range(len(machine.outputs))), len(machine.outputs), (1 << 64) - 1):
            Report(native, report, machine).compare_none(output, NO_INDEX if is_shown else UNFINISHED)
        for output, number in enumerate(machine.outputs) if is_shown else ():
            Report(native, report, machine).compare(output, number)

    def compare_meter(self, native: Calls, report: Any, machine: Machine) -> None:
        """Compares what a run did, and what the store holds then, with the machine."""
        found, store = native.numbers(*[77] * 6), machine.store.values()
        expect("meter", 0, native.raw_report_meter(report, found))
        texts = [text for datum in store for text in (datum.value, *datum.subscripts(), *datum.entries.values()) if isinstance(text, str)]
        did = [machine.events, sum(made.event[0] == "take" for made in machine.made), sum(machine.spent.values())]
        held = [machine.next_id - 1, sum(datum.count for datum in store), sum(len(text.encode()) for text in texts)]
        expect("meter", [*did, *held], list(found))

    def compare_run_order(self, native: Calls, report: Any, machine: Machine) -> None:
        """Compares the certificate of a run: the same in every order, the first contested insertion, or that the run was cut off."""
        found = native.numbers(77, 77, 77)
        expected = (1, *machine.contested) if machine.contested else (0 if machine.is_over else 2, 0, 0)
        expect("the order of a run", 0, native.raw_report_order(report, found))
        expect("the order of a run", expected, tuple(found))

    def compare_stopped(self, native: Calls, program: Any, inputs: Any) -> None:
        """Makes a run whose flag is raised: it is opened or refused as ever, and has no event."""
        stop, other, report, ending = native.handle(), native.handle(), native.handle(), native.numbers(0, 0, 0)
        try:
            expect("a flag", 0, native.stop_new(stop) or native.raw_stop_share(stop, other))
            expect("raised", 0, native.raw_stop_raise(other))
            answer = self.run_until(native, program, inputs, [], stop, report)
            expect("a stopped run", self.expected(), answer)
            if not answer:
                expect("its ending", 0, native.raw_report_ending(report, ending))
                expect("its ending", (0, 8), (ending[0], ending[2]))
                opened = Machine(self.program, self.layout, self.inputs)
                self.compare_meter(native, report, opened)
                self.compare_run_order(native, report, opened)
        finally:
            for handle, name in ((stop, "stop"), (other, "stop"), (report, "report")):
                getattr(native, f"{name}_free")(handle)

    def compare_options(self, native: Calls, data: bytes) -> None:
        """Loads the program with other options: none, another newest version, and its length or a byte less as the most."""
        lengths = [(most, NEWEST[1]) for most in (len(data), len(data) - 1)]
        for options in ((), NEWEST[:1], *((NEWEST[0], version) for version in (0, 1, 2, 3, 4, 5, (1 << 64) - 1)), *lengths):
            most, newest = *options, *(NEWEST[0], OLDER)[len(options):]
            letter, *where = ("H", 2, 0) if len(data) > most else ("F", 2, 3) if self.program.version > newest else ("", 0, 0)
            program, verdict = native.handle(), native.numbers(*[0] * 9)
            answered = native.raw_load_source(data, ord("b"), native.numbers(*options), program, verdict)
            got = (answered, bool(program.at), verdict[0], verdict[1], verdict[5])
            expect(f"options {options}", (REJECTED if letter else 0, not letter, ord(letter or "\0"), *where), got)
            native.program_free(program)

    def compare_hex(self, native: Calls, data: bytes, program: Any) -> None:
        """Loads the program again, from hex text."""
        verdict = native.numbers(*[9] * 9)
        answer = native.raw_load_source(data.hex().encode(), 0, native.numbers(*NEWEST), program, verdict)
        expect("hex text", [0] * 5, [answer, verdict[0], *verdict[6:]])

    def compare_aside(self, native: Calls, shared: Any, inputs: Any, report: Any) -> None:
        """Makes the run again in another thread, by the other handle, after the first one was freed."""
        faults: list[Fault] = []

        def run() -> None:
            try:
                self.compare_run(native, shared, inputs, report)
            except Fault as why:
                faults.append(why)

        thread = threading.Thread(target=run)
        thread.start()
        thread.join()
        if faults:
            raise faults[0]

    def smaller(self) -> Iterator[FuzzTest]:
        for other in super().smaller():
            if isinstance(other, HandlesTest) and len(other.inputs) == len(self.inputs):
                yield other

    def case(self) -> list[str]:
        return [f"# inputs {self.inputs!r}", *self.case_of(["run", "--in-turn", "--limit", str(self.limit), *self.options], 0, "?")]


def make_handles(chance: random.Random, corpus: Corpus) -> FuzzTest:
    program = make.program(chance)
    inputs = tuple(make.inputs_of(chance, program))
    if chance.random() < 0.1:
        inputs = (*inputs, 7) if chance.random() < 0.5 else inputs[:-1]
    layout = make.layout(chance, needs(program)) if not corpus.library.verify(encode(program)).code else (1, 1, 1)
    if chance.random() < 0.05:
        layout = chance.choice([(0, 1, 1), (5, 1, 1), (1, 0, 1), (1, 5, 1), (1, 1, 0), (1, 1, 17)])
    return HandlesTest(program, inputs, layout, chance.choice([600] * 9 + [0, 1, 1_000_001]))
