"""Checks what `tw` prints on a terminal: its progress on standard error, and colours.

A run of some seconds prints once a second how many events there are so far, and --each how many lines are answered, and at which rate.
By --in-turn it prints how many turns. Each such line replaces the one before, and the last is cleared. Nothing is printed with --quiet, into a
pipe, or of a short run whose program comes late. A rejected command line prints the reason and a hint. Standard output and the status are the same each time. A command that
reads a terminal says so first, except with --help. Prints each that differs, ends with `N as wanted, M not`, and fails if one differs.
"""

import contextlib
import os
import pty
import re
import subprocess
import threading
import time
from typing import Callable, NamedTuple

from tools.common import terminal
from tools.common.program import program
from tools.program.memory import looped

SECONDS = 60
# How many runs of some seconds are made before one that isn't timely is a fault.
TRIES = 5
SHORT = "proc control write int\nregs int\nINT v0 7\nSTORE d0 v0\nRET\n"
NO_LINES = "tw: --each needs lines of inputs: tw run FILE --each LINES; those in FILE itself follow a line `inputs`\ntw: tw run --help lists its arguments\n"
REFUSED = "\x1b[31merror: --workers takes a number from 1 to 16\n\x1b[0mtw: tw run --help lists its arguments\n"
# The most tasks that an event limit of 1,000,000 allows, with five events each.
MOST_TASKS = 199_000
# Tasks of a hundred thousand iterations each, one after the other on one worker; and a run of ten thousand, which is made for each line of inputs.
LONG = "proc control\nregs\nREPEAT %d\nREPEAT %d\nPUT 1 0 any\nEND\nEND\nRET\n\n" + looped("proc leaf\nregs int int\n", "INT v1 1\n", "ADD v0 v0 v1 +0\n", "", 1000)
EACH = looped("proc control write int\nregs int int\n", "INT v1 1\n", "ADD v0 v0 v1 +0\n", "STORE d0 v0\n", 100)
# The most lines that are tried.
MOST_LINES = 2_000_000
# A terminal that has colours.
COLOURED = {**os.environ, "NO_COLOR": "", "TERM": "xterm"}
# Clears a terminal's line.
CLEAR = "\r\x1b[K"


class Answer(NamedTuple):
    """The lines on standard error, the output, and the status."""

    printed: str
    written: str
    status: int


class Took(NamedTuple):
    """The seconds of a run by the clock, and those after the first line that it printed, or 0."""

    all: float
    printing: float


def run(words: list[str], text: str, on_terminal: bool = True, late: float = 0.0) -> tuple[Answer, Took]:
    """Runs a program, which comes so many seconds late, and returns what came of it and how long it took."""
    ours, theirs = pty.openpty() if on_terminal else os.pipe()
    printed: list[bytes] = []
    first: list[float] = []

    def listen() -> None:
        with contextlib.suppress(OSError):
            while more := os.read(ours, 4096):
                first.append(time.monotonic())
                printed.append(more)

    begun = time.monotonic()
    process = subprocess.Popen([program(), "run", "--text", "--limit=1000000", *words], stdin=subprocess.PIPE, stdout=subprocess.PIPE, stderr=theirs, env=COLOURED)
    os.close(theirs)
    listener = threading.Thread(target=listen)
    listener.start()
    time.sleep(late)
    written = process.communicate(text.encode())[0].decode()
    ended = time.monotonic()
    took = Took(ended - begun, ended - first[0] if first else 0.0)
    listener.join()
    os.close(ours)
    return Answer(b"".join(printed).decode().replace("\r\n", "\n"), written, process.returncode), took


def tasks(count: int) -> str:
    """Returns a program of at least so many tasks."""
    return LONG % (min(count, 1000), (count + 999) // 1000)


class Work(NamedTuple):
    """A text for each count, from the least to the most, and the arguments of the command that runs it."""

    text: Callable[[int], str]
    least: int
    most: int
    words: list[str]


TASKS = Work(tasks, 16, MOST_TASKS, [])
LINES = Work(lambda lines: EACH + "inputs\n" + "[]\n" * lines, 1000, MOST_LINES, ["--each"])


def run_long(work: Work, words: list[str], on_terminal: bool, is_printed: bool) -> tuple[int, Answer, Took]:
    """Runs work of growing counts until a run takes four seconds, and prints its lines in time if it prints some. Returns the last run's count, what
    came of it and how long it took.

    A run isn't timed beforehand: on a busy machine the next one may be much shorter, or longer. There a process may also begin so late that little of
    its time is left for lines, or a thread may be late. So one of five runs of four seconds has to be timely.
    """
    count, tries = work.least, 0
    while True:
        got, took = run([*work.words, *words], work.text(count), on_terminal=on_terminal)
        is_long = took.all >= 4
        tries += is_long
        if count >= work.most or tries == TRIES or is_long and (not is_printed or is_timely(len(printed_lines(got.printed)), took)):
            return count, got, took
        count = min(work.most, int(count * (2 if is_long else min(8, 5.5 / max(took.all, 0.1)))))


def printed_lines(printed: str) -> list[str]:
    """Returns the lines of which each replaced the one before, or none if the last isn't cleared."""
    parts = printed.split(CLEAR)
    return parts[1:-1] if parts[0] == "" and parts[-1] == "" else []


def is_timely(count: int, took: Took) -> bool:
    """Returns whether work of so many seconds prints this many lines: one for each second from the second on.

    One line in five may be missing, since the thread that writes them may be late on a busy machine.
    """
    return int(0.8 * took.printing) <= count <= int(took.all) - 1 and count > 1


def is_rising(numbers: list[int]) -> bool:
    """Returns whether the numbers never fall, and the last is above the first."""
    return numbers == sorted(numbers) and numbers[0] < numbers[-1]


def is_progress(printed: str, what: str, took: Took) -> bool:
    """Returns whether these are the lines of a run that took so many seconds, and the events or turns rise."""
    found = [re.fullmatch(f"tw: ([0-9]+) {what} so far", line) for line in printed_lines(printed)]
    numbers = [int(it[1]) for it in found if it]
    return len(numbers) == len(found) and is_timely(len(numbers), took) and is_rising(numbers)


def second_of(answered: int, rate: str, took: float) -> int:
    """Returns after how many seconds this rate is that of so many answered lines; 0 if it never is."""
    for second in range(2, int(took) + 1):
        tenths = answered * 10 // second
        if rate == f"{tenths // 10}.{tenths % 10}":
            return second
    return 0


def is_line_progress(printed: str, took: Took, lines: int) -> bool:
    """Returns whether these are the lines of `--each` that took so many seconds: answered lines and seconds rise, and the rates follow."""
    form = re.compile(r"tw: ([1-9][0-9]*) lines so far, ([0-9]+\.[0-9]) a second")
    found = [form.fullmatch(line) for line in printed_lines(printed)]
    rows = [(int(it[1]), it[2]) for it in found if it]
    seconds = [second_of(answered, rate, took.all) for answered, rate in rows]
    return (
        len(rows) == len(found) and is_timely(len(rows), took) and is_rising([row[0] for row in rows])
        and rows[-1][0] <= lines and 0 not in seconds and seconds == sorted(set(seconds))
    )


def are_answers(written: str, lines: int) -> bool:
    """Returns whether each line has its answer, in order: ten thousand iterations are counted."""
    answers = written.splitlines()
    return len(answers) == lines and all(
        answer.startswith(f'{{"line":{number},') and answer.endswith('"kinds":["int"],"outputs":[10000],"status":"quiet"}')
        for number, answer in enumerate(answers, 1)
    )


def long_faults() -> list[str]:
    """Returns what is wrong with runs of some seconds and with `--each`, or nothing for each that is well."""
    faults: list[str] = []
    rows: list[tuple[str, Work, list[str], bool, str]] = [
        ("a run on a terminal", TASKS, [], True, "events"), ("--quiet", TASKS, ["--quiet"], True, ""), ("into a pipe", TASKS, [], False, ""),
        ("--in-turn", TASKS, ["--in-turn"], True, "turns"), ("--in-turn --quiet", TASKS, ["--in-turn", "--quiet"], True, ""),
        ("--each on a terminal", LINES, [], True, "lines"), ("--each --jobs 2", LINES, ["--jobs=2"], True, "lines"),
        ("--each --quiet", LINES, ["--quiet"], True, ""), ("--each into a pipe", LINES, [], False, ""),
    ]
    for name, work, words, on_terminal, what in rows:
        count, got, took = run_long(work, words, on_terminal, bool(what))
        is_right = is_line_progress(got.printed, took, count) if what == "lines" else is_progress(got.printed, what, took) if what else not got.printed
        is_answered = are_answers(got.written, count) if work == LINES else got.written == "quiet\n"
        is_well = is_right and is_answered and got.status == 0
        faults.append("" if is_well else f"{name}, {count} tasks or lines, {took.all:.1f} seconds: {got.printed!r}, status {got.status}, {got.written[-200:]}")
    return faults


def short_faults() -> list[str]:
    """Returns what is wrong with short runs, likewise."""
    rows: list[tuple[str, list[str], float, Answer]] = [
        ("a short run whose program comes late", [], 3.5, Answer("", "out 0 int 7\nquiet\n", 0)),
        ("--each without lines", ["--each"], 0.0, Answer(NO_LINES, "command line refused\n", 2)),
        ("a refused command line", ["--workers=17"], 0.0, Answer(REFUSED, "command line refused\n", 2)),
    ]
    found = [(name, run(words, SHORT, late=late)[0], expected) for name, words, late, expected in rows]
    return ["" if got == expected else f"{name}: {got}" for name, got, expected in found]


def read_terminal(words: list[str]) -> Answer:
    """Runs a command whose standard input is a terminal, at which Ctrl-D is typed at once."""
    ours, theirs = pty.openpty()
    os.write(ours, b"\x04")
    done = subprocess.run([program(), *words], stdin=theirs, capture_output=True, text=True, timeout=SECONDS, check=False)
    os.close(theirs)
    os.close(ours)
    return Answer(done.stderr, done.stdout, done.returncode)


def terminal_faults() -> list[str]:
    """Returns what is wrong with commands that read a terminal, likewise."""
    notice = "tw: reading standard input, which Ctrl-D ends; a FILE after the command is read instead\n"
    read, asked = read_terminal(["check", "--text"]), read_terminal(["check", "--help"])
    return [
        "" if read.printed.startswith(notice) and read.status == 1 else f"a terminal that is read: {read}",
        "" if asked.printed == "" and asked.status == 0 else f"--help on a terminal: {asked}",
    ]


def coloured_faults() -> list[str]:
    """Returns what is wrong with colours, likewise: lines of errors are red, ends green or yellow."""
    rows: list[tuple[list[str], str, dict[str, str], str]] = [
        (["run", "--text"], SHORT, {}, "out 0 int 7\n\x1b[32mquiet\n\x1b[0m"),
        (["run", "--text", "--limit=1"], SHORT, {}, "out 0 unset\n\x1b[33mlimit\n\x1b[0mevents 1; --limit takes up to 1000000\n"),
        (["run", "--text", "int:7"], SHORT, {}, "\x1b[31mrefused O01\n\x1b[0minputs given: 1, required: 0\n"),
        (["run", "--text"], SHORT, {"NO_COLOR": "1"}, "out 0 int 7\nquiet\n"),
        (["run", "--text"], SHORT, {"TERM": "dumb"}, "out 0 int 7\nquiet\n"),
    ]
    found = [(words, environment, wanted, terminal.shown([program(), *words], text, environment=COLOURED | environment)) for words, text, environment, wanted in rows]
    return ["" if got == wanted else f"{words} {environment}: {got!r}" for words, environment, wanted, got in found]


def main(words: list[str]) -> int:
    results = long_faults() + short_faults() + terminal_faults() + coloured_faults()
    faults = [fault for fault in results if fault]
    print("\n".join([*faults, f"{len(results) - len(faults)} as wanted, {len(faults)} not"]))
    return 1 if faults else 0
