"""Measures what the dearest instructions and events take, and compares it with the prices by which a run's seconds are bounded.

    ./dev prices            all rows
    ./dev prices CAT TINS   those whose name has one of these words

The prices are those of `Bounds.seconds` in embed/python, which examples/many/bound.sh has, too. A row is a program that does almost nothing but
one kind of work. Prints its nanoseconds an instruction or an event, and how much of its price that is, in percent. Fails if
a row takes more than its price. The time is the processor's, so other work on the machine counts little.
"""

import argparse
import itertools
import re
import time
from typing import Any, Iterator, NamedTuple

from tools import ROOT
from tools.common.program import package
from tools.program.memory import circle, pending

LONG, HALF = "a" * 4096, "a" * 2048
MOST_EVENTS = 1_000_000


class Row(NamedTuple):
    """A kind of work: its name, a program, and its inputs. `counted` is what the program mostly does: "instruction" or "event"."""

    name: str
    text: str
    counted: str
    inputs: tuple[Any, ...] = ()


def looped(head: str, start: str, body: str, end: str = "", times: int = 100, copies: int = 1) -> str:
    """Makes a main that executes its body so many thousand times, and ends."""
    return f"{head}{start}REPEAT {times}\nREPEAT 1000\n{body * copies}END\nEND\n{end}RET\n"


def local_rows() -> Iterator[Row]:
    """Yields programs of instructions on ints and texts, which are one event."""
    for kind, operands in (("ADD", "v0 v1 v2 +0"), ("SUB", "v0 v1 v2 +0"), ("MUL", "v0 v1 v2 +0"), ("DIV", "v0 v1 v2 +0"), ("REM", "v0 v1 v2 +0"), ("COPY", "v0 v1"),
                           ("INT", "v0 -9223372036854775808"), ("JEQ", "v1 v1 +0"), ("JLT", "v2 v1 +0"), ("JMP", "+0")):
        start = "INT v1 -9223372036854775807\nINT v2 3\n"
        yield Row(f"{kind} of ints", looped("proc control\nregs int int int\n", start, f"{kind} {operands}\n", copies=20), "instruction")
    yield Row("REPEAT and END", looped("proc control\nregs\n", "", "REPEAT 1\nEND\n", copies=10), "instruction")
    texts = "proc control\nregs text text text int\n"
    for name, operands, first, second in (
        ("CAT of two halves", "CAT v2 v0 v1 +0", HALF, HALF), ("CAT past the limit", "CAT v2 v0 v1 +0", LONG, LONG), ("CAT with nothing", "CAT v2 v0 v1 +0", LONG, ""),
        ("COPY of a text", "COPY v2 v0", LONG, ""), ("TEXT", f'TEXT v2 "{LONG}"', "", ""), ("JEQ of equal texts", "JEQ v0 v1 +0", LONG, LONG),
        ("JEQ of texts that differ last", "JEQ v0 v1 +0", LONG[:-1] + "b", LONG), ("LEN", "LEN v3 v0", LONG, ""), ("SHOW", "SHOW v2 v3", "", ""),
        ("READI of zeros", "READI v3 v0 +0", "0" * 4096, ""), ("READI of a number", "READI v3 v0 +0", "-9223372036854775808", ""),
    ):
        start = f'TEXT v0 "{first}"\nTEXT v1 "{second}"\nINT v3 -9223372036854775808\n'
        yield Row(name, looped(texts, start, f"{operands}\n", times=10, copies=20), "instruction")
    places = "version 5\nproc control\nregs text text int int\n"
    for name, operands, first, second in (
        ("FIND of aa.. that isn't there", "FIND v3 v0 v1 v2 +0", LONG, "a" * 1023 + "b"), ("FIND of half the text", "FIND v3 v0 v1 v2 +0", LONG, HALF[1:] + "b"),
        ("SPAN by 16 signs", "SPAN v3 v0 v1 v2 +0", LONG, "a" * 16), ("SPAN by 4,096 signs", "SPAN v3 v0 v1 v2 +0", LONG, LONG),
        ("UNTIL by 4,096 signs", "UNTIL v3 v0 v1 v2 +0", LONG, "b" * 4096), ("SLICE of a text", "SLICE v1 v0 v2 v3 +0", LONG, ""), ("BYTE", "BYTE v3 v0 v2 +0", LONG, ""),
    ):
        start = f'TEXT v0 "{first}"\nTEXT v1 "{second}"\nLEN v3 v0\n'
        yield Row(name, looped(places, start, f"{operands}\n", times=1, copies=20), "instruction")


def data_rows() -> Iterator[Row]:
    """Yields programs of events on data: scalars, containers by ints and by texts."""
    yield Row("NEW, STORE, GET, DROPR of ints", looped("proc control\nregs int\n", "", "NEW d0 d1 int\nSTORE d0 v0\nDROPR d1\n", times=100), "event")
    yield Row("NEW, STORE, DROPR of texts", looped("proc control\nregs text\n", f'TEXT v0 "{LONG}"\n', "NEW d0 d1 text\nSTORE d0 v0\nDROPR d1\n", times=50), "event")
    yield Row("GET of a text", "proc control closed text\nregs text\n" + "REPEAT 100\nREPEAT 1000\nDUPR d1 d0\nGET v0 d1\nDROPR d1\nEND\nEND\nDROPR d0\nRET\n", "event", (LONG,))
    for name, step in (("rising", "ADD v0 v0 v1 +0"), ("falling", "SUB v0 v0 v1 +0"), ("scattered", "MUL v2 v2 v3 +2\nADD v2 v2 v1 +1\nREM v0 v2 v4 +0")):
        start = "INT v1 1\nINT v2 12345\nINT v3 1103515245\nINT v4 1000003\nNEW d1 d2 int\nSTORE d1 v0\n"
        if name == "scattered":  # a generator of 31 bits, so that no product leaves 64
            step = "MUL v2 v2 v3 +0\nADD v2 v2 v1 +0\nREM v2 v2 v5 +0\nCOPY v0 v2"
            start += "INT v5 2147483648\n"
        body = f"DUPR d3 d2\nINS d0 v0 d3 +1\nJMP +1\nDROPR d3\n{step}\n"
        yield Row(f"INS of 100,000, {name}", looped("proc control write cont int\nregs int int int int int int\n", start, body, "DROPR d2\nDROPW d0\n"), "event")
    read = "REPEAT 100\nREPEAT 1000\nLOOK d1 d0 v0 +1\nDROPR d1\nSUBAT v1 d0 v0 +0\nSIZE v2 d0\nADD v0 v0 v3 +1\nJMP +1\nINT v0 0\nEND\nEND\nDROPR d0\nRET\n"
    yield Row("LOOK, SUBAT, SIZE", f"proc control closed cont int\nregs int int int int\nINT v3 1\n{read}", "event", ({number: 1 for number in range(1000)},))
    head = "version 2\nproc control write tcont text\nregs int int text text text text\n"
    start = f'INT v1 1\nTEXT v4 "{LONG[:4085]}"\nTEXT v2 "{LONG}"\nNEW d1 d2 text\nSTORE d1 v2\n'
    body = "DUPR d3 d2\nSHOW v3 v0\nCAT v5 v4 v3 +0\nTINS d0 v5 d3 +1\nJMP +1\nDROPR d3\nADD v0 v0 v1 +0\n"
    yield Row("TINS of 50,000 texts that differ last", looped(head, start, body, "DROPR d2\nDROPW d0\n", times=50), "event")
    members: dict[str, str] = {f"{LONG[:4085]}{number:09}": LONG for number in range(1000)}
    read = f'TEXT v0 "{LONG[:4085]}000000999"\nREPEAT 50\nREPEAT 1000\nTLOOK d1 d0 v0 +1\nDROPR d1\nTSUBAT v1 d0 v2 +0\nEND\nEND\nDROPR d0\nRET\n'
    yield Row("TLOOK, TSUBAT", f"version 2\nproc control closed tcont text\nregs text text int\n{read}", "event", (members,))


def map_rows() -> Iterator[Row]:
    """Yields programs of events on maps."""
    head = "version 4\nproc control write map {0}\nregs int int\n"
    for name, of, step in (("MINS of 100,000, rising", "int", "ADD"), ("MINS of 100,000, falling", "int", "SUB"), ("MADD of 100,000, rising", "sum", "ADD")):
        body = "MINS d0 v0 v1 +0\n" if of == "int" else "MADD d0 v0 v1\n"
        yield Row(name, looped(head.format(of), "INT v1 1\n", f"{body}{step} v0 v0 v1 +0\n", "DROPW d0\n"), "event")
    yield Row("MADD at one subscript", looped(head.format("sum"), "INT v1 1\n", "MADD d0 v0 v1\n", "DROPW d0\n", copies=3), "event")
    texts = "version 4\nproc control write tmap text\nregs int int text text text\n"
    start = f'INT v1 1\nTEXT v4 "{LONG[:4085]}"\nTEXT v2 "{LONG}"\n'
    yield Row("MINS of 20,000 texts that differ last", looped(texts, start, "SHOW v3 v0\nCAT v3 v4 v3 +0\nMINS d0 v3 v2 +0\nADD v0 v0 v1 +0\n", "DROPW d0\n", times=20), "event")
    read = "REPEAT 100\nREPEAT 1000\nSUBAT v1 d0 v0 +0\nMGET v2 d0 v1 +0\nADD v0 v0 v3 +0\nEND\nEND\nDROPR d0\nRET\n"
    yield Row("SUBAT, MGET", f"version 4\nproc control closed map int\nregs int int int int\nINT v3 1\n{read}", "event", ({number: 1 for number in range(100_000)},))


def task_rows() -> Iterator[Row]:
    """Yields programs of events that make tasks and rules."""
    callee = f"proc control{' val text' * 8}\nregs{' text' * 8}\nRET\n"
    put = f"PUT 1 0 any{' 0' * 8}\n"
    yield Row("PUT of eight texts", looped("proc control\nregs text\n", f'TEXT v0 "{LONG}"\n', put, times=20) + callee, "event")
    rule = f"RULE 1 0 any{' 0' * 8}\n"
    yield Row("RULE of eight texts", looped("proc control\nregs text\n", f'TEXT v0 "{LONG}"\n', rule, times=20) + callee, "event")
    waiting = "proc control closed int\nregs\nDROPR d0\nRET\n"
    late = "proc leaf write int\nregs int\nSTORE d0 v0\nRET\n"
    yield Row("RULE that waits", looped("proc control\nregs\n", "NEW d0 d1 int\n", "DUPR d2 d1\nRULE 1 0 any 2\n", "DROPR d1\nPUT 2 0 any 0\n", times=50) + waiting + late, "event")
    rising = "INT v1 1\n"
    yield Row("PUTV of rising priorities", looped("version 2\nproc control\nregs int int\n", rising, "PUTV 1 v0 any\nADD v0 v0 v1 +0\n", times=100) + "proc leaf\nregs\nRET\n", "event")
    yield Row("a task after another", "proc control\nregs\nPUT 0 0 any\nRET\n", "event")
    yield Row("rules in a circle", circle(10), "event")
    yield Row("rules that wait for ever", pending("val text", 10), "event")
    full = "".join(f'TEXT v{register} "{LONG}"\n' for register in range(16))
    yield Row("tasks of sixteen texts", f"proc control\nregs{' text' * 16}\n{full}PUT 0 0 any\nRET\n", "event")


def measure(row: Row) -> tuple[float, float]:
    """Returns the nanoseconds of one instruction or event of a row, and how much of its price the run takes."""
    program = package().load_text(row.text)
    best = float("inf")
    for _ in range(3):
        begun = time.process_time()
        report = program.run(*row.inputs, limit=MOST_EVENTS)
        text = report.text if row.counted == "event" else ""
        best = min(best, time.process_time() - begun)
    assert report.end in ("quiet", "limit", "stuck") and report.events > 2, (row.name, report.end, text[-80:])
    prices = package("yuglemit._listing").PRICES[program.bounds.work]
    priced = report.instructions * prices[0] + report.events * prices[1]
    return best / (report.instructions if row.counted == "instruction" else report.events) * 1e9, best / priced


def script_prices() -> dict[str, tuple[float, float]]:
    """Reads the prices of bound.sh, which has instructions and events a second."""
    text = (ROOT / "examples" / "many" / "bound.sh").read_text(encoding="utf-8")
    found = re.findall(r"^ +(\w+)\) instructions=([0-9]+) events=([0-9]+)", text, re.M)
    return {kind: (1 / float(instructions), 1 / float(events)) for kind, instructions, events in found}


def main(words: list[str]) -> int:
    """Prints a line a row; returns 1 if one takes more than its price, none has a word, or bound.sh has other prices."""
    parser = argparse.ArgumentParser(description=__doc__.split("\n")[0])
    parser.add_argument("words", nargs="*")
    words = parser.parse_args(words).words
    prices = package("yuglemit._listing").PRICES
    passed, failed = 0, int(script_prices() != prices)
    if failed:
        print(f"examples/many/bound.sh has other prices: {script_prices()}, not {prices}")
    for row in itertools.chain(local_rows(), data_rows(), map_rows(), task_rows()):
        if words and not any(word in row.name for word in words):
            continue
        nanoseconds, part = measure(row)
        passed, failed = passed + (part <= 1), failed + (part > 1)
        print(f"{row.name:40} {nanoseconds:10.1f} ns an {row.counted:12} {100 * part:6.1f}%{'  TOO DEAR' if part > 1 else ''}", flush=True)
    print(f"{passed} passed, {failed} failed")
    return 1 if failed or not passed else 0
