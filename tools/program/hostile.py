"""Runs the command tw on the worst inputs of each kind, of 16 MiB, under each command that takes them. There are heads, names, constants, labels,
comments, one line, line ends, digits, quotes, hex text, traces, inputs, lines of JSON, and a cycle of 300,000 rules. Prints a line an input, with the
most seconds of processor time and the most memory of its commands, and ends with `N passed, M failed`. A command fails that takes more processor
time in each of three runs than the input allows, more than 40 times its memory, or that says more than 64 KB of why it refuses.

  ./dev hostile [--only WORD] [--commands N]    the inputs whose names have a word; at most so many commands of each

Needs Python 3.9, and 100 MB in the folder for temporary files. It takes some minutes.
"""

import argparse
import itertools
import multiprocessing
import os
import re
import resource
import string
import subprocess
import tempfile
from collections.abc import Callable, Iterator
from pathlib import Path
from typing import NamedTuple

from tools.common.program import program
from tools.program import collisions

WHOLE = 16 * 1024 * 1024  # bytes of the longest input
SECONDS = 3.0  # more processor time fails
EARLY = 0.5  # .. where the first error is near the top of assembly text
COMPARED = 5.0  # .. where a million names, labels or lines are read, and again beside their expansion
STOPPED = 10  # seconds of processor time after which a command is stopped
TIMES = 40  # more memory than so many inputs of this size fails
TRIES = 3  # a command that takes more time is run again, up to so many times in all: a busy machine's memory is slow
FLOOR = 64.0  # MB that any command may take
GREATEST = 128.0  # MB for a program of 262,144 instructions, the most there may be, however short its text
COLLIDING = 100_000  # names that collide
FEW = 10  # more commands have answers of both kinds
REASON = 64 * 1024  # more bytes of an error fail, but for a listing

TEXT = (
    "check --text", "asm --names", "run --text --inputs --in-turn", "asm --names --plain", "asm", "check --text --places", "disasm --text",
    "disasm --text --places", "run --text --in-turn", "replay --text", "replay --text --stats", "picture --text",
    "check --text --places --json", "asm --names --json", "disasm --text --json",
)
HEX = ("check", "check --places", "disasm", "disasm --places", "run --in-turn", "replay", "picture", "check --places --json", "disasm --json")
HISTORY = ("replay --text", "replay --text --stats", "picture --text", "replay --text --json")
INPUTS = ("run --inputs --in-turn", "replay --inputs", "picture --inputs", "run --inputs --in-turn --json")
EACH = ("run --each --text", "run --each --text --jobs 4", "run --inputs-json --text --in-turn")
RUN = tuple(f"run --text --limit 1000000{words}" for words in (" --in-turn", "", " --in-turn --stats", " --in-turn --json"))
SHORT_RUN = ("run --text --in-turn", "run --text")

RETURNS = "proc control\nregs\nRET\n"
PUTS = "proc control\nregs\nPUT 0 0 any\nRET\n"
BOUND = "proc control\nregs\nPUT 1 0 1\nPUT 0 0 any\nRET\nproc control\nregs\nRET\nevents\n"
NAMED = "names\nproc control main()\nregs one: int\n"
CALLS_LATER = NAMED + "".join(f"PUT p{number} 0 any one\n" for number in (1, 62, 63, 64, 1000))
WITH_TEXT = "proc control\nregs text\nTEXT v0 "
WITH_INT = "proc control\nregs int\n"
MAGIC = "54574201"
# main(closed cont int, write int), which drops both
TAKES = "version 2\nproc control closed cont int write int\nregs int\nDROPR d0\nSTORE d1 v0\nRET\ninputs\n"

# How the answer of a command begins that doesn't reject its input.
ANSWERS = {"asm": r"[0-9a-f]|proc |version |names|\{", "check": r"accepted|proc |\{", "disasm": r"proc |version |\{", "picture": "<svg"}
REFUSED = r"refused |not enabled |\{|command line refused|input"
LISTED = rf"{REFUSED}|procedure 0\n"  # with --places

Maker = Callable[[int], str]


class Input(NamedTuple):
    """A hostile input, the commands that take it, what makes it of a number of bytes, and the MB and the seconds that a command may take."""

    name: str
    commands: tuple[str, ...]
    make: Maker
    floor: float = FLOOR
    seconds: float = SECONDS


class Use(NamedTuple):
    """The resources that a command used."""

    status: int
    seconds: float
    megabytes: float
    written: int
    begins: str


def padded(front: str, filler: str, back: str = "") -> Maker:
    """Makes a filler, repeated between two texts."""
    return lambda most: front + filler * ((most - len((front + back).encode())) // len(filler.encode())) + back


def named(names: Callable[[int], Iterator[str]]) -> Callable[..., Maker]:
    """Makes a line, repeated between two texts with `%` as another one of these names each time; of some 17 bytes there are so many lines."""
    def repeated(front: str, line: str, back: str = "") -> Maker:
        def made(most: int) -> str:
            room, lines = most - len(front) - len(back), list[str]()
            for name in names(room // (len(line) + collisions.LENGTH)):
                lines.append(line.replace("%", name))
                room -= len(lines[-1])
                if room < 0:
                    return front + "".join(lines[:-1]) + back
            return front + "".join(lines) + back

        return made

    return repeated


LETTERS = string.ascii_letters + string.digits + "_"
# Numbers that count up, names of four letters, and names that all collide where the hash of names has a fixed seed.
numbered = named(lambda most: map(str, itertools.count()))
lettered = named(lambda most: map("".join, itertools.product("bghjkqsuwxyz", LETTERS, LETTERS, LETTERS)))
colliding = named(lambda most: collisions.colliding(min(COLLIDING, most)))


def halves(front: str, first: str, between: str, second: str) -> Maker:
    """Makes two texts, each repeated up to half of the bytes."""

    def made(most: int) -> str:
        half = (most - len(front) - len(between)) // 2
        return front + first * (half // len(first)) + between + second * (half // len(second))

    return made


def fixed(text: str) -> Maker:
    """Makes a text, however many bytes there may be."""
    return lambda most: text


def code(instructions: str, procedures: int = 64, last: str = "RET\n") -> str:
    """Repeats instructions in so many procedures, up to 4,096 instructions in each."""
    count = instructions.count("\n")
    body = "regs int text\n" + instructions * (4095 // count) + last
    return "proc control\n" + body + ("proc leaf\n" + body) * (procedures - 1)


def circle(turns: int, pairs: int) -> str:
    """Makes a main of so many turns, each with so many pairs of rules; all wait in one circle."""
    pair = "NEW d2 d3 int\nRULE 1 0 any 1 2\nNEW d2 d1 int\nRULE 1 0 any 3 2\n"
    main = f"proc control\nregs\nNEW d0 d1 int\nREPEAT {turns}\n{pair * pairs}END\nRULE 1 0 any 1 0\nRET\n"
    return main + "proc leaf closed int write int\nregs int\nDROPR d0\nSTORE d1 v0\nRET\n"


def noticed(most: int) -> str:
    """Makes a trace in which thousands of rules wait for one datum, whose notices are delivered last."""
    line = "call e0\ncall e0\nlocal e0 1\nask e0 123456 0\ndeliver s0 1 123456 0\n"
    turns = max(1, min(1000, (most - 400) // (1000 * len(line))))
    main = f"proc control\nregs\nNEW d0 d1 int\nPUT 2 0 any 0\nREPEAT {turns}\nREPEAT 1000\nDUPR d2 d1\nRULE 1 0 any 2\nEND\nEND\nDROPR d1\nRET\n"
    others = "proc control closed int\nregs\nDROPR d0\nRET\nproc control write int\nregs int\nSTORE d0 v0\nRET\n"
    turn = "local e0 1\n" + "call e0\ncall e0\nlocal e0 1\n" * 1000 + "local e0 1\n"
    makes = "take e0\ncall e0\ncall e0\nlocal e0 1\n" + turn * turns + "call e0\nend e0\n"
    rules = range(1, 1000 * turns + 1)
    asks = "".join(f"ask e0 {rule} 0\n" for rule in rules) + "take e0\ncall e0\nend e0\n"
    return main + others + "events\n" + makes + asks + "".join(f"deliver s0 1 {rule} 0\n" for rule in rules)


def heads() -> Iterator[Input]:
    """Heads of procedures, and lists of arguments."""
    yield Input("20,000 ref and 20,000 PUT 0", TEXT, fixed("names\nproc control" + " ref" * 20_000 + "\nregs\n" + "PUT 0\n" * 20_000))
    yield Input("millions of ref and PUT 0", TEXT, halves("names\nproc control", " ref", "\nregs\n", "PUT 0\n"))
    yield Input("ref int in a head", TEXT, padded("proc control", " ref int", "\nregs\nRET\n"))
    yield Input("parameters with names", TEXT, numbered("names\nproc control main(", "p%: ref int, ", ")\nregs\nRET\n"))
    yield Input("val parameters with names", TEXT, numbered("names\nproc control main(", "p%: val int, ", ")\nregs\nRET\n"))
    yield Input("registers with names", TEXT, numbered("names\nproc control main()\nregs ", "p%: int, ", "\nRET\n"))
    yield Input("types of registers", TEXT, padded("proc control\nregs", " int", "\nRET\n"))
    yield Input("types of registers after names", TEXT, padded("names\nproc control main()\nregs", " int", "\nRET\n"))
    yield Input("a deep type", TEXT, padded("proc control write", " cont", " int\nregs\nRET\n"))
    yield Input("commas in a head", TEXT, padded("names\nproc control main(", ",", ")\nregs\nRET\n"))
    yield Input("procedures", TEXT, padded("proc control\nregs\nRET\n", "proc leaf\nregs\nRET\n"), seconds=EARLY)
    yield Input("procedures without names after names", TEXT, padded("names\n", "proc leaf\nregs\nRET\n"), seconds=EARLY)
    yield Input("an unknown word before procedures", TEXT, padded("word 3\n", "proc leaf\nregs\nRET\n"), seconds=EARLY)
    yield Input("an unknown word before procedures after names", TEXT, padded("names\nword 3\n", "proc leaf\nregs\nRET\n"), seconds=EARLY)
    yield Input("procedures with names", TEXT, numbered("names\n", "proc leaf p%()\nregs\nRET\n"), seconds=EARLY)
    yield Input("procedures that main calls", TEXT, numbered(CALLS_LATER, "proc leaf p%(n: val int)\nregs\nRET\n"), seconds=EARLY)
    yield Input("heads after names", TEXT, padded("names\n", "proc\n"), seconds=EARLY)
    yield Input("line ends after procedures with names", TEXT, padded("names\n" + "proc leaf\nregs\nRET\n" * 65, "\n"))
    yield Input("arguments of PUT", TEXT, padded("proc control\nregs\nPUT 0 0 any", " 1", "\nRET\n"))
    yield Input("arguments of PUT with names", TEXT, padded("names\nproc control main(a: ref int)\nregs\nPUT main 0 any", " a", "\nRET\n"))


def names() -> Iterator[Input]:
    """Constants, registers and labels."""
    yield Input("constants", TEXT, numbered("names\n", "const c% = 1\n", RETURNS))
    yield Input("long names", TEXT, numbered("names\n", "const " + "n" * 50 + "% = 1\n", RETURNS))
    yield Input("let", TEXT, numbered(NAMED, "let n% = d1\n", "RET\n"), seconds=COMPARED)
    yield Input("NEW with names", TEXT, numbered(NAMED, "NEW n% m% int\n", "RET\n"))
    yield Input("one name", TEXT, padded(NAMED, "INT one 1\n", "RET\n"))
    yield Input("names that mean nothing", TEXT, padded(NAMED, "INT two 1\n", "RET\n"))
    yield Input("constants that collide", TEXT, colliding("names\n", "const % = 1\n", RETURNS))
    yield Input("labels that collide", TEXT, colliding("proc control\nregs\n", "%:\n", "RET\n"))
    yield Input("labels that collide after names", TEXT, colliding(NAMED, "%:\n", "RET\n"))
    yield Input("labels", TEXT, numbered("proc control\nregs\n", "l%:\n", "RET\n"))
    yield Input("labels after names", TEXT, numbered(NAMED, "l%:\n", "RET\n"), seconds=COMPARED)
    yield Input("labels of four letters", TEXT, lettered("proc control\nregs\n", "%:\n", "RET\n"))
    yield Input("labels of four letters after names", TEXT, lettered(NAMED, "%:\n", "RET\n"), seconds=COMPARED)
    yield Input("skips to labels", TEXT, numbered("proc control\nregs\n", "JMP l%\nl%:\n", "RET\n"))
    yield Input("skips to one label", TEXT, padded("proc control\nregs\n", "JMP end\n", "end:\nRET\n"))


def lines() -> Iterator[Input]:
    """Comments, lines and words."""
    yield Input("one comment", TEXT, padded(RETURNS + ";", "x"))
    yield Input("empty comments", TEXT, padded(RETURNS, ";\n"))
    yield Input("empty comments after names", TEXT, padded("names\n" + RETURNS, ";\n"))
    yield Input("blanks before comments after names", TEXT, padded("names\n" + RETURNS, " ;\n"))
    yield Input("quotes in a comment", TEXT, padded(RETURNS + ";", '"'))
    yield Input("one word", TEXT, padded("", "x"))
    yield Input("words in one line", TEXT, padded("", "a "))
    yield Input("instructions in one line", TEXT, padded("proc control\nregs\n", "RET ", "\n"))
    yield Input("spaces", TEXT, padded("", " ", RETURNS))
    yield Input("line ends", TEXT, padded("", "\n", RETURNS))
    yield Input("line ends after names", TEXT, padded("names\n", "\n", RETURNS), seconds=COMPARED)
    yield Input("lines of a blank after names", TEXT, padded("names\n", " \n", RETURNS))
    yield Input("line ends and an error", TEXT, padded(RETURNS, "\n", "x\n"))
    yield Input("carriage returns", TEXT, padded("", "\r", "\n" + RETURNS))
    yield Input("letters of two bytes", TEXT, padded(RETURNS + ";", "é"))
    yield Input("an error after comments", TEXT, padded("names\n" + RETURNS, "; x\n", "INT v99 1\n"))


def values() -> Iterator[Input]:
    """Digits and quoted texts."""
    yield Input("digits", TEXT, padded(WITH_INT + "INT v0 ", "1", "\nRET\n"))
    yield Input("zeros", TEXT, padded(WITH_INT + "INT v0 ", "0", "1\nRET\n"))
    yield Input("digits of turns", TEXT, padded(WITH_INT + "REPEAT ", "1", "\nEND\nRET\n"))
    yield Input("digits of a register", TEXT, padded(WITH_INT + "INT v", "1", " 1\nRET\n"))
    yield Input("a long text", TEXT, padded(WITH_TEXT + '"', "a", '"\nRET\n'))
    yield Input("a text without an end", TEXT, padded(WITH_TEXT + '"', "a"))
    yield Input("quotes", TEXT, padded(WITH_TEXT, '"', "\nRET\n"))
    yield Input("quotes in lines", TEXT, padded(WITH_TEXT + '""\n', '"\n'))
    yield Input("escapes", TEXT, padded(WITH_TEXT + '"', "\\n", '"\nRET\n'))
    yield Input("escapes in digits", TEXT, padded(WITH_TEXT + '"', "\\x41", '"\nRET\n'))
    yield Input("backslashes", TEXT, padded(WITH_TEXT + '"', "\\"))
    yield Input("the longest texts", TEXT, fixed(code(f'TEXT v1 "{"a" * 4080}"\n', 1)))


def programs() -> Iterator[Input]:
    """The greatest programs."""
    for line in ("INT v0 7\n", "JEQ v0 v0 +1\n", "REPEAT 1000\n", "REPEAT 1\nEND\n", "NEW d0 d1 int\n", "PUT 63 0 any\n", 'TEXT v1 "abcdefghijklmnopqrstuvw"\n'):
        yield Input(f"the longest code of {line.split()[0]}{' ' * line.count('END')}{'and END' * line.count('END')}", TEXT, fixed(code(line)), GREATEST)
    yield Input("the longest code that is refused at its end", TEXT, fixed(code("INT v0 7\n", last="STORE d0 v0\n")))
    yield Input("the longest code of typings that differ", TEXT, fixed(code("NEW d0 d1 int\nJEQ v0 v0 +1\nDROPR d1\n")))
    yield Input("the longest code of skips to one place", TEXT, fixed(code("JEQ v0 v0 end\n", last="end:\nRET\n")))
    yield Input("the longest code of labels", TEXT, numbered("proc control\nregs\n", "JMP l%\nl%:\n", ""))


def hex_texts() -> Iterator[Input]:
    """Hex text of programs."""
    longest = "01000000000000000007" * 4095 + "42"
    yield Input("digits of hex text", HEX, padded("", "0"))
    yield Input("gaps", HEX, padded("", " ", MAGIC))
    yield Input("gaps between digits", HEX, padded("", "5 4 5 7 4 2 0 1 \n"))
    yield Input("no digits", HEX, padded("", "x"))
    yield Input("procedures in hex", HEX, padded(MAGIC + "40", "0100000001" + "42"))
    yield Input("the longest code in hex", HEX, fixed(MAGIC + "40" + "0000010" + "11000" + longest + ("0100010" + "11000" + longest) * 63))
    yield Input("the longest texts in hex", HEX, fixed(MAGIC + "01" + "0000010207fe" + ("02001000" + "61" * 4096) * 2045 + "42"))
    yield Input("digits after a program", HEX, padded(MAGIC + "0100000000" + "0142", "00"))


def histories() -> Iterator[Input]:
    """Yields events after a program."""
    yield Input("events of tasks", HISTORY, padded(PUTS + "events\n", "take e0\ncall e0\nend e0\n"))
    yield Input("events that don't go", HISTORY, padded(PUTS + "events\n", "take e0\n"))
    yield Input("line ends of a history", HISTORY, padded(PUTS + "events\n", "\n"))
    yield Input("digits of an actor", HISTORY, padded(PUTS + "events\ntake e", "1", "\n"))
    yield Input("digits of an event", HISTORY, padded(PUTS + "events\nask e0 ", "1", " 0\n"))
    yield Input("words of an event", HISTORY, padded(PUTS + "events\ntake", " e0", "\n"))
    yield Input("an event of one word", HISTORY, padded(PUTS + "events\n", "x"))
    yield Input("lines events", HISTORY, padded(PUTS, "events\n"))
    yield Input("tasks for another engine", HISTORY, padded(BOUND, "take e0\ncall e0\ncall e0\nend e0\n"))
    yield Input("notices that wait", HISTORY, noticed)
    yield Input("comments before a history", HISTORY, padded(PUTS, ";\n", "events\ntake e0\n"))


def inputs() -> Iterator[Input]:
    """Yields inputs after a program."""
    commands = tuple(f"{command} --text" for command in INPUTS)
    yield Input("lines of inputs", commands, padded(TAKES, "int:7\n"))
    yield Input("members", commands, numbered(TAKES + "ints:", "%=1,", "\n"))
    yield Input("a thousand members", commands, fixed(TAKES + "ints:" + ",".join(f"{k}=1" for k in range(1000)) + "\n"))
    yield Input("a thousand members and one", commands, fixed(TAKES + "ints:" + ",".join(f"{k}=1" for k in range(1001)) + "\n"))
    yield Input("one subscript", commands, padded(TAKES + "ints:", "1=1,", "\n"))
    yield Input("members that are texts", commands, numbered(TAKES + "texts:", '%="a",', "\n"))
    yield Input("a text as an input", commands, padded(TAKES + "text:", "a", "\n"))
    yield Input("a quoted text as a member", commands, padded(TAKES + 'texts:1="', "a", '"\n'))
    yield Input("quotes of members", commands, padded(TAKES + "texts:1=", '"', "\n"))
    yield Input("digits of an input", commands, padded(TAKES + "int:", "1", "\n"))
    yield Input("commas of an input", commands, padded(TAKES + "ints:", ",", "\n"))
    yield Input("line ends of inputs", commands, padded(TAKES, "\n"))
    yield Input("lines inputs", commands, padded(TAKES, "inputs\n"))


def lines_of_inputs() -> Iterator[Input]:
    """Yields lines of inputs, each of which has an answer."""
    yield Input("blank lines", EACH, padded(TAKES, "\n"))
    yield Input("a deep array", EACH, padded(TAKES, "["))
    yield Input("items of an array", EACH, padded(TAKES + "[", "7,", "7]\n"))
    yield Input("digits in an array", EACH, padded(TAKES + "[", "1", "]\n"))
    yield Input("members of an object", EACH, numbered(TAKES + "[{", '"%":1,', '"x":1}]\n'))
    yield Input("one key of an object", EACH, padded(TAKES + "[{", '"1":1,', '"1":1}]\n'))
    yield Input("a string in an array", EACH, padded(TAKES + '["', "a", '"]\n'))
    yield Input("escapes in an array", EACH, padded(TAKES + '["', "\\u0041", '"]\n'))
    yield Input("objects of a thousand members", EACH, padded(TAKES, "[{" + ",".join(f'"{number}":1' for number in range(1000)) + "}]\n"))


def circles() -> Iterator[Input]:
    """Rules that wait in a circle."""
    yield Input("a cycle of 3,000 rules", SHORT_RUN, padded("", "; x\n", circle(6, 250)))
    yield Input("a cycle of 300,000 rules", RUN, padded("", "; x\n", circle(600, 250)))
    yield Input("a cycle of 300,000 rules before a comment", RUN, padded(circle(600, 250) + ";", "x"))


def all_inputs() -> Iterator[Input]:
    """Makes all of them."""
    for kind in (heads, names, lines, values, programs, hex_texts, histories, inputs, lines_of_inputs, circles):
        yield from kind()


def limited() -> None:
    """Bounds a child's processor time and its addresses."""
    resource.setrlimit(resource.RLIMIT_CPU, (STOPPED, STOPPED + 1))
    resource.setrlimit(resource.RLIMIT_AS, (16 << 30, 16 << 30))


def used(program: str, words: list[str], source: Path, output: Path) -> Use:
    """Runs the program once."""
    with source.open("rb") as given, output.open("wb") as to:
        child = subprocess.Popen([program, *words], stdin=given, stdout=to, stderr=subprocess.DEVNULL, preexec_fn=limited)
        _, state, usage = os.wait4(child.pid, 0)
        child.returncode = os.waitstatus_to_exitcode(state)
    return Use(os.waitstatus_to_exitcode(state), usage.ru_utime + usage.ru_stime, usage.ru_maxrss / 1024, output.stat().st_size, output.read_bytes()[:40].decode(errors="replace"))


def least_used(program: str, words: list[str], source: Path, output: Path, seconds: float) -> Use:
    """Runs the program until it takes few enough seconds, up to TRIES times. Returns the run that took the fewest."""
    best = used(program, words, source, output)
    for _ in range(1, TRIES):
        if best.seconds <= seconds or best.status < 0:
            break
        best = min(best, used(program, words, source, output), key=lambda use: use.seconds)
    return best


def faults(words: str, use: Use, size: int, given: Input) -> list[str]:
    """Lists what is too much."""
    most = max(given.floor, TIMES * size / (1 << 20))
    is_listed = "--places" in words
    repeats = {"--places", "--plain"} & {*words.split()}  # the input's lines, whatever they are
    form = (LISTED if is_listed else REFUSED) if use.status in (1, 2) else r"(?!quiet\n)" if repeats else ANSWERS.get(words.split()[0], "")
    tried = (
        (use.status < 0, f"ended by signal {-use.status}"),
        (use.seconds > given.seconds, f"{use.seconds:.1f} s where {given.seconds:.1f} are allowed"),
        (use.megabytes > most, f"{use.megabytes:.0f} MB where {most:.0f} are allowed"),
        (use.status in range(7) and not re.match(form, use.begins), f"status {use.status} and an answer that begins {use.begins!r}"),
        (use.status in (1, 2) and use.written > REASON and not is_listed, f"an error of {use.written} bytes"),
    )
    return [output for is_so, output in tried if is_so]


def write_input(given: Input, source: Path) -> None:
    """Writes an input, in a process of its own: the memory of the one that runs a command would count as the command's."""
    maker = multiprocessing.get_context("fork").Process(target=lambda: source.write_bytes(given.make(WHOLE).encode()))
    maker.start()
    maker.join()
    assert maker.exitcode == 0


def try_input(program: str, given: Input, most: int, room: Path, statuses: set[int]) -> tuple[int, int]:
    """Runs so many commands on an input, and prints its line and one of each command that fails. Returns how many passed and failed."""
    source, output = room / "input", room / "output"
    write_input(given, source)
    size = source.stat().st_size
    uses = [(words, least_used(program, words.split(), source, output, given.seconds)) for words in given.commands[:most]]
    found = [(words, faults(words, use, size, given)) for words, use in uses]
    statuses |= {use.status for _, use in uses}
    slowest, largest = max(use.seconds for _, use in uses), max(use.megabytes for _, use in uses)
    print(f"{given.name}: {slowest:.2f} s, {largest:.0f} MB, of {size / (1 << 20):.1f} MiB", flush=True)
    for words, wrong in found:
        if wrong:
            print(f"    FAILED {words}: {', '.join(wrong)}", flush=True)
    failed = sum(1 for _, wrong in found if wrong)
    return len(uses) - failed, failed


def main(words: list[str]) -> int:
    """Runs all inputs, or those whose names have a word."""
    parser = argparse.ArgumentParser(description="Runs the command tw on hostile inputs.")
    parser.add_argument("--only", default="", metavar="WORD", help="the inputs whose names have this word")
    parser.add_argument("--commands", type=int, default=99, metavar="N", help="at most so many commands of each input")
    asked = parser.parse_args(words)
    passed = failed = 0
    statuses: set[int] = set()
    with tempfile.TemporaryDirectory() as room:
        for given in all_inputs():
            if asked.only in given.name:
                good, bad = try_input(program(), given, asked.commands, Path(room), statuses)
                passed, failed = passed + good, failed + bad
    if passed + failed > FEW and not statuses >= {0, 1}:
        failed += 1
        print(f"the statuses are {statuses}, though some inputs are accepted and others rejected")
    print(f"{passed} passed, {failed} failed")
    return 1 if failed or not passed else 0
