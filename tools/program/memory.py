"""Runs examples and hostile programs with as much memory as docs/HOSTING.md says for their bounds: ./dev memory [--only TEXT]

The bounds are those of `tw check --bounds --limit`, and the memory is limited as by `ulimit -v`. A run fails if it ends with `memory` or by a
signal. Prints a line a run, with its memory, and ends with `N passed, M failed`.
"""

import argparse
import os
import re
import resource
import subprocess
from typing import Iterator, NamedTuple

from tools.common.program import program
from tools.common.sessions import sessions

SECONDS = 120  # of processor time
ENDED = (0, 3, 4)  # quiet, stuck, at the limit

# The table of docs/HOSTING.md, "Memory": bytes for each of one kind.
RUN = 12_000_000
READ = 54  # a byte of the program and of its inputs
LIMIT = 10  # an event that the limit allows
THREAD = 9_000_000  # a thread with MALLOC_ARENA_MAX=1
RESERVED = 145_000_000  # a thread otherwise: of this the C library reserves up to 128 MiB
PRICES = {"tasks": 600, "data": 300, "members": 400, "rules": 3_500}
BYTE = 1.1
PRINTED = 100_000  # a text that an output prints of a member
LISTED = 400  # an event of a trace, of statistics or of a timeline
KEPT, JOINED = 5.1, 5.6  # a byte that --each prints; with --jobs
LISTS = {"--trace", "--stats", "--picture"}
BOUNDS = (*PRICES, "bytes", "events")
ONE_ARENA = {"MALLOC_ARENA_MAX": "1"}

CONTROL = "\\x01"  # the letter that takes most in a report


class Run(NamedTuple):
    """A program as assembly text or hex text, the arguments of its run, and lines of inputs."""

    name: str
    text: str
    words: tuple[str, ...]
    limit: int = 10_000
    inputs: str = ""
    environment: dict[str, str] = {}
    times: int = 1
    is_hex: bool = False


# --- The formula


def format_of(run: Run) -> tuple[str, ...]:
    """Returns the option that a command needs to read a run's program."""
    return () if run.is_hex else ("--text",)


def answer_of(program: str, run: Run, command: str, *words: str) -> str:
    """Returns what a command prints of a run's program."""
    return subprocess.run([program, command, *format_of(run), *words], input=run.text, capture_output=True, text=True, check=False).stdout


def bounds_of(program: str, run: Run) -> dict[str, int]:
    """Returns the bounds of a run, the smaller ones of main's and the limit's; none if the program is rejected."""
    printed = answer_of(program, run, "check", "--bounds", "--limit", str(run.limit))
    found: dict[str, int] = {}
    for kind, number in re.findall(r"^(?:bound|limited) ([a-z]+) ([0-9]+)$", printed, re.M):
        found[kind] = min(int(number), found.get(kind, int(number)))
    return found


def main_of(program: str, run: Run) -> str:
    """Returns main's parameters."""
    return str(re.findall(r"^proc (?:control|leaf)(.*)$", answer_of(program, run, "disasm"), re.M)[0])


def threads_of(words: tuple[str, ...]) -> int:
    """Returns how many threads a run has in addition to the first."""
    given = dict(re.findall(r"--(engines|servers|workers|jobs)[= ]([0-9]+)", " ".join(words)))
    if "--each" in words:
        return int(given.get("jobs", 0))
    if "--in-turn" in words:
        return 0
    return sum(int(given.get(kind, 1)) for kind in ("engines", "servers", "workers"))


def texts_printed(main: str) -> int:
    """Returns how many texts the report prints of a member, at most: its subscript, and itself."""
    outputs = re.findall(r"write (t?)cont (int|text)", main)
    return max(((by == "t") + (scalar == "text") for by, scalar in outputs), default=0)


def bytes_for(bounds: dict[str, int], main: str, run: Run) -> int:
    """Returns the memory that HOSTING.md says for a run with these bounds."""
    thread = THREAD if ONE_ARENA.items() <= run.environment.items() else RESERVED
    read = RUN + READ * len(run.text + run.inputs) + LIMIT * run.limit + thread * threads_of(run.words)
    kept = sum(bounds[kind] * price for kind, price in PRICES.items()) + int(BYTE * bounds["bytes"])
    printed = bounds["members"] * texts_printed(main) * PRINTED
    return read + kept + printed + (bounds["events"] * LISTED if LISTS & set(run.words) else 0)


def bytes_printed(program: str, run: Run) -> int:
    """Returns the memory for what a run prints by `--each`; 0 without it."""
    if "--each" not in run.words:
        return 0
    words = [program, "run", *format_of(run), *run.words]
    printed = subprocess.run(words, input=(run.text + run.inputs).encode(), capture_output=True, check=False).stdout
    return int((JOINED if "--jobs" in run.words else KEPT) * len(printed))


# --- Runs


def examples() -> Iterator[Run]:
    """Yields the runs of examples/sessions.txt that aren't rejected, in turn."""
    for session in sessions():
        if session.command == "run" and session.path.suffix != ".hex" and not session.is_refused:
            words = tuple(word for word in session.words if word != "--in-turn")
            yield Run(" ".join((session.path.name, *words)), session.path.read_text(encoding="utf-8"), ("--in-turn", *words))


def looped(head: str, start: str, body: str, end: str, times: int) -> str:
    """Makes a main that executes its body so many hundred times."""
    return f"{head}{start}REPEAT {times}\nREPEAT 100\n{body}END\nEND\n{end}RET\n"


def literal(register: int, kind: str, letter: str = "a") -> str:
    """Loads a value, a text the longest that there may be."""
    return f'TEXT v{register} "{letter * 4096}"\n' if kind == "text" else f"INT v{register} -9223372036854775808\n"


def filling(kind: str, member: str, times: int, letter: str = "a") -> str:
    """Makes a main that fills a container with members of its own, or with one of them again and again."""
    new = f"NEW d1 d2 {kind}\nSTORE d1 v2\n"
    body = f"{new if member == 'own' else 'DUPR d2 d3' + chr(10)}INS d0 v0 d2 +1\nJMP +1\nDROPR d2\nADD v0 v0 v1 +0\n"
    start = "INT v1 1\nINT v0 -9223372036854775808\n" + literal(2, kind, letter) + (f"NEW d1 d3 {kind}\nSTORE d1 v2\n" if member == "one" else "")
    return looped(f"proc control write cont {kind}\nregs int int {kind}\n", start, body, ("DROPR d3\n" if member == "one" else "") + "DROPW d0\n", times)


def text_subscripts(kind: str, times: int, letter: str = "a") -> str:
    """Makes a main that fills a container by texts of 4,090 bytes and more."""
    start = f'INT v1 1\nTEXT v4 "{letter * 4085}"\n{literal(2, kind, letter)}NEW d1 d2 {kind}\nSTORE d1 v2\n'
    body = "DUPR d3 d2\nSHOW v3 v0\nCAT v5 v4 v3 +0\nTINS d0 v5 d3 +1\nJMP +1\nDROPR d3\nADD v0 v0 v1 +0\n"
    return looped(f"version 2\nproc control write tcont {kind}\nregs int int {kind} text text text\n", start, body, "DROPR d2\nDROPW d0\n", times)


def containers(times: int) -> str:
    """Makes a main that fills a container with containers of one member."""
    start = "INT v1 1\nNEW d4 d5 cont cont int\nNEW d6 d7 int\nSTORE d6 v1\n"
    inner = "NEW d1 d2 cont int\nDUPR d3 d7\nINS d1 v0 d3 +1\nJMP +1\nDROPR d3\nDROPW d1\n"
    body = inner + "INS d4 v0 d2 +1\nJMP +1\nDROPR d2\nADD v0 v0 v1 +0\n"
    return looped("proc control\nregs int int\n", start, body, "DROPR d7\nDROPW d4\nDROPR d5\n", times)


def waiting(kind: str, times: int) -> str:
    """Makes a main that puts tasks with eight values; all wait until it ends."""
    callee = f"proc control{f' val {kind}' * 8}\nregs{f' {kind}' * 8}\nRET\n"
    return looped(f"proc control\nregs {kind}\n", literal(0, kind), f"PUT 1 0 any{' 0' * 8}\n", "", times) + callee


def waiting_with_own_texts(times: int) -> str:
    """Makes a main that puts tasks with eight texts, which no other task has; all wait until it ends. No datum has a text."""
    callee = f"proc control{' val text' * 8}\nregs{' text' * 8}\nRET\n"
    made = "".join(f"SHOW v8 v10\nCAT v{register} v9 v8 +0\nADD v10 v10 v11 +0\n" for register in range(8))
    start = f'TEXT v9 "{"a" * 4076}"\nINT v10 -9223372036854775808\nINT v11 1\n'
    return looped(f"proc control\nregs{' text' * 10} int int\n", start, f"{made}PUT 1 0 any 0 1 2 3 4 5 6 7\n", "", times) + callee


def waiting_with_data(times: int) -> str:
    """Makes a main that puts tasks with eight data, which are of no other task."""
    new = "".join(f"NEW d{right + 8} d{right} int\nSTORE d{right + 8} v0\n" for right in range(8))
    callee = f"proc control{' ref int' * 8}\nregs\n{''.join(f'DROPR d{right}{chr(10)}' for right in range(8))}RET\n"
    return looped("proc control\nregs int\n", literal(0, "int"), f"{new}PUT 1 0 any 0 1 2 3 4 5 6 7\n", "", times) + callee


def pending(kind: str, times: int) -> str:
    """Makes a main whose rules wait for a datum that is never closed, with seven more arguments."""
    register = "text" if kind == "val text" else "int"
    rights = range(2, 10) if kind == "closed int" else range(2, 3)
    copies = "".join(f"DUPR d{right} d0\n" for right in rights)
    args = " 3 4 5 6 7 8 9" if kind == "closed int" else " 0" * 7
    drops = "".join(f"DROPR d{right - 2}\n" for right in rights)
    callee = f"proc control closed int{f' {kind}' * 7}\nregs{f' {register}' * 7 if kind != 'closed int' else ''}\n{drops}RET\n"
    last = "proc leaf closed int write int\nregs int\nDROPR d0\nSTORE d1 v0\nRET\n"
    start = f"NEW d1 d0 int\n{literal(0, register)}"
    return looped(f"proc control\nregs {register}\n", start, f"{copies}RULE 1 0 any 2{args}\n", "RULE 2 0 any 0 1\n", times) + callee + last


def circle(times: int) -> str:
    """Makes a main whose rules wait in one circle, each with eight rights; the report has a long line of each."""
    copied = "".join(f"DUPR d{right} d{{0}}\n" for right in range(4, 10))
    rule = f"RULE 1 0 any {{0}} {{1}} 4 5 6 7 8 9 ; {'x' * 180}\n"
    pair = copied.format(1) + "NEW d2 d3 int\n" + rule.format(1, 2) + copied.format(3) + "NEW d2 d1 int\n" + rule.format(3, 2)
    callee = f"proc leaf closed int write int{' closed int' * 6}\nregs int\n{''.join(f'DROPR d{right}{chr(10)}' for right in (0, *range(2, 8)))}STORE d1 v0\nRET\n"
    return looped("proc control\nregs\n", "NEW d0 d1 int\n", pair, copied.format(1) + rule.format(1, 0), times) + callee


def texts_in_registers(tasks: int) -> str:
    """Makes a main that puts tasks with fifteen texts in registers and many events, so that all of them are taken at once."""
    texts = "".join(literal(register, "text") for register in range(15))
    leaf = f"proc leaf\nregs{' text' * 15} int\n{texts}" + "NEW d0 d1 int\nSTORE d0 v15\nDROPR d1\n" * 30 + "RET\n"
    return f"proc control\nregs\nREPEAT {tasks}\nPUT 1 0 any\nEND\nRET\n{leaf}"


def with_inputs(name: str, kind: str, member: str) -> Run:
    """Makes a run with seven inputs of a thousand members each."""
    text = f"version 2\nproc control{f' closed {kind}' * 7} write int\nregs int\n{''.join(f'DROPR d{right}{chr(10)}' for right in range(7))}STORE d7 v0\nRET\n"
    line = f"{kind.replace('cont ', '')}s:" + ",".join(member.format(number) for number in range(1000))
    return Run(name, text, ("--in-turn", "--quiet", "--inputs"), inputs="inputs\n" + f"{line}\n" * 7)


PROCEDURES, LOOPS = 64, 2_047  # the most, and as many loops without a body as a procedure has place for


def loops_as_text() -> str:
    """Makes the longest program of the shortest instructions, END and RET, as far as they can be reached."""
    loop = "REPEAT 1\nEND\n"
    return f"proc control\nregs\n{loop * LOOPS}RET\n" * PROCEDURES


def loops_as_hex() -> str:
    """Makes the bytes of `loops_as_text`, four digits an instruction."""
    procedure = f"00 00 00 {2 * LOOPS + 1:04x} {'23000124' * LOOPS} 42"
    return f"545742 01 {PROCEDURES:02x} {procedure * PROCEDURES}\n".replace(" ", "")


ENDLESS = "proc control\nregs\nPUT 0 0 any\nRET\n"
TURN = ("--in-turn", "--quiet")
MANY, FEW = 1_000_000, 50_000


def hostile_events() -> Iterator[Run]:
    """Yields programs that make many events and keep nothing."""
    yield Run("events of one task after another", ENDLESS, TURN, MANY)
    copies = looped("proc control\nregs\n", "NEW d0 d1 cont int\nDROPW d0\n", "DUPR d2 d1\nDROPR d2\n", "DROPR d1\n", 656)
    for option in sorted(LISTS):
        yield Run(f"events, written by {option}", copies, (*TURN, option), 200_000)
    every = ("--quiet", "--engines", "4", "--servers", "4", "--workers", "16")
    yield Run("all threads", ENDLESS, every, times=100)
    yield Run("all threads, MALLOC_ARENA_MAX=1", ENDLESS, every, environment=ONE_ARENA, times=100)


def hostile_members() -> Iterator[Run]:
    """Yields programs that fill containers, just past the sizes at which memory grows; each in text and as JSON."""
    for option in ((), ("--json",)):
        words, name = (*TURN, *option), " ".join(("", *option))
        yield Run(f"data in a container{name}", filling("int", "own", 656), words, MANY)
        yield Run(f"one datum in a container{name}", filling("int", "one", 656), words, MANY)
        yield Run(f"texts in a container{name}", filling("text", "own", 30), words, FEW)
        yield Run(f"one text in a container{name}", filling("text", "one", 30), words, FEW)
        yield Run(f"one text of control characters in a container{name}", filling("text", "one", 7, CONTROL), words, FEW)
        yield Run(f"texts as subscripts{name}", text_subscripts("int", 30), words, FEW)
        yield Run(f"control characters as subscripts and members{name}", text_subscripts("text", 7, CONTROL), words, FEW)
    yield Run("containers in a container", containers(330), TURN, MANY)


def hostile_tasks() -> Iterator[Run]:
    """Yields programs that keep many tasks or rules."""
    yield Run("tasks with ints", waiting("int", 656), TURN, MANY)
    yield Run("tasks with data", waiting_with_data(166), TURN, MANY)
    yield Run("tasks with texts", waiting("text", 30), TURN, FEW)
    yield Run("tasks with texts of their own", waiting_with_own_texts(75), TURN, FEW)
    yield Run("texts in registers", texts_in_registers(16), (*TURN, "--workers", "16"))
    yield Run("rules with ints", pending("val int", 328), TURN, MANY)
    yield Run("rules with texts", pending("val text", 30), TURN, FEW)
    yield Run("rules with rights", pending("closed int", 164), TURN, MANY)
    yield Run("rules in a circle", circle(83), TURN, MANY)
    yield Run("rules in a circle --json", circle(83), (*TURN, "--json"), MANY)


def hostile_inputs() -> Iterator[Run]:
    """Yields programs with the most inputs."""
    yield with_inputs("inputs of ints", "cont int", "{0}={0}")
    yield with_inputs("inputs of empty texts", "cont text", '{0}=""')
    yield with_inputs("inputs of texts", "tcont text", '"{0:03}"="' + "a" * 2_000 + '"')


def hostile_programs() -> Iterator[Run]:
    """Yields the programs that take most for each of their bytes."""
    yield Run("loops in all procedures", loops_as_text(), TURN)
    yield Run("loops in all procedures, with names", "names\n" + loops_as_text(), TURN)
    yield Run("loops in all procedures, as hex text", loops_as_hex(), TURN, is_hex=True)


def hostile_lines() -> Iterator[Run]:
    """Yields programs that `--each` runs on many lines: with eight texts as outputs, just past the size at which memory grows; and short ones."""
    stores = "".join(f"STORE d{output} v0\n" for output in range(8))
    texts = f"proc control{' write text' * 8}\nregs text\n{literal(0, 'text')}{stores}RET\n"
    for jobs in ((), ("--jobs", "2"), ("--jobs", "4")):
        name = " ".join(("lines with texts as outputs", *jobs))
        yield Run(name, texts, ("--each", "--quiet", *jobs), inputs="inputs\n" + "[]\n" * 2_050, environment=ONE_ARENA)
    number = "proc control closed int write int\nregs int\nGET v0 d0\nDROPR d0\nSTORE d1 v0\nRET\n"
    yield Run("short lines", number, ("--each", "--quiet"), inputs="inputs\n" + "[1]\n" * 190_000)


def limited(most: int) -> None:
    """Limits a child's memory and processor time, and starts no dump."""
    resource.setrlimit(resource.RLIMIT_CPU, (SECONDS, SECONDS + 1))
    resource.setrlimit(resource.RLIMIT_AS, (most, most))
    resource.setrlimit(resource.RLIMIT_CORE, (0, 0))


def status_of(program: str, run: Run, most: int) -> int:
    """Runs a program with so many bytes of memory, and returns its status, or the negative number of a signal."""
    words = [program, "run", *format_of(run), "--limit", str(run.limit), *run.words]
    done = subprocess.run(
        words, input=(run.text + run.inputs).encode(), stdout=subprocess.DEVNULL, stderr=subprocess.DEVNULL,
        env={**os.environ, **run.environment}, preexec_fn=lambda: limited(most), check=False,
    )
    return done.returncode


def passes(program: str, run: Run) -> bool:
    """Runs a program with the memory of its formula, once or as often as it says, prints a line, and returns whether it was always enough."""
    bounds = bounds_of(program, run)
    if not all(kind in bounds for kind in BOUNDS):
        print(f"FAILED {run.name}: no bounds")
        return False
    most = bytes_for(bounds, main_of(program, run), run) + bytes_printed(program, run)
    statuses = {status_of(program, run, most) for _ in range(run.times)}
    well = statuses <= set(ENDED)
    print(f"{'' if well else 'FAILED '}{run.name}: status {' or '.join(map(str, sorted(statuses)))} with {most / 1_000_000:.1f} MB", flush=True)
    return well


def main(words: list[str]) -> int:
    """Runs all programs, or those whose names have a text."""
    parser = argparse.ArgumentParser(description="Runs programs with the memory that docs/HOSTING.md says.")
    parser.add_argument("--only", default="", metavar="TEXT", help="the programs whose names have this text")
    asked = parser.parse_args(words)
    kinds = (examples, hostile_programs, hostile_events, hostile_members, hostile_tasks, hostile_inputs, hostile_lines)
    answers = [passes(program(), run) for kind in kinds for run in kind() if asked.only in run.name]
    print(f"{sum(answers)} passed, {len(answers) - sum(answers)} failed")
    return 0 if answers and all(answers) else 1
