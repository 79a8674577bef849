"""Sends every code point wherever `tw` echoes a stranger's text, and finds no hidden character in what it prints: none that controls a terminal, except
line feeds, and none that changes the direction of text. Where a text is printed whole, it is as docs/FORMAT.md says, and JSON is read back as it was.

    ./dev echoes [--texts COUNT] [--seed N] [PLACE..]

COUNT texts are sent to each place, 10,000 by default; together they have all code points. With fewer each has a hidden one. A command echoes several
texts, where it prints them whole. Prints what differs, then `N as wanted, M not`, and fails if one differs.
"""

import argparse
import json
import multiprocessing
import os
import random
import re
import subprocess
import tempfile
from pathlib import Path
from typing import Callable, NamedTuple

from tools.common import terminal
from tools.common.program import program
from tools.fuzz import common

SECONDS = 60
POINTS = [point for point in range(1, 0x110000) if point != 0x0A and not 0xD800 <= point < 0xE000]
HIDDEN = [*filter(common.HIDDEN.match, map(chr, POINTS))]


class Answer(NamedTuple):
    """The output of a command on both streams, and its standard output alone."""

    printed: str
    output: str


def answer(words: list[str], data: str = "") -> Answer:
    """Runs a command with this standard input."""
    done = subprocess.run([program(), *words], input=data.encode(), capture_output=True, timeout=SECONDS, check=False)
    output = done.stdout.decode()
    return Answer(output + done.stderr.decode(), output)


def on_terminal(words: list[str], data: str = "") -> Answer:
    """Runs a command at a terminal. The colours of its own lines are left out."""
    text = re.sub("\x1b\\[(31|32|33|0)m", "", terminal.shown([program(), *words], data, with_errors=True))
    return Answer(text, text)


def quoted(text: str) -> str:
    """Returns a text between quotes, in assembly text."""
    return '"' + "".join(f"\\x{ord(c):02x}" if ord(c) < 0x20 or ord(c) == 0x7F or c in '"\\' else c for c in text) + '"'


def commented(texts: list[str]) -> str:
    """Returns a comment of assembly text with these texts."""
    return f"; {' . '.join(texts)} ."


def lines_with(texts: list[str]) -> str:
    """Returns a procedure with a text after each of its instructions."""
    return "proc control\nregs int\n" + "".join(f"INT v0 1 ; {text} .\n" for text in texts) + "RET\n"


def literals(texts: list[str]) -> str:
    """Returns a procedure whose instructions have these texts."""
    return "proc control\nregs text\n" + "".join(f"TEXT v0 {quoted(text)}\n" for text in texts) + "RET\n"


def copying(count: int) -> str:
    """Returns a program that copies so many texts to its outputs."""
    body = "".join(f"GET v0 d{at}\nDROPR d{at}\nSTORE d{count + at} v0\n" for at in range(count))
    return f"proc control{' closed text' * count}{' write text' * count}\nregs text\n{body}RET\n"


def inputs(texts: list[str]) -> list[str]:
    """Returns the arguments of inputs."""
    return [f"text:{text}" for text in texts]


def odd_file(texts: list[str]) -> Answer:
    """Checks a file without names in folders of such names."""
    with tempfile.TemporaryDirectory() as folder:
        path = Path(folder, *(text.replace("/", "") for text in texts), "odd.twn")
        path.parent.mkdir(parents=True)
        path.write_text("proc control\nregs\n", encoding="utf-8")
        return answer(["check", str(path)])


def further_errors(texts: list[str]) -> Answer:
    """Checks a text that has an error in each line."""
    lines = "".join(f"INT v0 {commented([text])}\n" for text in texts)
    return answer(["check", "--text"], f"proc control\nregs int\n{lines}RET\n")


def lines_of_check(texts: list[str]) -> Answer:
    """Checks a program whose orders and bounds name two lines."""
    insertion, call = map(commented, (texts[:1], texts[1:]))
    text = f"version 4\nproc control write map int\nregs int\nDUPW d1 d0\nMINS d0 v0 v0 +0 {insertion}\nDROPW d0\nDROPW d1\nPUT 1 0 any\nRET\n"
    return answer(["check", "--text", "--order", "--bounds"], f"{text}proc control\nregs\nPUT 1 0 any {call}\nRET\n")


def line_of_rule(texts: list[str]) -> Answer:
    """Runs a rule whose task never reads what it is given."""
    text = f"proc control\nregs\nNEW d0 d1 int\nRULE 1 0 any 1 0 {commented(texts)}\nRET\nproc leaf closed int write int\nregs int\nDROPR d0\nSTORE d1 v0\nRET\n"
    return answer(["run", "--text"], text)


def of_each(texts: list[str], line: Callable[[str], str]) -> Answer:
    """Copies the input of each line."""
    return answer(["run", "--text", "--each"], f"{copying(1)}inputs\n" + "".join(f"{line(text)}\n" for text in texts))


# Of an answer has to hold that there is one, that it has the texts as messages have them, or that its JSON lines have these members.
def anything(got: Answer, texts: list[str]) -> bool:
    return bool(got.printed)


def holds(got: Answer, texts: list[str]) -> bool:
    return all(common.visible(text) in got.printed for text in texts)


def members(got: Answer, member: str) -> list[object]:
    return [json.loads(line)[member] for line in got.output[:-1].split("\n")]


class Place(NamedTuple):
    """Where a command echoes texts: so many at a time, its answer to them, and what has to hold of it."""

    most: int
    run: Callable[[list[str]], Answer]
    holds: Callable[[Answer, list[str]], bool] = anything


# Of a line or a word the beginning is printed, a procedure has eight parameters, a path 4,096 bytes.
PLACES = {
    "line_of_verifier": Place(1, lambda it: answer(["check", "--text"], f"proc control\nregs\nDROPR d0 {commented(it)}\nRET\n"), holds),
    "further_errors": Place(19, further_errors, holds),
    "lines_of_check": Place(2, lines_of_check, holds),
    "line_of_rule": Place(1, line_of_rule, holds),
    "first_word": Place(1, lambda it: answer(["asm", "--names"], f"proc control\n.{it[0]}.\nRET\n")),
    "operand": Place(1, lambda it: answer(["check", "--text", "--json"], f"proc control\nregs int\nINT .{it[0]}. 7\nRET\n")),
    "name": Place(1, lambda it: answer(["check", "--text"], f"names\nproc control main()\nregs\nDROPR a {commented(it)}\nRET\n"), holds),
    "no_name": Place(1, lambda it: answer(["check", "--text"], f"names\nproc control main(.{it[0]}: write int)\nregs\nRET\n")),
    "listing": Place(20, lambda it: answer(["check", "--text", "--places"], lines_with(it)), holds),
    "disassembly": Place(20, lambda it: answer(["disasm", "--text", "--places"], literals(it))),
    "disassembly_on_terminal": Place(20, lambda it: on_terminal(["disasm", "--text"], literals(it))),
    "listing_in_json": Place(20, lambda it: answer(["check", "--text", "--places", "--json"], lines_with(it))),
    "expansion_in_json": Place(20, lambda it: answer(["asm", "--plain", "--json"], lines_with(it)), lambda got, it: all(text in json.loads(got.output)["text"] for text in it)),
    "input_word": Place(1, lambda it: answer(["run", "--text", f"ints:{it[0]}"], copying(1))),
    "line_of_inputs": Place(1, lambda it: answer(["run", "--text", "--inputs"], f"{copying(1)}inputs\nints:{it[0]}\n")),
    "option": Place(20, lambda it: answer(["run", f"--{' '.join(it)}"])),
    "value": Place(20, lambda it: answer(["run", "--limit", " ".join(it)])),
    "command": Place(20, lambda it: answer([f".{' '.join(it)}"])),
    "file_name": Place(8, lambda it: answer(["check", f"/nothing/{' '.join(it)}."]), holds),
    "odd_file": Place(8, odd_file, lambda got, it: holds(got, [text.replace("/", "") for text in it])),
    "report_on_terminal": Place(4, lambda it: on_terminal(["run", "--text", *inputs(it)], copying(len(it)))),
    "output_in_json": Place(4, lambda it: answer(["run", "--text", "--json", *inputs(it)], copying(len(it))), lambda got, it: members(got, "outputs") == [it]),
    "line_of_each": Place(50, lambda it: of_each(it, lambda text: json.dumps([text])), lambda got, it: members(got, "outputs") == [[text] for text in it]),
    "id_of_each": Place(50, lambda it: of_each(it, lambda text: json.dumps({"id": text, "inputs": [""]}, ensure_ascii=False)), lambda got, it: members(got, "id") == it),
}
# A file's name has at most 255 bytes.
MOST_BYTES = {"odd_file": 200}


def texts(count: int, seed: str) -> list[str]:
    """Returns texts that have all code points; with a few texts, some of them, and a hidden one in each."""
    points = random.Random(seed).sample(POINTS, len(POINTS))
    most = -(-len(points) // count) if count >= 5000 else 100
    made = [points[at * most:at * most + most] for at in range(count)]
    return ["".join([*map(chr, some), HIDDEN[at % len(HIDDEN)]]) for at, some in enumerate(made)]


class Job(NamedTuple):
    """Texts that a command echoes together."""

    place: str
    texts: list[str]


def fault(job: Job) -> str:
    """Returns what is wrong with an answer, or nothing."""
    kept = [text.encode()[:MOST_BYTES.get(job.place, 100_000)].decode(errors="ignore") for text in job.texts]
    place = PLACES[job.place]
    try:
        got = place.run(kept)
        raw = sorted({f"{ord(c):x}" for c in common.HIDDEN.findall(got.printed)})
        if raw:
            return f"{job.place}: prints {' '.join(raw)}"
        return "" if place.holds(got, kept) else f"{job.place}: {got.printed[:300]!r} of {kept!r}"
    except (UnicodeDecodeError, ValueError, KeyError, OSError, subprocess.TimeoutExpired) as error:
        return f"{job.place}: {error!r} of {kept!r}"


def jobs_of(places: list[str], sent: list[str]) -> list[Job]:
    """Returns the commands that send the texts to each place."""
    return [Job(place, sent[at:at + PLACES[place].most]) for place in places for at in range(0, len(sent), PLACES[place].most)]


def main(words: list[str]) -> int:
    parser = argparse.ArgumentParser(description=__doc__, formatter_class=argparse.RawDescriptionHelpFormatter)
    parser.add_argument("--texts", type=int, default=10_000)
    parser.add_argument("--seed", default="1")
    parser.add_argument("places", nargs="*", choices=[[], *PLACES], metavar="PLACE")
    given = parser.parse_args(words)
    jobs = jobs_of(given.places or list(PLACES), texts(given.texts, given.seed))
    program()
    wanted = others = 0
    with multiprocessing.Pool(os.cpu_count()) as pool:
        for job, found in zip(jobs, pool.imap(fault, jobs, 16)):
            wanted += 0 if found else len(job.texts)
            others += len(job.texts) if found else 0
            if found and others <= 1000:
                print(found[:1000])
    print(f"{wanted} as wanted, {others} not")
    return 1 if others else 0
