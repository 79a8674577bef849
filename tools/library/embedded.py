"""Compares the library's examples with the program tw: ./dev embedded says how."""

import os
import re
import subprocess
import sys
from collections.abc import Callable

from tools.common.program import package, program
from tools.common.sessions import sessions

root, room, *parts = sys.argv[1:]
languages = [it for it in parts if it != "stack"]
tw = program()
folder = f"{root}/examples"

Answer = tuple[int, bytes]
counts = {True: 0, False: 0}


def say(is_same: bool, *what: object) -> None:
    """Counts an answer, and prints one that differs."""
    counts[is_same] += 1
    if not is_same:
        print("DIFFERS", *what)


def started(program: str, words: list[str], data: bytes = b"") -> Answer:
    """Returns the status and the text of a program."""
    done = subprocess.run([program, *words], input=data, stdout=subprocess.PIPE, stderr=subprocess.DEVNULL, check=False)
    return done.returncode, done.stdout


def answer_of(language: str, words: list[str], data: bytes) -> Answer:
    """Returns what a language's example answers, or the Python package."""
    return package().session(words, data) if language == "python" else started(f"{room}/{language}", words, data)  # type: ignore[no-any-return]


def compare(words: list[str], data: bytes = b"") -> None:
    """Compares one answer of each language with the program's."""
    in_turn = ["--in-turn"] if words[:1] == ["run"] and not {"--help", "--in-turn"} & {*words} else []
    wanted = started(tw, words[:1] + in_turn + words[1:], data)
    options: list[list[str]] = [[], in_turn] if in_turn else [[]]
    for language in languages:
        if not words and language in ("cpp", "rust"):
            continue  # without words these show what the calls give
        for more in options:
            got = answer_of(language, words[:1] + more + words[1:], data)
            say(got == wanted, language, words, got[0], wanted[0], got[1][:100], wanted[1][:100])


def compare_sessions() -> None:
    """Compares what is answered to each command of examples/sessions.txt, also if a byte in the middle of the file is another one."""
    for it in sessions():
        data, text = it.path.read_bytes(), ["--text"] if it.path.suffix in (".tw", ".twn") and it.command != "asm" else []
        middle = len(data) // 2
        for given in (data, data[:middle] + b"9" + data[middle + 1 :]):
            if "--inputs" not in it.words:
                compare([it.command, *text, *it.words], given)


def compare_unread(words: list[str]) -> None:
    """Checks that an example ends where tw reads nothing, though its standard input stays open."""
    for language in languages:
        if language == "python":
            continue
        read, write = os.pipe()
        try:
            done = subprocess.run([f"{room}/{language}", *words], stdin=read, stdout=subprocess.PIPE, stderr=subprocess.DEVNULL, timeout=120, check=False)
            say((done.returncode, done.stdout) == started(tw, words), language, words, done.returncode, done.stdout[:100])
        except subprocess.TimeoutExpired:
            say(False, language, words, "waits for an input")
        finally:
            os.close(read)
            os.close(write)


def compare_call(name: str, order: list[str], data: bytes, call: Callable[[], str]) -> None:
    """Compares what a function of the Python module gives, or refuses, with the program's text."""
    try:
        got = call()
    except package().Refused as why:
        got = why.text
    wanted = started(tw, order, data)[1].decode()
    say(got == wanted, "python", name, order, got[:100], wanted[:100])


def compare_report(name: str, assembles: list[str], text: str, inputs: list[str]) -> None:
    """Compares a run's report, which has no line of the text, so it is that of the program's bytes. A rejected program's error has its line."""
    data = text.encode()
    words = ["--in-turn", "--workers", "2", *inputs]
    is_accepted = started(tw, ["check", "--text"], data)[0] == 0
    order, given = (["run", *words], started(tw, assembles, data)[1]) if is_accepted else (["run", "--text", *words], data)
    compare_call(name, order, given, lambda: str(package().load(text).run(*map(package().read_input, inputs), workers=2).text))


def compare_calls() -> None:
    """Compares the functions of the Python module with the program."""
    yuglemit = package()
    for name in sorted(it for it in os.listdir(folder) if it.endswith((".tw", ".twn"))):
        with open(f"{folder}/{name}", encoding="utf-8") as file:
            text = file.read()
        inputs: list[str] = next((list(it.inputs) for it in sessions() if it.command == "run" and it.path.name == name), [])
        data, order = text.encode(), ["asm", "--names"] if name.endswith(".twn") else ["asm"]
        compare_call(name, order, data, lambda: f"{yuglemit.assemble(text).hex()}\n")
        compare_call(name, ["check", "--text"], data, lambda: str(yuglemit.load(text).checked))
        if inputs or not re.search(r"^proc control.*\b(closed|ref)\b", text, re.M):  # inputs that main doesn't ask for are a TypeError
            compare_report(name, order, text, inputs)
        try:
            answer = "accepted" if yuglemit.verify(yuglemit.assemble(text)) else ""
        except yuglemit.Refused as why:
            answer = why.text.splitlines()[0]
        lines = started(tw, ["check", "--text"], text.encode())[1].decode().splitlines()
        say(answer in lines, "python", name, "verify", answer, lines[:1])


def compare_stack() -> None:
    """Makes calls over hostile inputs in a thread with little stack, and prints the most that one took."""
    from tools.program import hostile

    most, whose = 0, ""
    for given in hostile.all_inputs():
        data = given.make(1 << 20).encode()
        for command in given.commands:
            status, answer = started(f"{room}/stack", command.split(), data)
            say(status == 0, "stack", given.name, command, status)
            if status == 0 and int(answer) > most:
                most, whose = int(answer), f"{command} of {given.name}"
    print(f"the most stack: {most} bytes, {whose}")


def compare_all() -> None:
    """Compares all that was asked for."""
    compare_sessions()
    orders: list[list[str]] = [["--help"], ["--version"], ["run", "--help"], [], ["fly"], ["run", "--workers", "17"], ["run", "int:x"], ["explain"], ["run", "text:a\r"], ["run", "text:a\nb"]]
    orders += [["explain", f"{letter}{number:02}"] for letter in "AFHOVEX" for number in range(20)]
    orders += [["explain", f"C{number}"] for number in range(17)]
    for words in orders:
        compare(words)
    for words in (["--help"], ["--version"], ["run", "--help"], ["help", "run"], ["fly"], ["run", "--workers", "17"], ["run", "int:x"], ["explain", "V04"]):
        compare_unread(words)
    if "python" in languages:
        compare_calls()


if languages:
    compare_all()
if "stack" in parts:
    compare_stack()
print(f"{counts[True]} same, {counts[False]} differ")
sys.exit(counts[False] > 0)
