"""Compares `--json` of each command with what the command prints without it, for all cases, all examples and all codes.

Each object has to agree with the printed lines, and to fit docs/COMMAND.schema.json (checked if the module jsonschema is there). Prints
how many were compared of each command, what differs, and ends with `N same, M differ`.
"""

import collections
import json
import re
import subprocess
from collections.abc import Callable, Iterator
from dataclasses import dataclass
from typing import Any

from tools import ROOT
from tools.common.program import program
from tools.fuzz import positions
from tools.fuzz.kinds.inputs import unquoted
from tools.cases.files import Let, read_book
from tools.cases.json_cases import COMMANDS, UNCHECKED, faults, validators

# Options whose output replaces or extends the report, or which make no run.
OTHER_OUTPUT = {"--trace", "--stats", "--picture", "--json", "--from", "--to", "--help", "--each"}
# The exit statuses with which `--json` prints an object: not those of rejected arguments, and when memory runs out.
OBJECT_STATUSES = (0, 1, 3, 4, 6)
BOUND_KINDS = ("tasks", "instructions", "data", "members", "rules", "bytes", "events")


@dataclass(frozen=True)
class Session:
    """A session: its name, the command, the options, and what it reads."""

    name: str
    command: str
    options: tuple[str, ...]
    given: bytes


def scalar(words: str) -> int | str | None:
    """Returns the value of `int 7`, `text "a"`, `unset` or `gone`."""
    kind, _, value = words.partition(" ")
    if kind == "int":
        return int(value)
    return unquoted(value) if kind == "text" else None


def output_of(words: str) -> tuple[str, Any]:
    """Returns kind and value of an output's line without its number; a container or a map is empty at first."""
    container = re.fullmatch(r"(t?(?:cont (?:int|text)|map (?:int|text|sum)) (?:open|closed)) \d+", words)
    if container:
        return container[1], {}
    return words.split(" ")[0], scalar(words)


def order_of(line: str) -> str | dict[str, int] | None:
    """Returns what a line about the order of events says."""
    place = re.fullmatch(r"order may show in procedure (\d+) at place (\d+)", line)
    if place:
        return {"procedure": int(place[1]), "place": int(place[2])}
    return "same" if line == "order same" else None


def report_object(report: str) -> dict[str, Any]:
    """Returns what the object of a run or of a state has to say, by its report."""
    kinds: list[str] = []
    outputs: list[Any] = []
    found: dict[str, Any] = {"kinds": kinds, "outputs": outputs}
    for line in report.splitlines():
        if output := re.fullmatch(r"out \d+ (.*)", line):
            kind, value = output_of(output[1])
            kinds.append(kind)
            outputs.append(value)
        elif member := re.fullmatch(r'  at ("(?:[^"\\]|\\.)*"|-?\d+) (.*)', line):
            key = unquoted(member[1]) if member[1].startswith('"') else member[1]
            outputs[-1][key] = scalar(member[2])
        elif line in ("quiet", "limit", "stopped", "running"):
            found["status"] = line
        elif line.startswith("stuck "):
            found |= {"status": "stuck", "pending": int(line.split()[1])}
        elif line.startswith("waits "):
            found.setdefault("circle", []).append([int(word) for word in line.split()[1:]])
        elif line.startswith("order "):
            found["order"] = order_of(line)
    return found


def bound(word: str) -> int | str:
    """Returns a bound as JSON has it."""
    return int(word) if word.isdigit() else word


def bounds_of(words: list[str]) -> dict[str, int | str]:
    """Returns the bounds in words such as `tasks 4 instructions 24`."""
    return {kind: bound(value) for kind, value in zip(words[::2], words[1::2])}


def put_check_line(found: dict[str, Any], line: str) -> None:
    """Adds what a line after `accepted` says."""
    words = line.split()
    if procedure := re.fullmatch(r"proc (\d+) (control|leaf) budget (\d+)(?: \((\w+)\))?", line):
        found["procedures"].append({"procedure": int(procedure[1]), "kind": procedure[2], "budget": int(procedure[3])})
        if procedure[4]:
            found["procedures"][-1]["name"] = procedure[4]
    elif words[0] == "needs":
        found["needs"] = {"engines": int(words[2]), "workers": int(words[4])}
    elif words[0] == "searches":
        found["searches"] = int(words[1])
    elif circle := re.fullmatch(r"bound none: procedure (\d+) at place (\d+) leads back to itself", line):
        found["circle"] = {"procedure": int(circle[1]), "place": int(circle[2])}
    elif words[0] == "order":
        found["order"] = order_of(line)
    elif words[0] == "bounds":
        found["procedures"][int(words[1])]["bounds"] = bounds_of(words[2:16])
        if words[1] == "0":
            found["bounds"] = bounds_of(words[2:16])
    elif words[0] in ("bound", "limited"):
        found.setdefault("bounds" if words[0] == "bound" else "limited", {})[words[1]] = bound(words[2])


def check_object(options: tuple[str, ...], text: str) -> dict[str, Any]:
    """Returns what the object of an accepted program has to say, by the lines of its check."""
    lines = text.splitlines()
    first = lines.index("accepted")
    found: dict[str, Any] = {"status": "accepted", "procedures": []}
    if "--places" in options:
        found["listing"] = lines[:first]
    for line in lines[first + 1 :]:
        put_check_line(found, line)
    if "circle" in found:
        found.setdefault("bounds", dict.fromkeys(BOUND_KINDS, "none"))
    return found


# Makes the object of each command of the options and what is printed.
OBJECTS: dict[str, Callable[[tuple[str, ...], str], dict[str, Any]]] = {
    "run": lambda _options, text: report_object(text),
    "replay": lambda _options, text: report_object(text),
    "check": check_object,
    "asm": lambda options, text: {"status": "assembled", "text": text} if "--plain" in options else {"status": "assembled", "bytes": text.removesuffix("\n")},
    "disasm": lambda options, text: {"status": "disassembled", "listing": text.splitlines()} if "--places" in options else {"status": "disassembled", "text": text},
    "explain": lambda options, text: {"status": "explained", "text": text} | ({"code": text.split(":")[0]} if options else {}),
}

# First lines of errors. The groups are the members of their object.
FIRST_LINES = tuple(re.compile(pattern) for pattern in (
    r"(refused|also) (?P<code>[A-Z]\d\d)( at line (?P<line>\d+)| at byte (?P<byte>\d+)| in procedure (?P<procedure>\d+) at place (?P<place>\d+))?",
    r"trap (?P<code>C\d+) at event (?P<event>\d+)",
    r"not enabled at event (?P<event>\d+)",
    r"input (word )?(?P<input>\d+) refused",
    r"inputs refused",
    r"more than 20 errors",
))
# A second line with the number of an instruction's line, or of the wrong input.
SECOND_LINE = re.compile(r"at line (?P<line>\d+)|input (?P<input>\d+) (is|has)")


def error_members(lines: list[str], text: list[str]) -> dict[str, Any]:
    """Returns what an error with these lines has in JSON, when a command reads this text."""
    first = next(match for match in (pattern.fullmatch(lines[0]) for pattern in FIRST_LINES) if match)
    found = {key: value for key, value in first.groupdict().items() if value is not None}
    code = found.get("code", "")
    second = SECOND_LINE.match(lines[1]) if len(lines) > 1 and (code.startswith("V") or code == "O02") else None
    if second:
        found.update({key: value for key, value in second.groupdict().items() if value is not None})
    made: dict[str, Any] = {key: value if key == "code" else int(value) for key, value in found.items()}
    column = positions.of_error(lines, text[made["line"] - 1])[1] if code[:1] in ("A", "N") else 0
    if column:
        made["column"] = column
    made["lines"] = lines
    return made


def error_object(session: Session, status: int, text: bytes) -> dict[str, Any]:
    """Returns what the object of an error has to say."""
    lines = text.decode(errors="replace").split("\n")[:-1]
    given = session.given.decode(errors="replace").split("\n")
    found: dict[str, Any] = {"status": "trap" if status == 6 else "refused"}
    if session.command == "check" and "--places" in session.options:
        first = next(number for number, line in enumerate(lines) if line.startswith("refused "))
        found["listing"], lines = lines[:first], lines[first:]
    error, *more = positions.errors_in(lines)
    found["error"] = error_members(error, given)
    return found | ({"more": [error_members(one, given) for one in more]} if more else {})


def without_names(found: dict[str, Any]) -> dict[str, Any]:
    """Returns an object of a check without the names, which are printed with --places alone."""
    procedures = [{key: value for key, value in one.items() if key != "name"} for one in found.get("procedures", [])]
    return found | ({"procedures": procedures} if procedures else {})


def differences(session: Session, status: int, text: bytes, got: dict[str, Any]) -> Iterator[str]:
    """Yields how an object differs from what is printed."""
    if status in (1, 6):
        expected = error_object(session, status, text)
    else:
        expected = OBJECTS[session.command](session.options, text.decode())
        got = {key: value for key, value in got.items() if session.command not in ("run", "replay") or key not in ("events", "instructions")}
    if session.command == "asm" and status == 1 and not session.options:
        got = got | {"error": {key: value for key, value in got["error"].items() if key != "column"}}  # which one line doesn't say
    if session.command == "check":
        got = {key: value for key, value in got.items() if key != "inputs"}  # which no line of a check says
    if session.command == "check" and "--places" not in session.options:
        expected, got = without_names(expected), without_names(got)
    for key in sorted(expected.keys() | got.keys()):
        if expected.get(key) != got.get(key):
            yield f"{key}: {expected.get(key)!r} is printed, {got.get(key)!r} in JSON"


def input_text(given: str) -> bytes:
    """Returns the bytes of an input with escapes."""
    signs = {b"t": b"\t", b"r": b"\r", b"n": b"\n"}
    return re.sub(rb"\\(x[0-9a-f]{2}|[trn])", lambda match: signs.get(match[1]) or bytes([int(match[1][1:], 16)]), given.encode())


def program_of(given: str, lets: dict[str, Let]) -> tuple[tuple[str, ...], bytes]:
    """Returns the option by which a case's program is read, and the program and its trace."""
    if not given.startswith("hex "):
        return (), input_text(given)
    program, _, events = given.removeprefix("hex ").partition(" events ")
    text = re.sub(r"@(\w+)", lambda match: lets[match[1]].text if match[1] in lets else "", program)
    trace = "\nevents\n" + events.replace(", ", "\n") if events else ""
    if re.fullmatch(r"[0-9a-f ]*", text):
        return (), (text.replace(" ", "") + trace).encode()
    return ("--text",), (text.replace(" / ", "\n") + trace).encode()


def sessions_of_cases() -> Iterator[Session]:
    """Yields the sessions of the cases, with the options that a report may have."""
    book = read_book(ROOT / "cases")
    for case in book.cases:
        words = case.kind.split(" ")
        if words[0] == "tw" and len(words) > 1 and words[1] in COMMANDS and not OTHER_OUTPUT & set(words) and '"' not in case.kind and case.given:
            reading, program = program_of(case.given, book.lets)
            yield Session(case.name, words[1], (*(() if words[1] in ("asm", "explain") else reading), *words[2:]), program)


def sessions_of_examples() -> Iterator[Session]:
    """Yields sessions of the examples: a run of those without names, all checks and both assemblers."""
    for path in sorted([*(ROOT / "examples").glob("*.tw"), *(ROOT / "examples").glob("*.twn")]):
        text = path.read_bytes()
        if path.suffix == ".tw":
            yield Session(path.name, "run", ("--text",), text)
        for options in ((), ("--places",), ("--bounds", "--limit", "9"), ("--bounds=all",), ("--order",)):
            yield Session(path.name, "check", ("--text", *options), text)
        for options in ((), ("--places",)):
            yield Session(path.name, "disasm", ("--text", *options), text)
        for options in (("--names",), ("--plain",)):
            yield Session(path.name, "asm", options, text)


def sessions_of_codes() -> Iterator[Session]:
    """Yields the explanation of each code, and of all."""
    listed = subprocess.run([program(), "explain"], capture_output=True, text=True, check=True).stdout
    for code in ("", *re.findall(r"^\w+", listed, re.MULTILINE)):
        yield Session(f"explain {code}", "explain", (code,) if code else (), b"")


def made(session: Session, *more: str) -> subprocess.CompletedProcess[bytes]:
    """Runs the program; a run is in turn, so that two runs are the same."""
    options = [word for word in session.options if word != "--in-turn"]
    turns = ["--in-turn"] if session.command == "run" else []
    return subprocess.run([program(), session.command, *turns, *more, *options], input=session.given, capture_output=True, timeout=120, check=False)


def faults_of(session: Session, schemas: dict[str, Any]) -> list[str]:
    """Returns what is wrong with the JSON of a session."""
    plain, line = made(session), made(session, "--json")
    if plain.returncode != line.returncode:
        return [f"status {plain.returncode} without JSON, {line.returncode} with it"]
    if plain.returncode not in OBJECT_STATUSES:
        return []
    if line.stdout.count(b"\n") != 1 or not line.stdout.endswith(b"\n"):
        return ["not one line"]
    got = json.loads(line.stdout)
    differ = list(differences(session, plain.returncode, plain.stdout, got))
    return differ + faults(schemas, session.command, got) if schemas else differ


def main(words: list[str]) -> int:
    """Compares all sessions, and returns 1 if one differs."""
    schemas = validators()
    failed, counts = 0, collections.Counter[str]()
    for session in [*sessions_of_cases(), *sessions_of_examples(), *sessions_of_codes()]:
        counts[session.command] += 1
        wrong = faults_of(session, schemas)
        failed += bool(wrong)
        for fault in wrong:
            print(f"{session.name}: {session.command}: {fault}")
    print(", ".join(f"{counts[command]} of {command}" for command in COMMANDS), "compared")
    if not schemas:
        print(UNCHECKED)
    print(f"{sum(counts.values()) - failed} same, {failed} differ")
    return 1 if failed or not counts else 0
