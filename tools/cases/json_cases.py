"""Checks the JSON that cases expect against docs/COMMAND.schema.json, without a program.

    ./dev json_cases

Each object has to fit its command's schema (checked if the module jsonschema is there), and each member that a schema allows with a
status, or in an error, has to be in some case. Objects of stopped runs are in none: the machine decides how many events they have. ./dev seconds
checks them.
"""

import collections
import importlib
import json
from collections.abc import Iterable, Iterator
from dataclasses import dataclass
from typing import Any

from tools import ROOT
from tools.cases.files import STATUS, Case, read_book

COMMANDS = ("run", "replay", "check", "asm", "disasm", "explain")
JSON_OPTIONS = {"--json", "--each"}
# The status of which no case has an object.
TIMED = "stopped"
UNCHECKED = "left out: the schemas, since jsonschema isn't installed"


@dataclass(frozen=True)
class Expected:
    """An object that a case expects of a command."""

    case: str
    command: str
    found: dict[str, Any]


def schema_of(command: str) -> dict[str, Any]:
    """Returns the schema of a command's objects."""
    schema: dict[str, Any] = json.loads((ROOT / "docs" / f"{command}.schema.json").read_text(encoding="utf-8"))
    return schema


def validators() -> dict[str, Any]:
    """Returns what checks the objects of each command, or nothing if the module isn't there."""
    try:
        module = importlib.import_module("jsonschema")
    except ImportError:
        return {}
    return {command: module.Draft202012Validator(schema_of(command)) for command in COMMANDS}


def faults(schemas: dict[str, Any], command: str, found: object) -> list[str]:
    """Returns why an object doesn't fit its command's schema."""
    return [error.message for error in schemas[command].iter_errors(found)]


# --- What cases expect


def lines_of(options: set[str], output: str) -> list[str]:
    """Returns the lines of an expected output; other output than `--each` is one line, whose texts may have a ` / `."""
    return output.replace(" / {", "\n{").split("\n") if "--each" in options else [output]


def objects_of(case: Case) -> Iterator[Expected]:
    """Yields the objects that a session's case expects, none if its arguments are rejected."""
    kind, *words = case.kind.split(" ")
    status = STATUS.fullmatch(case.wanted)
    if kind not in ("tw", "called") or not words or words[0] not in COMMANDS or not JSON_OPTIONS & set(words) or not status:
        return
    for line in lines_of(set(words), status[2] or ""):
        if line.startswith("{"):
            yield Expected(case.name, words[0], json.loads(line))


# --- What schemas allow


def members_of(schema: dict[str, Any]) -> Iterator[tuple[str, str]]:
    """Yields each member that a schema allows, with each status."""
    for branch in schema.get("oneOf", [schema]):
        status = branch["properties"]["status"]
        for word in status.get("enum", [status.get("const")]):
            for member in branch["properties"]:
                yield word, member


def unseen(command: str, schema: dict[str, Any], expected: Iterable[Expected]) -> list[str]:
    """Returns the members that a schema allows, and that no case has with the status."""
    seen = {(one.found.get("status"), member) for one in expected if one.command == command for member in one.found}
    lacking = [it for it in members_of(schema) if it not in seen and it[0] != TIMED]
    return [f"{command}: no case has `{member}` with the status {status}" for status, member in lacking]


def unseen_of_errors(command: str, schema: dict[str, Any], expected: Iterable[Expected]) -> list[str]:
    """Returns the members that a schema allows in an error, and that no case has."""
    allowed = schema.get("$defs", {}).get("error", {}).get("properties", {})
    seen = {member for one in expected if one.command == command for member in one.found.get("error", {})}
    return [f"{command}: no case has an error with `{member}`" for member in allowed if member not in seen]


def complaints(schemas: dict[str, Any], expected: list[Expected]) -> Iterator[str]:
    """Yields what is wrong with the objects of the cases, and what they lack."""
    for one in expected if schemas else ():
        for fault in faults(schemas, one.command, one.found):
            yield f"{one.case}: {fault}"
    for command in COMMANDS:
        yield from unseen(command, schema_of(command), expected)
        yield from unseen_of_errors(command, schema_of(command), expected)


def main(words: list[str]) -> int:
    """Checks all cases, and returns 1 if there is a complaint."""
    schemas = validators()
    expected = [one for case in read_book(ROOT / "cases").cases for one in objects_of(case)]
    found = list(complaints(schemas, expected))
    counts = collections.Counter(one.command for one in expected)
    for complaint in found:
        print(complaint)
    checked = ", ".join(f"{counts[command]} of {command}" for command in COMMANDS)
    if not schemas:
        print(UNCHECKED)
    print(f"JSON of cases: {checked}")
    print(f"{len(expected)} checked, {len(found)} complaints")
    return 1 if found or not expected else 0
