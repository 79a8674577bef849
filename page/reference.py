# SPDX-License-Identifier: Apache-2.0
"""Makes the page's reference of the instructions, out of the code's own table (./dev instructions, crates/tw_code/src/opcode.rt), the tables of
docs/MACHINE.md and the examples of lessons.txt. It fails if one of these lacks an instruction, so the page can't be older than they are."""

from __future__ import annotations

import importlib
import re
import sys
from pathlib import Path
from typing import NamedTuple

FORMS = {"Value": "a value register", "Right": "a right register", "Number": "a number", "Literal": "a text", "Skip": "where it goes on if it skips", "Iterations": "how often, 1 to 1000",
         "TypeOf": "a type", "Callee": "a procedure", "Target": "`any`, or an actor's number", "Args": "a register for each parameter"}


class Row(NamedTuple):
    """A row of docs/MACHINE.md about an instruction."""

    form: str
    does: str
    requires: str
    refused: str
    leaves: str


def words_of(root: Path) -> dict[str, list[str]]:
    """Returns the instructions by their names in assembly, each with the forms of its operands, as opcode.rt has them."""
    sys.path.insert(0, str(root))
    instructions = importlib.import_module("tools.sources.instructions")
    text = (root / instructions.OPCODES).read_text(encoding="utf-8")
    named = dict(re.findall(r'Opcode::(\w+) => "(\w+)"', text))
    forms = {name: re.findall(r"\w+", some) for names, some in re.findall(r"((?:Opcode::\w+(?: \| )?)+) => &\[(.*?)\],", text) for name in re.findall(r"::(\w+)", names)}
    return {named[opcode]: forms[opcode] for opcode in instructions.instructions_of(root)["Opcode"]}


def cells(line: str) -> list[str]:
    """Returns the cells of a row of a Markdown table."""
    return [cell.strip() for cell in line.strip().strip("|").split("|")]


def tables(text: str) -> list[list[list[str]]]:
    """Returns the tables of a Markdown text, each as its rows with the head first."""
    return [[cells(line) for k, line in enumerate(block.splitlines()) if k != 1] for block in re.findall(r"(?:^\|.*\n)+", text, re.M)]


def named_in(cell: str) -> tuple[list[str], str]:
    """Returns the instructions of a table's first cell, and their operands."""
    names = re.findall(r"\b[A-Z]{2,}\b", cell)
    return names, re.sub(r"\*\*\d\*\*: ", "", cell.split(",")[-1] if "," in cell else cell)


def rows_of(section: str) -> dict[str, Row]:
    """Returns the rows of the tables of local instructions and of instructions on data."""
    found: dict[str, Row] = {}
    for head, *rows in tables(section):
        for row in rows:
            names, form = named_in(row[0])
            operands = re.sub(r"^[A-Z]+ ?", "", form.strip())
            for name in names if head[0] == "Instruction" else []:
                own = re.search(rf"\b{name} ([^,]*)", row[0])
                rest = dict(zip(head[1:], row[1:]))
                found[name] = Row(f"{name} {own[1] if own and own[1] else operands}".strip(), rest["Does"], rest.get("Requires", rest.get("The verifier requires", "")), rest.get("Refused, and skips", ""), rest.get("and leaves", ""))
    for name, known in found.items():
        does = found[re.sub("^T", "", name)].does if known.does == "likewise" else known.does
        found[name] = known._replace(does=does)
    return found


def started(section: str) -> dict[str, Row]:
    """Returns what the text below the tables says of RULE, PUT, their forms with a priority from a register, and RET."""
    found: dict[str, Row] = {}
    said = re.search(r"\*\*RULE and PUT\*\* (name a task: .*?\))", section, re.S)
    makes = re.search(r"PUT makes the task at once, RULE a rule for\s+it\. .*?emptied\.", section, re.S)
    needs = "; ".join(f"{what} ({codes})" for head, *rows in tables(section) if head[-1] == "Else" for what, codes in rows)
    ends = re.search(r"\*\*RET\*\* (ends the task): (.*?)\.$", section, re.M)
    if not (said and makes and needs and ends):
        raise ValueError("docs/MACHINE.md says RULE, PUT or RET in another form")
    for name in ("RULE", "PUT", "RULEV", "PUTV"):
        kind, more = name.rstrip("V"), " The priority is read from an int register." if name.endswith("V") else ""
        does = ("makes a rule: the task begins when its closed data are" if kind == "RULE" else "makes a task at once") + f". {' '.join(makes[0].split())}{more}"
        found[name] = Row(f"{name} procedure priority target arguments", does, needs, "never", "the named right registers empty")
    found["RET"] = Row("RET", ends[1], ends[2], "never", "")
    return found


def lessons(folder: Path) -> dict[str, dict[str, object]]:
    """Returns the example of each instruction, with its inputs."""
    found: dict[str, dict[str, object]] = {}
    for part in (folder / "lessons.txt").read_text(encoding="utf-8").split("\n== ")[1:]:
        head, *lines = part.rstrip("\n").split("\n")
        names, _, inputs = head.partition(" | ")
        plain = dict(line[2:].split(" ", 1) for line in lines if line.startswith(": "))
        text = "".join(line + "\n" for line in lines if not line.startswith(": "))
        for name in names.split():
            found[name] = {"plain": plain[name], "text": text.replace("@", name), "inputs": inputs.split()}
    return found


def reference(root: Path) -> list[dict[str, object]]:
    """Returns the instructions in the table's order."""
    machine = (root / "docs/MACHINE.md").read_text(encoding="utf-8")
    section = machine[machine.index("\n## Instructions\n"):machine.index("\n## Traps\n")]
    known, shown, words = {**rows_of(section), **started(section)}, lessons(root / "page"), words_of(root)
    for name in words:
        if name not in known or name not in shown:
            raise ValueError(f"{name} lacks {'a row in docs/MACHINE.md' if name not in known else 'an example in page/lessons.txt'}")
    for name in {*shown} - {*words}:
        raise ValueError(f"page/lessons.txt has {name}, which is no instruction")
    return [{"name": name, **known[name]._asdict(), "operands": [FORMS[it] for it in forms], **shown[name]} for name, forms in words.items()]
