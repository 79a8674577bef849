"""Writes the rows of instructions that follow from a row of the table, crates/tw_code/specs/format/Table.antt, and a variant of instr.rt.

    ./dev instruction_rows --make     writes them into opcode.rt, sink.rt, operands.rt, the table itself, tw_asm and tw_symbols
    ./dev instruction_rows --check    fails if a file has other rows

By hand are the table's row_of, since and word_of, and the variants and their fields.
"""

import re
import textwrap
from collections.abc import Callable, Iterator
from pathlib import Path
from typing import NamedTuple

from tools import ROOT

TABLE = "tw_code/specs/format/Table.antt"
VARIANTS = "tw_code/src/instr.rt"
SEEN = "tw_asm/specs/Seen.antt"
ENUMS = {"Local": "LocalInstr", "Data": "DataInstr"}
ALIASES = {"Local": "local", "Data": "on_data"}
REGISTERS = ("Value", "Right")
GIVEN = {"operation": "Arithmetic", "sought": "Sought", "by": "Scalar"}  # fields that the opcode decides, and their types
VERSIONS = ("One", "Two", "Four", "Five")

# The fields in which operands are gathered, but those of registers.
GATHERED = {"Number": "number", "Iterations": "iterations", "Skip": "skip", "TypeOf": "ty"}


class Row(NamedTuple):
    """A row of the table. `given` has the fields that the opcode decides, like the operation of ADD."""

    opcode: str
    code: str
    forms: tuple[str, ...]
    kind: str
    variant: str
    given: dict[str, str]
    fields: tuple[str, ...]
    version: str
    word: str

    @property
    def skips(self) -> bool:
        """Returns whether its last operand is a skip."""
        return self.forms[-1:] == ("Skip",)


def fields_of(text: str, enum: str) -> dict[str, tuple[str, ...]]:
    """Returns the variants of an enum, and the fields of each."""
    found = re.search(rf"pub enum {enum} \{{\n(.*?)\n\}}", text, re.S)
    if not found:
        raise SystemExit(f"instruction_rows: there is no enum {enum}")
    parts = re.findall(r"^    (\w+)(?:,| \{\n(.*?)^    \},)", found[1], re.M | re.S)
    return {variant: tuple(re.findall(r"^        (\w+): ", fields, re.M)) for variant, fields in parts}


def named(table: str, function: str) -> dict[str, str]:
    """Returns the values of a function of the table that has a line for each of some opcodes."""
    return dict(re.findall(rf"^{function} opcode\.(\w+) = (.*)$", table, re.M))


def rows_of(table: str, variants: dict[str, dict[str, tuple[str, ...]]]) -> list[Row]:
    """Returns the rows of the table, in order."""
    since, words, rows = named(table, "since"), named(table, "word_of"), named(table, "row_of")
    if rows.keys() != words.keys():
        raise SystemExit(f"instruction_rows: {TABLE}: row_of and word_of have other opcodes: {', '.join(sorted(rows.keys() ^ words.keys()))}")
    return [row_of(opcode, text, since.get(opcode, "One"), words[opcode], variants) for opcode, text in rows.items()]


def row_of(opcode: str, text: str, version: str, word: str, variants: dict[str, dict[str, tuple[str, ...]]]) -> Row:
    """Returns a row by its line of the table."""
    found = re.fullmatch(r"a_row (0x\w\w) (\[\]|\((?:\w+ ∷ )+\[\]\)) \(λ x\. instr\.(\w+)(?: \(?(?:\w+\.)?(\w+)(.*?)\)?)?\)", text)
    if not found:
        raise SystemExit(f"instruction_rows: {TABLE}: no row: {text}")
    code, forms, kind, variant, arguments = found.groups(default="")
    names = variants[kind][variant] if kind in ENUMS else ()
    values = dict(zip(names, arguments.split()))
    given = {name: value.removeprefix("operation.").removeprefix("sought.") for name, value in values.items() if not value.startswith("x.")}
    fields = tuple(name for name in names if name not in given)
    return Row(opcode, code, tuple(re.findall(r"\w+", forms)), kind, variant, given, fields, version, word.split('"')[1])


# ---- rows of code


def each(form: str, of: str = "opcode") -> Callable[[list[Row]], Iterator[str]]:
    """Returns a function that yields a row of this form for each opcode, or of those with an operation or a search."""
    return lambda rows: (form.format(it=row) for row in rows if of == "opcode" or of in row.given)


def list_rows(rows: list[Row]) -> Iterator[str]:
    """Yields the lines of the list of all opcodes."""
    yield f"pub const OPCODES: [Opcode; {len(rows)}] = ["
    text = ", ".join(f"Opcode::{row.opcode}" for row in rows) + ","
    yield from textwrap.wrap(text, 113, initial_indent="    ", subsequent_indent="    ")


def version_rows(rows: list[Row]) -> Iterator[str]:
    """Yields which opcodes each version brought."""
    for version in VERSIONS[1:]:
        brought = " | ".join(f"Opcode::{row.opcode}" for row in rows if row.version == version)
        yield f"            {brought} => Version::{version},"
    yield f"            _ => Version::{VERSIONS[0]},"


def form_rows(rows: list[Row]) -> Iterator[str]:
    """Yields the forms of operands, with the opcodes that have them."""
    for forms in dict.fromkeys(row.forms for row in rows):
        opcodes = " | ".join(f"Opcode::{row.opcode}" for row in rows if row.forms == forms)
        yield f"            {opcodes} => &[{', '.join(forms)}],"


def variants_in(rows: list[Row], kind: str) -> list[list[Row]]:
    """Returns the rows of each variant of a kind."""
    parts = {row.variant: [other for other in rows if (other.kind, other.variant) == (kind, row.variant)] for row in rows if row.kind == kind}
    return list(parts.values())


def pattern(row: Row) -> str:
    """Returns the pattern of a variant."""
    names = ", ".join((*row.given, *row.fields))
    return f"{ENUMS[row.kind]}::{row.variant}" + (f" {{ {names} }}" if names else "")


def opcode_in(parts: list[Row], star: str) -> str:
    """Returns the opcode of a variant, which a field may decide."""
    if "operation" in parts[0].given:
        return f"opcode_of_operation({star}operation)"
    if "sought" in parts[0].given:
        return f"opcode_of_search({star}sought)"
    if len(parts) == 1:
        return f"Opcode::{parts[0].opcode}"
    return f"opcode_by({', '.join(f'Opcode::{row.opcode}' for row in parts)}, {star}{next(iter(parts[0].given))})"


def sink_rows(kind: str, star: str) -> Callable[[list[Row]], Iterator[str]]:
    """Returns a function that yields the rows by which instructions of a kind are written."""
    def put(rows: list[Row]) -> Iterator[str]:
        for parts in variants_in(rows, kind):
            row = parts[0]
            operands = [f"{form}({name}.as_str())" if form == "Literal" else f"{form}({star}{name})" for form, name in zip(row.forms, row.fields)]
            yield f"        {pattern(row)} => sink.put({opcode_in(parts, star)}, &[{', '.join(operands)}]),"
    return put


def literal(row: Row) -> str:
    """Returns the expression of an instruction of gathered operands."""
    registers = iter(("first", "second", "third", "fourth"))
    fields = {name: f"{GIVEN[name]}::{value}" for name, value in row.given.items()}
    fields |= {name: next(registers) if form in REGISTERS else GATHERED[form] for form, name in zip(row.forms, row.fields)}
    text = ", ".join(name if name == value else f"{name}: {value}" for name, value in fields.items())
    return f"Instr::{row.kind}({ENUMS[row.kind]}::{row.variant}" + (f" {{ {text} }})" if text else ")")


def making_rows(rows: list[Row]) -> Iterator[str]:
    """Yields the rows that make instructions without text and arguments."""
    for row in rows:
        if not {"Literal", "Args"} & set(row.forms):  # which take memory when they are read
            yield f"        Opcode::{row.opcode} => {'Instr::Ret' if row.kind == 'Ret' else literal(row)},"


def skipping(kind: str, form: str, joint: str) -> Callable[[list[Row]], Iterator[str]]:
    """Returns a function that yields a row of this form for each variant of a kind with a skip; `others` are its other fields."""
    def made(rows: list[Row]) -> Iterator[str]:
        for row in (parts[0] for parts in variants_in(rows, kind) if parts[0].skips):
            yield form.format(of=f"{ENUMS[kind]}::{row.variant}", instr=f"{ALIASES[kind]}.{row.variant}", others="".join(f"{name}{joint}" for name in (*row.given, *row.fields[:-1])))
    return made


# ---- rows of definitions and proofs


def back_rows(kind: str, function: str) -> Callable[[list[Row]], Iterator[str]]:
    """Returns a function that yields the table's way back, from instructions of a kind to opcode and operands."""
    def back(rows: list[Row]) -> Iterator[str]:
        for parts in variants_in(rows, kind):
            row = parts[0]
            instr = " ".join((f"{ALIASES[kind]}.{row.variant}", *row.given, *row.fields))
            opcode = re.sub(r"[(),]", "", opcode_in(parts, "").replace("::", ".").replace("Opcode", "opcode").replace("(", " "))
            operands = "".join(f"holds {form} {name} ∷ " for form, name in zip(row.forms, row.fields))
            yield f"{function} {f'({instr})' if ' ' in instr else instr} = ({opcode}, {operands}[])"
    return back


SKIP_ROW = "        {of} {{ {others}.. }} => {of} {{ {others}skip }},"
SKIP_LINE = "_with_skip skip ({instr} {others}old) = {instr} {others}skip"
HEAD, SKIPPING = "-- ---- one line for each instruction", "-- ---- an instruction with another skip"


class Region(NamedTuple):
    """Rows of a file: all lines after the line `after`, which comes after `head`, and before one that begins with `until`."""

    path: str
    head: str
    after: str
    until: str
    rows: Callable[[list[Row]], Iterator[str]]


REGIONS: tuple[Region, ...] = (
    Region("tw_code/src/opcode.rt", "pub enum Opcode {", "pub enum Opcode {", "}", each("    {it.opcode} = {it.code},")),
    Region("tw_code/src/opcode.rt", "/// All opcodes.", "#[rattlefmt::skip]", "];", list_rows),
    Region("tw_code/src/opcode.rt", "    fn since(", "        match self {", "        }", version_rows),
    Region("tw_code/src/opcode.rt", "    pub fn forms(", "        match self {", "        }", form_rows),
    Region("tw_code/src/opcode.rt", "pub fn word_of(", "    match opcode {", "    }", each('        Opcode::{it.opcode} => "{it.word}",')),
    Region("tw_code/src/sink.rt", "fn opcode_of_operation(", "    match operation {", "    }", each("        Arithmetic::{it.given[operation]} => Opcode::{it.opcode},", "operation")),
    Region("tw_code/src/sink.rt", "fn opcode_of_search(", "    match sought {", "    }", each("        Sought::{it.given[sought]} => Opcode::{it.opcode},", "sought")),
    Region("tw_code/src/sink.rt", "fn put_local<", "    match instr {", "    }", sink_rows("Local", "*")),
    Region("tw_code/src/sink.rt", "fn put_data<", "    match instr {", "    }", sink_rows("Data", "")),
    Region(TABLE, HEAD, "abbrev pub opcode_of_operation : Arithmetic → Opcode", "", each("opcode_of_operation operation.{it.given[operation]} = opcode.{it.opcode}", "operation")),
    Region(TABLE, HEAD, "abbrev pub opcode_of_search : Sought → Opcode", "", each("opcode_of_search sought.{it.given[sought]} = opcode.{it.opcode}", "sought")),
    Region(TABLE, HEAD, "abbrev pub local_row : LocalInstr → Opcode × List Operand", "", back_rows("Local", "local_row")),
    Region(TABLE, HEAD, "abbrev pub data_row : DataInstr → Opcode × List Operand", "", back_rows("Data", "data_row")),
    Region("tw_code/src/operands.rt", "pub fn make(", "    match opcode {", "        _ =>", making_rows),
    Region("tw_asm/src/skip.rt", "fn local_with_skip(", "    match instr {", "        without =>", skipping("Local", SKIP_ROW, ", ")),
    Region("tw_asm/src/skip.rt", "fn data_with_skip(", "    match instr {", "        without =>", skipping("Data", SKIP_ROW, ", ")),
    Region(SEEN, SKIPPING, "abbrev pub local_with_skip : ℕ → LocalInstr → LocalInstr", "local_with_skip skip i", skipping("Local", f"local{SKIP_LINE}", " ")),
    Region(SEEN, SKIPPING, "abbrev pub data_with_skip : ℕ → DataInstr → DataInstr", "data_with_skip skip i", skipping("Data", f"data{SKIP_LINE}", " ")),
)


def with_rows(text: str, region: Region, rows: list[Row]) -> str:
    """Returns the text of a file with these rows in the place of those that are there."""
    lines = text.split("\n")
    head = next(index for index, line in enumerate(lines) if line.startswith(region.head))
    first = lines.index(region.after, head) + 1
    last = next(index for index in range(first, len(lines)) if (lines[index].startswith(region.until) if region.until else not lines[index]))
    return "\n".join([*lines[:first], *region.rows(rows), *lines[last:]])


def made(root: Path) -> dict[str, str]:
    """Returns the texts that the files with rows have to have."""
    texts = {region.path: (root / "crates" / region.path).read_text(encoding="utf-8") for region in REGIONS}
    variants = (root / "crates" / VARIANTS).read_text(encoding="utf-8")
    rows = rows_of(texts[TABLE], {kind: fields_of(variants, enum) for kind, enum in ENUMS.items()})
    for region in REGIONS:
        texts[region.path] = with_rows(texts[region.path], region, rows)
    return texts


def main(words: list[str]) -> int:
    """Does what the arguments say, and returns the exit status."""
    if words not in (["--make"], ["--check"]):
        print(__doc__)
        return 2
    stale = {path: text for path, text in made(ROOT).items() if (ROOT / "crates" / path).read_text(encoding="utf-8") != text}
    for path, text in stale.items():
        print(f"crates/{path}: " + ("written" if words == ["--make"] else "other rows than the table's; run ./dev instruction_rows --make"))
        if words == ["--make"]:
            (ROOT / "crates" / path).write_text(text, encoding="utf-8")
    print(f"{len({region.path for region in REGIONS})} checked, {len(stale)} stale")
    return 1 if stale and words == ["--check"] else 0
