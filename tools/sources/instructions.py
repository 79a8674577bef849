"""Checks that docs/ADDING.md names each file of code and definitions that a new instruction touches, and that each instruction has its row in each.

    ./dev instructions --check        fails if a row is missing, or a file that names an instruction is in no list
    ./dev instructions --rows NAME    lists the rows of an instruction, such as Length or Insert

The instructions are the opcodes of crates/tw_code/src/opcode.rt and the variants of LocalInstr, DataInstr and Arithmetic in instr.rt next to it. RULE,
PUT and RET aren't variants of these. Checks (crates of cases, tw_fuzz) may name any instruction. Proofs are in no list: the prover misses their rows.
"""

import re
from collections.abc import Iterator
from pathlib import Path
from typing import NamedTuple

from tools import ROOT

DOCUMENT = Path("docs/ADDING.md")
OPCODES = Path("crates/tw_code/src/opcode.rt")
VARIANTS = Path("crates/tw_code/src/instr.rt")
CHECKS = ("tw_case_lines", "tw_cases", "tw_host_cases", "tw_fuzz")


class Whole(NamedTuple):
    """A file with a row for each instruction of a kind. In the expressions that recognise its rows, NAME is the instruction."""

    path: str
    kind: str
    rows: tuple[str, ...] = ()


# A file without expressions has to name each instruction.
WHOLES: tuple[Whole, ...] = (
    Whole("tw_code/src/opcode.rt", "Opcode", (r"^    NAME = 0x", r"^    (?:.* )?Opcode::NAME,(?: |$)", r"Opcode::NAME\b.* => &\[", r'Opcode::NAME => "')),
    Whole("tw_code/specs/format/Table.antt", "Opcode", (r"^row_of opcode\.NAME = a_row ", r"^word_of opcode\.NAME = ")),
    Whole("tw_code/specs/format/Table.antt", "LocalInstr", (r"^row_of .*\blocal\.NAME\b", r"^local_row \(?local\.NAME\b")),
    Whole("tw_code/specs/format/Table.antt", "DataInstr", (r"^row_of .*\(on_data\.NAME\b", r"^data_row \(on_data\.NAME\b")),
    Whole("tw_code/src/sink.rt", "Opcode"),
    *(Whole(path, kind) for kind, paths in {
        "Arithmetic": (
            "tw_code/specs/format/Table.antt", "tw_code/specs/machine/Local.antt", "tw_code/src/compute.rt", "tw_code/src/operands.rt",
            "tw_code/src/sink.rt",
        ),
        "LocalInstr": (
            "tw_code/src/sink.rt", "tw_code/specs/accepting/Typing.antt", "tw_code/specs/machine/Local.antt", "tw_verify/src/instructions.rt",
            "tw_instr/src/local.rt", "tw_frame/src/dispatch.rt", "tw_frame/specs/Requirements.antt",
        ),
        "DataInstr": (
            "tw_code/src/sink.rt", "tw_code/src/operands.rt", "tw_code/specs/accepting/Typing.antt", "tw_code/specs/machine/Data.antt",
            "tw_verify/src/on_data.rt", "tw_verify/src/typing.rt", "tw_instr/src/on_data.rt", "tw_instr/specs/Memory.antt",
            "tw_pool_state/src/data.rt", "tw_pool_state/specs/Memory.antt", "tw_pool_state/specs/Queued.antt", "tw_stats/src/pre_state.rt",
            "tw_certificate/src/contests.rt", "tw_isolation/specs/Isolation.antt",
        ),
    }.items() for path in paths),
)

# Files with rows for some instructions; the document says for which.
PARTS: tuple[str, ...] = (
    "tw_code/specs/accepting/Flow.antt", "tw_code/src/flow.rt", "tw_asm/specs/Seen.antt", "tw_asm/src/skip.rt", "tw_binary/src/rows.rt",
    "tw_asm/src/instructions.rt", "tw_frame/src/step.rt", "tw_frame/src/text_step.rt", "tw_verify/src/quick.rt", "tw_verify/specs/Quick.antt",
    "tw_verify/src/searching.rt", "tw_verify/specs/Searching.antt", "tw_symbols/src/instruction.rt", "tw_symbols/specs/LineNames.antt",
    "tw_bounds/src/weighing.rt", "tw_bounds/specs/Bounds.antt", "tw_bounds/src/limited.rt", "tw_bounds/specs/Limited.antt", "tw_bounds/src/texts.rt",
    "tw_pool_state/src/data/scalars.rt", "tw_pool_state/src/data/containers.rt", "tw_pool_state/src/data/maps.rt", "tw_pool_state/src/data/rights.rt",
    "tw_determinism/specs/Contested.antt", "tw_determinism/specs/OneResult.antt", "tw_determinism/specs/Refused.antt", "tw_copies/specs/Copies.antt",
    "tw_copies/specs/Marks.antt", "tw_copies/src/insertions.rt", "tw_copies/src/marks.rt",
)

# Files that treat some by themselves and then all others at once, and carriers of names: a new one needs nothing there.
SHOWN_ONE = ("tw_frame/src/arithmetic.rt", "tw_frame/specs/Ready.antt")


def variants_of(text: str, name: str) -> list[str]:
    """Returns the variants of an enum."""
    found = re.search(rf"pub enum {name} \{{\n(.*?)\n\}}", text, re.S)
    if not found:
        raise SystemExit(f"instructions: there is no enum {name}")
    return re.findall(r"^    (\w+)", found[1], re.M)


def instructions_of(root: Path) -> dict[str, list[str]]:
    """Returns the names of the instructions of each kind."""
    opcodes, variants = ((root / path).read_text(encoding="utf-8") for path in (OPCODES, VARIANTS))
    return {"Opcode": variants_of(opcodes, "Opcode"), **{kind: variants_of(variants, kind) for kind in ("LocalInstr", "DataInstr", "Arithmetic")}}


def mentions(text: str, kind: str, names: list[str]) -> set[str]:
    """Returns the instructions of a kind that a source names outside of imports: by the enum, by the name of the imported variants, or alone."""
    body = re.sub(r"^(?:ghost )?use .*$", "", text, flags=re.M)
    variants = rf"declared\.\w+\.{kind}\.TheVariants"
    heads = [rf"{kind}::", *(rf"{alias}\." for alias in re.findall(rf"{variants} as (\w+)", text))]
    found = set(re.findall(rf"\b(?:{'|'.join(heads)})(\w+)", body))
    imported = (name.strip() for some in re.findall(rf"{variants}\.\{{([^}}]*)\}}", text) for name in some.split(","))
    return (found | {name for name in imported if re.search(rf"\b{name}\b", body)}) & set(names)


def sources(root: Path, kinds: tuple[str, ...] = ("src", "specs")) -> Iterator[tuple[str, str]]:
    """Yields the code and definitions of all crates but checks, or other kinds of their sources, by their paths below crates/."""
    for path in sorted((root / "crates").glob("tw_*/*/**/*")):
        parts = path.relative_to(root / "crates").parts
        if path.suffix in (".rt", ".antt") and parts[0] not in CHECKS and parts[1] in kinds:
            yield "/".join(parts), path.read_text(encoding="utf-8")


def missing_rows(root: Path, whole: Whole, names: list[str]) -> Iterator[str]:
    """Yields what a file with a row for each instruction lacks."""
    path = root / "crates" / whole.path
    text = path.read_text(encoding="utf-8") if path.exists() else ""
    named = mentions(text, whole.kind, names)
    for name in names:
        if not whole.rows and name not in named:
            yield f"{whole.path}: no row of {name}, or its `use` line lacks it"
        for row in whole.rows:
            if not re.search(row.replace("NAME", name), text, re.M):
                yield f"{whole.path}: no row of {name}, as {row}"


def unlisted(root: Path, instructions: dict[str, list[str]]) -> Iterator[str]:
    """Yields the files that name an instruction and are in no list."""
    listed = {whole.path for whole in WHOLES} | {*PARTS, *SHOWN_ONE, "tw_code/src/instr.rt"}
    for path, text in sources(root):
        found = sorted(name for kind, names in instructions.items() for name in mentions(text, kind, names))
        if found and path not in listed:
            yield f"{path}: names {', '.join(found[:5])}, and is in no list of ./dev instructions"


def unused(root: Path, instructions: dict[str, list[str]]) -> Iterator[str]:
    """Yields the listed files that name no instruction."""
    texts = dict(sources(root))
    for path in sorted({whole.path for whole in WHOLES} | {*PARTS, *SHOWN_ONE}):
        if not any(mentions(texts.get(path, ""), kind, names) for kind, names in instructions.items()):
            yield f"{path}: is in a list of ./dev instructions, and names no instruction"


def undocumented(root: Path) -> Iterator[str]:
    """Yields the files that the document should name, and doesn't."""
    document = (root / DOCUMENT).read_text(encoding="utf-8")
    for path in sorted({whole.path for whole in WHOLES} | {*PARTS, "tw_code/src/instr.rt"}):
        if f"`{path}`" not in document:
            yield f"{DOCUMENT}: doesn't name {path}"


def missing(root: Path) -> list[str]:
    """Returns which rows are missing."""
    instructions = instructions_of(root)
    return [fault for whole in WHOLES for fault in missing_rows(root, whole, instructions[whole.kind])]


def faults(root: Path) -> list[str]:
    """Returns all that is wrong."""
    instructions = instructions_of(root)
    return [*missing(root), *unlisted(root, instructions), *unused(root, instructions), *undocumented(root)]


def check(root: Path) -> int:
    """Prints what is wrong, and returns the exit status."""
    found = faults(root)
    count = sum(len(names) for names in instructions_of(root).values())
    said = f"{count} checked, in {len({whole.path for whole in WHOLES})} files for each and {len(PARTS)} for some; {len(found)} faults"
    print("\n".join([*found, said]))
    return 1 if found else 0


def print_rows(root: Path, name: str) -> int:
    """Prints where the rows of an instruction are."""
    instructions, count = instructions_of(root), 0
    for path, text in sources(root, ("src", "specs", "proofs")):
        is_variant = Path("crates", path) == VARIANTS and name in instructions["LocalInstr"] + instructions["DataInstr"]
        if is_variant or any(name in mentions(text, kind, names) for kind, names in instructions.items()):
            count += 1
            for number, line in enumerate(text.splitlines(), 1):
                if re.search(rf"\b{name}\b", line):
                    print(f"crates/{path}:{number}: {line.strip()[:120]}")
    print(f"{name} is in {count} files")
    return 0 if count else 1


def main(words: list[str]) -> int:
    """Does what the arguments say, and returns the exit status."""
    if words == ["--check"]:
        return check(ROOT)
    if len(words) == 2 and words[0] == "--rows":
        return print_rows(ROOT, words[1])
    print(__doc__)
    return 2
