"""Makes the example of docs/ADDING.md, the instruction MIN, in a copy of the sources, and checks it without a proof.

    ./dev adding            makes it, builds the program unverified and runs MIN; some minutes
    ./dev adding --rows     makes it alone
    ./dev adding FOLDER     makes it in this folder, which isn't there yet, for one who wants to prove it

By hand are the rows that the document says; `./dev instruction_rows --make` writes the others. Without one of those by hand, `./dev instructions` has
to miss a row. Prints each check that fails, and ends with `N passed, M failed`."""

import shutil
import subprocess
import tempfile
from collections.abc import Iterator
from pathlib import Path
from typing import NamedTuple

from tools import ROOT
from tools.sources import instruction_rows, instructions

# The files that a build and the checks read.
COPIED = ("crates", "script", "tools", "crates.txt", "docs")


class Edit(NamedTuple):
    """A line that is added by hand after another one, or in its place; `is_optional` if there are instructions without it."""

    path: str
    line: str
    added: str
    replaces: bool = False
    is_optional: bool = False

    def made(self, text: str) -> str:
        """Returns the text of the file with the line."""
        if text.count(self.line) != 1:
            raise SystemExit(f"adding: {self.path} has {text.count(self.line)} times: {self.line.strip()}")
        return text.replace(self.line, self.added if self.replaces else self.line + self.added)


ROW = "row_of opcode.Remainder = a_row 0x14 (Value ∷ Value ∷ Value ∷ Skip ∷ []) (λ x. instr.Local (local.Compute operation.Remainder x.0 x.1.0 x.1.1.0 x.1.1.1.0))\n"
USES = "use Rattle.tw_code.specs.declared.instr.Arithmetic.TheVariants.{Add, Subtract, Multiply, Divide, Remainder"
RESULT = "result_of Remainder a b = if int_eq b (pos 0) then None else if fits_64 (int_div a b) then Some (int_rem a b) else None\n"
EDITS = (
    Edit(instruction_rows.VARIANTS, "    /// REM: the remainder of that division.\n    Remainder,\n", "    /// MIN: the lesser one.\n    Minimum,\n"),
    Edit(instruction_rows.TABLE, ROW, ROW.replace("Remainder", "Minimum").replace("0x14", "0x15")),
    Edit(instruction_rows.TABLE, "since o = One\n", "since opcode.Minimum = Two\nsince o = One\n", True, True),
    Edit(instruction_rows.TABLE, 'word_of opcode.Remainder = codes "REM"\n', 'word_of opcode.Minimum = codes "MIN"\n'),
    Edit("tw_code/specs/machine/Local.antt", USES, ", Minimum"),
    Edit("tw_code/specs/machine/Local.antt", RESULT, "result_of Minimum a b = Some (if int_lt b a then b else a)\n"),
    Edit("tw_code/src/compute.rt", "        Arithmetic::Remainder => left.checked_rem(right),\n", "        Arithmetic::Minimum => Some(if right < left { right } else { left }),\n"),
)
PROGRAM = "version 2\nproc control closed int closed int write int\nregs int int int\nGET v0 d0\nDROPR d0\nGET v1 d1\nDROPR d1\nMIN v2 v0 v1 +0\nSTORE d2 v2\nRET\n"
# Commands on texts, the status, and what they begin to print. A skip is for operands without a result, and MIN has one of all.
RUNS = (
    ("run --text int:3 int:-4", PROGRAM, 0, "out 0 int -4"),
    ("run --text int:-9223372036854775808 int:9223372036854775807", PROGRAM, 0, "out 0 int -9223372036854775808"),
    ("run --text int:5 int:5", PROGRAM, 0, "out 0 int 5"),
    ("run --text int:3 int:-4", PROGRAM.replace("+0", "+1").replace("STORE", "COPY v2 v0\nSTORE"), 0, "out 0 int 3"),
    ("check --text", PROGRAM.replace("version 2", "version 4"), 0, "accepted"),
    ("check --text", PROGRAM.replace("version 2\n", ""), 1, "refused A01"),
    ("check --text", PROGRAM.replace("MIN v2 v0 v1 +0", "MIN v2 v0 v1"), 1, "refused A02"),
)


def copy_sources(root: Path) -> None:
    """Copies these files."""
    for name in COPIED:
        if (ROOT / name).is_file():
            shutil.copy(ROOT / name, root / name)
        else:
            shutil.copytree(ROOT / name, root / name, ignore=shutil.ignore_patterns("out", "__pycache__"))


def add_rows(root: Path, edits: tuple[Edit, ...]) -> None:
    """Makes edits by hand, and then the rows that follow."""
    for edit in edits:
        path = root / "crates" / edit.path
        path.write_text(edit.made(path.read_text(encoding="utf-8")), encoding="utf-8")
    for name, text in instruction_rows.made(root).items():
        (root / "crates" / name).write_text(text, encoding="utf-8")


def kept(root: Path) -> dict[Path, str]:
    """Returns the files that edits and rows change, as they are."""
    names = {edit.path for edit in EDITS} | {region.path for region in instruction_rows.REGIONS}
    return {root / "crates" / name: (root / "crates" / name).read_text(encoding="utf-8") for name in names}


def without(root: Path, left_out: Edit) -> list[str]:
    """Returns what the scripts say if an edit is left out. The files are then as before."""
    before = kept(root)
    try:
        add_rows(root, tuple(edit for edit in EDITS if edit != left_out))
        return instructions.missing(root)
    except SystemExit as fault:
        return [str(fault)]
    finally:
        for path, text in before.items():
            path.write_text(text, encoding="utf-8")


def checks_of_rows(root: Path) -> Iterator[tuple[bool, str]]:
    """Checks that each edit is missed, and that none is with all of them; these stay."""
    for edit in EDITS:
        if not edit.is_optional and edit.path != instruction_rows.VARIANTS:
            yield bool(without(root, edit)), f"{edit.path}: nothing misses {edit.added.strip()}"
    add_rows(root, EDITS)
    yield from ((False, fault) for fault in instructions.faults(root))
    yield True, "all rows"


def checks_of_runs(root: Path) -> Iterator[tuple[bool, str]]:
    """Builds the program, unverified, and runs MIN."""
    found = subprocess.run([root / "script/find.sh", "tw_main", str(root / "out")], stdout=subprocess.PIPE, text=True, check=False)
    kind, _, program = found.stdout.strip().partition(" ")
    yield kind == "unverified", f"the build: {kind or found.returncode}"
    for words, text, status, begin in RUNS if program else ():
        done = subprocess.run([program, *words.split()], input=text, stdout=subprocess.PIPE, stderr=subprocess.DEVNULL, text=True, check=False)
        yield done.returncode == status and done.stdout.startswith(begin), f"{words}: status {done.returncode}, {done.stdout[:100]!r}, not {status}, {begin}"


def main(words: list[str]) -> int:
    """Does what the arguments say, and returns the exit status."""
    folders = [word for word in words if word != "--rows"]
    if len(words) > 1 or any(word.startswith("-") for word in folders):
        print(__doc__)
        return 2
    with tempfile.TemporaryDirectory() as name:
        root = Path(*folders or [name])
        root.mkdir(parents=True, exist_ok=not folders)
        copy_sources(root)
        found = list(checks_of_rows(root))
        if not words:
            found += checks_of_runs(root)
    failed = [what for holds, what in found if not holds]
    print("".join(f"FAILED {what}\n" for what in failed) + f"{len(found) - len(failed)} passed, {len(failed)} failed")
    return 1 if failed else 0
