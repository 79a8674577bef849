"""Tests of ./dev instructions in a small repository."""

from tools.common.testing import Table, folder_of, put, replace, said
from tools.sources import instructions

OPCODES = """pub enum Opcode {
    Add = 0x10,
    Store = 0x31,
}
pub const OPCODES: [Opcode; 2] = [
    Opcode::Add, Opcode::Store,
];
fn f() {
        Opcode::Add => "ADD",
        Opcode::Store => "STORE",
}
"""
VARIANTS = """pub enum LocalInstr {
    /// ADD.
    Add {
        to: u8,
    },
    Fly,
}

pub enum DataInstr {
    Store {
        datum: u8,
    },
}

pub enum Arithmetic {
    Minus,
}
"""
RESULTS = """use Rattle.tw_code.specs.declared.instr.Arithmetic.TheVariants.{Minus}
result_of Minus a b = a
"""
EFFECTS = """use Rattle.tw_code.specs.declared.instr.LocalInstr.TheVariants as local
effect (local.Add to) = tt
effect local.Fly = tt
"""
WAITS = """use Rattle.tw_code.specs.declared.instr.DataInstr.TheVariants.{Store, Other}
written (Store datum from) = None
"""
WHOLES = (
    instructions.Whole("tw_code/src/opcode.rt", "Opcode", (r"^    NAME = 0x", r"^    (?:.* )?Opcode::NAME,(?: |$)", r'Opcode::NAME => "')),
    instructions.Whole("tw_code/specs/Local.antt", "LocalInstr"),
    instructions.Whole("tw_stats/specs/Waits.antt", "DataInstr"),
    instructions.Whole("tw_code/specs/Results.antt", "Arithmetic"),
)
PARTS = ("tw_asm/src/skip.rt",)


class Rows(Table):
    def setUp(self) -> None:
        self.root = folder_of(self)
        files = {"docs/ADDING.md": " ".join(f"`{path}`" for path in ("tw_code/src/instr.rt", *PARTS, *(whole.path for whole in WHOLES)))}
        for path, text in (("tw_code/src/opcode.rt", OPCODES), ("tw_code/src/instr.rt", VARIANTS), ("tw_code/specs/Local.antt", EFFECTS),
                           ("tw_stats/specs/Waits.antt", WAITS), ("tw_code/specs/Results.antt", RESULTS), ("tw_asm/src/skip.rt", "LocalInstr::Fly => 0,\n"),
                           ("tw_cases/src/a.rt", "LocalInstr::Fly => 0,\n"), ("tw_code/out/a.rt", "LocalInstr::Fly => 0,\n")):
            files[f"crates/{path}"] = text
        self.files = files
        replace(self, instructions, WHOLES=WHOLES, PARTS=PARTS, SHOWN_ONE=())

    def found(self, **others: str) -> list[str]:
        """Returns the faults with other texts of files, each up to its first comma."""
        put(self.root, {**self.files, **others})
        return [fault.split(",")[0] for fault in instructions.faults(self.root)]

    def test_rows(self) -> None:
        opcodes, variants, results = ("crates/tw_code/src/opcode.rt", "crates/tw_code/src/instr.rt", "crates/tw_code/specs/Results.antt")
        minimum = VARIANTS.replace("    Minus,\n", "    Minus,\n    Minimum,\n")
        imported = RESULTS.replace("{Minus}", "{Minus, Minimum}")
        rows: tuple[tuple[str, dict[str, str], list[str]], ...] = (
            ("all is well", {}, []),
            ("by its name", {"crates/tw_code/specs/Local.antt": EFFECTS.replace("effect local.Fly = tt\n", "")}, ["tw_code/specs/Local.antt: no row of Fly"]),
            *((row, {opcodes: OPCODES.replace(row, row.replace("Opcode::Store", "Opcode::Other"))}, ["tw_code/src/opcode.rt: no row of Store"])
              for row in ("    Opcode::Add, Opcode::Store,", '        Opcode::Store => "STORE",')),
            ("a new variant", {variants: VARIANTS.replace("    Fly,\n", "    Fly,\n    Min { to: u8 },\n")}, ["tw_code/specs/Local.antt: no row of Min"]),
            ("no row", {variants: minimum}, ["tw_code/specs/Results.antt: no row of Minimum"]),
            ("a row without an import", {variants: minimum, results: RESULTS + "result_of Minimum a b = b\n"}, ["tw_code/specs/Results.antt: no row of Minimum"]),
            ("a row and an import", {variants: minimum, results: imported + "result_of Minimum a b = b\n"}, []),
            ("an import alone", {"crates/tw_stats/specs/Waits.antt": WAITS.replace("written (Store datum from)", "written x")},
             ["tw_stats/specs/Waits.antt: no row of Store", "tw_stats/specs/Waits.antt: is in a list of ./dev instructions"]),
            ("a listed file that names none", {"crates/tw_asm/src/skip.rt": "Local::Fly => 0,\n"}, ["tw_asm/src/skip.rt: is in a list of ./dev instructions"]),
            ("files that the document lacks", {"docs/ADDING.md": "`tw_code/src/instr.rt` `tw_code/src/opcode.rt` `tw_asm/src/skip.rt` tw_stats/specs/Waits.antt"},
             [f"docs/ADDING.md: doesn't name {path}" for path in ("tw_code/specs/Local.antt", "tw_code/specs/Results.antt", "tw_stats/specs/Waits.antt")]),
            ("a file in no list", {"crates/tw_frame/specs/deep/New.antt": "use Rattle.tw_code.specs.declared.instr.LocalInstr.TheVariants as op\nf op.Fly = 0\n"},
             ["tw_frame/specs/deep/New.antt: names Fly"]),
        )
        self.compare(lambda files: self.found(**files), *rows)

    def test_a_file_without_all_its_rows_is_missing(self) -> None:
        del self.files["crates/tw_stats/specs/Waits.antt"]
        self.assertEqual(self.found()[0], "tw_stats/specs/Waits.antt: no row of Store")

    def test_rows_are_listed(self) -> None:
        self.found()
        status, text = said(instructions.print_rows, self.root, "Store")
        self.assertEqual((status, said(instructions.print_rows, self.root, "Other")[0]), (0, 1))
        self.assertIn("crates/tw_stats/specs/Waits.antt:2: written (Store datum from) = None\nStore is in 3 files\n", text)
