"""Tests of ./dev instruction_rows on copies of the sources."""

import shutil
import unittest

from tools import ROOT
from tools.common.testing import folder_of
from tools.sources import instruction_rows

PATHS = (*dict.fromkeys(region.path for region in instruction_rows.REGIONS), instruction_rows.VARIANTS)
REM = "row_of opcode.Remainder = a_row 0x14 (Value ∷ Value ∷ Value ∷ Skip ∷ []) (λ x. instr.Local (local.Compute operation.Remainder x.0 x.1.0 x.1.1.0 x.1.1.1.0))\n"
MIN = REM.replace("Remainder", "Minimum").replace("0x14", "0x15")
LENGTH = "row_of opcode.Length = a_row 0x19 (Value ∷ Value ∷ []) (λ x. instr.Local (local.Length x.0 x.1.0))\n"


class Rows(unittest.TestCase):
    def setUp(self) -> None:
        self.root = folder_of(self)
        for path in PATHS:
            (self.root / "crates" / path).parent.mkdir(parents=True, exist_ok=True)
            shutil.copy(ROOT / "crates" / path, self.root / "crates" / path)

    def text(self, path: str) -> str:
        return (self.root / "crates" / path).read_text(encoding="utf-8")

    def edit(self, path: str, old: str, new: str) -> None:
        self.assertEqual(self.text(path).count(old), 1)
        (self.root / "crates" / path).write_text(self.text(path).replace(old, new), encoding="utf-8")

    def test_the_sources_have_these_rows(self) -> None:
        for path, text in instruction_rows.made(self.root).items():
            self.assertEqual(text, self.text(path))

    def test_a_row_that_is_gone_is_written(self) -> None:
        self.edit("tw_code/src/sink.rt", "        LocalInstr::Jump { skip } => sink.put(Opcode::Jump, &[Skip(*skip)]),\n", "")
        self.edit("tw_asm/specs/Seen.antt", "local_with_skip skip (local.Jump old) = local.Jump skip\n", "")
        for path, text in instruction_rows.made(self.root).items():
            self.assertEqual(text, (ROOT / "crates" / path).read_text(encoding="utf-8"))

    def test_an_operation_gets_its_rows(self) -> None:
        self.edit(instruction_rows.TABLE, REM, REM + MIN)
        self.edit(instruction_rows.TABLE, 'word_of opcode.Remainder = codes "REM"\n', 'word_of opcode.Remainder = codes "REM"\nword_of opcode.Minimum = codes "MIN"\n')
        self.edit(instruction_rows.TABLE, "since o = One\n", "since opcode.Minimum = Two\nsince o = One\n")
        texts = instruction_rows.made(self.root)
        for path, rows in {
            "tw_code/src/opcode.rt": ("    Minimum = 0x15,", "Opcode::Minimum | Opcode::InsertByText | ", '        Opcode::Minimum => "MIN",'),
            "tw_code/src/sink.rt": ("        Arithmetic::Minimum => Opcode::Minimum,",),
            instruction_rows.TABLE: ("opcode_of_operation operation.Minimum = opcode.Minimum",),
            "tw_code/src/operands.rt": ("        Opcode::Minimum => Instr::Local(LocalInstr::Compute { operation: Arithmetic::Minimum, to: first, left: second, right: third, skip }),",),
        }.items():
            for row in rows:
                self.assertIn(row, texts[path])

    def test_a_variant_gets_its_rows(self) -> None:
        self.edit(instruction_rows.VARIANTS, "    /// SHOW:", "    /// HASH.\n    Hash {\n        to: u8,\n        from: u8,\n    },\n    /// SHOW:")
        self.edit(instruction_rows.TABLE, LENGTH, LENGTH + LENGTH.replace("Length", "Hash").replace("0x19", "0x1c"))
        self.edit(instruction_rows.TABLE, 'word_of opcode.Length = codes "LEN"\n', 'word_of opcode.Length = codes "LEN"\nword_of opcode.Hash = codes "HASH"\n')
        texts = instruction_rows.made(self.root)
        self.assertIn("        LocalInstr::Hash { to, from } => sink.put(Opcode::Hash, &[Value(*to), Value(*from)]),", texts["tw_code/src/sink.rt"])
        self.assertIn("Opcode::Copy | Opcode::Length | Opcode::Hash | Opcode::Show => &[Value, Value],", texts["tw_code/src/opcode.rt"])
        self.assertIn("        Opcode::Hash => Instr::Local(LocalInstr::Hash { to: first, from: second }),", texts["tw_code/src/operands.rt"])

    def test_an_opcode_without_a_name_is_found(self) -> None:
        self.edit(instruction_rows.TABLE, 'word_of opcode.Length = codes "LEN"\n', "")
        with self.assertRaisesRegex(SystemExit, "other opcodes: Length"):
            instruction_rows.made(self.root)
