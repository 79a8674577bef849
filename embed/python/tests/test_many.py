# SPDX-License-Identifier: Apache-2.0
"""examples/many/: a folder's files are read as `tw run --inputs` reads them. Each has a line of the table."""

from __future__ import annotations

import importlib
import io
import os
import subprocess
import sys
import tempfile
import unittest
from pathlib import Path
from typing import Any, List

import yuglemit
from common import EXAMPLES, sized

sys.path.insert(0, str(EXAMPLES / "many"))
folder: Any = importlib.import_module("folder")

SQUARES = "0\tout 0 cont int closed 2;  at 1 int 9;  at 2 int 49;out 1 int 58;quiet;"
# The bytes of a file, and the line of its run by examples/mapreduce.twn as docs/FORMAT.md has it: the squares and their sum, or the error.
FILES = [
    (b"ints:1=3,2=7\n", SQUARES),
    (b"ints:1=3,2=7", SQUARES),
    (b"\r\nints:1=3,2=7\r\n\r\n", SQUARES),
    (b"ints:1=3,2=7\nend\nwhatever\n", SQUARES),
    (b"ints:1=3,2=7\r\nend\r\n39\r\n", SQUARES),
    (b"ints:\n", "0\tout 0 cont int closed 0;out 1 int 0;quiet;"),
    (b"39\n", '2\tinput word 1 refused;input 1: "39": expected int:, '),
    (b" \n", '2\tinput word 1 refused;input 1: " ": expected int:, '),
    (b"ints:1=3,2=7\r", "2\tinput word 1 refused;input 1: "),
    (b"ints:1=3,2=7\nend \n", "2\tinput word 2 refused;input 2: "),
    (b"ints:1=3,1=7\n", "1\trefused O02;input 1 "),
    (b"text:--help\n", "1\trefused O02;input 1 is text, required: cont int, such as ints:1=7;"),
    (b"tints:\n", "1\trefused O02;input 1 is tcont int, required: cont int, such as ints:1=7;"),
    (b"ints:\nints:\n", "1\trefused O01;inputs given: 2, required: 1, such as ints:1=7;"),
    (b"end\n", "1\trefused O01;inputs given: 0, required: 1, such as ints:1=7;"),
    (b"", "1\trefused O01;inputs given: 0, required: 1, such as ints:1=7;"),
    (b"ints:1=3,2=7\nend\n\xff", "1\trefused H03"),
    (b"ints:1=3\xff\n", "1\trefused H03"),
]


class Folder(unittest.TestCase):
    def setUp(self) -> None:
        kept = tempfile.TemporaryDirectory()
        self.addCleanup(kept.cleanup)
        self.folder = kept.name
        for number, (data, _) in enumerate(FILES):
            (Path(kept.name) / f"n{number:02}.in").write_bytes(data)

    def check(self, text: str) -> None:
        lines: List[str] = text.split("\n")
        self.assertEqual(lines.pop(), "")
        for number, (line, (data, expected)) in enumerate(zip(lines, FILES)):
            self.assertTrue(line.startswith(f"n{number:02}\t{expected}"), (data, line))
            self.assertTrue(expected[0] != "0" or line == f"n{number:02}\t{expected}", (data, line))
        self.assertEqual(len(lines), len(FILES))

    def test_table(self) -> None:
        program, out = yuglemit.load(EXAMPLES / "mapreduce.twn"), io.StringIO()
        folder.table(program, folder.read(program, self.folder), file=out)
        self.check(out.getvalue())

    def test_answers_of_wrong_files_are_those_of_the_command(self) -> None:
        program, out = yuglemit.load(EXAMPLES / "mapreduce.twn"), io.StringIO()
        folder.table(program, folder.read(program, self.folder), file=out)
        for line, (data, _) in zip(out.getvalue().split("\n"), FILES):
            status, answer = yuglemit.session(["run", "--inputs", "--text"], (EXAMPLES / "mapreduce.twn").read_bytes() + b"\ninputs\n" + data)
            self.assertEqual(line.split("\t", 1)[1], f"{status}\t{answer.decode()}".replace("\n", ";"), data)

    def test_program_of_bytes(self) -> None:
        """Its errors have no further lines, as those of hex text; a container has at most 1,000 members (O02)."""
        program, out = yuglemit.load(yuglemit.assemble(sized("cont int"))), io.StringIO()
        more = ",".join(f"{number}=0" for number in range(1001))
        (Path(self.folder) / "n06.in").write_bytes(f"ints:{more}\n".encode())
        folder.table(program, folder.read(program, self.folder)[5:8], file=out)
        lines = out.getvalue().split("\n")
        self.assertEqual(lines[:2], ["n05\t0\tout 0 int 0;quiet;", "n06\t1\trefused O02;"])
        self.assertRegex(lines[2], "^n07\t2\tinput word 1 refused;")

    def test_processes_and_a_share_of_a_job(self) -> None:
        many, program = EXAMPLES / "many", str(EXAMPLES / "mapreduce.twn")
        its = {**os.environ, "PYTHONPATH": str(Path(yuglemit.__file__).parents[1])}
        done = subprocess.run([sys.executable, "-B", str(many / "processes.py"), program, self.folder], capture_output=True, text=True, env=its)
        self.assertEqual(done.stderr, "")
        self.check(done.stdout)
        with tempfile.TemporaryDirectory() as results:
            for job in range(4):
                its.update(SLURM_ARRAY_TASK_ID=str(job), SLURM_ARRAY_TASK_COUNT="4")
                subprocess.run([sys.executable, "-B", str(many / "slurm_array.py"), program, self.folder, results], check=True, env=its)
            lines = "".join((Path(results) / f"{job}.table").read_text(encoding="utf-8") for job in range(4)).split("\n")
        self.check("\n".join(sorted(lines)[1:]) + "\n")


if __name__ == "__main__":
    unittest.main()
