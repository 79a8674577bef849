# SPDX-License-Identifier: Apache-2.0
"""Checks that mypy --strict passes right scripts of users and finds wrong calls, and what `help` lists."""

from __future__ import annotations

import os
import pydoc
import re
import shutil
import subprocess
import tempfile
import unittest
from pathlib import Path

import yuglemit

RIGHT = '''
import pathlib
from concurrent.futures import ProcessPoolExecutor
from typing import Dict, List, Tuple

import yuglemit

program: yuglemit.Program = yuglemit.load(pathlib.Path("sum.twn"))
by_text, by_bytes = yuglemit.load_text(b"RET"), yuglemit.load_bytes(b"TWB")
report = program.run({1: 7, 5: -3}, "a", 3, {"a": "b"}, {}, limit=100, timeout=1.5, most_tasks=7, stop=yuglemit.Stop())
print(report.outputs[0], report.end, report.events + 1, report.text.split(), report.circle[0].rule)
program.run(report.outputs[0], [1, 2], ["a"])
program.run(*[yuglemit.read_input(word) for word in ("int:7", "ints:1=2")])
pairs: List[Tuple[Dict[int, int], int]] = [({1: 2}, 3)]
with ProcessPoolExecutor() as pool:
    for one in yuglemit.map(program, pairs, pool, chunk=3, window=4, on_broken="here", text=True):
        print(one.error, one.line)
for one in yuglemit.map([program, program], iter([1, 2])):
    print(one.tasks + one.instructions)
for one in yuglemit.map(program, range(4), progress=lambda done, count: print(done / count)):
    print(one.again(timeout=3).trace, one.timeline(timeout=3, stop=yuglemit.Stop()))
for one in yuglemit.map(program, [1], deadline=60, on_broken="error", limit=None):
    print(one.partial[0], one.same_in_every_order(timeout=1.5))


async def serve() -> List[yuglemit.Output]:
    answer = await program.run_async(3, timeout=1)
    return answer.outputs


try:
    program.run(7)
except yuglemit.Refused as why:
    print((why.line or 0) + 1, why.code)
except yuglemit.Unfinished as late:
    print(late.report.end, late.report.unfinished[0] + 1)
'''

# Calls that mypy has to find, with a word of what it says.
WRONG = [
    ("program.run(1.5)", "float"),
    ("program.run({1: 1.5})", "float"),
    ("program.run([1.5])", "float"),
    ("program.run(1, nope=1)", "nope"),
    ("program.run(1, stop=True)", "bool"),
    ("program.run(1, timeout='1')", "str"),
    ("yuglemit.map(program, [1], nope=1)", "nope"),
    ("yuglemit.map(program, [1.5])", "float"),
    ("yuglemit.map(program, [1], chunk='a')", "str"),
    ("yuglemit.map(program, [1], deadline='a')", "str"),
    ("program.run(1).timeline(timeout='a')", "str"),
    ("yuglemit.load(7)", "int"),
    ("yuglemit.load_bytes('a')", "str"),
    ("yuglemit.explain(7)", "int"),
    ("program.run(1).outputs + 1", "__add__"),
    ("program.run(1).made", "made"),
    ("program.replay(b'')", "bytes"),
]


class Types(unittest.TestCase):
    def checked(self, text: str) -> str:
        mypy = shutil.which("mypy")
        if mypy is None:
            self.skipTest("mypy isn't installed")
        with tempfile.TemporaryDirectory() as folder:
            file = Path(folder) / "user.py"
            file.write_text(text, encoding="utf-8")
            its = {"MYPY_CACHE_DIR": f"{folder}/kept", **os.environ, "MYPYPATH": str(Path(yuglemit.__file__).parents[1])}
            words = [mypy, "--strict", "--no-error-summary", str(file)]
            return subprocess.run(words, stdout=subprocess.PIPE, text=True, check=False, env=its).stdout

    def test_right_calls(self) -> None:
        self.assertEqual(self.checked(RIGHT), "")

    def test_wrong_calls(self) -> None:
        head = "import yuglemit\n\nprogram = yuglemit.load('')\n"
        said = self.checked(head + "\n".join(call for call, _ in WRONG) + "\n")
        for number, (call, word) in enumerate(WRONG, head.count("\n") + 1):
            self.assertTrue(re.search(rf"(?m)user.py:{number}: error: .*{word}", said), call)


class Help(unittest.TestCase):
    def test_what_a_user_needs(self) -> None:
        """No constructor, no special method and nothing of the library is listed; each public class has its own names."""
        text = pydoc.plain(pydoc.render_doc(yuglemit)).split("\nDATA\n")[0]
        for hidden in ("libyuglemit", "__init__", "__eq__", "__match_args__", "Methods inherited", "_made", "Program(kept", "Needs(engines"):
            self.assertTrue(hidden not in text, hidden)
        for shown in ("run_async(", "load_text(", "again(", "events_within(", "Stop", "class Bounds", "rule\n", "engines\n"):
            self.assertTrue(shown in text, shown)
        self.assertLess(len(text.split("\n")), 520)
        modules = re.findall(r"^    (\w+)", text.split("PACKAGE CONTENTS", 1)[1].split("CLASSES", 1)[0], re.M)
        self.assertEqual([it for it in modules if not it.startswith("_")], ["build"])


if __name__ == "__main__":
    unittest.main()
