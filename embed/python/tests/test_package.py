# SPDX-License-Identifier: Apache-2.0
"""The package: its version, its types, its documented examples."""

from __future__ import annotations

import doctest
import importlib
import inspect
import os
import pkgutil
import unittest
from pathlib import Path

import yuglemit
from common import ROOT


def load_tests(loader: unittest.TestLoader, tests: unittest.TestSuite, pattern: str) -> unittest.TestSuite:
    """Adds the examples of docstrings and of README.md."""
    for it in pkgutil.walk_packages(yuglemit.__path__, "yuglemit."):
        if not it.name.endswith("__main__"):
            tests.addTests(doctest.DocTestSuite(importlib.import_module(it.name)))
    tests.addTests(doctest.DocFileSuite(str(ROOT / "embed" / "python" / "README.md"), module_relative=False, setUp=lambda _: os.chdir(ROOT)))
    return tests


class Package(unittest.TestCase):
    def test_version(self) -> None:
        status, answer = yuglemit.session(["--version"])
        self.assertEqual(status, 0)
        if yuglemit.__version__ != "0":  # a folder of modules without the repository has none
            self.assertEqual(answer.decode().split(), ["tw", yuglemit.__version__])
        if (ROOT / "VERSION").exists():
            self.assertEqual((ROOT / "VERSION").read_text(encoding="utf-8").strip(), yuglemit.__version__)

    def test_types_are_part_of_it(self) -> None:
        self.assertTrue((Path(yuglemit.__file__).parent / "py.typed").exists())

    def test_public_names(self) -> None:
        public = {name for name in dir(yuglemit) if not name.startswith("_")}
        modules = {"build"}
        self.assertEqual(public - modules, set(yuglemit.__all__) - {"__version__"})

    def test_each_public_thing_says_what_it_does(self) -> None:
        for name in yuglemit.__all__:
            it = getattr(yuglemit, name)
            if inspect.isclass(it) or inspect.isfunction(it):
                self.assertTrue(it.__doc__, name)
                for method, its in vars(it).items() if inspect.isclass(it) else ():
                    if inspect.isfunction(its) and not method.startswith("_"):
                        self.assertTrue(its.__doc__, f"{name}.{method}")
                        self.assertIn("return", its.__annotations__, f"{name}.{method}")

    def test_no_module_is_long(self) -> None:
        for path in Path(yuglemit.__file__).parent.rglob("*.py"):
            self.assertLess(len(path.read_text().splitlines()), 520, path)

    def test_manual_is_short(self) -> None:
        for name, most in (("BUILD.md", 1000), ("MANY.md", 900)):
            path = ROOT / "docs" / name
            if path.exists():
                self.assertLessEqual(len(path.read_text(encoding="utf-8").split()), most, name)


if __name__ == "__main__":
    unittest.main()
