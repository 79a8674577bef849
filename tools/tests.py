"""Runs the tests of the tools, or those whose names have one of these words: ./dev test WORD.. Each row of a table is one."""

import unittest

from tools import ROOT


class Result(unittest.TextTestResult):
    """Counts rows, too."""

    rows = 0

    def addSubTest(self, test: unittest.TestCase, subtest: unittest.TestCase, err: object) -> None:
        self.rows += err is None
        super().addSubTest(test, subtest, err)  # type: ignore[arg-type]


def main(words: list[str]) -> int:
    """Returns an exit status; no test is no pass."""
    loader = unittest.TestLoader()
    loader.testNamePatterns = [f"*{word}*" for word in words] or None
    result = unittest.TextTestRunner(resultclass=Result).run(loader.discover(str(ROOT / "tools"), top_level_dir=str(ROOT)))
    assert isinstance(result, Result)
    passed = result.testsRun + result.rows - len(result.failures) - len(result.errors) - len(result.skipped)
    print(f"{passed} passed, {len(result.failures) + len(result.errors)} failed", flush=True)
    return 0 if result.wasSuccessful() and result.testsRun else 1
