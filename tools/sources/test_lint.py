"""Tests that ./dev lint notices a fault of each language, and counts what it checks."""

import os
import shutil
import subprocess
import unittest

from tools import ROOT
from tools.common.testing import folder_of, put

LINT = "tools/sources/lint.sh"


@unittest.skipUnless(all(map(shutil.which, ("shellcheck", "mypy", "pyflakes3"))), "a linter isn't installed")
class LintTest(unittest.TestCase):
    def test_faults(self) -> None:
        root = folder_of(self)
        put(root, {"dev": "#!/usr/bin/env python3\n", "page/a.py": "", "bench/a.py": "", "tools/a.py": "import os\n\n\ndef one() -> int:\n    return ''\n", "a.sh": "#!/bin/sh\ncd gone\n"})
        put(root, {LINT: (ROOT / LINT).read_text(encoding="utf-8")})
        for words in (("init", "-q"), ("add", "-A")):
            subprocess.run(["git", "-C", str(root), *words], check=True)
        lint, own = ["sh", str(root / LINT)], {**os.environ, "MYPY_CACHE_DIR": f"{root}/kept"}
        done = subprocess.run(lint, stdout=subprocess.PIPE, text=True, env=own, check=False)
        self.assertEqual(done.returncode, 1)
        for fault in ("SC2164", "'os' imported but unused", "Incompatible return value type"):
            self.assertIn(fault, done.stdout)
        put(root, {"tools/a.py": "", "a.sh": "#!/bin/sh\ncd gone || exit\n"})
        self.assertEqual(subprocess.run(lint, stdout=subprocess.PIPE, text=True, env=own, check=False).stdout.splitlines()[-1:], ["6 passed"])
