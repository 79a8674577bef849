# SPDX-License-Identifier: Apache-2.0
"""The library of a clone that has only a release: it is unpacked where it can be, once, and checked each time."""

from __future__ import annotations

import gzip
import hashlib
import os
import tempfile
import unittest
from pathlib import Path
from unittest import mock

from yuglemit._released import released_library

LIBRARY = b"\x7fELF, as far as these tests go"


class Released(unittest.TestCase):
    def setUp(self) -> None:
        kept = tempfile.TemporaryDirectory()
        self.addCleanup(kept.cleanup)
        self.root = Path(kept.name) / "clone"
        self.cache = Path(kept.name) / "cache"
        (self.root / "release").mkdir(parents=True)
        self.release(LIBRARY, hashlib.sha256(LIBRARY).hexdigest())
        patched = mock.patch.dict(os.environ, XDG_CACHE_HOME=str(self.cache))
        patched.start()
        self.addCleanup(patched.stop)

    def release(self, data: bytes, digest: str) -> None:
        (self.root / "release" / "libyuglemit.so.gz").write_bytes(gzip.compress(data))
        (self.root / "release" / "MANIFEST").write_text(f"version 1\nfile tw 3 00\nfile libyuglemit.so {len(data)} {digest}\n", encoding="utf-8")

    def found(self) -> str:
        released_library.cache_clear()
        path = released_library(self.root)
        assert path is not None
        self.assertEqual(Path(path).read_bytes(), LIBRARY)
        return path

    def test_once(self) -> None:
        path = self.found()
        self.assertEqual(path, str(self.root / "out" / "release" / "libyuglemit.so"))
        before = os.stat(path).st_mtime_ns
        self.assertEqual((self.found(), os.stat(path).st_mtime_ns), (path, before))
        self.assertEqual(sorted(it.name for it in Path(path).parent.iterdir()), ["libyuglemit.so", "libyuglemit.so.sum"])

    def test_a_file_that_is_another_one_is_replaced(self) -> None:
        Path(self.found()).write_bytes(b"another")
        self.found()

    def test_where_the_clone_has_no_place(self) -> None:
        (self.root / "out").write_text("a file")
        self.assertEqual(Path(self.found()).parents[1], self.cache / "yuglemit")
        self.cache.rename(self.root / "away")
        self.cache.write_text("a file")
        self.assertTrue(self.found().startswith(tempfile.gettempdir()))

    def test_a_release_that_is_not_what_it_says(self) -> None:
        self.release(b"another", hashlib.sha256(LIBRARY).hexdigest())
        released_library.cache_clear()
        with self.assertRaisesRegex(ImportError, "MANIFEST"):
            released_library(self.root)
        self.assertFalse((self.root / "out").exists())

    def test_no_release(self) -> None:
        (self.root / "release" / "MANIFEST").unlink()
        released_library.cache_clear()
        self.assertIsNone(released_library(self.root))


if __name__ == "__main__":
    unittest.main()
