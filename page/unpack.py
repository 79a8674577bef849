# SPDX-License-Identifier: Apache-2.0
"""Takes the WebAssembly module out of a page: unpack.py INDEX.html MODULE.wasm. join.py put it there."""

from __future__ import annotations

import base64
import gzip
import re
import sys
from pathlib import Path


def module_of(page: bytes) -> bytes:
    """Returns the module of a page."""
    found = re.search(rb'wasm = \\?"([A-Za-z0-9+/=]+)', page)
    if not found:
        sys.exit("unpack: the page has no module")
    return gzip.decompress(base64.b64decode(found[1]))


if __name__ == "__main__":
    Path(sys.argv[2]).write_bytes(module_of(Path(sys.argv[1]).read_bytes()))
