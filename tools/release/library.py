"""Builds the static library where `rt ci` has proved it: library.py KIT TREE OUT, where TREE holds the crates. Puts libtw_embed.a into OUT, and
module.bc, the largest module that the toolchain's clang was handed for it, of which page/build.sh makes the page."""

import os
import subprocess
import sys
import tempfile
from pathlib import Path

sys.path.insert(0, str(Path(__file__).resolve().parents[2]))
from tools.common.kit import rtlib, wrap  # noqa: E402


def wrapped_clang(clang: Path, module: Path) -> str:
    """Returns a script that keeps the largest module that clang gets."""
    return f"""#!/bin/sh
for word; do
    case $word in
        *.bc | *.ll) [ "$(wc -c <"$word")" -gt "$(cat "{module}" 2>/dev/null | wc -c)" ] && cp "$word" "{module}" ;;
    esac
done
exec "{clang}" "$@"
"""


def main(given: list[str]) -> int:
    kit, tree, out = map(Path, given)
    folder, module = tree / "crates" / "tw_embed", out / "module.bc"
    os.chdir(folder)
    crate = rtlib(kit).Crate(str(folder), str(tree), {})
    module.unlink(missing_ok=True)
    with tempfile.TemporaryDirectory() as room:
        wrap(kit / "toolchain", Path(room), "clang", wrapped_clang(kit / "toolchain/bin/clang", module))
        words = [*crate.words(["--jobs", "1"], keeps=False), "--backend", "llvm", "--toolchain", room, "-o", str(out / "libtw_embed.a")]
        status = subprocess.run([str(kit / "bin" / "rattle"), "build", *words], check=False).returncode
    return status or int(not module.exists())


if __name__ == "__main__":
    sys.exit(main(sys.argv[1:]))
