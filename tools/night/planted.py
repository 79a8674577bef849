"""Plants faults, and sees that harnesses fail on them: a program that always rejects, one that is always quiet, a static one that asks for no memory,
and a library without calls. Those that test a clone get one with an edit. Prints a line for each harness, and ends with `N noticed, M not`.

    ./dev planted          all but those of clones
    ./dev planted NAME..   these harnesses, those of clones among them"""

import os
import shutil
import subprocess
import tempfile
from collections.abc import Callable, Iterator
from pathlib import Path

from tools import ROOT
from tools.common.program import ARCHIVE, LIBRARY, PROGRAM, found
from tools.harnesses import TOOLS, Run, Tool
from tools.night.runner import FAILED, Runner, heed_signals

# Harnesses that test a clone of what is committed: the file of an edit, its text and another one. They take minutes, and need a release.
CLONES = {
    "installed": ("script/install.sh", "xargs -r -d '\\n' rm -f --", ":"),
    "released": ("docs/HOSTING.md", "\n```sh\n", "\n```sh\nexit 3\n"),
    "packaged": ("tools/release/package.py", "Depends: libc6", "Depends: no-such-libc6"),
    "wheel": ("tools/release/package.py", 'files["yuglemit/lib/libyuglemit.so"] = library.read_bytes()', "pass"),
    "page": ("page/machine.js", "ADD: (a, b) => checked(a + b)", "ADD: (a, b) => a + b"),
}
# Those that plant faults themselves, and those.
LEFT = {"planted", "mutants", "must_fail", *CLONES}
# Kinds of fuzz tests that call the program, and the others that do.
BY_PROGRAM = {tool.name for tool in TOOLS if not tool.name.startswith("fuzz_")} | {"fuzz_args", "fuzz_each", "fuzz_orders", "fuzz_run"}
# Those that don't call the library, or only in a part that isn't tried.
BY_LIBRARY = {tool.name for tool in TOOLS} - {"many", "embedded", "test"}
# Of these a part is enough.
PARTS = {"hostile": "--only line --commands 2", "memory": "--only pipeline", "prices": "ADD", "refused": "--most 3", "python": "test_program",
         "builder": "test_build", "many": "lines", "embedded": "c", "test": "test_orders"}
SECONDS = 300


def script(text: str) -> Callable[[Path], None]:
    """Returns what writes a program that only prints a text, with a status."""

    def write(path: Path) -> None:
        path.write_text(f"#!/bin/sh\n{text}\n", encoding="utf-8")

    return write


def static(path: Path) -> None:
    """Writes a static program that is quiet."""
    source = 'void _start(void) { __asm__("mov $1,%eax; mov $1,%edi; lea quiet(%rip),%rsi; mov $6,%edx; syscall; mov $60,%eax; xor %edi,%edi; syscall; quiet: .ascii \\"quiet\\\\n\\""); }'
    subprocess.run(["cc", "-x", "c", "-nostdlib", "-static", "-o", str(path), "-"], input=source.encode(), check=True)


def empty(path: Path) -> None:
    """Writes a library without calls."""
    subprocess.run(["cc", "-x", "c", "-shared", "-o", str(path), "-"], input=b"int none;", check=True)


def no_archive(path: Path) -> None:
    """Writes an archive without calls."""
    with tempfile.TemporaryDirectory() as room:
        subprocess.run(["cc", "-x", "c", "-c", "-o", f"{room}/none.o", "-"], input=b"int none;", check=True)
        path.unlink(missing_ok=True)
        subprocess.run(["ar", "rc", str(path), f"{room}/none.o"], check=True)


# The file that is planted for each, and which harnesses have to notice: those that test its crate, or these.
FAULTS: tuple[tuple[str, str, Callable[[Path], None], set[str]], ...] = (
    ("a program that always rejects", PROGRAM, script("echo 'refused V10 in procedure 0 at place 0'; exit 1"), BY_PROGRAM),
    ("a program that is always quiet", PROGRAM, script("echo quiet"), BY_PROGRAM),
    ("a program that answers at the end", PROGRAM, script("read line; cat >/dev/null; echo '{\"line\":1,\"status\":\"quiet\"}'"), {"stream"}),
    ("a static program", PROGRAM, static, {"refused"}),
    ("a library without calls", LIBRARY, empty, BY_LIBRARY),
    ("an archive without calls", ARCHIVE, no_archive, set()),
    ("cases that are quiet", "tw_cases", script("echo quiet"), set()),
)


def folder_with(room: Path, crate: str, write: Callable[[Path], None]) -> Path:
    """Makes a folder of programs with a fault in one."""
    folder = Path(tempfile.mkdtemp(dir=room))
    for name in (PROGRAM, LIBRARY, ARCHIVE, "tw_cases", "tw_host_cases"):
        path = folder / found(name).path.name
        if name == crate:
            write(path)
        else:
            shutil.copy(found(name).path, path)
        path.chmod(0o755)
    return folder


def rows(crate: str, names: set[str], words: list[str]) -> Iterator[Tool]:
    """Yields the harnesses that have to notice a fault of a crate, in the form that is tried."""
    for tool in TOOLS:
        is_asked = (not words or tool.name in words) and (not names or tool.name in names)
        if tool.is_harness and crate in tool.tests.split() and tool.name not in LEFT and is_asked:
            words_of = PARTS.get(tool.name, tool.short.words if tool.short else "")
            # A fault has to be noticed, not only that there are few tests.
            short = Run(words_of, 1) if tool.name in PARTS or tool.name.startswith("fuzz_") else tool.short
            yield tool._replace(short=short, is_beside=True, limit=SECONDS)


def clone_with(room: Path, name: str) -> Path:
    """Makes a clone of what is committed, and commits the edit of a harness there."""
    clone, (file, old, new) = room / name, CLONES[name]
    subprocess.run(["git", "clone", "-q", str(ROOT), str(clone)], check=True)
    (clone / file).write_text((clone / file).read_text(encoding="utf-8").replace(old, new), encoding="utf-8")
    subprocess.run(["git", "-C", str(clone), "-c", "user.name=A", "-c", "user.email=a@b", "commit", "-qam", "A fault"], check=True)
    return clone


def noticed(what: str, folder: Path, room: Path, environment: dict[str, str], tools: list[Tool]) -> list[bool]:
    """Runs harnesses in a folder, prints a line for each, and returns whether they failed."""
    runner = Runner(folder, room, {"seed": "1", "count": "1000", "seconds": "6"}, float(os.environ.get("PATIENCE", "1")), environment=environment)
    print(f"{what}:", flush=True)
    runner.say = lambda ended: print(f"  {'noticed' if ended.outcome == FAILED else 'MISSED '} {ended.line()}", flush=True)
    heed_signals(runner)
    return [ended.outcome == FAILED for ended in runner.run_all(tools, 2)]


def main(words: list[str]) -> int:
    """Plants all faults; returns an exit status."""
    found: list[bool] = []
    with tempfile.TemporaryDirectory() as name:
        room = Path(name)
        for what, crate, write, names in FAULTS:
            folder = folder_with(room, crate, write)
            environment = {"TW_OUT": str(folder), "YUGLEMIT_LIBRARY": str(folder / "libyuglemit.so")}
            found += noticed(what, ROOT, room, environment, list(rows(crate, names, words)))
        for tool in TOOLS:
            if tool.name in CLONES and tool.name in words:
                found += noticed(f"an edit of {CLONES[tool.name][0]}", clone_with(room, tool.name), room, {}, [tool])
    print(f"{sum(found)} noticed, {found.count(False)} not")
    return 0 if found and all(found) else 1
