"""Makes release/ from what `rt ci` has proved: the program, the libraries, the runners of the cases, the page, the manual, and MANIFEST.

  ./dev release               runs CI (`rt ci`) on the committed files, builds everything in two folders, compares, and writes release/
  ./dev release --gate LOG    takes CI's last line from the log of a run of it on the same files
  ./dev release --once        leaves out the second build; MANIFEST says so
  ./dev release --check       builds once more from the proofs at hand, and compares with MANIFEST
  ./dev release --fresh       compares the sources with MANIFEST, and the versions with VERSION; needs no toolchain
  ./dev release --unproved FOLDER    takes the files of a folder, such as unverified builds, to try the other tools; MANIFEST says so

A release needs release/REJECTED of these sources, in which ./dev must_fail notes that the prover rejected the mutants that CI leaves out, and a
row of release/HARNESSES for each harness, which ./dev record writes from a night.
What `rt ci` proved is kept beside the toolchain. The first build takes the programs that it kept; the second, in another folder, proves
the topmost crates again over the kept libraries and compiles them anew.
"""

import argparse
import gzip
import hashlib
import importlib.machinery
import importlib.util
import os
import re
import shutil
import signal
import subprocess
import sys
import tempfile
from dataclasses import dataclass
from pathlib import Path
from typing import Any, Iterable, Mapping

from tools import ROOT
from tools.common.kit import folder as kit_folder, identity as kit_id
from tools.night import record
from tools.proofs import must_fail

# The crates that something is built of, with the file in release/.
PROGRAMS = {"tw_main": "tw", "tw_cases": "tw_cases", "tw_host_cases": "tw_host_cases"}
LIBRARY = "tw_embed"
LIBRARIES = ("libyuglemit.so", "libyuglemit.a")
PAGE = "index.html"
MANUAL = "manual.tar"
BUILT = (*PROGRAMS, LIBRARY)
# MANIFEST has this in place of CI's last line if nothing was proved.
UNPROVED = "none, since nothing was proved"
# How often it was built.
ONCE, TWICE = "once", "twice, the same in different folders"


@dataclass(frozen=True)
class Manifest:
    """The contents of release/MANIFEST. `sums` has the sum and size of each unpacked file; `sources` and `code` the sums of the crates' sources."""

    version: str
    kit: str
    gate: str
    proved: str
    compared: str
    sources: Mapping[str, str]
    code: Mapping[str, str]
    sums: Mapping[str, tuple[int, str]]

    def text(self) -> str:
        """Returns the file's text, a fact a line."""
        lines = [f"version {self.version}", f"kit {self.kit}", f"gate {self.gate}", f"proved {self.proved}", f"built {self.compared}"]
        lines += [f"sources {name} {digest}" for name, digest in self.sources.items()]
        lines += [f"code {name} {digest}" for name, digest in self.code.items()]
        lines += [f"file {name} {size} {digest}" for name, (size, digest) in self.sums.items()]
        return "\n".join(lines) + "\n"


def read_manifest(text: str) -> Manifest:
    """Returns what a text of MANIFEST says."""
    single: dict[str, str] = {}
    tables: dict[str, dict[str, str]] = {"sources": {}, "code": {}, "file": {}}
    for line in text.splitlines():
        key, _, rest = line.partition(" ")
        if key in tables:
            name, _, value = rest.partition(" ")
            tables[key][name] = value
        else:
            single[key] = rest
    sums = {name: (int(value.split()[0]), value.split()[1]) for name, value in tables["file"].items()}
    version, kit, gate, proved, compared = (single[key] for key in ("version", "kit", "gate", "proved", "built"))
    return Manifest(version, kit, gate, proved, compared, tables["sources"], tables["code"], sums)


def manifest_at_hand(root: Path) -> Manifest:
    """Returns the manifest of release/."""
    file = root / "release" / "MANIFEST"
    if not file.is_file():
        raise SystemExit("release/MANIFEST isn't there: ./dev release makes it")
    return read_manifest(file.read_text(encoding="utf-8"))


# ---- The sources


def sums_of_sources(root: Path, *crate: str) -> list[str]:
    """Returns what script/sources.sh prints: the sum of all sources, or the sums of a crate's sources and of its code."""
    ran = subprocess.run([str(root / "script" / "sources.sh"), *crate], check=True, stdout=subprocess.PIPE, text=True)
    return ran.stdout.split()


def version_of(root: Path) -> str:
    """Returns the version, which VERSION has."""
    return (root / "VERSION").read_text(encoding="utf-8").strip()


# Where the version is, and where the library's is a number, as 29000 for 0.29.
VERSIONS = {"crates/tw_cli/src/help.rt": r'const VERSION: &str = "(.*)";', "CHANGELOG.md": r"(?m)^## ([0-9.]+)"}
NUMBERS = {"crates/tw_embed/src/lib.rt": r"const VERSION: u32 = ([0-9_]+);", "embed/yuglemit.h": r"YUGLEMIT_VERSION_NUMBER (\d+)"}


def version_faults(root: Path) -> list[str]:
    """Returns what names another version than VERSION: the constants of program, library and header, and the newest section of CHANGELOG.md."""
    version, faults = version_of(root), []
    major, minor, patch = [*map(int, version.split(".")), 0, 0][:3]
    number = str(major * 1_000_000 + minor * 1_000 + patch)
    for what, expected, places in (("version", version, VERSIONS), ("number", number, NUMBERS)):
        for name, pattern in places.items():
            found = re.search(pattern, (root / name).read_text(encoding="utf-8"))
            if not found or found[1].replace("_", "") != expected:
                faults.append(f"{name} has {what} {found[1] if found else 'none'}, and VERSION {version}")
    return faults


def staleness(root: Path) -> list[str]:
    """Returns why the release isn't fresh; nothing if it is."""
    faults = version_faults(root)
    manifest = manifest_at_hand(root)
    if manifest.gate == UNPROVED:
        faults.append("its files aren't proved")
    if manifest.version != version_of(root):
        faults.append(f"the release is of version {manifest.version}, and VERSION is {version_of(root)}")
    if manifest.sources["all"] != sums_of_sources(root)[0]:
        changed = [name for name in BUILT if sums_of_sources(root, name)[0] != manifest.sources.get(name)]
        faults.append(f"sources have changed since the release, of what is built: {', '.join(changed) or 'nothing'}")
    return faults


def functions_in(text: str) -> int:
    """Returns how many functions a .rt file has: its lines that begin a function, outside of comments."""
    return len(re.findall(r"(?m)^[ \t]*(?:pub(?:\([a-z]+\))? )?(?:const )?(?:unsafe )?(?:extern \"C\" )?fn \w", text))


def what_is_proved(root: Path) -> str:
    """Returns how many crates are proved, and how many functions their sources have."""
    crates = [line for line in (root / "crates.txt").read_text(encoding="utf-8").splitlines() if re.match(r"\w", line)]
    files = sorted((root / "crates").glob("*/src/**/*.rt"))
    return f"{len(crates)} crates, {sum(functions_in(file.read_text(encoding='utf-8')) for file in files)} functions"


# ---- The builds


def copy_committed(root: Path, tree: Path, with_checks: bool) -> None:
    """Copies the committed files to a folder; without CI's other checks, leaves out mutants and fuzz tests."""
    subprocess.run(["git", "-C", str(root), "clone", "-q", "--no-hardlinks", "--depth", "1", f"file://{root}", str(tree)], check=True)
    if with_checks:
        return
    for folder in tree.glob("crates/*/must-fail"):
        shutil.rmtree(folder)
    shutil.rmtree(tree / "crates/tw_fuzz", ignore_errors=True)
    lines = (tree / "crates.txt").read_text(encoding="utf-8").splitlines(keepends=True)
    (tree / "crates.txt").write_text("".join(line for line in lines if not line.startswith("tw_fuzz")), encoding="utf-8")


def run_ci(tree: Path, log: Path) -> str:
    """Runs `rt ci` in a folder, and returns the last line of its log; ends if it fails."""
    with log.open("w", encoding="utf-8") as file:
        ran = subprocess.run(["rt", "ci"], cwd=tree, stdin=subprocess.DEVNULL, stdout=file, stderr=subprocess.STDOUT)
    last = last_line(log)
    if ran.returncode:
        raise SystemExit(f"rt ci failed: {last} ({log} has the rest)")
    return last


def last_line(log: Path) -> str:
    """Returns the last line of a log of CI, which says how many passed and failed."""
    lines = [line for line in log.read_text(encoding="utf-8", errors="replace").splitlines() if line.strip()]
    if not lines or not re.match(r"\d+ passed, 0 failed", lines[-1]):
        raise SystemExit(f"{log} isn't the log of a run of rt ci that passed")
    return lines[-1]


def load_rt(kit: Path) -> Any:
    """Returns the toolchain's command rt as a module."""
    loader = importlib.machinery.SourceFileLoader("rt", str(kit / "bin/rt"))
    spec = importlib.util.spec_from_loader("rt", loader)
    assert spec
    module = importlib.util.module_from_spec(spec)
    loader.exec_module(module)
    return module


def rebuild_program(kit: Path, tree: Path, crate: str) -> None:
    """Proves a topmost crate again over the libraries in the tree, and compiles its program anew, as `rt ci` does."""
    rt = load_rt(kit)
    os.chdir(tree)
    rt.rtlib.guarded()  # sets its handler of a signal here, in the main thread, since it proves in others
    rt.rtlib.Crate = rt.Crate
    rt.Crate.cuts_libraries = True
    rt.Crate.allowed = rt.handles_of(str(tree))
    compile_by = rt.Crate.compile_by
    # (the program is the one that LLVM compiles; CI compares what both compilers' programs print)
    rt.Crate.compile_by = lambda it, backend, *words: compile_by(it, backend, *words) if backend == "llvm" else 0
    found = [it for it in rt.crates_of(str(tree)) if it.name == crate]
    found[0].out = sys.stderr
    (tree / f"crates/{crate}/out/{crate}").unlink(missing_ok=True)
    if found[0].ci(["--jobs", str(os.cpu_count() or 1)], False):
        raise SystemExit(f"{crate} could not be built again")


def build_library(kit: Path, tree: Path) -> None:
    """Builds the libraries, and the module of which the page is made."""
    out = tree / f"crates/{LIBRARY}/out"
    out.mkdir(exist_ok=True)
    for script, words in (("library.py", [str(kit), str(tree), str(out)]), ("link_library.py", [str(kit), str(out)])):
        subprocess.run([sys.executable, "-B", str(tree / "tools" / "release" / script), *words], check=True, stdout=sys.stderr)


def build_page(tree: Path) -> None:
    """Builds the page of the library in the tree."""
    subprocess.run([str(tree / "page/build.sh")], check=True, stdin=subprocess.DEVNULL, stdout=sys.stderr)


def build_manual(tree: Path, to: Path) -> None:
    """Packs the documents of a tree as HTML."""
    subprocess.run([str(tree / "dev"), "site", "--archive", str(to)], check=True)


def strip(kit: Path, room: Path, file: Path) -> None:
    """Removes symbols from a program, and the section that names the compiler."""
    tool = room / "llvm-strip"
    if not tool.is_symlink():
        tool.symlink_to(kit / "toolchain/bin/clang")
    subprocess.run([str(tool), "--strip-all", "--remove-section=.comment", str(file)], check=True)


def build_others(kit: Path, tree: Path, to: Path) -> Path:
    """Builds what isn't a program in a tree, and copies all to a folder, under the names that release/ has, stripped; returns the folder."""
    build_library(kit, tree)
    build_page(tree)
    to.mkdir()
    for crate, name in PROGRAMS.items():
        shutil.copyfile(tree / f"crates/{crate}/out/{crate}", to / name)
        strip(kit, to.parent, to / name)
    for name in LIBRARIES:
        shutil.copyfile(tree / f"crates/{LIBRARY}/out/{name}", to / name)
    shutil.copyfile(tree / "page/out" / PAGE, to / PAGE)
    build_manual(tree, to / MANUAL)
    return to


def build_first(kit: Path, room: Path, with_checks: bool) -> tuple[Path, str]:
    """Builds everything from what `rt ci` kept; returns the folder of the files and CI's last line."""
    tree = room / "first"
    copy_committed(ROOT, tree, with_checks)
    gate = run_ci(tree, room / "ci.log")
    return build_others(kit, tree, room / "files-first"), gate


def rebuild_programs(tree: Path) -> None:
    """Builds each program again, in a process of its own, as the toolchain's modules keep the folder in which they began."""
    for crate in PROGRAMS:
        subprocess.run([str(ROOT / "dev"), "release", "--rebuild", str(tree), crate], check=True)


def build_second(kit: Path, room: Path) -> Path:
    """Builds everything again in a folder with another path; returns the folder of the files."""
    tree = room / "another" / "second"
    tree.parent.mkdir()
    (room / "first").rename(tree)
    rebuild_programs(tree)
    shutil.rmtree(tree / f"crates/{LIBRARY}/out")
    shutil.rmtree(tree / "page/out")
    return build_others(kit, tree, room / "files-second")


# ---- The files


def sums_of_files(folder: Path) -> dict[str, tuple[int, str]]:
    """Returns the size and the sum of each file of a folder."""
    return {file.name: (file.stat().st_size, hashlib.sha256(file.read_bytes()).hexdigest()) for file in sorted(folder.iterdir())}


def differences(first: Mapping[str, tuple[int, str]], second: Mapping[str, tuple[int, str]]) -> list[str]:
    """Returns the names of the files that differ, or that only one has."""
    return [name for name in sorted({*first, *second}) if first.get(name) != second.get(name)]


def stop_on_differences(names: Iterable[str], what: str) -> None:
    """Ends with the names of the files that differ."""
    if names := list(names):
        raise SystemExit(f"{what}: {', '.join(names)}")


def write_release(root: Path, files: Path, manifest: Manifest) -> None:
    """Writes the files, compressed, and MANIFEST into release/."""
    release = root / "release"
    release.mkdir(exist_ok=True)
    for old in release.glob("*.gz"):
        old.unlink()
    for file in sorted(files.iterdir()):
        (release / f"{file.name}.gz").write_bytes(gzip.compress(file.read_bytes(), compresslevel=9, mtime=0))
    (release / "MANIFEST").write_text(manifest.text(), encoding="utf-8")


def manifest_of(root: Path, kit: Path, gate: str, compared: str, files: Path) -> Manifest:
    """Returns the manifest of files that were built of these sources."""
    sums = {crate: sums_of_sources(root, crate) for crate in BUILT}
    sources = {"all": sums_of_sources(root)[0], **{crate: found[0] for crate, found in sums.items()}}
    code = {crate: found[1] for crate, found in sums.items()}
    return Manifest(version_of(root), kit_id(kit), gate, what_is_proved(root), compared, sources, code, sums_of_files(files))


def stop_on_changes(root: Path) -> None:
    """Ends if a source differs from what is committed."""
    must_fail.stop_on_changes(root, "a release is made of", "page", "script", "tools", "embed", "examples")


# ---- The commands


def make(gate_log: str | None, once: bool) -> None:
    """Makes the release."""
    stop_on_changes(ROOT)
    stop_on_differences(version_faults(ROOT), "the version isn't one")
    kit = kit_folder()
    stop_on_differences(must_fail.untried(ROOT, kit_id(kit)), "first run ./dev must_fail, since these crates' mutants weren't rejected on these sources")
    stop_on_differences(record.faults(record.rows_at_hand(), record.rows_before()), "first ./dev night and ./dev record")
    gate = last_line(Path(gate_log)) if gate_log else None
    with tempfile.TemporaryDirectory() as name:
        room = Path(name)
        first, line = build_first(kit, room, with_checks=gate is None)
        if not once:
            second = build_second(kit, room)
            stop_on_differences(differences(sums_of_files(first), sums_of_files(second)), "two builds differ in")
        manifest = manifest_of(ROOT, kit, gate or line, ONCE if once else TWICE, first)
        write_release(ROOT, first, manifest)
    print(manifest.text(), end="")


def make_unproved(files: Path) -> None:
    """Makes a release of files that weren't proved."""
    manifest = manifest_of(ROOT, kit_folder(), UNPROVED, ONCE, files)
    write_release(ROOT, files, manifest)
    print(manifest.text(), end="")


def check() -> None:
    """Builds from the proofs at hand, and compares with MANIFEST."""
    stop_on_changes(ROOT)
    stop_on_differences(staleness(ROOT), "the release isn't fresh")
    kit = kit_folder()
    with tempfile.TemporaryDirectory() as name:
        room = Path(name)
        build_first(kit, room, with_checks=False)
        again = sums_of_files(build_second(kit, room))
    stop_on_differences(differences(manifest_at_hand(ROOT).sums, again), "what was built again differs from the release in")
    print("the release is what these sources build")


def fresh() -> int:
    """Reports whether the release's sources are these; returns an exit status."""
    faults = staleness(ROOT)
    for fault in faults:
        print(f"the release isn't fresh: {fault}")
    if not faults:
        print(f"the release {version_of(ROOT)} is fresh")
    return 1 if faults else 0


def main(words: list[str]) -> int:
    """Reads the command line."""
    parser = argparse.ArgumentParser(description="Makes release/, or compares it.")
    parser.add_argument("--gate", metavar="LOG")
    parser.add_argument("--once", action="store_true")
    parser.add_argument("--check", action="store_true")
    parser.add_argument("--fresh", action="store_true")
    parser.add_argument("--unproved", metavar="FOLDER")
    parser.add_argument("--rebuild", nargs=2, metavar=("TREE", "CRATE"), help=argparse.SUPPRESS)
    given = parser.parse_args(words)
    # A signal ends it as an error does, so that its folder is removed and what it started is stopped.
    for number in (signal.SIGTERM, signal.SIGHUP):
        signal.signal(number, lambda caught, _: sys.exit(128 + caught))
    if given.rebuild:
        rebuild_program(kit_folder(), Path(given.rebuild[0]), given.rebuild[1])
    elif given.unproved:
        make_unproved(Path(given.unproved))
    elif given.fresh:
        return fresh()
    elif given.check:
        check()
    else:
        make(given.gate, given.once)
    return 0
