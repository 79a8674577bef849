"""Tries the mutants of tools/proofs/must-fail, which CI leaves out: the prover has to reject each.

A mutant costs a proof of its crate, so CI tries those of crates/NAME/must-fail alone. This copies the others into a clone of what is committed, and
runs `rt must-fail NAME..` there, over what was proved here of these sources. A crate whose mutants were all rejected is noted in release/REJECTED, with
a sum of the toolchain, the sources of the crate and of those below it, and the mutants. It isn't tried again, and its mutants count as rejected.

  ./dev must_fail [NAME..]          tries the mutants of these crates, or of all; some 45 minutes of processor time for all
  ./dev must_fail --anew [NAME..]   tries those of noted crates, too
  ./dev must_fail --list            prints the mutants
  ./dev must_fail --check           checks that each text to replace occurs once in its file; needs no toolchain
"""

import argparse
import hashlib
import os
import re
import shutil
import subprocess
import tempfile
from pathlib import Path
from typing import Iterable

from tools import ROOT
from tools.common import kit as toolchain


def mutants_in(root: Path) -> dict[str, list[Path]]:
    """Returns the mutants that CI leaves out, by their crates' names."""
    found: dict[str, list[Path]] = {}
    for file in sorted((root / "tools/proofs/must-fail").glob("*/*.edit")):
        found.setdefault(file.parent.name, []).append(file)
    return found


# ---- What a mutant replaces


def fault_of(crate: Path, mutant: Path) -> str | None:
    """Returns why the prover couldn't try a mutant; `None` if it can."""
    target, old, pairs = crate, "", 0
    for line in mutant.read_text(encoding="utf-8").splitlines():
        key, _, value = line.partition(":")
        if key == "file":
            target = crate / value.strip()
        elif key == "old":
            old = value[1:]
        elif key == "new":
            text = target.read_text(encoding="utf-8") if target.is_file() else ""
            pairs += 1
            if not old or text.count(old) != 1 or value[1:] == old:
                return f"{target.relative_to(crate)} has the text of its line {old.strip()!r} {text.count(old) if old else 0} times"
    return None if pairs else "it replaces nothing"


def check(root: Path) -> int:
    """Prints the mutants that couldn't be tried; returns an exit status."""
    mutants = [(name, file) for name, files in mutants_in(root).items() for file in files]
    faults = {f"{name}/{file.name}": fault_of(root / "crates" / name, file) for name, file in mutants}
    print("".join(f"must_fail: {mutant}: {fault}\n" for mutant, fault in faults.items() if fault) + f"{len(mutants)} checked")
    return 1 if any(faults.values()) or not mutants else 0


# ---- What was rejected


def sum_of(root: Path, kit: str, name: str, mutants: Iterable[Path]) -> str:
    """Returns the sum of all that the verdict on a crate's mutants depends on."""
    ran = subprocess.run([str(root / "script/sources.sh"), name], check=True, stdout=subprocess.PIPE, text=True)
    parts = [kit, ran.stdout.split()[0], *(f"{hashlib.sha256(file.read_bytes()).hexdigest()} {file.name}" for file in mutants)]
    return hashlib.sha256("\n".join(parts).encode()).hexdigest()


def wanted_lines(root: Path, kit: str) -> dict[str, str]:
    """Returns, for each crate, the line that release/REJECTED has if all its mutants were rejected as they are now."""
    found = mutants_in(root).items()
    return {name: f"{name} {sum_of(root, kit, name, files)} {len(files)} rejected" for name, files in found}


def noted_lines(root: Path) -> list[str]:
    """Returns the lines of release/REJECTED."""
    file = root / "release/REJECTED"
    return file.read_text(encoding="utf-8").splitlines() if file.is_file() else []


def untried(root: Path, kit: str) -> list[str]:
    """Returns the crates whose mutants aren't noted as rejected on these sources."""
    return [name for name, line in wanted_lines(root, kit).items() if line not in noted_lines(root)]


def note(root: Path, kit: str, names: Iterable[str]) -> None:
    """Notes that all mutants of these crates were rejected, and drops what no longer holds."""
    wanted, noted, names = wanted_lines(root, kit), noted_lines(root), list(names)
    lines = [line for name, line in wanted.items() if name in names or line in noted]
    (root / "release/REJECTED").write_text("".join(f"{line}\n" for line in lines), encoding="utf-8")


# ---- The prover


def output_of(tree: Path, *words: str) -> str:
    """Runs a command of the toolchain in a folder, and returns what it prints."""
    return subprocess.run(["rt", *words], cwd=tree, stdin=subprocess.DEVNULL, stdout=subprocess.PIPE, stderr=subprocess.STDOUT, text=True).stdout


def copy_mutants(root: Path, tree: Path, names: Iterable[str]) -> None:
    """Copies what is committed to a folder, with these crates' mutants in place of those that CI tries. Links the libraries, which are large."""
    subprocess.run(["git", "-C", str(root), "clone", "-q", "--no-hardlinks", "--depth", "1", f"file://{root}", str(tree)], check=True)
    for folder in tree.glob("crates/*/must-fail"):
        shutil.rmtree(folder)
    for folder in root.glob("crates/*/out/rlib"):
        shutil.copytree(folder, tree / folder.relative_to(root), copy_function=os.link)
    for name in names:
        shutil.copytree(tree / "tools/proofs/must-fail" / name, tree / "crates" / name / "must-fail")


def stop_on_changes(root: Path, what: str, *paths: str) -> None:
    """Ends if a source, or a file of these paths, differs from what is committed."""
    words = ["git", "-C", str(root), "status", "--porcelain", "--", "crates", "crates.txt", "HANDLES", *paths]
    if changed := subprocess.run(words, check=True, stdout=subprocess.PIPE, text=True).stdout:
        raise SystemExit(f"commit first; {what} committed files:\n{changed}")


def attempt(root: Path, kit: str, names: list[str]) -> list[str]:
    """Tries these crates' mutants, notes which crates passed, and returns the mutants that weren't rejected."""
    (root / "out").mkdir(exist_ok=True)
    with tempfile.TemporaryDirectory(dir=root / "out") as room:
        tree = Path(room) / "tree"
        copy_mutants(root, tree, names)
        output = output_of(tree, "must-fail", *names)
    print(output, end="", flush=True)
    rejected, mutants = set(re.findall(r"(?m)^(?:rt: )?must-fail (\S+): refused, as it must be", output)), mutants_in(root)
    left = {name: [it for it in (f"{name}/{file.name}" for file in mutants[name]) if it not in rejected] for name in names}
    note(root, kit, [name for name in names if not left[name]])
    return [it for name in names for it in left[name]]


def chosen(root: Path, kit: str, words: list[str], is_anew: bool) -> list[str]:
    """Returns the crates to try, by the words of the command line."""
    every = list(mutants_in(root))
    if unknown := [word for word in words if word not in every]:
        raise SystemExit(f"must_fail: there are no mutants of {unknown[0]} in tools/proofs/must-fail")
    left = every if is_anew else untried(root, kit)
    return [name for name in every if name in left and (not words or name in words)]


def main(words: list[str]) -> int:
    """Reads the command line."""
    parser = argparse.ArgumentParser(description="Tries the mutants that CI leaves out.")
    parser.add_argument("--anew", action="store_true")
    parser.add_argument("--list", action="store_true")
    parser.add_argument("--check", action="store_true")
    parser.add_argument("names", nargs="*", metavar="NAME")
    given = parser.parse_args(words)
    if given.list:
        print("\n".join(f"{name}/{file.stem}" for name, files in mutants_in(ROOT).items() for file in files))
        return 0
    if given.check:
        return check(ROOT)
    stop_on_changes(ROOT, "mutants are tried on", "tools/proofs/must-fail")
    kit = toolchain.identity(toolchain.folder())
    names = chosen(ROOT, kit, given.names, given.anew)
    left = attempt(ROOT, kit, names) if names else []
    asked = [name for name, files in mutants_in(ROOT).items() for _ in files if name in given.names or not given.names]
    print(f"{len(asked) - len(left)} rejected, {sum(name not in names for name in asked)} of them before, {len(left)} not{': ' * bool(left)}{', '.join(left)}")
    return 1 if left else 0
