"""Links the library: link_library.py KIT OUT, where OUT has libtw_embed.a. Writes libyuglemit.so and libyuglemit.a there.

Both hold the proved archive and the three functions over malloc from which its memory comes, and export the calls of
embed/yuglemit.h alone: the names that begin with `yuglemit_`. All tools are the kit's, so the files are the same on each machine.

The first line of embed/ABI has the number of the ABI, which is in the soname and in the version of the names, as YUGLEMIT_2, and the first version of
Yuglemit that has it. Each further line has a later version and the calls that it added, whose names have that version, as YUGLEMIT_0.27: so a program
that makes one isn't started with an older library. `link_library.py --exports FILE` prints the version script of such a file.
"""

import shutil
import subprocess
import sys
import tempfile
from pathlib import Path

# The names that a caller sees.
CALLS = "yuglemit_*"
ABI = (Path(__file__).resolve().parents[2] / "embed" / "ABI").read_text(encoding="utf-8")
SONAME = f"libyuglemit.so.{ABI.split()[0]}"


def exports(abi: str) -> str:
    """Returns the version script for a file of the ABI: a node for the calls of its first version, and one for those of each later one."""
    first, *later = abi.splitlines()
    node = f"YUGLEMIT_{first.split()[0]}"
    script = f"{node} {{ global: {CALLS}; local: *; }};\n"
    for line in later:
        version, *calls = line.split()
        before, node = node, f"YUGLEMIT_{version}"
        script += f"{node} {{ global: {' '.join(call + ';' for call in calls)} }} {before};\n"
    return script


def run_tool(kit: Path, room: Path, name: str, *words: str) -> None:
    """Runs a tool of the kit's LLVM, which acts by the name under which it is called."""
    tool = room / name
    if not tool.is_symlink():
        tool.symlink_to(kit / "toolchain" / "bin" / "clang")
    subprocess.run([str(tool), *words], check=True)


def archives(kit: Path, out: Path) -> list[str]:
    """Returns the linker's arguments for the archive, whole, and for what it calls."""
    return ["--whole-archive", str(out / "libtw_embed.a"), "--no-whole-archive", str(kit / "c" / "liblibc_c.a")]


def link_shared(kit: Path, room: Path, out: Path) -> None:
    """Links the shared object."""
    script = room / "exports"
    script.write_text(exports(ABI), encoding="utf-8")
    library = out / "libyuglemit.so"
    words = ["-shared", "-soname", SONAME, f"--version-script={script}", "--gc-sections", "--strip-all", "--hash-style=gnu"]
    words += ["-z", "relro", "-z", "now", "-z", "noexecstack", "--no-undefined", "-Bsymbolic", "-o", str(library)]
    libraries = kit / "toolchain" / "lib"
    words += [*archives(kit, out), str(libraries / "libgcc.a"), "--as-needed", str(libraries / "libc.so.6")]
    run_tool(kit, room, "ld.lld", *words)
    name = out / SONAME
    name.unlink(missing_ok=True)
    shutil.copyfile(library, name)  # a copy, since rt ci refuses links below crates/


def link_static(kit: Path, room: Path, out: Path) -> None:
    """Links one object, whose other names are made local, and puts it into an archive."""
    whole = room / "yuglemit.o"
    run_tool(kit, room, "ld.lld", "-r", "-o", str(whole), *archives(kit, out))
    run_tool(kit, room, "llvm-objcopy", "--wildcard", f"--keep-global-symbol={CALLS}", "--strip-unneeded", str(whole))
    library = out / "libyuglemit.a"
    library.unlink(missing_ok=True)
    run_tool(kit, room, "llvm-ar", "rcsD", str(library), str(whole))


def main() -> None:
    """Links both libraries, or prints a version script."""
    if sys.argv[1] == "--exports":
        sys.stdout.write(exports(Path(sys.argv[2]).read_text(encoding="utf-8")))
        return
    kit, out = Path(sys.argv[1]), Path(sys.argv[2])
    with tempfile.TemporaryDirectory() as name:
        link_shared(kit, Path(name), out)
        link_static(kit, Path(name), out)


if __name__ == "__main__":
    main()
