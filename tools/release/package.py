"""Writes the packages into dist/: package.py [deb] [wheel] [sdist] [crate] [tar], or all five.

Each holds what `./tw install` installs, or the library alone (wheel, sdist and crate). The version is the file VERSION's. No tool but tw is
called, and a file's bytes depend on what is installed and on SOURCE_DATE_EPOCH alone, so the same release gives the same packages.
"""

import base64
import gzip
import hashlib
import io
import os
import re
import shutil
import subprocess
import sys
import tarfile
import tempfile
import time
import zipfile
from pathlib import Path
from typing import Callable

from tools import ROOT

DIST = ROOT / "dist"
VERSION = (ROOT / "VERSION").read_text(encoding="utf-8").strip()
# The time of each file in a package: the first that a zip archive can have, unless the environment says another.
EPOCH = int(os.environ.get("SOURCE_DATE_EPOCH", "315532800"))
MULTIARCH = "lib/x86_64-linux-gnu"
# The wheel's platform: the library needs glibc 2.14, as `readelf -V` shows; the program in the Debian package 2.34.
PLATFORM = "manylinux_2_14_x86_64"

CONTROL = """Package: yuglemit
Version: {version}
Architecture: amd64
Maintainer: Yuglemit maintainers <maintainers@users.noreply.yuglemit.example>
Installed-Size: {size}
Depends: libc6 (>= 2.34)
Section: interpreters
Priority: optional
Description: Proved host of dataflow programs
 Assembles, verifies and runs dataflow programs that strangers wrote. The
 verifier and the host are proved: an accepted program never traps, and each
 of its tasks stays within a budget that is known before it runs. With the
 command tw, the C library and its header.
"""


def installed(stage: Path, prefix: str, libdir: str) -> Path:
    """Installs below a folder by `./tw install`, and returns the prefix in it."""
    environment = {**os.environ, "DESTDIR": str(stage), "LIBDIR": libdir}
    done = subprocess.run([str(ROOT / "tw"), "install", prefix], check=False, env=environment, stderr=subprocess.PIPE, text=True)
    if done.returncode:
        sys.stderr.write(done.stderr)
        raise SystemExit(done.returncode)
    base = Path(f"{stage}{prefix}")
    (base / "share/yuglemit/installed").unlink()
    return base


def plain(room: Path) -> Path:
    """Returns the folder in which everything is installed once, with the libraries in lib."""
    return room / "plain/yuglemit" if (room / "plain").exists() else installed(room / "plain", "/yuglemit", "lib")


def gzipped(data: bytes) -> bytes:
    """Compresses, with no name and no time in the result."""
    return gzip.compress(data, compresslevel=9, mtime=0)


def add_member(archive: tarfile.TarFile, path: Path, name: str) -> None:
    """Adds a file, link or folder to a tar archive, owned by root."""
    member = archive.gettarinfo(str(path), name)
    member.uid = member.gid = 0
    member.uname = member.gname = "root"
    member.mtime = EPOCH
    if member.isdir() or member.mode & 0o100:
        member.mode = 0o755
    elif member.isfile():
        member.mode = 0o644
    archive.addfile(member, io.BytesIO(path.read_bytes()) if member.isfile() else None)


def tar_of(folder: Path, top: str) -> bytes:
    """Returns a compressed tar archive of a folder's content, under the name `top`."""
    data = io.BytesIO()
    with tarfile.open(fileobj=data, mode="w", format=tarfile.GNU_FORMAT) as archive:
        add_member(archive, folder, top)
        for path in sorted(folder.rglob("*")):
            add_member(archive, path, f"{top}/{path.relative_to(folder)}")
    return gzipped(data.getvalue())


# ---- The Debian package


def ar_of(members: list[tuple[str, bytes]]) -> bytes:
    """Returns an archive in the form of ar, as a Debian package is one."""
    data = b"!<arch>\n"
    for name, content in members:
        data += f"{name:<16}{EPOCH:<12}{0:<6}{0:<6}{100644:<8}{len(content):<10}`\n".encode()
        data += content + b"\n" * (len(content) % 2)
    return data


def symbols() -> str:
    """Returns the file `symbols`: the name of each call, with its symbol version, and the first version of the package that has it."""
    first, *later = (ROOT / "embed/ABI").read_text(encoding="utf-8").splitlines()
    number, since = first.removesuffix(".0").split()  # for dpkg 0.26 is before 0.26.0
    header = (ROOT / "embed/yuglemit.h").read_text(encoding="utf-8")
    added = {call: (f"YUGLEMIT_{number}", since) for call in re.findall(r"^[a-z0-9_]+ (yuglemit_[a-z_]+)\(", header, re.M)}
    for line in later:
        version, *calls = line.split()
        added.update({call: (f"YUGLEMIT_{version}", version) for call in calls})
    rows = [f" {call}@{node} {version}\n" for call, (node, version) in sorted(added.items())]
    return f"libyuglemit.so.{number} yuglemit #MINVER#\n" + "".join(rows)


def write_control(folder: Path, tree: Path) -> None:
    """Writes what dpkg reads of a package whose files are in a tree."""
    files = sorted(path for path in tree.rglob("*") if path.is_file() and not path.is_symlink())
    size = sum(path.stat().st_size for path in files) // 1024
    (folder / "control").write_text(CONTROL.format(version=VERSION, size=size), encoding="utf-8")
    sums = (f"{hashlib.md5(path.read_bytes()).hexdigest()}  {path.relative_to(tree)}\n" for path in files)
    (folder / "md5sums").write_text("".join(sums), encoding="utf-8")
    (folder / "triggers").write_text("activate-noawait ldconfig\n", encoding="utf-8")
    (folder / "symbols").write_text(symbols(), encoding="utf-8")


def write_deb(room: Path) -> Path:
    """Writes the Debian package: program, library and header in one."""
    tree, control = room / "deb", room / "control"
    base = installed(tree, "/usr", MULTIARCH)
    control.mkdir()
    page = base / "share/man/man1/tw.1"
    page.with_suffix(".1.gz").write_bytes(gzipped(page.read_bytes()))
    page.unlink()
    licence = base / "share/doc/yuglemit/LICENSE"
    licence.rename(licence.with_name("copyright"))
    completion = base / "share/zsh/site-functions"
    completion.rename(completion.with_name("vendor-completions"))
    write_control(control, tree)
    members = [("debian-binary", b"2.0\n"), ("control.tar.gz", tar_of(control, ".")), ("data.tar.gz", tar_of(tree, "."))]
    package = DIST / f"yuglemit_{VERSION}_amd64.deb"
    package.write_bytes(ar_of(members))
    return package


# ---- The tar archive


def write_tar(room: Path) -> Path:
    """Writes an archive of what `./tw install` installs, which may be unpacked anywhere."""
    archive = DIST / f"yuglemit-{VERSION}-x86_64-linux.tar.gz"
    archive.write_bytes(tar_of(plain(room), f"yuglemit-{VERSION}"))
    return archive


# ---- The Python wheel


def project_field(name: str) -> str:
    """Returns a field of embed/python/pyproject.toml that is one text."""
    text = (ROOT / "embed/python/pyproject.toml").read_text(encoding="utf-8")
    found = re.search(rf'^{name} = "(.*)"$', text, re.M)
    if not found:
        raise SystemExit(f"embed/python/pyproject.toml has no line {name} = ..")
    return found[1]


def wheel_metadata() -> str:
    """Returns the wheel's METADATA."""
    lines = ["Metadata-Version: 2.1", "Name: yuglemit", f"Version: {VERSION}", f"Summary: {project_field('description')}"]
    lines += ["License: Apache-2.0", f"Requires-Python: {project_field('requires-python')}"]
    lines += ["Description-Content-Type: text/markdown", ""]
    return "\n".join(lines) + "\n" + (ROOT / "embed/python/README.md").read_text(encoding="utf-8")


def wheel_files(library: Path) -> dict[str, bytes]:
    """Returns the content of each file of the wheel but RECORD, by its name."""
    package = ROOT / "embed/python/yuglemit"
    modules = [path for path in sorted(package.rglob("*")) if path.suffix in (".py", ".pyi", ".typed")]
    files = {f"yuglemit/{path.relative_to(package)}": path.read_bytes() for path in modules}
    if not files:
        raise SystemExit("embed/python/yuglemit has no module")
    files["yuglemit/_version.py"] = f'"""The version of the package."""\n\n__version__ = "{VERSION}"\n'.encode()
    files["yuglemit/lib/libyuglemit.so"] = library.read_bytes()
    info = f"yuglemit-{VERSION}.dist-info"
    files[f"{info}/METADATA"] = wheel_metadata().encode()
    files[f"{info}/LICENSE"] = (ROOT / "LICENSE").read_bytes()
    tag = f"Wheel-Version: 1.0\nGenerator: yuglemit\nRoot-Is-Purelib: false\nTag: py3-none-{PLATFORM}\n"
    files[f"{info}/WHEEL"] = tag.encode()
    return files


def record_of(files: dict[str, bytes]) -> bytes:
    """Returns the wheel's RECORD: the sum and the length of each other file."""
    lines = []
    for name, data in files.items():
        digest = base64.urlsafe_b64encode(hashlib.sha256(data).digest()).rstrip(b"=").decode()
        lines.append(f"{name},sha256={digest},{len(data)}\n")
    return "".join([*lines, f"yuglemit-{VERSION}.dist-info/RECORD,,\n"]).encode()


def write_wheel(room: Path) -> Path:
    """Writes the Python wheel, which has the library in it."""
    files = wheel_files(plain(room) / "lib" / f"libyuglemit.so.{VERSION}")
    files[f"yuglemit-{VERSION}.dist-info/RECORD"] = record_of(files)
    wheel = DIST / f"yuglemit-{VERSION}-py3-none-{PLATFORM}.whl"
    with zipfile.ZipFile(wheel, "w", zipfile.ZIP_DEFLATED, compresslevel=9) as archive:
        for name, data in files.items():
            entry = zipfile.ZipInfo(name, time.gmtime(EPOCH)[:6])
            entry.compress_type = zipfile.ZIP_DEFLATED
            entry.external_attr = (0o100755 if name.endswith(".so") else 0o100644) << 16
            archive.writestr(entry, data)
    return wheel


# ---- The Python sdist


def sdist_files(library: Path) -> dict[str, bytes]:
    """Returns the content of each file of the sdist, by its name: what `pip install` builds a wheel from, with the library as it was proved."""
    package = ROOT / "embed/python"
    files = {name: (package / name).read_bytes() for name in ("pyproject.toml", "setup.py", "README.md")}
    wheel = wheel_files(library)
    files.update({name: data for name, data in wheel.items() if name.startswith("yuglemit/")})
    files["PKG-INFO"] = wheel[f"yuglemit-{VERSION}.dist-info/METADATA"]
    files["LICENSE"] = (ROOT / "LICENSE").read_bytes()
    return files


def write_sdist(room: Path) -> Path:
    """Writes the Python sdist, for those who build their wheels themselves."""
    folder = room / "sdist"
    for name, data in sdist_files(plain(room) / "lib" / f"libyuglemit.so.{VERSION}").items():
        (folder / name).parent.mkdir(parents=True, exist_ok=True)
        (folder / name).write_bytes(data)
    archive = DIST / f"yuglemit-{VERSION}.tar.gz"
    archive.write_bytes(tar_of(folder, f"yuglemit-{VERSION}"))
    return archive


# ---- The Rust crate

def write_crate(room: Path) -> Path:
    """Writes the Rust crate, with the library in it: a folder that builds with no network."""
    base = plain(room)
    crate = DIST / f"yuglemit-{VERSION}-crate"
    if crate.exists():
        shutil.rmtree(crate)
    shutil.copytree(ROOT / "embed/rust", crate, ignore=shutil.ignore_patterns("target", "Cargo.lock"))
    (crate / "lib").mkdir()
    three = VERSION + ".0" * (2 - VERSION.count("."))
    manifest = (crate / "Cargo.toml").read_text(encoding="utf-8")
    (crate / "Cargo.toml").write_text(re.sub(r'^version = ".*"$', f'version = "{three}"', manifest, flags=re.M), encoding="utf-8")
    shutil.copy(base / "lib/libyuglemit.a", crate / "lib")
    shutil.copy(ROOT / "LICENSE", crate)
    return crate


USAGE = """Writes packages into dist/, all five if none is named.

Usage: ./tw package [deb] [wheel] [sdist] [crate] [tar]

  deb    Debian package: the program, the C library, the manual
  wheel  Python wheel, with the library in it
  sdist  Python sdist, with the library in it, from which pip builds a wheel
  crate  Rust crate, with the library in it
  tar    archive of what ./tw install installs, to be unpacked anywhere

The version is that of the file VERSION. SOURCE_DATE_EPOCH is the time of each file in a package.
Exit status: 0 written, 2 command line rejected, 70 there is no proved program or library.
"""

PACKAGES: dict[str, Callable[[Path], Path]] = {"deb": write_deb, "wheel": write_wheel, "sdist": write_sdist, "crate": write_crate, "tar": write_tar}


def print_usage() -> int:
    """Prints the help text; status 7 if it can't be written."""
    try:
        print(USAGE, end="", flush=True)
    except OSError:
        print("tw: standard output can't be written", file=sys.stderr)
        os._exit(7)  # what is left in the buffer can't be written at the end either
    return 0


def main(words: list[str]) -> int:
    """Writes the packages that are named, and returns the exit status."""
    names = words or list(PACKAGES)
    if set(names) & {"--help", "-h"}:
        return print_usage()
    unknown = [name for name in names if name not in PACKAGES]
    if unknown:
        print(f"tw: ./tw package takes {', '.join(PACKAGES)}, and no {unknown[0]!r}; ./tw help package says more", file=sys.stderr)
        return 2
    os.umask(0o022)
    DIST.mkdir(exist_ok=True)
    with tempfile.TemporaryDirectory() as room:
        for name in names:
            package = PACKAGES[name](Path(room))
            size = sum(path.stat().st_size for path in [package, *package.rglob("*")] if path.is_file())
            print(f"{package.relative_to(ROOT)}, {size} bytes")
    return 0
