"""Tests of ./dev release, ./dev must_fail, tools/release/package.py and script/sources.sh."""

import contextlib
import dataclasses
import gzip
import hashlib
import io
import shutil
import tarfile
import unittest
from pathlib import Path

from tools import ROOT
from tools.common import kit
from tools.common.testing import folder_of, put, replace, said
from tools.night import record
from tools.proofs import must_fail
from tools.release import package, release

MUTANT = "file: src/lib.rt\nold:     1\nnew:     2\n"


def make_repository(root: Path) -> None:
    """Writes a repository of six crates, four of which something is built of."""
    files = {
        "VERSION": "0.5\n",
        "CHANGELOG.md": "# Changelog\n\n## 0.5 - unreleased\n",
        "crates.txt": "# comment\nlow: slab\ntw_main: low\ntw_embed staticlib: low\ntw_cases: low\ntw_host_cases: low\nother:\n",
        "crates/tw_cli/src/help.rt": 'pub(crate) const VERSION: &str = "0.5";\n',
        "embed/yuglemit.h": "#define YUGLEMIT_VERSION_NUMBER 5000\n",
        "crates/low/src/lib.rt": "pub fn one() -> u8 {\n    1\n}\n",
        "crates/low/proofs/Lib.antt": "mod one\n",
        "crates/tw_main/src/main.rt": "fn main() {}\n",
        "crates/tw_embed/src/lib.rt": "const VERSION: u32 = 5_000;\n",
        "crates/tw_cases/src/main.rt": "fn rows() {}\n",
        "crates/tw_host_cases/src/main.rt": "fn host_rows() {}\n",
        "crates/other/src/lib.rt": "fn other() {}\n",
        "tools/proofs/must-fail/low/two.edit": MUTANT,
    }
    put(root, files)
    (root / "script").mkdir()
    shutil.copy(ROOT / "script" / "sources.sh", root / "script")


def manifest_of(root: Path) -> release.Manifest:
    """Returns a manifest of the repository's sources."""
    sums = {crate: release.sums_of_sources(root, crate) for crate in release.BUILT}
    sources = {"all": release.sums_of_sources(root)[0], **{crate: found[0] for crate, found in sums.items()}}
    code = {crate: found[1] for crate, found in sums.items()}
    return release.Manifest("0.5", "kit", "9 passed, 0 failed", "5 crates, 6 functions", release.TWICE, sources, code, {"tw": (3, "ab")})


class WithRepository(unittest.TestCase):
    def setUp(self) -> None:
        self.root = folder_of(self)
        make_repository(self.root)
        self.manifest = manifest_of(self.root)
        put(self.root, {"release/MANIFEST": self.manifest.text()})

    def edit(self, name: str, text: str) -> None:
        """Replaces the text of a file."""
        (self.root / name).write_text(text, encoding="utf-8")


class OfARepository(WithRepository):
    def test_the_release_of_the_same_sources_is_fresh(self) -> None:
        self.assertEqual(release.staleness(self.root), [])

    def test_a_manifest_is_read_as_it_was_written(self) -> None:
        self.assertEqual(release.manifest_at_hand(self.root), self.manifest)

    def test_unproved_files_are_no_release(self) -> None:
        self.edit("release/MANIFEST", dataclasses.replace(self.manifest, gate=release.UNPROVED).text())
        self.assertEqual(release.staleness(self.root), ["its files aren't proved"])

    def test_a_change_makes_stale_what_is_built_on_it(self) -> None:
        for crate, built in (("other", "nothing"), ("low", "tw_main, tw_cases, tw_host_cases, tw_embed")):
            self.edit(f"crates/{crate}/src/lib.rt", "fn another() {}\n")
            (fault,) = release.staleness(self.root)
            self.assertTrue(fault.endswith(f"of what is built: {built}"), fault)

    def test_a_program_that_the_release_has_not_yet_is_named(self) -> None:
        self.edit("release/MANIFEST", "".join(line for line in self.manifest.text().splitlines(True) if "tw_host_cases" not in line))
        self.edit("crates/other/src/lib.rt", "fn another() {}\n")
        (fault,) = release.staleness(self.root)
        self.assertTrue(fault.endswith("of what is built: tw_host_cases"), fault)

    def test_what_changes_the_sums(self) -> None:
        """A proof changes the sources and not the code; a comment of the list and another crate's line change nothing."""
        list_of = "low: slab{}\ntw_main: low{}\ntw_embed staticlib: low\ntw_cases: low\ntw_host_cases: low\nother:{}\n"
        before, rows = self.manifest.sources["tw_main"], (("crates/low/proofs/Lib.antt", "mod two\n", False), ("crates.txt", list_of.format(" # low", "", " low"), True), ("crates.txt", list_of.format("", " slab", ""), False))
        for name, text, is_same in rows:
            kept = (self.root / name).read_text(encoding="utf-8")
            self.edit(name, text)
            sources, code = release.sums_of_sources(self.root, "tw_main")
            self.assertEqual((sources == before, name == "crates.txt" or code == self.manifest.code["tw_main"]), (is_same, True), text)
            self.edit(name, kept)
        (self.root / "crates/low/proofs/Lib.antt").rename(self.root / "crates/low/proofs/Lob.antt")
        self.assertNotEqual(release.sums_of_sources(self.root, "tw_main")[0], before)

    def test_each_place_of_the_version_is_compared(self) -> None:
        self.assertEqual(release.version_faults(ROOT), [])
        self.edit("VERSION", "0.6\n")
        self.assertEqual(len(release.staleness(self.root)), 5)

    def test_the_sum_is_that_of_sha256sum_lines(self) -> None:
        lines = [("low: slab\ntw_main: low\n", "crates.txt")]
        lines += [((self.root / name).read_text(), name) for name in ("crates/low/proofs/Lib.antt", "crates/low/src/lib.rt", "crates/tw_main/src/main.rt")]
        listed = "".join(f"{hashlib.sha256(text.encode()).hexdigest()}  {name}\n" for text, name in lines)
        self.assertEqual(release.sums_of_sources(self.root, "tw_main")[0], hashlib.sha256(listed.encode()).hexdigest())


class OfMutants(WithRepository):
    def setUp(self) -> None:
        super().setUp()
        self.edit("tools/proofs/must-fail/low/three.edit", MUTANT.replace("2", "3"))
        self.printed = "must-fail low/two.edit: refused, as it must be: src/lib.rt:2\nmust-fail low/three.edit: refused, as it must be\n"
        replace(self, kit, folder=lambda: self.root, identity=lambda kit: "kit")
        replace(self, must_fail, ROOT=self.root, stop_on_changes=lambda *words: None)
        replace(self, must_fail, copy_mutants=lambda *words: None, output_of=lambda *words: self.printed)

    def attempt(self) -> list[str]:
        """Tries the mutants, without what they print."""
        with contextlib.redirect_stdout(io.StringIO()):
            return must_fail.attempt(self.root, "kit", ["low"])

    def test_rejected_mutants_are_noted(self) -> None:
        for before in (0, 2):
            self.assertEqual(must_fail.untried(self.root, "kit"), ["low"] * (before == 0))
            status, text = said(must_fail.main, [])
            self.assertEqual((status, text.splitlines()[-1]), (0, f"2 rejected, {before} of them before, 0 not"))
        self.assertRegex((self.root / "release/REJECTED").read_text(), r"\Alow [0-9a-f]{64} 2 rejected\n\Z")

    def test_a_mutant_that_is_proved_or_not_tried_is_not_noted(self) -> None:
        for line in ("must-fail low/three.edit: NOT REFUSED: the crate is still proved with this edit\n", "must-fail low/three.edit: NOT TRIED: ..\n", ""):
            self.printed = f"{self.printed.splitlines()[0]}\n{line}"
            self.assertEqual(self.attempt(), ["low/three.edit"])
            self.assertEqual(must_fail.untried(self.root, "kit"), ["low"])

    def test_what_a_verdict_depends_on_makes_it_void(self) -> None:
        self.attempt()
        self.assertEqual(must_fail.untried(self.root, "another kit"), ["low"])
        for name, text in (("tools/proofs/must-fail/low/two.edit", MUTANT.replace("2", "4")), ("crates/low/proofs/Lib.antt", "mod two\n"), ("crates.txt", "low: slab hex\n")):
            old = (self.root / name).read_text()
            self.edit(name, text)
            self.assertEqual(must_fail.untried(self.root, "kit"), ["low"])
            self.edit(name, old)
        self.edit("crates/other/src/lib.rt", "fn another() {}\n")
        self.assertEqual(must_fail.untried(self.root, "kit"), [])

    def test_a_failed_trial_drops_the_note_and_keeps_others(self) -> None:
        shutil.copytree(self.root / "tools/proofs/must-fail/low", self.root / "tools/proofs/must-fail/other")
        must_fail.note(self.root, "kit", ["low", "other"])
        self.edit("tools/proofs/must-fail/low/four.edit", MUTANT)
        self.assertEqual(self.attempt(), ["low/four.edit"])
        self.assertEqual(must_fail.untried(self.root, "kit"), ["low"])

    def test_a_mutant_that_replaces_nothing_is_found(self) -> None:
        crate = self.root / "crates/low"
        for text, fault in ((MUTANT, None), ("", "it replaces nothing"), (MUTANT.replace("    1", "    7"), " 0 times"), (MUTANT.replace("lib", "lob"), " 0 times")):
            self.edit("tools/proofs/must-fail/low/two.edit", text)
            found = must_fail.fault_of(crate, self.root / "tools/proofs/must-fail/low/two.edit")
            self.assertTrue(found == fault if fault is None else (found or "").endswith(fault), found)

    def test_the_mutants_of_this_repository_replace_something(self) -> None:
        with contextlib.redirect_stdout(io.StringIO()) as said:
            self.assertEqual(must_fail.check(ROOT), 0, said.getvalue())


class OfABuild(WithRepository):
    def setUp(self) -> None:
        super().setUp()
        self.second = "built\n"
        self.faults: list[str] = []
        fakes = {"ROOT": self.root, "kit_folder": lambda: self.root, "stop_on_changes": lambda root: None, "strip": lambda *words: None}
        fakes |= {"copy_committed": self.copy, "run_ci": lambda tree, log: "9 passed, 0 failed", "build_library": self.build_library}
        fakes |= {"build_page": self.build_page, "build_manual": lambda tree, to: to.write_text("manual\n"), "rebuild_programs": self.rebuild}
        replace(self, release, **fakes)
        replace(self, record, faults=lambda rows, before: self.faults)
        self.edit("KIT-ID", "kit\n")
        must_fail.note(self.root, "kit", ["low"])

    def copy(self, root: Path, tree: Path, with_checks: bool) -> None:
        """Acts as the copy and what `rt ci` leaves in it."""
        for crate in release.PROGRAMS:
            put(tree, {f"crates/{crate}/out/{crate}": "built\n"})

    def rebuild(self, tree: Path) -> None:
        """Acts as the second build of the programs."""
        (tree / "crates/tw_main/out/tw_main").write_text(self.second)

    def build_library(self, kit: Path, tree: Path) -> None:
        """Acts as the build of the libraries."""
        put(tree / f"crates/{release.LIBRARY}/out", dict.fromkeys(release.LIBRARIES, "library\n"))

    def build_page(self, tree: Path) -> None:
        """Acts as the build of the page."""
        put(tree / "page/out", {release.PAGE: "page\n"})

    def test_two_builds_that_are_the_same_make_a_release(self) -> None:
        release.make(None, once=False)
        made = release.manifest_at_hand(self.root)
        self.assertEqual((made.gate, made.compared), ("9 passed, 0 failed", release.TWICE))
        self.assertEqual(release.staleness(self.root), [])
        for name, (size, digest) in made.sums.items():
            data = gzip.decompress((self.root / f"release/{name}.gz").read_bytes())
            self.assertEqual((len(data), hashlib.sha256(data).hexdigest()), (size, digest))
        self.assertEqual(sorted(made.sums), ["index.html", "libyuglemit.a", "libyuglemit.so", "manual.tar", "tw", "tw_cases", "tw_host_cases"])

    def test_mutants_that_were_not_rejected_make_none(self) -> None:
        before = release.manifest_at_hand(self.root)
        (self.root / "release/REJECTED").unlink()
        with self.assertRaisesRegex(SystemExit, "first run ./dev must_fail, .*: low$"):
            release.make(None, once=True)
        self.assertEqual(release.manifest_at_hand(self.root), before)

    def test_harnesses_that_have_not_passed_make_none(self) -> None:
        self.faults = ["shown has no row"]
        with self.assertRaisesRegex(SystemExit, "first ./dev night and ./dev record: shown has no row$"):
            release.make(None, once=True)

    def test_two_builds_that_differ_make_none(self) -> None:
        before = release.manifest_at_hand(self.root)
        self.second = "another\n"
        with self.assertRaisesRegex(SystemExit, "two builds differ in: tw$"):
            release.make(None, once=False)
        self.assertEqual(release.manifest_at_hand(self.root), before)

    def test_a_check_finds_what_is_built_otherwise(self) -> None:
        release.make(None, once=True)
        self.assertEqual(release.manifest_at_hand(self.root).compared, release.ONCE)
        release.check()
        self.second = "another\n"
        with self.assertRaisesRegex(SystemExit, "differs from the release in: tw$"):
            release.check()


class OfRelease(unittest.TestCase):
    def test_files_that_differ_are_named(self) -> None:
        first = {"same": (1, "a"), "size": (1, "a"), "sum": (1, "a"), "gone": (1, "a")}
        second = {"same": (1, "a"), "size": (2, "a"), "sum": (1, "b"), "new": (1, "a")}
        self.assertEqual(release.differences(first, second), ["gone", "new", "size", "sum"])

    def test_functions_are_counted_outside_of_comments(self) -> None:
        text = "/// fn no()\nfn a() {}\n    pub(crate) const fn b() {}\n    pub unsafe extern \"C\" fn c() {}\nlet f = fn_of;\n"
        self.assertEqual(release.functions_in(text), 3)

    def test_a_log_that_failed_is_no_gate(self) -> None:
        log = folder_of(self) / "log"
        log.write_text("rt: ok\n12 passed, 0 failed\n\n")
        self.assertEqual(release.last_line(log), "12 passed, 0 failed")
        for text in ("12 passed, 1 failed\n", "", "12 passed, 0 failed\nstopped\n"):
            log.write_text(text)
            self.assertRaises(SystemExit, release.last_line, log)


class OfPackages(unittest.TestCase):
    def test_an_archive_of_ar_is_padded(self) -> None:
        data = package.ar_of([("odd", b"abc"), ("even", b"ab")])
        self.assertTrue(data.startswith(b"!<arch>\nodd "))
        self.assertEqual(len(data), 8 + 60 + 4 + 60 + 2)

    def test_a_tar_archive_has_no_trace_of_its_maker(self) -> None:
        folder = folder_of(self)
        put(folder, {"bin/tw": "x"})
        (folder / "bin/tw").chmod(0o700)
        (folder / "link").symlink_to("bin/tw")
        first = package.tar_of(folder, ".")
        (folder / "bin/tw").touch()
        self.assertEqual(package.tar_of(folder, "."), first)
        with tarfile.open(fileobj=io.BytesIO(first)) as archive:
            found = {it.name: (it.mode, it.uid, it.mtime, it.issym()) for it in archive if not it.isdir()}
        self.assertEqual(found["./bin/tw"], (0o755, 0, package.EPOCH, False))
        self.assertTrue(found["./link"][3])

    def test_a_record_has_a_line_for_each_file(self) -> None:
        lines = package.record_of({"a.py": b"", "b.py": b"1"}).decode().splitlines()
        self.assertEqual(lines[0], "a.py,sha256=47DEQpj8HBSa-_TImW-5JCeuQeRkm5NMpJWZG3hSuFU,0")
        self.assertEqual(len(lines), 3)
