"""Tests of ./dev check, ./dev night, ./dev record and of the table of harnesses."""

import contextlib
import hashlib
import inspect
import io
import json
import os
import re
import shutil
import subprocess
import unittest
from unittest import mock

from tools import ROOT, entry
from tools.common import program
from tools.common.testing import folder_of
from tools.fuzz import main as fuzz
from tools.harnesses import KINDS, TOOLS, Run, Tool, path_of
from tools.night import check, night, planted, record, runner
from tools.night.runner import FAILED, LEFT_OUT, OK, Runner, count_in, fault_of, missing, status_of, total


class TableTest(unittest.TestCase):
    def test_names_and_files(self) -> None:
        names = [tool.name for tool in TOOLS]
        self.assertEqual(len(names), len(set(names)))
        for tool in TOOLS:
            for path in (tool.file, *tool.depends.split()):
                self.assertTrue(path_of(path).exists(), path)

    def test_each_harness_has_to_count_something(self) -> None:
        self.assertEqual([tool.name for tool in TOOLS for run in (tool.short, tool.whole) if run and not run.least], [])
        rows = record.rows_at_hand()
        self.assertEqual([tool.name for tool in TOOLS if tool.may_fall and (tool.whole or tool.short or Run()).least < 0.9 * rows[tool.name].passed], [])

    def test_each_tool_in_python_is_called_with_its_arguments(self) -> None:
        for file in dict.fromkeys(tool.file.split()[0] for tool in TOOLS):
            if file.endswith(".py") and not file.startswith("./"):
                inspect.signature(entry.module_of(file).main).bind(["word"])

    def test_kinds_of_fuzz_tests(self) -> None:
        self.assertEqual(list(KINDS), list(fuzz.KINDS))
        short = {tool.name.removeprefix("fuzz_"): tool.short for tool in TOOLS if tool.name.startswith("fuzz_")}
        self.assertEqual(short, {kind: Run(f"{kind} @seed {count}", count) for kind, count in KINDS.items()})
        least = {tool.name.removeprefix("fuzz_"): tool.whole.least for tool in TOOLS if tool.name.startswith("fuzz_") and tool.whole}
        self.assertEqual(least, KINDS)

    def test_each_file_is_reached(self) -> None:
        """A file of tools/ is a row's, or one that is reached names it."""
        left = {path for path in (ROOT / "tools").rglob("*.*") if path.suffix in (".py", ".sh", ".c", ".awk", ".txt", ".json") and "out" not in path.parts}
        todo = [path_of(file) for tool in TOOLS for file in (tool.file, *tool.depends.split())]
        todo += [ROOT / "dev", ROOT / ".ci/run", ROOT / "crates/tw_cases/copy.sh", ROOT / "page/join.py", *ROOT.glob("script/*.sh"), *left & set(ROOT.glob("tools/**/test_*.py"))]
        while todo:
            path = todo.pop()
            left.discard(path)
            text = "" if path.is_dir() else path.read_text(encoding="utf-8")
            found = {it for it in left if it.parent == path or re.search(rf"\b{re.escape(it.stem if it.suffix == '.py' else it.name)}\b", text)}
            left -= found
            todo += found
        self.assertEqual({str(path) for path in left if path.name != "__init__.py"}, set())

    def test_documents_name_tools_that_are_there(self) -> None:
        known = {tool.name for tool in TOOLS} | {"list", "run", "NAME", *entry.COMMANDS}
        for path in [*ROOT.glob("*.md"), *ROOT.glob("[!o.]*/*.md"), *ROOT.glob("crates/*/README.md"), *ROOT.glob("embed/*/README.md")]:
            named = set(re.findall(r"(?<!\w)\./dev (\w+)", path.read_text(encoding="utf-8")))
            self.assertEqual(named - known, set(), path.name)

    def test_the_table_of_the_readme(self) -> None:
        text = entry.README.read_text(encoding="utf-8")
        self.assertEqual(entry.with_table(text), text, "./dev list --make writes it")

    def test_each_harness_has_a_fault_that_is_planted(self) -> None:
        """Those that test no program have one in their tests; others are planted, or plant faults themselves."""
        tried = {tool.name for crate, names in ((fault[1], fault[3]) for fault in planted.FAULTS) for tool in planted.rows(crate, names, [])}
        tested = {tool.name for tool in TOOLS if tool.is_harness and tool.tests}
        self.assertEqual(tested - tried, {*planted.LEFT, "wakes"})
        for file, old, _ in planted.CLONES.values():
            self.assertIn(old, (ROOT / file).read_text(encoding="utf-8"), file)

    def test_the_list(self) -> None:
        self.assertIn("shown             every command that documents show", entry.listed().splitlines())


class JudgeTest(unittest.TestCase):
    def test_counts(self) -> None:
        rows = {
            "12 passed, 0 failed\n": 12, "a\n3 shown, 0 differ\nb\n": 3, "Ran 7 tests in 1 s\n\nOK\n": 7, "run      40 tests, 0 failed, 2 s\n": 40, "1 passed\n2 passed\n": 2,
            "13 as wanted, 0 not\n": 13, "fine\n": None, "": None,
        }
        self.assertEqual({log: count_in(log) for log in rows}, rows)

    def test_what_is_no_pass(self) -> None:
        self.assertIsNone(fault_of(Run("", 3), 0, "3 passed, 0 failed\n"))
        self.assertIsNone(fault_of(Run(), 0, ""))
        self.assertEqual(fault_of(Run("", 3), 0, "2 passed, 0 failed\n"), "at least 3 have to pass; 2 passed, 0 failed")
        self.assertEqual(fault_of(Run("", 1), 0, "0 allocations, each failed once\n"), "at least 1 have to pass; 0 allocations, each failed once")
        self.assertEqual(fault_of(Run("", 1), 0, ""), "at least 1 have to pass; it says nothing")
        self.assertEqual(fault_of(Run(), 1, "9 passed, 1 failed\n"), "status 1; 9 passed, 1 failed")

    def test_what_is_missing(self) -> None:
        self.assertEqual((missing("sh module:json"), missing("sh no_such_command"), missing("module:no_such_module")), (None, "no_such_command", "no_such_module"))


class WithScripts(unittest.TestCase):
    def setUp(self) -> None:
        self.root = folder_of(self)
        (self.root / "dev").write_text("import os, sys\nos.execv('/bin/sh', ['sh', '-c', ' '.join(sys.argv[2:])])\n", encoding="utf-8")
        self.runner = Runner(self.root, self.root, {"seed": "7"}, say=lambda ended: None)

    def tool(self, name: str, words: str, limit: int = 600, needs: str = "") -> Tool:
        return Tool(name, "shown", "", Run(words, 1), limit=limit, needs=needs)


class RunnerTest(WithScripts):
    def test_ends(self) -> None:
        rows = [
            self.tool("well", "echo @seed passed"), self.tool("few", "echo 0 passed"), self.tool("fails", "echo 9 passed; exit 3"), self.tool("dies", "kill -SEGV $$"),
            self.tool("slow", "echo begun; sleep 90", limit=8), self.tool("lacks", "echo 1 passed", needs="no_such_command"),
            self.tool("part", "echo left out: types, since tsc is missing; echo 'OK (skipped=2)'; echo 1 passed"), self.tool("variable", "TIMES=4 echo $TIMES passed"),
        ]
        with mock.patch.object(runner, "LATE", 1):
            found = {it.tool.name: it for it in self.runner.run_all(rows, 2)}
        outcomes = {"variable": OK, "well": OK, "few": FAILED, "fails": FAILED, "dies": FAILED, "slow": FAILED, "lacks": LEFT_OUT, "part": OK}
        self.assertEqual({name: it.outcome for name, it in found.items()}, outcomes)
        self.assertEqual(found["variable"].passed, 4)
        self.assertEqual((found["well"].passed, found["lacks"].text), (7, "no_such_command isn't installed"))
        self.assertRegex(found["slow"].text, "^took longer than 8 s; (begun|it says nothing)$")
        self.assertEqual((found["part"].parts, found["dies"].text), (("types, since tsc is missing", "(skipped=2)"), "status -11; it says nothing"))
        self.assertRegex(found["part"].line(), r"^ok +part +\d+ s, \d+ used +1 passed; left out: types, since tsc is missing; left out: \(skipped=2\)$")
        self.assertEqual((total(found.values()), status_of(list(found.values()))), ("3 passed, 4 failed, 1 left out", 1))

    def test_what_is_only_left_out_is_no_pass(self) -> None:
        self.assertEqual(status_of(self.runner.run_all([self.tool("lacks", "echo 1 passed", needs="no_such_command")], 1)), 1)

    def test_patience(self) -> None:
        slow = self.tool("slow", "sleep 2; echo 1 passed", limit=1)
        self.runner.patience = 60
        self.assertEqual(self.runner.run(slow).outcome, OK)

    def test_a_limit_is_of_processors(self) -> None:
        """A wait since the machine does other things is no fault; what counts for too long is, however long that takes."""
        with mock.patch.object(runner, "LATE", 1000):
            self.assertEqual(self.runner.run(self.tool("waits", "sleep 3; echo 1 passed", limit=1)).outcome, OK)
            self.assertEqual(self.runner.run(self.tool("counts", "while :; do :; done", limit=1)).text, "took longer than 1 s; it says nothing")

    def test_what_is_tested_is_named(self) -> None:
        path = self.root / "dev"
        with mock.patch.object(program, "found", return_value=program.Found(path, "built")):
            named = program.describe("tw_main")
        self.assertEqual(named, f"dev {record.version()} (built, {hashlib.sha256(path.read_bytes()).hexdigest()[:12]})")

    def test_those_that_measure_are_run_one_after_another(self) -> None:
        words = "mkdir one && sleep 0.3 && rmdir one && echo 1 passed"
        self.assertEqual({it.outcome for it in self.runner.run_all([self.tool(f"row_{number}", words) for number in range(4)], 3)}, {OK})


class NamesTest(unittest.TestCase):
    def test_a_name_that_is_none_is_no_pass(self) -> None:
        for main, words, name in ((check.main, ["words", "lode"], "lode"), (night.main, ["words", "lode"], "lode"), (night.run_here, list[str](), "without a name")):
            with self.assertRaises(SystemExit) as ended, contextlib.redirect_stderr(io.StringIO()) as errors:
                main(words)
            self.assertEqual((ended.exception.code, errors.getvalue()), (2, f"there is no harness {name}; ./dev list names them\n"))

    def test_shards_and_failures_of_the_night_before(self) -> None:
        with mock.patch.object(night, "failed_before", return_value=["many"]):
            names = [{tool.name for tool in night.chosen([], False, day)} for day in range(7)]
        self.assertTrue(all({"shown", "many", "fuzz_run"} <= found for found in names))
        self.assertEqual([day for day, found in enumerate(names) if "hostile" in found], [4])
        self.assertEqual(set().union(*names), {tool.name for tool in TOOLS if tool.is_harness})

    def test_the_seed_of_check_is_of_the_sources_alone(self) -> None:
        """A commit, its name and what isn't tested change no test."""
        sums = {"tw_main": "1", "tw_embed": "1"}
        with mock.patch.object(record, "sources_of", sums.get), mock.patch.object(subprocess, "run", side_effect=AssertionError):
            first = check.seed()
            self.assertEqual(check.seed(), first)
            for name in sums:
                with mock.patch.dict(sums, {name: "2"}):
                    self.assertNotEqual(check.seed(), first)

    def test_one_of_many_processors_stays_free(self) -> None:
        self.assertEqual([check.jobs(processors) for processors in (1, 2, 4)], [2, 2, 3])

    def test_parts_of_check(self) -> None:
        sources, built = ({tool.name for tool in check.chosen([word])} for word in ("--sources", "--built"))
        self.assertEqual(sources & built, set())
        self.assertEqual(sources | built, {tool.name for tool in TOOLS if tool.is_harness and tool.in_ci})
        self.assertLessEqual({"shown", "stream", "loaded", "abi", "python", "test", "fuzz_orders"}, built)


class CiTest(unittest.TestCase):
    def setUp(self) -> None:
        self.root = folder_of(self)
        for name in (".ci/run", "dev", "tw", "kit/bin/rt", "tools/release/library.py", "tools/release/link_library.py"):
            path = self.root / name
            path.parent.mkdir(parents=True, exist_ok=True)
            path.write_text('#!/bin/sh\necho "${0##*/} $*" >>said\n[ "${0##*/}" != rt ] || echo "9 passed, 0 failed"\n[ ! -e "${0##*/}_$2" ] || exit 3\n', encoding="utf-8")
            path.chmod(0o755)
        for name in ("library.py", "link_library.py"):
            (self.root / "tools/release" / name).write_text(f"open('said', 'a').write('{name}\\n')\n", encoding="utf-8")
        shutil.copy(ROOT / ".ci/run", self.root / ".ci/run")

    def ran(self, *failing: str) -> tuple[int, list[str], list[str]]:
        """Returns the status, the lines that are printed, and the commands that were called."""
        for name in failing:
            (self.root / name).touch()
        named = {**os.environ, "PATH": f"{self.root / 'kit/bin'}:{os.environ['PATH']}"}
        done = subprocess.run([self.root / ".ci/run"], env=named, stdout=subprocess.PIPE, text=True, check=False)
        return done.returncode, done.stdout.splitlines(), (self.root / "said").read_text(encoding="utf-8").splitlines()

    def test_the_library_that_was_proved_is_tested(self) -> None:
        status, lines, said = self.ran()
        self.assertEqual((status, lines[-1]), (0, "9 passed, 0 failed"))
        self.assertEqual(said[-6:], ["dev check --sources", "tw test", "rt ci", "library.py", "link_library.py", "dev check --built"])

    def test_what_fails_stops_no_other_and_gives_the_status(self) -> None:
        status, lines, said = self.ran("dev_--sources")
        self.assertEqual((status, lines[-1], said[-1]), (3, "9 passed, 0 failed", "dev check --built"))

    def test_without_proofs_no_library_is_tested(self) -> None:
        status, lines, said = self.ran("rt_")
        self.assertEqual((status, said[-1]), (3, "rt ci"))
        self.assertIn("left out: the harnesses that test the program and the library, since the proofs failed", lines)


ROW = record.Row("one", "0.2", "12ab", 5, 3, "2026-01-02")


class RecordTest(unittest.TestCase):
    def test_rows_are_read_as_they_are_written(self) -> None:
        rows = [ROW, ROW._replace(name="two", left_out="types, since tsc isn't installed")]
        self.assertEqual(list(record.read_rows("".join(row.text() + "\n" for row in rows)).values()), rows)

    def test_what_forbids_a_release(self) -> None:
        one = Tool("one", "dev", "", Run())
        with mock.patch.object(record, "previous_versions", return_value=["0.2", "0.1"]):
            self.assertEqual(record.faults({"one": ROW}, {"one": ROW}, (one,)), [])
            self.assertEqual(record.faults({"one": ROW._replace(version="0.1")}, {}, (one,)), [])
            self.assertEqual(record.faults({}, {}, (one,)), ["one has no row"])
            self.assertEqual(record.faults({"one": ROW._replace(version="0.0")}, {}, (one,)), ["one passed last with version 0.0"])
            others = one._replace(whole=Run("--seconds @seconds")), one._replace(may_fall=True)
            for tool, found in ((one, ["one passed 6 in the release before, and 5 now"]), *((other, list[str]()) for other in others)):
                self.assertEqual(record.faults({"one": ROW}, {"one": ROW._replace(passed=6)}, (tool,)), found)

    def test_quick_runs_and_failures_are_no_rows(self) -> None:
        folder = folder_of(self)
        rows = [{"outcome": outcome, "whole": whole, **ROW._asdict()} for outcome, whole in ((OK, True), (OK, False), (FAILED, True), (LEFT_OUT, True))]
        (folder / "results").write_text("".join(json.dumps(row) + "\n" for row in rows), encoding="utf-8")
        self.assertEqual(record.read_results(folder), [ROW])

    def test_the_sum_is_that_of_sources_and_files(self) -> None:
        tool = next(tool for tool in TOOLS if tool.name == "orders")
        with mock.patch.object(record, "sources_of", return_value="a"):
            first, other = record.sum_of(tool), record.sum_of(tool._replace(depends="program/hostile.py"))
            with mock.patch.object(record, "sources_of", return_value="b"):
                self.assertEqual(len({first, other, record.sum_of(tool)}), 3)
        self.assertLessEqual({ROOT / "page/machine.js", ROOT / "page/test.sh"}, {*record.own_files(tool._replace(depends="./page"))})
