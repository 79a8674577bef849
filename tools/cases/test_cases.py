"""Tests of ./dev cases, case_files.py and case_runs.py."""

import contextlib
import io
import os
import sys
import tempfile
import textwrap
import unittest
from pathlib import Path
from unittest import mock

from tools import ROOT
from tools.common.testing import folder_of, said
from tools.cases import files, runs
from tools.cases import main as cases

# A program in place of those of crates/: it prints what a case is given in place of its expected output, and ends at `dies`.
PROGRAM = """
import sys

as_wanted = 0
for line in sys.stdin:
    line = line.rstrip("\\n")
    if line.startswith("let "):
        if " = " not in line:
            print(f"let {line[4:]}: a name is given as NAME = BYTES", flush=True)
        continue
    name, kind, given, wanted = line.split(" | ")
    if given == "dies":
        sys.exit(1)
    if given != wanted:
        print(f"{name}: wanted {wanted}, got {given}", flush=True)
    elif given != "uncounted":
        as_wanted += 1
print(f"{as_wanted} cases as wanted", flush=True)
"""

FILE = """\
# Two words of a group
# in two lines.
let seven = 0102
let main
    proc control
    regs

short | decode | @seven with 1=03 | F04 at byte 1

case long
about It is about something.
kind tw run --text
input
    proc control

      regs
    RET\\n
status 0
output

    out 0 int 7
    quiet

# Another group.
last_one | errors run --limit 5 | nothing
"""


def read(text: str) -> files.Book:
    """Reads the text of one file."""
    with tempfile.TemporaryDirectory() as name:
        folder = Path(name) / "topic"
        folder.mkdir()
        (folder / "some.case").write_text(text, encoding="utf-8")
        return files.read_book(Path(name))


def block(keys: str) -> files.Case:
    """Reads one case by its keys."""
    return read("# Words.\ncase some\nabout It.\n" + textwrap.dedent(keys)).cases[0]


class Reading(unittest.TestCase):
    def test_a_file(self) -> None:
        book = read(FILE)
        rows = ["short | decode | @seven with 1=03 | F04 at byte 1", "long | tw run --text | proc control\\n\\n  regs\\nRET\\n | 0  / out 0 int 7 / quiet"]
        self.assertEqual([case.row for case in book.cases], [*rows, "last_one | errors run --limit 5 | nothing"])
        self.assertEqual([made.row for made in book.lets.values()], ["let seven = 0102", "let main = proc control / regs"])
        self.assertEqual([case.words for case in book.cases], ["Two words of a group in two lines.", "It is about something.", "Another group."])
        self.assertEqual([case.first for case in book.cases], [8, 10, 25])
        self.assertEqual(book.cases[1].topic, "topic/some")
        self.assertEqual(book.cases[1].answer, (18, 22))

    def test_programs_and_events(self) -> None:
        lines = "program\n    proc control\n    RET\nevents\n    take e0, call e0\n    end e0\noutput went\n"
        self.assertEqual(block("kind machine\n" + lines).row, "some | machine | proc control / RET | take e0, call e0, end e0 | went")
        self.assertEqual(block("kind tw replay\n" + lines).row, "some | tw replay | hex proc control / RET events take e0, call e0, end e0 | went")
        self.assertEqual(block("kind verify\nprogram RET\noutput accepted\n").row, "some | verify | RET | accepted")
        self.assertEqual(block("kind state\nprogram RET\noutput quiet\n").row, "some | state | RET | | quiet")
        self.assertEqual(block("kind turns 1 1 1\nbytes @seven\nscript\n    e0 >0\n    stop\noutput\n    run 1\n    over\n").row, "some | turns 1 1 1 | @seven | e0 >0, stop | run 1 / over")

    def test_bytes_and_phrases(self) -> None:
        self.assertEqual(block("kind tw check\nbytes\n    54 57\n    42\nstatus 1\noutput refused F03\n").row, "some | tw check | hex 54 57 42 | 1 refused F03")
        self.assertEqual(block("kind phrases explain V01\nphrases\n    a b\n      c\nstatus 0\n").row, "some | phrases explain V01 | a b /   c | 0")
        self.assertEqual(block("kind tw\nstatus 2 unread\noutput command line refused\n").row, "some | tw | | 2 unread command line refused")

    def test_generators(self) -> None:
        self.assertEqual(block('kind tw run text:{repeat 3 "ab"}\ninput x\nstatus 0\n').kind, "tw run text:ababab")
        self.assertEqual(block('kind names\ninput a{count 8 to 10 "##=\\"#\\"" by ","}b\noutput x\n').given, 'a08="8",09="9",10="10"b')
        self.assertEqual(block('kind names\ninput {repeat 2 "x" by "\\n"}\noutput x\n').given, "x\\nx")

    def test_continued_lines_and_blanks(self) -> None:
        case = block("kind names\ninput\n    ab\\\n    cd\n    e \\s\n    f\noutput\n    x\\s\n    y\n")
        self.assertEqual((case.given, case.wanted), ("abcd\\ne  \\nf", "x  / y"))

    def test_a_control(self) -> None:
        case = block("kind shown\ngiven control.txt\noutput 1 as shown\ncomplaint\n    wanted 1\n    got 2\\n\n")
        self.assertEqual((case.row, case.complaint), ("some | shown | control.txt | 1 as shown", "wanted 1\ngot 2\n"))


class Documented(unittest.TestCase):
    def test_the_example_of_contributing(self) -> None:
        text = (ROOT / "CONTRIBUTING.md").read_text(encoding="utf-8")
        example = textwrap.dedent(text.partition("   ```\n   case ")[2].partition("   ```")[0].join(("   case ", "")))
        row = "some | tw run int:3 int:4 | hex proc control closed int closed int write int / regs int int / GET v0 d0 / DROPR d0 / GET v1 d1 / DROPR d1"
        self.assertEqual(read("# W.\n" + example.replace("sum_of_two_inputs", "some")).cases[0].row, row + " / ADD v0 v0 v1 +0 / STORE d2 v0 / RET | 0 out 0 int 7 / quiet")

    def test_each_key_is_documented(self) -> None:
        text = (ROOT / "CONTRIBUTING.md").read_text(encoding="utf-8")
        for key in files.KEYS:
            self.assertRegex(text, rf"\n\|[^|]*`{key}`")


class Faults(unittest.TestCase):
    def fault(self, text: str) -> str:
        with self.assertRaises(files.Fault) as raised:
            read(text)
        return str(raised.exception)

    def test_each_fault_has_its_line(self) -> None:
        lead = "# Words.\n\n"
        for text, line, words in (
            ("nonsense\n", 3, "expected a comment"),
            ("a | tw run | x | 0 \n", 3, "blanks"),
            ("a | tw run | " + "x" * 200 + " | 0\n", 3, "at most 200"),
            ("a | tw run | " + "x" * 160 + " | 0\n", 3, "at most 160"),
            ("A | tw run | x | 0\n", 3, "expected a comment"),
            ("case a\nkind tw run\nstatus 0\n", 3, "`about"),
            ("case a\nabout It.\nstatus 0\n", 3, "`kind"),
            ("case a\nabout It.\nkind tw run\n", 3, "expects nothing"),
            ("case a\nabout It.\nkind tw run\nstatus 0\nstatus 0\n", 7, "twice"),
            ("case a\nabout It.\nkind tw run\ncase b\n", 6, "no key"),
            ("let seven\n", 3, "let NAME = BYTES"),
            ("let a = 01\nlet a = 02\n", 4, "taken"),
            ("a | layout | 1 | x\n\na | layout | 2 | x\n", 5, "taken: cases/topic/some.case:3"),
        ):
            with self.subTest(text=text):
                fault = self.fault(lead + text)
                self.assertIn(f"cases/topic/some.case:{line}: ", fault.replace("cases/cases", "cases"))
                self.assertIn(words, fault)

    def test_a_file_has_to_say_what_it_is_about(self) -> None:
        self.assertIn("begin the file with a comment", self.fault("a | layout | 1 | x\n"))


class Writing(unittest.TestCase):
    def test_answers_come_back(self) -> None:
        long = "x" * 5000
        for kind, wanted in (
            ("tw run", "0 out 0 int 7 / quiet"),
            ("tw run", "2 unread command line refused"),
            ("tw run", "0  / ;c /   indented /  / end"),
            ("tw run", "0 blank  / at an end"),
            ("phrases run", "0"),
            ("verify", "refused V01 in procedure 0 at place 0"),
            ("names", f'RET "{long}" / ' + " ".join(str(number) for number in range(300))),
        ):
            with self.subTest(wanted=wanted):
                lines = files.answer_text(kind, wanted)
                self.assertLessEqual(max(len(line) for line in lines), files.WIDTH)
                self.assertEqual(block(f"kind {kind}\ninput x\n" + "\n".join(lines) + "\n").wanted, wanted)

    def test_long_repetitions_are_generated(self) -> None:
        self.assertEqual(files.shortened("a" + "xy" * 300 + "b"), 'a{repeat 300 "xy"}b')
        self.assertEqual(files.shortened("xy" * 30), "xy" * 30)


class Lists(unittest.TestCase):
    def test_named_bytes_come_before_their_first_case(self) -> None:
        book = read("# W.\nlet b = @a 02\nlet a = 01\nx | decode | @b | program\ny | decode | @a | program\nz | tw run | @c | 1 refused H01\n")
        lines = [line for line in cases.stdin_of(book, "tw_cases").split("\n") if line and not line.startswith("#")]
        self.assertEqual(lines[:4], ["let a = 01", "let b = @a 02", "x | decode | @b | program", "y | decode | @a | program"])
        self.assertEqual(cases.faults_of(book), [])
        self.assertTrue(cases.stdin_of(book, "tw_cases").startswith(cases.HEAD))

    def test_doubles(self) -> None:
        book = read("# W.\na | tw run | x | 1 refused H01\nb | tw check | x | 1 refused H01\nc | tw run | x | 1 refused H02\nd | tw run | | 1 x\ne | tw run | | 1 x\n")
        self.assertEqual([fault.split(": ", 1)[1] for fault in cases.faults_of(book)], ["c is a once more"])

    def test_names_without_a_case_or_bytes(self) -> None:
        faults = cases.faults_of(read("# W.\nlet a = 01\nx | decode | @b | program\n"))
        self.assertEqual(faults, ["cases/topic/some.case:2: no case names @a", "cases/topic/some.case:3: no file has let b"])

    def test_the_number_of_cases_is_counted(self) -> None:
        book = read("# W.\nx | layout | 1 1 1 | y\n\ncase control\nabout It.\nkind layout\ngiven 1\noutput 2\ncomplaint wanted 2, got 1\n")
        self.assertEqual(cases.stdout_of(book, "tw_cases"), "control: wanted 2, got 1\n1 cases as wanted\n")
        self.assertEqual(cases.stdout_of(book, "tw_host_cases"), "0 cases as wanted\n")

    def test_each_crate_has_the_cases_of_its_kinds(self) -> None:
        book = read("# W.\nlet a = 01\nx | decode | @a | program\ny | rounds 1 1 1 | @a | quiet\nz | drives | @a | quiet\n")
        self.assertEqual(cases.stdin_of(book, "tw_cases").split("\n")[3:], ["let a = 01", "x | decode | @a | program", ""])
        self.assertEqual(cases.stdin_of(book, "tw_host_cases").split("\n")[3:], ["let a = 01", "y | rounds 1 1 1 | @a | quiet", "z | drives | @a | quiet", ""])
        self.assertEqual(cases.stdout_of(book, "tw_host_cases"), "2 cases as wanted\n")
        for words, crates in (("x", "tw_cases\n"), ("y --update", "tw_host_cases\n"), ("", "tw_cases\ntw_host_cases\n")):
            with mock.patch.object(cases, "read_book", return_value=book):
                self.assertEqual(said(cases.command, ["--crates", *words.split()]), (0, crates))

    def test_patterns(self) -> None:
        book = read("# W.\nab | layout | 1 | x\nabc | layout | 1 | x\ncd | layout | 1 | x\n")
        for patterns, names in (("ab", "ab"), ("b", "ab abc"), ("topic", "ab abc cd"), ("a*", "ab abc"), ("ab c*", "ab cd"), ("", "ab abc cd")):
            self.assertEqual(" ".join(case.name for case in cases.chosen(book, patterns.split())), names)
        with self.assertRaises(SystemExit):
            cases.chosen(book, ["ab", "nothing"])


class Running(unittest.TestCase):
    def setUp(self) -> None:
        self.room = folder_of(self)
        self.program = self.room / "program"
        self.program.write_text(f"#!{sys.executable}\n{PROGRAM}", encoding="utf-8")
        self.program.chmod(0o755)
        (self.room / "cases").mkdir()
        for crate in ("tw_cases/data", "tw_host_cases"):
            (self.room / crate).mkdir(parents=True)

    def write(self, text: str) -> files.Book:
        (self.room / "cases" / "some.case").write_text(text, encoding="utf-8")
        return files.read_book(self.room / "cases")

    def run_words(self, text: str, kind: str, *words: str, ci: str = "") -> tuple[int, str]:
        """Runs cases as `./tw test` does, and returns the status and what was written."""
        book = self.write(text)
        for name, made in cases.made_files(book).items():
            (self.room / name).write_text(made, encoding="utf-8")
        programs = [f"{crate}={kind}:{self.program}" for crate in files.CRATES]
        folders = mock.patch.multiple(cases, ROOT=self.room, CASES=self.room / "cases", ROWS=self.room, DATA=self.room / "tw_cases/data")
        with folders, mock.patch.dict(os.environ, {"CI": ci, "COLUMNS": "100"}):
            return said(cases.run_command, book, [*programs, *words])

    def test_all_as_expected(self) -> None:
        text = "# W.\n" + "".join(f"c{number} | layout | {number} | {number}\n" for number in range(100))
        self.assertEqual(self.run_words(text, "same"), (0, "100 passed, 0 failed\n"))
        self.assertEqual(len((self.room / "out" / "case_times").read_text(encoding="utf-8").splitlines()), 100)
        self.assertEqual(self.run_words(text, "same", "c7"), (0, "1 passed, 0 failed\n"))

    def test_what_ci_reads_is_made(self) -> None:
        book = self.write("# W.\na | layout | 1 | 1\n")
        with mock.patch.multiple(cases, ROWS=self.room), contextlib.redirect_stdout(io.StringIO()):
            made = ["crates/tw_cases/stdin", "crates/tw_host_cases/stdin", "crates/tw_cases/stdout", "crates/tw_host_cases/stdout"]
            self.assertEqual(cases.stale_files(book), made)
            self.assertEqual(cases.check(book), 1)
            self.assertEqual(cases.make(book), 0)
            self.assertEqual(cases.stale_files(book), [])
            (self.room / "tw_cases/stdout").write_text("2 cases as wanted\n", encoding="utf-8")
            self.assertEqual(cases.check(book), 1)

    def test_a_failure_is_shown(self) -> None:
        status, said = self.run_words("# W.\ngood | layout | 1 | 1\nbad | names | a / b / cd | a / x / cd\n", "same")
        self.assertEqual(status, 1)
        self.assertEqual(
            [line.rstrip() for line in said.split("\n")],
            [
                "FAILED bad, cases/some.case:3",
                "    W.",
                "    names",
                "    expected" + " " * 37 + " | got",
                "    a" + " " * 44 + " | a",
                "  > x" + " " * 44 + " | b",
                "    ^" + " " * 44 + "   ^",
                "    cd" + " " * 43 + " | cd",
                "    ./tw test bad    runs it alone",
                "",
                "1 passed, 1 failed",
                "",
            ],
        )

    def test_a_program_that_stops_fails_its_case_alone(self) -> None:
        status, said = self.run_words("# W.\na | layout | 1 | 1\nb | layout | dies | 2\nc | layout | 3 | 3\n", "same")
        self.assertEqual(status, 1)
        self.assertIn("FAILED b, cases/some.case:3", said)
        self.assertIn("the program stopped", said)
        self.assertIn("2 passed, 1 failed", said)

    def test_each_kind_has_its_program(self) -> None:
        other = self.room / "other"
        other.write_text(self.program.read_text(encoding="utf-8").replace("if given != wanted:", "if False:"), encoding="utf-8")
        other.chmod(0o755)
        book = self.write("# W.\na | layout | 1 | 1\nb | rounds | 2 | 3\nc | decode | 4 | 5\nd | woken slow 1 1 1 | 2 | 3\n")
        programs = {"tw_cases": runs.Program(self.program, False), "tw_host_cases": runs.Program(other, False)}
        with (
            mock.patch.multiple(cases, ROOT=self.room, DATA=self.room),
            contextlib.redirect_stdout(io.StringIO()) as said,
        ):
            self.assertEqual([result.case.name for result in cases.test(book, programs, [])], ["c"])
        self.assertIn("3 passed, 1 failed", said.getvalue())

    def test_the_program_has_to_count_each_case(self) -> None:
        with self.assertRaisesRegex(RuntimeError, "1 cases as wanted.*though 2 cases"):
            self.run_words("# W.\na | layout | 1 | 1\nb | layout | uncounted | uncounted\n", "same", "[ab]")

    def test_a_control_has_to_differ(self) -> None:
        text = "# W.\na | layout | 1 | 1\n\ncase control\nabout It.\nkind layout\ngiven {}\noutput 2\ncomplaint wanted 2, got 1\n"
        self.assertEqual(self.run_words(text.format(1), "same"), (0, "1 passed, 0 failed\n"))
        status, said = self.run_words(text.format(2), "same")
        self.assertEqual(status, 1)
        self.assertIn("FAILED control", said)

    def test_long_cases(self) -> None:
        text = "# W.\nlong_a | layout | 1 | 1\nb | layout | 2 | 2\n"
        self.assertIn("1 passed, 0 failed", self.run_words(text, "unverified")[1])
        self.assertIn("2 passed, 0 failed", self.run_words(text, "built")[1])
        self.assertEqual(self.run_words(text, "unverified", "long_a"), (0, "1 passed, 0 failed\n"))

    def test_cases_short_of_memory(self) -> None:
        text = "# W.\nlong_a | scarce run | 1 | 1\nb | scarce_pool 1 1 1 | 2 | 2\nlong_c | layout | 3 | 3\n"
        said = "tw: 2 cases are short of memory, which an unverified build can't be, and are left out\n"
        self.assertEqual(self.run_words(text, "unverified", "long_a", "b", "long_c"), (0, said + "1 passed, 0 failed\n"))
        self.assertEqual(self.run_words(text, "built"), (0, "3 passed, 0 failed\n"))

    def test_long_cases_are_begun_first(self) -> None:
        book = self.write("# W.\n" + "".join(f"{name}_{number} | layout | 1 | 1\n" for number in range(20) for name in ("short", "long")))
        batches = runs.batches_of(book.cases, runs.Times(self.room / "times"))
        self.assertEqual([[case.name for case in batch] for batch in batches[:20]], [[f"long_{number}"] for number in range(20)])
        self.assertEqual([len(batch) for batch in batches[20:]], [16, 4])

    def test_update(self) -> None:
        text = "# W.\na | names | 1 | 2\n\ncase b\nabout It.\nkind tw run\ninput 3 x / y\nstatus 2\noutput\n    x\n    z\n\nc | layout | 5 | 5\n"
        self.assertEqual(self.run_words(text, "same", "--update", "some", ci="true")[0], 2)
        self.assertEqual(self.run_words(text, "same", "--update")[0], 2)
        self.assertEqual((self.room / "cases" / "some.case").read_text(encoding="utf-8"), text)
        status, said = self.run_words(text, "same", "--update", "some")
        self.assertEqual(status, 0)
        self.assertIn("never from what the program printed", said)
        wanted = "# W.\na | names | 1 | 1\n\ncase b\nabout It.\nkind tw run\ninput 3 x / y\nstatus 3\noutput\n    x\n    y\n\nc | layout | 5 | 5\n"
        self.assertEqual((self.room / "cases" / "some.case").read_text(encoding="utf-8"), wanted)

    def test_the_longest_are_begun_first(self) -> None:
        book = self.write("# W.\n" + "".join(f"c{number} | layout | 1 | 1\n" for number in range(40)))
        (self.room / "times").write_text("c7 2.0\nc8 \nc9 3.0\nc", encoding="utf-8")
        times = runs.Times(self.room / "times")
        batches = runs.batches_of(book.cases, times)
        self.assertEqual([[case.name for case in batch] for batch in batches[:2]], [["c9"], ["c7"]])
        self.assertEqual(sum(len(batch) for batch in batches), 40)


class Shown(unittest.TestCase):
    def test_a_long_line_is_cut_to_its_difference(self) -> None:
        lines = runs.side_by_side(["a" * 300 + "x" + "b" * 50], ["a" * 300 + "y" + "b" * 50], 80)
        self.assertTrue(all(len(line) <= 80 for line in lines), lines)
        self.assertEqual(lines[1][lines[2].index("^")], "x")
        self.assertEqual(lines[1][lines[2].rindex("^")], "y")

    def test_a_line_that_is_missing(self) -> None:
        lines = runs.side_by_side(["a", "b"], ["a"], 80)
        self.assertTrue(lines[2].startswith("  > b"))
        self.assertIn("^", lines[3])
