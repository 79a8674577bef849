"""Tests of ./tw and of an installed tw at a terminal: pages of help have its width, Ctrl-C stops a run, and what is typed is printed without hidden
characters. Elsewhere an installed tw becomes its program."""

import fcntl
import os
import pty
import select
import shutil
import signal
import struct
import subprocess
import termios
import unittest
from pathlib import Path

from tools import ROOT
from tools.common.testing import fake_clone, folder_of
from tools.program.stream import heed_signals

# After so many seconds without a text a command is ended.
SECONDS = 60
# Prints a page of help; as a run it ends at the sight of the file of TW_STOP. Arguments may say what else it does.
FAKE = b"""#!/bin/sh
case $* in
    *help*) sed 's/^/x /;s/$/ yyyyy yyyyy yyyyy/' "$0" ;;
    *reads*) echo begun; read -r line; echo "$line" ;;
    *third*) cat <&3 ;;
    *itself*) echo "$$,$2,$(cat)"; exit 5 ;;
    *signal*) kill -"$2" $$; echo ignored ;;
    *) echo begun; [ -n "$TW_STOP" ] || exit 3; until [ -e "$TW_STOP" ]; do sleep 0.01; done; echo out; exit 4 ;;
esac
"""


class Terminal(unittest.TestCase):
    """Tests of ./tw."""

    pages = [("--help",), ("help", "install"), ("help", "run"), ("run", "--help")]

    def setUp(self) -> None:
        self.top, self.temporary = fake_clone(self, FAKE), folder_of(self)
        self.command = self.top / "tw"

    def at_terminal(self, *words: str, columns: int = 80, typed: tuple[tuple[str, bytes], ...] = (), temporary: str = "") -> tuple[int, str]:
        """Returns the command's status and what a terminal shows. Keys are typed one after the other, once it shows the text before them."""
        process, ours = pty.fork()
        if process == 0:
            heed_signals()
            fcntl.ioctl(0, termios.TIOCSWINSZ, struct.pack("HHHH", 24, columns, 0, 0))
            os.dup2(os.open(self.top / "VERSION", os.O_RDONLY), 3)
            os.set_inheritable(3, True)
            os.execve(self.command, ["tw", *words], {**os.environ, "TW_OUT": "", "TMPDIR": temporary or str(self.temporary)})
        shown, keys = "", list(typed)
        while select.select([ours], [], [], SECONDS)[0]:
            try:
                shown += os.read(ours, 65536).decode().replace("\r\n", "\n")
            except OSError:
                break
            if keys and keys[0][0] in shown:
                os.write(ours, keys.pop(0)[1])
        else:
            os.kill(process, signal.SIGKILL)
        os.close(ours)
        return os.waitstatus_to_exitcode(os.waitpid(process, 0)[1]), shown

    def assert_left_nothing(self) -> None:
        self.assertEqual(list(self.temporary.iterdir()), [])

    def test_help_is_as_wide_as_the_terminal(self) -> None:
        for words in self.pages:
            for columns in (40, 80, 120):
                _, shown = self.at_terminal(*words, columns=columns)
                widths = [len(line) for line in shown.splitlines()]
                self.assertLessEqual(max(widths), columns, words)
                self.assertGreater(max(widths), columns - 12, words)

    def test_a_terminal_without_a_width_has_80(self) -> None:
        self.assertEqual(self.at_terminal("--help", columns=0), self.at_terminal("--help"))

    def test_wrapping_changes_no_word(self) -> None:
        plain = subprocess.run([self.command, "--help"], capture_output=True, text=True, check=True).stdout
        self.assertEqual(self.at_terminal("--help", columns=50)[1].split(), plain.split())

    def test_a_run_is_stopped(self) -> None:
        status, shown = self.at_terminal("run", "x", typed=(("begun", b"\x03\x03"),))
        self.assertEqual((status, shown.replace("^C", "")), (130, "begun\ntw: stopping; a second Ctrl-C ends it without a report\nout\n"))
        self.assert_left_nothing()

    def test_a_second_time_the_program_is_ended(self) -> None:
        status, shown = self.at_terminal("run", "reads", typed=(("begun", b"\x03"), ("stopping", b"\x03")))
        self.assertEqual(status, 130)
        self.assertTrue(shown.startswith("begun\n^Ctw: stopping; a second"), shown)
        self.assert_left_nothing()

    def test_a_run_has_its_status_and_its_input(self) -> None:
        self.assertEqual(self.at_terminal("run", "reads", typed=(("begun", b"a\n"),)), (0, "begun\na\na\n"))
        self.assertEqual(self.at_terminal("run", "third"), (0, "0.0\n"))
        self.assert_left_nothing()

    def test_without_a_temporary_folder_a_run_is_as_elsewhere(self) -> None:
        self.at_terminal("run", "reads", typed=(("begun", b"a\n"),))
        self.assertEqual(self.at_terminal("run", "x", temporary="/nothing"), (3, "begun\n"))

    def test_each_and_other_commands_are_as_elsewhere(self) -> None:
        for words in (("run", "x", "--each", "y"), ("run", "x", "--each=y"), ("check", "x")):
            self.assertEqual(self.at_terminal(*words), (3, "begun\n"))

    def test_a_file_is_no_page(self) -> None:
        self.assertGreater(max(len(line) for line in self.at_terminal("check", "--", "--help", columns=40)[1].splitlines()), 80)


class Installed(Terminal):
    """Tests an installed tw likewise, and what it does elsewhere than at a terminal."""

    pages = [("--help",), ("help",), ("help", "run"), ("run", "--help")]

    def setUp(self) -> None:
        super().setUp()
        self.folder, inside = self.top / "a bin", self.top / "libexec/yuglemit"
        self.folder.mkdir()
        subprocess.run(["install", "-D", "/dev/stdin", inside / "tw"], input=FAKE, check=True)
        self.command = Path(shutil.copy(ROOT / "script/install/tw.sh", self.folder / "tw"))
        shutil.copy(ROOT / "script/terminal.sh", inside)

    def test_elsewhere_it_becomes_the_program(self) -> None:
        process = subprocess.Popen([self.command, "itself", " a  *"], stdin=subprocess.PIPE, stdout=subprocess.PIPE, stderr=subprocess.PIPE)
        printed = process.communicate(b"given")
        self.assertEqual((process.returncode, *printed), (5, b"%d, a  *,given\n" % process.pid, b""))

    def test_signals_are_for_the_program(self) -> None:
        self.assertEqual(self.elsewhere([self.command, "signal", "PIPE"]), (-signal.SIGPIPE, ""))
        self.assertEqual(self.elsewhere(["sh", "-c", "trap '' INT; exec \"$0\" signal INT", self.command]), (0, "ignored\n"))

    def test_it_is_called_by_any_name(self) -> None:
        (self.top / "links").mkdir()
        (self.top / "links/t w").symlink_to("../a bin/tw")
        (self.top / "links/twice").symlink_to("t w")
        (self.top / "links/bin").symlink_to("../a bin")
        for name in ("links/t w", "links/twice", "links/bin/tw", "a bin/tw"):
            for called in (name, str(self.top / name)):
                self.assertEqual(self.elsewhere([f"./{called}" if called == name else called, "x"], cwd=self.top), (3, "begun\n"))
        for path in (self.folder, f"{self.top}/links:", ""):
            self.assertEqual(self.elsewhere(["sh", "-c", "tw x"], cwd=self.folder, PATH=f"{path}:{os.environ['PATH']}"), (3, "begun\n"))
        self.assertEqual(self.elsewhere([shutil.copy(self.command, self.top / "alone")])[0], 70)

    def elsewhere(self, words: list[str | Path], cwd: Path | None = None, **variables: str) -> tuple[int, str]:
        """Returns the status and the output of a command that has no terminal."""
        done = subprocess.run(words, stdin=subprocess.DEVNULL, stdout=subprocess.PIPE, stderr=subprocess.STDOUT, text=True, check=False, cwd=cwd, env={**os.environ, **variables})
        return done.returncode, done.stdout


class Words(unittest.TestCase):
    def test_they_are_printed_without_hidden_characters(self) -> None:
        top = fake_clone(self, FAKE)
        said = subprocess.run([top / "tw", "install", "a\x1b\t\\033[2J\u0085", "b\u202e\x7f"], capture_output=True, text=True, check=False).stderr
        self.assertEqual(said, "tw: ./tw install takes one prefix, and got a\\u{1b} \\033[2J\\u{85} and b\\u{202e}\\u{7f}\n")
