"""Tests of ./dev editor, with a program that prints small help texts."""

import unittest
from collections import defaultdict

from tools.common.testing import folder_of, put, replace, said
from tools.sources import editor

TOP = "Usage: tw\n\nCommands:\n  run   Runs\n  help  Helps\n\nOptions:\n  -h, --help\n"
RUN = "Usage: tw run [INPUT]...\n\nArguments:\n  [INPUT]...  An input: int: or text:, and its value\n\nOptions:\n      --limit <N>\n          Most --events\n  -h, --help\n"
FILE = "all=(asm)\n asm:-*) compadd -- --quiet ;;\n    --limit)\n        _message number\n"
WORDS = {"commands": ["asm"], "numbers": ["--limit"], "asm": ["--limit", "--quiet"]}


def printed(*words: object) -> str:
    """Returns what a command prints."""
    return "V01: a value\nA02: a word\n" if words[1:] == ("explain",) else TOP if len(words) == 2 else RUN


class Files(unittest.TestCase):
    def setUp(self) -> None:
        self.root = folder_of(self)
        put(self.root, {"tw.zsh": FILE})
        replace(self, editor, INSTALL=self.root, PLACES={"tw.zsh": ["all=(@commands)", "    @numbers)\n        _message"]}, all_words=lambda: WORDS)

    def text(self) -> str:
        return (self.root / "tw.zsh").read_text(encoding="utf-8")

    def test_a_line_gets_its_words(self) -> None:
        self.assertEqual((said(editor.main, []), self.text()), ((0, ""), FILE.replace("-- --quiet", "-- --limit --quiet")))

    def test_a_stale_file_fails_and_stays(self) -> None:
        self.assertEqual((said(editor.main, ["--check"]), self.text()), ((1, "script/install/tw.zsh is stale: ./dev editor writes it\n"), FILE))

    def test_a_fresh_file_passes(self) -> None:
        editor.main([])
        self.assertEqual(said(editor.main, ["--check"]), (0, ""))

    def test_a_place_that_is_missing_or_there_twice_fails(self) -> None:
        for text in (FILE.replace("all=", "every="), FILE + FILE):
            self.assertRaisesRegex(SystemExit, "^script/install/tw.zsh has [02] times: ", editor.written, "tw.zsh", text, WORDS)


class Sources(unittest.TestCase):
    def test_words_of_sources_and_help_texts(self) -> None:
        root = folder_of(self)
        put(root, {"tw_code/src/opcode.rt": '    Opcode::Add => "ADD",\n', "tw_cli/src/command_rows.rt": '{ form: ArgumentForm::Trace, name: "events" }\n'})
        put(root, {"tw_asm/src/first.rt": 'b"proc"', "tw_asm/src/types.rt": 'b"int" b"proc"', "tw_symbols/src/line_kind.rt": 'b"let"'})
        replace(self, editor, CRATES=root, program=lambda: "tw", printed=printed, PACKAGES={"deb": None})
        self.assertEqual(editor.all_words(), {
            "instructions": ["ADD"], "statements": ["let", "proc"], "words": ["int"], "commands": ["run"], "own": [], "numbers": ["--limit"], "files": ["--events"],
            "packages": ["deb"], "codes": ["V01", "A02"], "inputs": ["int:", "text:"], "run": ["--limit", "--help"]})

    def test_the_files_have_each_place_once(self) -> None:
        for file in editor.PLACES:
            self.assertTrue(editor.written(file, (editor.INSTALL / file).read_text(encoding="utf-8"), defaultdict(list)))
