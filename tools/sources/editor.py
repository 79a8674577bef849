"""Writes what follows from the program into the files of script/install by which editors show assembly text (tw.vim, tw.tmLanguage.json), and shells
complete the arguments of tw (tw.bash, tw.zsh): names of instructions, words of lines, commands, options, codes and inputs.

    ./dev editor            writes it, by the program with which ./tw answers
    ./dev editor --check    fails if a file is stale

./tw install puts them below its prefix. bash finds its file there; vim looks below /usr, and zsh below /usr and /usr/local. By hand:
For vim:   mkdir -p ~/.vim/syntax ~/.vim/ftdetect; cp script/install/tw.vim ~/.vim/syntax/; echo 'au BufNewFile,BufRead *.tw,*.twn setf tw' >~/.vim/ftdetect/tw.vim
For bash:  . script/install/tw.bash
For zsh:   mkdir -p ~/.zfunc; cp script/install/tw.zsh ~/.zfunc/_tw; and before compinit in ~/.zshrc: fpath+=~/.zfunc
"""

import re
import subprocess
import sys

from tools import ROOT
from tools.common.program import program
from tools.release.package import PACKAGES

CRATES, INSTALL = ROOT / "crates", ROOT / "script" / "install"
# Where each file has which words, instead of `@` and their name.
PLACES = {
    "tw.vim": ["keyword twInstruction @instructions\n", "keyword twStatement @statements\n", "keyword twWord @words\n"],
    "tw.tmLanguage.json": ['instruction.tw", "match": "\\\\b(@instructions)', 'statement.tw", "match": "\\\\b(@statements)', 'storage.type.tw", "match": "\\\\b(@words)'],
    "tw.bash": ['[1]} all="@commands"', 'all="$all @own"', "        @numbers)\n            compopt", "        @files)\n            COMPREPLY",
                *(f'{kind}) COMPREPLY=($(compgen -W "@{words}"' for kind, words in (("package:*", "packages"), ("explain:*", "codes"), ("run:*", "inputs"), ("picture:*", "inputs")))],
    "tw.zsh": ["\nall=(@commands)", "all+=(@own)", "    @numbers)\n        _message", "    @files)\n        _files", "package:*) compadd -- @packages ;;",
               "-M 'm:{a-z}={A-Z}' -- @codes ;;", "run:*) compadd -S '' -- @inputs;", "picture:*) compadd -S '' -- @inputs;"],
}
OPTIONS = {"tw.bash": ' {0}:-*) COMPREPLY=($(compgen -W "@{0}"', "tw.zsh": " {0}:-*) compadd -- @{0} ;;"}


def printed(*words: object) -> str:
    """Returns what a command prints."""
    return subprocess.run(list(map(str, words)), stdin=subprocess.DEVNULL, stdout=subprocess.PIPE, text=True, check=True).stdout


def commands(text: str) -> list[str]:
    """Returns the commands that a help text lists."""
    return [name for name in re.findall(r"(?m)^  ([a-z]+) ", text.partition("Commands:\n")[2].partition("\n\n")[0]) if name != "help"]


def words_in(*files: str) -> set[str]:
    """Returns the words with which sources compare what they read."""
    return {word for file in files for path in CRATES.glob(file) for word in re.findall(r'b"([a-z]+)"', path.read_text(encoding="utf-8"))}


def file_options() -> list[str]:
    """Returns the options that take a file."""
    rows = (CRATES / "tw_cli/src/command_rows.rt").read_text(encoding="utf-8")
    return sorted({f"--{name}" for name in re.findall(r'form: ArgumentForm::(?:Inputs|Trace), name: "([a-z-]*)"', rows)})


def all_words() -> dict[str, list[str]]:
    """Returns the words by their names; those of a command's name are its options."""
    tw = program()
    statements = words_in("tw_asm/src/first.rt", "tw_symbols/src/line_kind.rt")
    names = commands(printed(tw, "--help"))
    helps = {name: printed(tw, name, "--help") for name in names}
    forms = re.findall(r"(?m)^ *\[INPUT\]\.\.\. *(.*)", helps["run"])[0]
    return {
        "instructions": sorted(re.findall(r'(?m)^ *Opcode::\w* => "([A-Z]*)",$', (CRATES / "tw_code/src/opcode.rt").read_text(encoding="utf-8"))),
        "statements": sorted(statements), "words": sorted(words_in("tw_asm/src/*.rt") - statements), "commands": names,
        "own": [name for name in commands(printed(ROOT / "tw", "--help")) if name in ("test", "install", "package", "build")],
        "numbers": sorted({option for text in helps.values() for option in re.findall(r"(?m)^ {6}(--[a-z-]*) <N>", text)}),
        "files": file_options(), "packages": list(PACKAGES), "codes": re.findall("(?m)^([A-Z][0-9]*):", printed(tw, "explain")), "inputs": sorted({*re.findall("[a-z]*:", forms)} - {"input:"}),
        **{name: re.findall(r"(?m)^ {2,6}(?:-[a-z], )?(--[a-z-]*)", text) for name, text in helps.items()},
    }


def written(file: str, text: str, words: dict[str, list[str]]) -> str:
    """Returns a file with the words at their places, each of which it has to have once."""
    for place in [*PLACES[file], *(OPTIONS[file].format(name) for name in words["commands"] if file in OPTIONS)]:
        before, name, after = re.split("@([a-z]+)", place)
        joint = "|" if file.endswith(".json") else " | " if name in ("numbers", "files") else " "
        parts = re.split(f"(?<={re.escape(before)})[^\"()\n;]*(?={re.escape(after)})", text)
        if len(parts) != 2:
            raise SystemExit(f"script/install/{file} has {len(parts) - 1} times: {place}")
        text = joint.join(words[name]).join(parts)
    return text


def main(arguments: list[str]) -> int:
    """Writes or compares the files; returns an exit status."""
    words, stale = all_words(), 0
    for file in PLACES:
        text = (INSTALL / file).read_text(encoding="utf-8")
        if (made := written(file, text, words)) != text:
            stale += 1
            if arguments != ["--check"]:
                (INSTALL / file).write_text(made, encoding="utf-8")
            else:
                print(f"script/install/{file} is stale: ./dev editor writes it", file=sys.stderr)
    return int(arguments == ["--check"] and stale > 0)
