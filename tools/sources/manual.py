"""Compares the manual page docs/tw.1 with the help texts that tw prints.

    ./dev manual --check    prints what differs, and fails if anything does

A command's entry begins with its line of `tw --help`. An option's entry begins with its sentence of `tw COMMAND --help`, and has a
sentence "For .." with the commands that take it. If a file follows an option, its name is in both.
"""

import re
from collections.abc import Iterable, Iterator, Mapping
from typing import NamedTuple

from tools import ROOT
from tools.common.program import program
from tools.sources.editor import commands, file_options, printed

PAGE = ROOT / "docs" / "tw.1"
# Options that every command takes, which the library of the command line describes.
COMMON = frozenset({"--help", "--version"})


class Helps(NamedTuple):
    """The sentences of the help texts, by command and by option, and the commands of each option."""

    commands: dict[str, str]
    options: dict[str, str]
    takers: dict[str, set[str]]


def helps_of(top: str, texts: Mapping[str, str]) -> Helps:
    """Returns what `tw --help` says, and the help text of each command."""
    helps = Helps({name: re.findall(rf"(?m)^  {name} +(.*)$", top)[0] for name in texts}, {}, {})
    for command, text in texts.items():
        for option, sentence in re.findall(r"(?m)^ {2,6}(?:-\w, )?(--[a-z-]+)\S*(?: \S+)?(?: {2,}|\n {10})(.*)$", text):
            if option not in COMMON:
                helps.options[option] = sentence.replace("`", "")
                helps.takers.setdefault(option, set()).add(command)
    return helps


def file_in(sentence: str) -> str | None:
    """Returns the name that a help text gives a file."""
    found = re.search(r"\b(DATA|TRACE)\b", sentence)
    return found[1] if found else None


# --- The manual page


def plain(line: str) -> str:
    """Returns a line as it is shown, without fonts. An argument of a macro may have blanks if it is between quotes."""
    macro = re.match(r"\.(BI|BR|IB|IR|RB|RI|B|I) (.*)", line)
    if macro:
        line = ("" if len(macro[1]) == 2 else " ").join(quoted or bare for quoted, bare in re.findall(r'"([^"]*)"|(\S+)', macro[2]))
    return re.sub(r"\\f.|\\c", "", line).replace("\\-", "-").replace("\\(dq", '"')


def blocks_of(page: str) -> Iterator[list[str]]:
    """Yields the lines of each paragraph that has more than one, as they are shown."""
    for block in re.split(r"^\.(?:SH|PP|TP|TQ)\b.*$", page, flags=re.MULTILINE):
        lines = [plain(line) for line in block.strip().splitlines()]
        if len(lines) > 1:
            yield lines


def entries_of(page: str) -> dict[str, str]:
    """Returns the text of each entry of the page, by the first word of its line."""
    entries: dict[str, str] = {}
    for lines in blocks_of(page):
        entries.setdefault(lines[0].split()[0], " ".join(lines[1:]))
    return entries


def named_files(page: str) -> dict[str, str]:
    """Returns the name of the file in the line of each entry that has one, such as DATA of `--each [DATA]`."""
    return {found[1]: found[2] for lines in blocks_of(page) if (found := re.fullmatch(r"(--\S+) \[([A-Z]+)\]", lines[0]))}


def takers_in(text: str, commands: Iterable[str]) -> set[str]:
    """Returns the commands that the sentences "For .." of an entry name."""
    sentences = " ".join(re.findall(r"\bFor ([^.]*)\.", text))
    return set(re.findall(r"(?<![\w-])\w+", sentences)) & set(commands)


# --- The comparison


def wrong_entry(name: str, sentence: str, entries: dict[str, str]) -> Iterator[str]:
    """Finds an entry that is missing, or begins with another sentence."""
    if name not in entries:
        yield f"{name} has no entry"
    elif not re.match(re.escape(sentence) + r"(?!\w)", entries[name]):
        yield f"{name} begins with: {entries[name][:60]}.., and its help says: {sentence}"


def wrong_takers(option: str, helps: Helps, entries: dict[str, str]) -> Iterator[str]:
    """Finds an option whose entry names other commands than those that take it."""
    named, taking = takers_in(entries.get(option, ""), helps.commands), helps.takers.get(option, set())
    if option in entries and named != taking:
        yield f"{option} is for: {', '.join(sorted(named))}; and taken by: {', '.join(sorted(taking))}"


def wrong_file(option: str, sentence: str, files: dict[str, str], entries: dict[str, str]) -> Iterator[str]:
    """Finds an entry whose line has another name of a file than its help."""
    if option in entries and files.get(option) != file_in(sentence):
        yield f"{option} names the file {files.get(option)}, and its help {file_in(sentence)}"


def differences(helps: Helps, page: str, with_files: Iterable[str]) -> Iterator[str]:
    """Finds all that the page says otherwise than the help texts; some options take a file."""
    entries, files = entries_of(page), named_files(page)
    for name, sentence in [*helps.commands.items(), *helps.options.items()]:
        yield from wrong_entry(name, sentence, entries)
    for option, sentence in helps.options.items():
        yield from wrong_takers(option, helps, entries)
        yield from wrong_file(option, sentence, files, entries)
    yield from (f"{option} takes a file, and its help names none" for option in with_files if not file_in(helps.options.get(option, "")))
    yield from (f"{name} is no option of tw" for name in sorted(entries.keys() - helps.options.keys() - COMMON) if name.startswith("--"))


def check() -> int:
    """Compares the page of this repository, and returns the exit status."""
    top = printed(program(), "--help")
    helps = helps_of(top, {name: printed(program(), name, "--help") for name in commands(top)})
    wrong = list(differences(helps, PAGE.read_text(encoding="utf-8"), file_options()))
    count = len(helps.commands) + len(helps.options)
    print("\n".join([*(f"docs/tw.1: {line}" for line in wrong), f"{count} checked, {len(wrong)} differences"]))
    return 1 if wrong or not helps.options else 0


def main(arguments: list[str]) -> int:
    """Does what the arguments say, and returns the exit status."""
    if arguments == ["--check"]:
        return check()
    print(__doc__)
    return 2
