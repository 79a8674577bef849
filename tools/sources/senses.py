"""Checks of ./dev words for documents, beside their words: one meaning for a word, one home for a subject, short cells, and ceilings of words."""

import posixpath
import re
from collections.abc import Iterable, Iterator
from typing import NamedTuple

CELL_MOST = 40
ALL_MOST = 48_000
README_MOST = 1_900
STEP = 500

# An expression of a word in another sense than docs/STYLE.md's, or of a noun that is left out, and what to write.
SENSES: tuple[tuple[str, str], ...] = (
    (r"in place of", "instead of: a place is an instruction"),
    (r"places? of (?:a|an|the) (?:datum|parameter|error|fault|word|name|member)", "slot, position: a place is an instruction"),
    (r"(?:command[- ]line|input) words?|words? of (?:a|the) command(?: line)?", "argument, input: a word is of a text"),
    (r"64-bit words?|words? of 64 bits", "64 bits: a word is of a text"),
    (r"(?:programs?|texts?|files?|inputs?|arguments?|lines?|bodies|command lines?) (?:is|are|was|were|be) refused", "rejected: an instruction is refused"),
    (r"refus(?:e|es|ing) (?:it|a|an|the|each|all)", "reject, fail, prove none: an instruction is refused"),
    (r"(?:an|its) orders? (?:and bytes|for assembly|of the others?|has|that limits)|the order's field|order's inputs", "request: an order is of events"),
    (r"(?:least|both|counts) places?|neither place is", "position: a place is an instruction"),
    (r"circles? of calls|cycles? of rules", "a circle is of rules, a cycle of calls"),
    (r"(?:the|a|this|that|same|which|its) numbers? of (?!a\b|an\b|the\b|this\b|each\b|its\b)\w+", "how many, count: a number is an id"),
    (r"(?:than|as|like|with|by|to|from|for|and|or|of|is|are|in|on) (?:that|those) of", "the noun again"),
    (r"(?:than|as|like|with|by|to|from|for|and|or|is|are) those (?:that|which|with|in|before|after|above|below)", "the noun again"),
    (r"(?:does|do|did|doing) so", "the verb again"),
    (r"likewise", "the verb again"),
)


class Home(NamedTuple):
    """A subject, an expression that recognises it, and the documents that may explain it. Others link to one of these."""

    subject: str
    expression: str
    homes: tuple[str, ...]


DETERMINISM, COPIES, CERTIFICATE = (f"crates/tw_{name}/README.md" for name in ("determinism", "copies", "certificate"))
# Reasons are given without explaining the subject.
REASONS = ("docs/DECISIONS.md",)
FORMAT, MACHINE, NAMES, HOSTING = (f"docs/{name}.md" for name in ("FORMAT", "MACHINE", "NAMES", "HOSTING"))
IN_TURN, FRAME, BOUNDS, HOST, VERIFY = (f"crates/tw_{name}/README.md" for name in ("in_turn", "frame", "bounds", "host", "verify"))

HOMES: tuple[Home, ...] = (
    Home("whether the order of events shows", r"(?:outputs?|results?)\b[^.|]*\border of events|order of events\b[^.|]*\b(?:outputs?|results?)|order same", (FORMAT, DETERMINISM, COPIES, CERTIFICATE)),
    Home("that MADD never shows the order", r"MADD\b[^.|]*\b(?:never|order)\b|[Ss]ums? (?:are|is) the same", (MACHINE, DETERMINISM)),
    Home("what bounds count", r"4,096 (?:bytes )?for each|counts 4,096", (FORMAT, BOUNDS)),
    Home("that a stop is seen within a task", r"65,536", (FORMAT, IN_TURN, FRAME)),
    Home("what is read of a text of too many procedures", r"65th", (NAMES,)),
    Home("turns, holds and seeds", r"64 turns|SplitMix64", (MACHINE, HOST, IN_TURN)),
    Home("ids of lines", r'"id"|line\'s id', (FORMAT, HOSTING)),
    Home("pairs of instructions, and spins", r"ADD END|32nd", (VERIFY, HOST)),
    Home("the system that is needed", r"x86-64-v2|glibc 2\.\d", ("README.md",)),
)


def sections(lines: Iterable[tuple[int, str]]) -> Iterator[list[tuple[int, str]]]:
    """Yields the lines of each section, with the heading first."""
    gathered: list[tuple[int, str]] = []
    for line in lines:
        if line[1].startswith("#") and gathered:
            yield gathered
            gathered = []
        gathered.append(line)
    if gathered:
        yield gathered


def targets(path: str, text: str) -> set[str]:
    """Returns the files to which a document's text links. A folder means its README."""
    links = (link.partition("#")[0] for link in re.findall(r"\]\(([^)\s]+)\)", text))
    files = {posixpath.normpath(posixpath.join(posixpath.dirname(path), link)) for link in links if link and not link.startswith("http")}
    return files | {f"{file}/README.md" for file in files}


def homeless(path: str, lines: Iterable[tuple[int, str]]) -> Iterator[tuple[int, str]]:
    """Yields the sections that explain a subject of another document, and don't link to it."""
    for section in sections(lines):
        text = " ".join(line for _, line in section)
        there = targets(path, text)
        for home in HOMES:
            if path not in (*home.homes, *REASONS) and re.search(home.expression, text) and not there.intersection(home.homes):
                yield section[0][0], f"{home.subject}: link to {home.homes[0]}"


def long_cells(lines: Iterable[tuple[int, str]]) -> Iterator[tuple[int, str]]:
    """Yields the cells of tables with too many words."""
    for number, text in lines:
        for cell in re.split(r"(?<!\\)\|", text) if text.startswith("|") else []:
            count = len(re.findall(r"[\w'’]+(?:[-./][\w'’]+)*", cell))
            if count > CELL_MOST:
                yield number, f"{count} words: {cell.strip()[:60]} .."


def group_of(path: str) -> str:
    """Returns under which name the words of a document are counted."""
    return path.partition("/")[0] if "/" in path else "README.md" if path == "README.md" else "top"


def words_by_group(documents: dict[str, str]) -> dict[str, int]:
    """Returns how many words the documents of each group have."""
    found: dict[str, int] = {}
    for path, text in documents.items():
        name = f"{group_of(path)}: words"
        found[name] = found.get(name, 0) + len(text.split())
    return found


def ceilings(counts: dict[str, int]) -> dict[str, int]:
    """Returns the ceilings of words that these counts get: README's is fixed, others are rounded up."""
    return {name: README_MOST if name == "README.md: words" else -(-count // STEP) * STEP for name, count in sorted(counts.items())}
