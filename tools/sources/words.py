"""Checks the words of this repository against docs/STYLE.md. Docstrings of Python count as comments.

    ./dev words            prints what is wrong, and fails if anything is
    ./dev words --sources  prints what is wrong in comments
    ./dev words --counts   writes tools/sources/words.json, the counts that comments and documents may not exceed
    ./dev words --words    prints the number of words of each Markdown file

Markdown has to pass, and files, definitions and items that its code spans cite have to be there. tools/sources/senses.py has the meanings of words,
the homes of subjects and the ceilings. Findings in comments, functions without a doc line, and the words of documents are counted, and no count may
rise. Code blocks, code spans, the exceptions below, and what tools write between `<!-- ./dev NAME -->` and `<!-- end` are left out.
"""

import ast
import functools
import itertools
import json
import pathlib
import posixpath
import re
import subprocess
from collections import Counter
from collections.abc import Iterable, Iterator
from typing import NamedTuple

from tools import ROOT
from tools.release.convert import anchor
from tools.sources import senses

COUNTS = ROOT / "tools" / "sources" / "words.json"
MEAN_MOST = 22
SENTENCE_MOST = 40
RUN = 8

# A word that this project doesn't use, as an expression, and what it uses instead.
WORDS: tuple[tuple[str, str], ...] = (
    (r"tells?|told|telling", "report, print, say"),
    (r"stands?|stood|standing", "is, depends on"),
    (r"behind", "after, below, also"),
    (r"besides", "also"),
    (r"in vain", "unmet"),
    (r"wanted", "expected, required"),
    (r"want of memory", "out of memory"),
    (r"memory (?:is|was) refused", "an allocation fails"),
    (r"refusals?", "error, rejection"),
    (r"but for", "except"),
    (r"let(?:s|ting)? (?:go|fall)|lets? \w+ (?:go|fall)", "drop, close"),
    (r"shut", "close"),
    (r"come(?:s)? to|came to", "is, evaluates to, reaches"),
    (r"goes|went", "succeeds, is executed"),
    (r"lends?|lent|lending", "issue"),
    (r"(?:take|takes|took|taken|taking) back", "complete"),
    (r"(?:give|gives|gave|given|hand|hands|handed) back", "return"),
    (r"(?:hand|hands|handed|handing) in", "submit"),
    (r"laws?", "theorem"),
    (r"spell(?:s|ed|ing|ings)?", "encode; encoding, syntax"),
    (r"histor(?:y|ies)", "trace, events"),
    (r"pictures?", "timeline"),
    (r"lanes?", "row, run queue"),
    (r"numbers of (?:a|the) run", "statistics"),
    (r"texts? with names", "symbolic assembly"),
    (r"trials?", "fuzz test, unverified build"),
    (r"merge gate|the gate", "CI, job observer"),
    (r"edits? that must fail", "mutant"),
    (r"(?:play|plays|played) (?:a|the|each|all) (?:row|rows|case|cases)", "run a test case"),
    (r"the house|the rooms?|a room of", "architecture, crate"),
    (r"fronts?", "prefix"),
)

# A doc line doesn't begin so.
OPENINGS = re.compile(r"(?:What|The same|Then|So)\b")


class Allowed(NamedTuple):
    """An exception: in files whose path begins so, this phrase, and why."""

    path: str
    phrase: str
    reason: str


ALLOWED: tuple[Allowed, ...] = (Allowed("docs/MACHINE.md", "| likewise |", "the page's reference reads it"),)

# Documents whose words others may repeat: a log says once more, with a date, what the manual says of today.
LOGS = ("CHANGELOG.md",)


class Finding(NamedTuple):
    """One thing that is wrong: where, its kind, and what to do."""

    path: str
    line: int
    kind: str
    text: str


class Line(NamedTuple):
    """A line of prose, with its number in the file."""

    number: int
    text: str


def files_here() -> list[str]:
    """Returns the files of the repository, also where it is no clone."""
    listed = subprocess.run(["git", "-C", str(ROOT), "ls-files", "-co", "--exclude-standard"], capture_output=True, text=True)
    if listed.returncode == 0:
        return listed.stdout.splitlines()
    paths = (path.relative_to(ROOT) for path in ROOT.rglob("*"))
    return [str(path) for path in paths if not {".git", "out", "dist", "__pycache__"} & set(path.parts)]


def tracked(endings: Iterable[str]) -> list[str]:
    """Returns the files of the repository with one of these endings, without the copies that cases read."""
    ends = tuple(endings)
    return sorted(path for path in set(files_here()) if path.endswith(ends) and "/data/" not in path and (ROOT / path).is_file())


def without_code(text: str) -> str:
    """Replaces code spans by a word, and drops the targets of links and images. Lines stay lines."""
    spans = re.sub(r"``.*?``|`(?:[^`\n]|\n(?!\n))*`", lambda match: "CODE" + "\n" * match[0].count("\n"), text)
    return re.sub(r"\]\([^)]*\)", "]", spans)


def markdown_lines(text: str) -> list[Line]:
    """Returns the lines of a Markdown text outside of code blocks, as they are. Four blanks after an empty line begin a block, too."""
    lines: list[Line] = []
    fenced = False
    for line in without_blocks(itertools.starmap(Line, enumerate(text.splitlines(), 1)), "    "):
        if line.text.strip().startswith("```"):
            fenced = not fenced
        elif not fenced:
            lines.append(line)
    return lines


def prose_of(lines: list[Line]) -> list[Line]:
    """Replaces the code spans of lines, also of those that begin in one line and end in the next."""
    texts = without_code("\n".join(line.text for line in lines)).split("\n")
    return [Line(line.number, text) for line, text in zip(lines, texts)]


MARKERS = {".rt": r"//[/!]?", ".antt": r"--\|?", ".py": "#", ".sh": "#", ".js": r"(?://|\*)", ".c": r"(?://|\*)", ".h": r"(?://|\*)", ".rs": r"//[/!]?"}
FOR_TOOLS = re.compile(r"SPDX-License-Identifier:|shellcheck |@ts-check")


def comment_lines(text: str, suffix: str) -> list[Line]:
    """Returns the comments of a source, without the signs that begin them, types in braces and lines for other tools."""
    marker = re.compile(rf"^\s*{MARKERS[suffix]}(?:\s|$)(.*)$")
    found = ((number, marker.match(line)) for number, line in enumerate(text.splitlines(), 1))
    lines = (Line(number, without_code(re.sub(r"\{[^}]*\}", "CODE", match[1]))) for number, match in found if match)
    outside = list(without_blocks(line for line in lines if not FOR_TOOLS.match(line.text)))
    return sorted([*outside, *docstring_lines(text)]) if suffix == ".py" else outside


def docstring_lines(text: str) -> Iterator[Line]:
    """Yields the docstrings of a Python source, without their blocks of code and examples."""
    for node in ast.walk(ast.parse(text)):
        if isinstance(node, (ast.Module, ast.ClassDef, ast.FunctionDef, ast.AsyncFunctionDef)):
            prose = re.split(r"\n *>>> ", ast.get_docstring(node, clean=False) or "")[0]
            margin = " " * (node.body[0].col_offset if node.body else 0)
            lines = enumerate(prose.split("\n"), node.body[0].lineno if node.body else 1)
            yield from without_blocks(Line(number, without_code(line.removeprefix(margin))) for number, line in lines)


def without_blocks(lines: Iterable[Line], margin: str = "  ") -> Iterator[Line]:
    """Leaves out the blocks of code, which blanks after an empty line begin: in comments two more, as in a list of calls."""
    before, indented = "", False
    for line in lines:
        indented = line.text.startswith(margin) and (indented or not before)
        before = line.text.strip()
        if not indented:
            yield line


def is_allowed(path: str, text: str, start: int) -> bool:
    """Says if what begins at this place of the text is one of the exceptions."""
    phrases = (match for it in ALLOWED if path.startswith(it.path) for match in re.finditer(re.escape(it.phrase), text))
    return any(match.start() <= start < match.end() for match in phrases)


@functools.cache
def of_words(*expressions: str) -> re.Pattern[str]:
    """Returns an expression that finds one of these words."""
    return re.compile(rf"(?<![\w-])(?:{'|'.join(expressions)})(?![\w-])", re.IGNORECASE)


def wrong_words(path: str, lines: Iterable[Line], words: tuple[tuple[str, str], ...] = WORDS) -> Iterator[Finding]:
    """Finds the words that this project doesn't use. One look at a line, for all words, decides whether there is more to do."""
    some = of_words(*(expression for expression, _ in words))
    for line in (line for line in lines if some.search(line.text)):
        for expression, better in words:
            for match in of_words(expression).finditer(line.text):
                if not is_allowed(path, line.text, match.start()):
                    yield Finding(path, line.number, "word", f"{match[0]}: {better}")


def unmade(lines: Iterable[Line]) -> Iterator[Line]:
    """Leaves out what tools write into a document."""
    made = False
    for line in lines:
        made = not line.text.startswith("<!-- end") if made else line.text.startswith("<!-- ./dev ")
        if not made:
            yield line


def paragraphs(lines: Iterable[Line]) -> Iterator[list[Line]]:
    """Yields the paragraphs and items of lists, without headings and tables."""
    gathered: list[Line] = []
    last = -1
    for line in lines:
        text = line.text.strip()
        outside = not text or text.startswith(("#", "|", "!["))
        if outside or re.match(r"(?:[-*]|\d+\.)\s", text) or line.number != last + 1:
            if gathered:
                yield gathered
            gathered = []
        if not outside:
            gathered.append(line)
        last = line.number
    if gathered:
        yield gathered


def sentences(lines: Iterable[Line]) -> Iterator[Line]:
    """Yields sentences with the line where their paragraph begins. A colon at a paragraph's end ends one too."""
    for paragraph in paragraphs(lines):
        joined = " ".join(re.sub(r"^(?:[-*]|\d+\.)\s+", "", line.text.strip()) for line in paragraph)
        for part in re.split(r"(?<=[.?!:;])[\"*)_]*\s+(?=[\"*(_\[]*[A-Z0-9])", joined):
            if part.strip():
                yield Line(paragraph[0].number, part)


def words_in(text: str) -> list[str]:
    """Returns the words of a text, in small letters."""
    return re.findall(r"[\w'’]+(?:[-./][\w'’]+)*", text.lower())


def long_sentences(path: str, lines: list[Line]) -> Iterator[Finding]:
    """Finds sentences over the limit, and a mean over its limit."""
    lengths: list[int] = []
    for sentence in sentences(lines):
        count = len(words_in(sentence.text))
        lengths.append(count)
        if count > SENTENCE_MOST:
            yield Finding(path, sentence.number, "sentence", f"{count} words: {sentence.text[:60]} ..")
    if lengths and sum(lengths) > MEAN_MOST * len(lengths):
        yield Finding(path, 1, "mean", f"{sum(lengths) / len(lengths):.1f} words a sentence")


def wrong_openings(path: str, lines: list[Line]) -> Iterator[Finding]:
    """Finds comments that begin with a word with which none should."""
    last = -1
    for line in lines:
        if line.number != last + 1 and OPENINGS.match(line.text):
            yield Finding(path, line.number, "opening", line.text[:60])
        last = line.number


def runs_of(lines: list[Line]) -> Iterator[tuple[str, int]]:
    """Yields each run of words, with the line where its paragraph or row begins."""
    rows = [line for line in lines if line.text.startswith("|")]
    for line in [Line(part[0].number, " ".join(it.text for it in part)) for part in paragraphs(lines)] + rows:
        words = words_in(re.sub(r"\]\([^)]*\)", "]", line.text))
        for start in range(len(words) - RUN + 1):
            yield " ".join(words[start : start + RUN]), line.number


def repeated(documents: dict[str, list[Line]]) -> Iterator[Finding]:
    """Finds runs of words that two documents have, the first of each pair of paragraphs."""
    places: dict[str, tuple[str, int]] = {}
    seen: set[tuple[str, int, str, int]] = set()
    for path, lines in documents.items():
        if path in LOGS:
            continue
        for run, number in runs_of(list(unmade(lines))):
            other = places.setdefault(run, (path, number))
            pair = (path, number, other[0], other[1])
            if other[0] != path and pair not in seen:
                seen.add(pair)
                yield Finding(path, number, "repeat", f"also in {other[0]}:{other[1]}: {run}")


def anchors_of(lines: Iterable[Line]) -> set[str]:
    """Returns the anchors of a document."""
    return {anchor(line.text.lstrip("#")) for line in lines if line.text.startswith("#")}


def leads_nowhere(path: str, target: str, documents: dict[str, list[Line]]) -> bool:
    """Says if a link of a document names a file or a heading that isn't there."""
    name, _, anchor = target.partition("#")
    to = posixpath.normpath(posixpath.join(posixpath.dirname(path), name)) if name else path
    return bool(anchor) and anchor not in anchors_of(documents[to]) if to in documents else not (ROOT / to).exists()


def dead_links(path: str, documents: dict[str, list[Line]]) -> Iterator[Finding]:
    """Finds the links of a document that lead nowhere."""
    for line in documents[path]:
        for target in re.findall(r"\]\(([^)\s]+)\)", line.text):
            if not target.startswith("http") and leads_nowhere(path, target, documents):
                yield Finding(path, line.number, "link", target)


# A source or a folder of definitions in a document, and after a colon what it has: `tw_main/src/main.rt`: `main`, `run`; `tw_host/specs`: `Run`, `Seats`.
CODE = re.compile(r"`(?:crates/)?(tw_\w+/[\w/]+\.(?:rt|antt))`(?::((?:,?\s+(?:and\s+|→\s+)?`\w+`)+))?")
SPECS = re.compile(r"`(tw_\w+/specs[\w/]*)`(?::((?:,?\s+(?:and\s+)?`[\w/]+`)+))?")
# A function, theorem or type by its path: `tw_host::Host::open`. Any other path: `docs/STYLE.md`, `tw_asm/proofs`, `machine/Bounds` of tw_code/specs.
PATHS = re.compile(r"`(tw_\w+)::(\w+(?:::\w+)*)`")
FILES = re.compile(r"`(([\w.-]+)(?:/[\w.-]+)+)/?`")
# Parts of paths that aren't looked up: any name, and a folder of made files.
UNNAMED = {"NAME", "out"}


def defines(source: str, name: str) -> bool:
    """Says if a source defines a function, type or definition of this name."""
    return bool(re.search(rf"\b(?:fn|struct|enum|trait|type|const|data|record|codata) (?:pub )?{name}\b|^ *(?:pub |abbrev )*{name} :", source, re.M))


@functools.cache
def code_of(crate: str) -> str:
    """Returns all sources, definitions and theorems of a crate as one text."""
    parts = [ROOT / "crates" / crate / part for part in ("src", "specs", "proofs")]
    files = sorted(path for ending in ("rt", "antt") for part in parts for path in part.rglob(f"*.{ending}"))
    return "\n".join(path.read_text(encoding="utf-8") for path in files)


@functools.cache
def first_parts() -> frozenset[str]:
    """Returns the folders of the repository's top, and those of tw_code/specs, which documents cite by their names."""
    return frozenset(path.partition("/")[0] for path in files_here() if "/" in path) | {"format", "machine", "accepting"}


def is_there(document: str, path: str) -> bool:
    """Says if a path is a file or a folder for a reader of this document. The ending of definitions may be left out."""
    folders = (ROOT, ROOT / "crates", (ROOT / document).parent, ROOT / "crates/tw_code/specs")
    return any((folder / name).exists() for folder in folders for name in (path, f"{path}.antt"))


def missing(document: str, text: str) -> Iterator[tuple[int, str]]:
    """Yields what a text names that isn't there: places in the text, and what is missing."""
    for match in CODE.finditer(text):
        source = ROOT / "crates" / match[1]
        if not source.is_file():
            yield match.start(), f"there is no crates/{match[1]}"
        else:
            code = source.read_text(encoding="utf-8")
            yield from ((match.start(), f"{match[1]} has no {name}") for name in re.findall(r"`(\w+)`", match[2] or "") if not defines(code, name))
    for match in SPECS.finditer(text):
        place = ROOT / "crates" / match[1]
        if not (place.is_dir() or place.with_suffix(".antt").is_file()):
            yield match.start(), f"there is no crates/{match[1]}"
        names = re.findall(r"`([\w/]+)`", match[2] or "")
        yield from ((match.start(), f"{match[1]} has no {name}") for name in names if not (place / name).is_dir() and not (place / f"{name}.antt").is_file())
    for match in PATHS.finditer(text):
        yield from ((match.start(), f"{match[1]} has no {name}") for name in match[2].split("::") if not defines(code_of(match[1]), name))
    others = functools.reduce(lambda rest, pattern: pattern.sub(lambda match: " " * len(match[0]), rest), (CODE, SPECS), text)
    for match in FILES.finditer(others):
        known = match[2] in first_parts() or match[2].startswith("tw_")
        if known and not UNNAMED & set(match[1].split("/")) and not is_there(document, match[1]):
            yield match.start(), f"there is no {match[1]}"


def dead_code(path: str, lines: list[Line]) -> Iterator[Finding]:
    """Finds the sources, definitions, functions, types and files that a document names and that aren't there."""
    text = "\n".join(line.text for line in lines)
    yield from (Finding(path, lines[text.count("\n", 0, place)].number, "code", what) for place, what in missing(path, text))


def markdown_findings(documents: dict[str, list[Line]]) -> Iterator[Finding]:
    """Finds all that is wrong in Markdown."""
    for path, lines in documents.items():
        prose = prose_of(lines)
        yield from wrong_words(path, prose)
        yield from wrong_words(path, prose, senses.SENSES)
        yield from long_sentences(path, prose)
        yield from (Finding(path, number, "cell", text) for number, text in senses.long_cells(unmade(prose)))
        yield from dead_links(path, documents)
        if path not in LOGS:
            yield from (Finding(path, number, "home", text) for number, text in senses.homeless(path, unmade(lines)))
            yield from dead_code(path, lines)
    yield from repeated(documents)


FUNCTION = re.compile(r"\s*(?:pub(?:\(\w+\))? )?(?:const |unsafe |extern \"C\" )*fn (\w+)")


def undocumented(path: str, text: str) -> Iterator[Finding]:
    """Finds functions of Rattle, public or not, without a doc line before them. Attributes may be between."""
    before = ""
    for number, line in enumerate(text.splitlines(), 1):
        name = FUNCTION.match(line)
        if name and not before.lstrip().startswith("///"):
            yield Finding(path, number, "undocumented", f"{name[1]} has no doc line")
        if not line.lstrip().startswith("#["):
            before = line


def source_findings(paths: Iterable[str]) -> Iterator[Finding]:
    """Finds all that is wrong in the comments of sources, and functions without one."""
    for path in paths:
        file = ROOT / path
        text = file.read_text(encoding="utf-8")
        lines = comment_lines(text, file.suffix)
        yield from undocumented(path, text) if file.suffix == ".rt" else []
        yield from wrong_words(path, lines)
        yield from wrong_openings(path, lines)
        yield from long_sentences(path, lines)


def group_of(path: str) -> str:
    """Returns under which name a source's findings are counted."""
    parts = path.split("/")
    return f"crates {pathlib.Path(path).suffix[1:]}" if parts[0] == "crates" else parts[0]


def counts_of(findings: Iterable[Finding]) -> dict[str, int]:
    """Returns how many findings of each kind each group has."""
    return dict(sorted(Counter(f"{group_of(it.path)}: {it.kind}" for it in findings).items()))


def risen(now: dict[str, int], before: dict[str, int]) -> Iterator[str]:
    """Yields a line for each count that is larger than it may be."""
    for name, count in now.items():
        if count > before.get(name, 0):
            yield f"{name}: {count}, at most {before.get(name, 0)} (./dev words {'--words' if name.endswith(': words') else '--sources'} lists them)"


def texts_here() -> dict[str, str]:
    """Reads the Markdown files as they are, with the copies that cases read."""
    return {path: (ROOT / path).read_text(encoding="utf-8") for path in files_here() if path.endswith(".md") and (ROOT / path).is_file()}


def sources_here() -> list[Finding]:
    """Finds what is wrong in the sources of this repository."""
    return list(source_findings(tracked(MARKERS)))


def print_words() -> int:
    """Prints how many words each Markdown file has."""
    counts = {path: len(text.split()) for path, text in texts_here().items()}
    for path, count in sorted(counts.items(), key=lambda it: it[1]):
        print(f"{count:6} {path}")
    print(f"{sum(counts.values()):6} together")
    return 0


def show(findings: Iterable[Finding]) -> None:
    """Prints findings, a line each."""
    for it in findings:
        print(f"{it.path}:{it.line}: {it.kind}: {it.text}")


def useless_exceptions() -> Iterator[Finding]:
    """Finds exceptions whose phrase no file has."""
    for allowed in ALLOWED:
        files = (ROOT / path for path in tracked([""]) if path.startswith(allowed.path))
        if not any(allowed.phrase in file.read_text(encoding="utf-8", errors="replace") for file in files):
            yield Finding(allowed.path, 0, "exception", f"no file has: {allowed.phrase}")


def check() -> int:
    """Checks everything, and returns the exit status."""
    documents = {path: markdown_lines((ROOT / path).read_text(encoding="utf-8")) for path in tracked([".md"])}
    wrong = [*markdown_findings(documents), *useless_exceptions()]
    show(wrong)
    before: dict[str, int] = json.loads(COUNTS.read_text(encoding="utf-8"))
    comments, words = counts_of(sources_here()), senses.words_by_group(texts_here())
    rises = [*risen({**comments, **words}, before), *risen({"all documents: words": sum(words.values())}, {"all documents: words": senses.ALL_MOST})]
    said = f"{sum(words.values())} checked: words in Markdown, with {len(wrong)} findings; {sum(comments.values())} in comments; {len(rises)} counts have risen"
    print("\n".join([*rises, said]))
    return 1 if wrong or rises else 0


def main(arguments: list[str]) -> int:
    """Does what the arguments say, and returns the exit status."""
    if arguments == ["--words"]:
        return print_words()
    if arguments == ["--sources"]:
        show(sources_here())
        return 0
    if arguments == ["--counts"]:
        counts = {**counts_of(sources_here()), **senses.ceilings(senses.words_by_group(texts_here()))}
        COUNTS.write_text(json.dumps(counts, indent=1) + "\n", encoding="utf-8")
        return 0
    if arguments:
        print(__doc__)
        return 2
    return check()
