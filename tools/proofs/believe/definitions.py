"""Definitions: the files of specs/ and proofs/, and the meaning of a name in one of them.

A name is found as the prover finds it: what is bound beside it, what the file defines, what its `use` lines bring in. What a clause
binds somewhere counts as bound in all of it. A name that is found nowhere is an error, so nothing is left out in silence.
"""

import os
import re
import sys
from collections.abc import Callable, Iterable, Iterator
from dataclasses import dataclass, field
from functools import cache
from typing import NoReturn, Optional, Protocol, Union

import tools
from tools.sources.scale import groups_of

ROOT = str(tools.ROOT)
# Names of the language that need no import.
BUILT_IN = set("→ × ¬ ⊥ : = ← ↦ | λ _ Type Unit tt absurd record data where pub abbrev unfoldable do let in elim as ∗ ⌜ ⌝ ∥ ∥₁".split())
WORD = re.compile(r'"(?:[^"\\]|\\.)*"|[(){}\[\],;]|\.?[^\s(){}\[\],;."]+(?:\.[^\s(){}\[\],;."]+)*|\.')
NUMERAL = re.compile(r"\d|0x")


def fail(why: str) -> NoReturn:
    sys.exit(f"believe: {why}")


def read(path: str) -> str:
    with open(os.path.join(ROOT, path), encoding="utf-8") as file:
        return file.read()


def crates() -> tuple[list[str], set[str]]:
    """The crates of the repository, lowest first, and which of them are checks."""
    groups = groups_of(read("crates.txt"))
    return [name for names in groups.values() for name in names], {name for group, names in groups.items() if group.startswith("Checks") for name in names}


CRATES, CHECKS = crates()


@dataclass(eq=False)
class Item:
    """A piece of text that is printed whole: a definition, a type, a constant."""

    file: str
    name: str
    start: int
    lines: list[str]
    uses: Optional[list["Use"]] = field(default=None, init=False)

    def __repr__(self) -> str:
        return f"{self.file}:{self.start} {self.name}"


# A meaning of a name: an item, or the words of the library.
Use = Union[Item, str]
Meaning = Union[Item, str, list[Use], None]
# The names that `use` lines bring in, each with its module and its name there; and other names of modules.
Names = dict[str, tuple[str, str]]
Modules = dict[str, str]


@dataclass(eq=False, repr=False)
class Definition(Item):
    """A definition of a file of specs/ or proofs/, with its kind (abbrev, record or data), the texts of its clauses and the file."""

    kind: str
    texts: list[str]
    module: "Definitions"


def without_comment(line: str) -> str:
    in_text = False
    for at, c in enumerate(line):
        if c == '"' and (at == 0 or line[at - 1] != "\\"):
            in_text = not in_text
        elif not in_text and line.startswith("--", at) and (at == 0 or line[at - 1].isspace()) and line[at + 2:at + 3] in ("", " "):
            return line[:at]
    return line


def imports(text: str) -> tuple[Names, Modules]:
    """Returns what the `use` lines of a text bring in."""
    names: Names = {}
    modules: Modules = {}
    for path, listed, other in re.findall(r"^\s*(?:ghost )?(?:pub )?use ([^\s{;]+?)(?:\.\{([^}]*)\})?(?: as ([^\s;]+))?;?\s*$", text, re.M):
        if listed:
            for each in listed.split(","):
                parts = each.split()
                names[parts[-1]] = (path, parts[0])
        else:
            modules[other or path.split(".")[-1]] = path
    return names, modules


@dataclass
class Piece:
    """The lines of a definition: those of each clause, and of the line before it that says how its operators group."""

    name: str
    kind: str
    chunks: list[tuple[int, int]]
    before: int


def chunks_of(bare: list[str]) -> Iterator[tuple[int, int]]:
    """Yields the lines from each line at the left edge to the next, without blank lines at the end."""
    heads = [at for at, line in enumerate(bare) if line and not line[0].isspace() and line[0] not in ")]}"]
    for start, end in zip(heads, [*heads[1:], len(bare)]):
        while end > start and not bare[end - 1]:
            end -= 1
        yield start, end


def pieces_in(bare: list[str]) -> tuple[list[Piece], list[str]]:
    """Returns the definitions of a file without comments, and its `use` lines."""
    pieces: list[Piece] = []
    uses: list[str] = []
    before: Optional[int] = None
    for start, end in chunks_of(bare):
        words = bare[start].split()
        if words[0] == "use" or words[:2] == ["pub", "use"]:
            uses.append(" ".join(" ".join(bare[start:end]).split()))
        elif words[0] in ("infixl", "infixr", "infix"):
            before = start
        elif words[:2] == ["pub", "mod"] or words[0] in ("mod", "unfolding"):
            pass
        elif pieces and words[0] == pieces[-1].name:
            pieces[-1].chunks.append((start, end))
        else:
            name = next(word for word in words if word not in ("abbrev", "pub", "unfoldable", "record", "data"))
            kind = next((word for word in words if word in ("record", "data")), "abbrev")
            pieces.append(Piece(name, kind, [(start, end)], start if before is None else before))
            before = None
    return pieces, uses


class Definitions:
    """A file of definitions: what it defines, and what its names mean."""

    def __init__(self, path: str, file: str) -> None:
        self.path, self.file = path, file
        self.items: dict[str, Definition] = {}
        self.constructors: dict[str, Definition] = {}
        lines = read(file).splitlines()
        bare = [without_comment(line).rstrip() for line in lines]
        pieces, uses = pieces_in(bare)
        self.names, self.modules = imports("\n".join(uses))
        for piece in pieces:
            self.add(piece, lines, bare)
        self.operators = operators([*self.items, *self.names])

    def add(self, piece: Piece, lines: list[str], bare: list[str]) -> None:
        """Adds a definition, with the comment above it, and its constructors."""
        first = piece.before
        while first > 0 and lines[first - 1].startswith("--"):
            first -= 1
        texts = ["\n".join(bare[start:end]) for start, end in piece.chunks]
        item = Definition(self.file, piece.name, piece.chunks[0][0], lines[first:piece.chunks[-1][1]], piece.kind, texts, self)
        self.items[piece.name] = item
        if piece.kind == "data":
            for constructor in re.findall(r"^  (\S+(?: \S+)*?) : ", texts[0], re.M):
                for name in constructor.split():
                    self.constructors[name] = item

    def meaning(self, name: str) -> Meaning:
        """Returns the item, or the words of the library, that a name means here; None if it means none."""
        if name in self.items:
            return self.items[name]
        if name in self.constructors:
            return self.constructors[name]
        if name in self.names:
            return found(*self.names[name])
        return None


def operators(names: Iterable[str]) -> dict[str, str]:
    """The pieces of the operators among these names, each with its operator."""
    return {piece: name for name in names if "◌" in name for piece in name.split("◌") if piece}


def specs() -> dict[str, str]:
    """All files of definitions and of lemmas, by their paths as `use` lines have them."""
    known: dict[str, str] = {}
    for crate in CRATES:
        for room in ("specs", "proofs"):
            top = tools.ROOT / "crates" / crate / room
            for file in top.rglob("*.antt"):
                known[".".join(("Rattle", crate, room, *file.relative_to(top).with_suffix("").parts))] = str(file.relative_to(ROOT))
    return known


FILES = specs()


@cache
def definitions(path: str) -> Optional[Definitions]:
    return Definitions(path, FILES[path]) if path in FILES else None


def crate_of(path: str) -> Optional[str]:
    parts = path.split(".")
    return parts[1] if parts[0] == "Rattle" and len(parts) > 1 and parts[1] in CRATES else None


def found(path: str, name: str) -> Meaning:
    """The meaning of a name of a module: an item, or its words if it is the library's."""
    crate = crate_of(path)
    if not crate:
        return f"{re.sub('^Rattle[.]', '', path)}.{name}"
    parts = path.split(".")
    if parts[2:4] == ["specs", "declared"]:
        from tools.proofs.believe.sources import declared
        return declared(crate, parts[4:], name)
    module = definitions(path)
    if module:
        meaning = module.meaning(name)
        if meaning is not None:
            return meaning
    if f"{path}.{name}" in FILES:
        return None
    fail(f"{path} has no {name}")


class Scope(Protocol):
    """Where the names of a term are looked up, after those that are bound in it."""

    names: Names
    modules: Modules
    operators: dict[str, str]
    constructors: dict[str, Definition]

    def meaning(self, name: str) -> Meaning:
        """Returns what a name means there; None if it means none."""


class CodeScope:
    """A scope of a term in code: its own names come after those that `ghost use` brings in."""

    def __init__(self, names: Names, modules: Modules, own: Callable[[str], Meaning]) -> None:
        self.names, self.modules, self.own = names, modules, own
        self.operators = operators(names)
        self.constructors: dict[str, Definition] = {}

    def meaning(self, name: str) -> Meaning:
        return found(*self.names[name]) if name in self.names else self.own(name)


def is_constructor(scope: Scope, name: str) -> bool:
    """Whether a name in a pattern is a constructor, which binds nothing."""
    if name in scope.constructors:
        return True
    if name not in scope.names:
        return False
    path, there = scope.names[name]
    if crate_of(path):
        if ".declared." in path:
            return path.endswith(".TheVariants")
        module = definitions(path)
        return module is not None and there in module.constructors
    return there[0].isupper() or there in ("true", "false", "zero", "suc", "[]", "◌∷◌", "pos", "negsuc", "tt", "refl")


def bound_in_pattern(scope: Scope, words: list[str]) -> set[str]:
    """The names that a pattern binds."""
    names: set[str] = set()
    for word in words:
        if word[0] in '"(){}[],;.' or NUMERAL.match(word) or word in BUILT_IN or word in scope.operators:
            continue
        if "." not in word and not is_constructor(scope, word):
            names.add(word)
    return names


def patterns(words: list[str]) -> list[str]:
    """The words of a clause between its name and its `=`; none where it has no `=`."""
    depth = 0
    for at, word in enumerate(words):
        depth += (word in "([{") - (word in ")]}")
        if word == "=" and depth == 0:
            return words[1:at]
    return []


def bound(scope: Scope, words: list[str]) -> set[str]:
    """The names that a term binds somewhere in it."""
    names: set[str] = set()
    for at, word in enumerate(words):
        if word == "λ":
            end = next((k for k in range(at + 1, len(words)) if words[k] == "."), len(words))
            inner = words[at + 1:end]
            # A binder with a type has its names before the colon.
            names |= bound_in_pattern(scope, inner[:inner.index(":")] if ":" in inner else inner)
        elif word in ("(", "{"):
            end = next((k for k in range(at + 1, len(words)) if words[k][0] in '"(){}[],;.:='), len(words))
            if end > at + 1 and end < len(words) and words[end] == ":":
                names.update(words[at + 1:end])
        elif word == "let":
            end = next(k for k in range(at + 1, len(words)) if words[k] in ("=", ":"))
            names |= bound_in_pattern(scope, words[at + 1:end])
        elif word == "↦":
            start = next((k for k in range(at - 1, -1, -1) if words[k] in ("[", "|")), -1)
            names |= bound_in_pattern(scope, words[start + 1:at])
    return names


def used(scope: Scope, words: list[str], local: set[str], unknown: list[str]) -> list[Use]:
    """Returns the meanings of a term's words, except those that are bound."""
    meanings: list[Use] = []
    for at, word in enumerate(words):
        if word[0] in '"(){}[],;.' or NUMERAL.match(word) or word in BUILT_IN:
            continue
        if at + 1 < len(words) and words[at + 1] == "=" and at > 0 and words[at - 1] in ("{", ";"):
            continue  # the label of a field or of an argument
        first, *rest = word.strip("«»").split(".")
        if first in local:
            continue
        meaning = scope.meaning(first)
        if meaning is None and first in scope.operators:
            meaning = scope.meaning(scope.operators[first])
        if meaning is None and first in scope.modules and rest:
            path = scope.modules[first]
            while len(rest) > 1 and f"{path}.{rest[0]}" in FILES:
                path += "." + rest.pop(0)
            meaning = found(path, rest[0])
        if meaning is None:
            unknown.append(first)
        elif isinstance(meaning, list):
            meanings += meaning
        else:
            meanings.append(meaning)
    return meanings


def sequencing(scope: Scope, text: str) -> list[Use]:
    """Returns the operators that join the lines of each `do`."""
    lines = text.split("\n")
    names: set[str] = set()
    for at, line in enumerate(lines):
        if re.search(r"(^|[\s(])do$", line) and at + 1 < len(lines):
            depth = len(lines[at + 1]) - len(lines[at + 1].lstrip())
            steps = []
            for each in lines[at + 1:]:
                inner = len(each) - len(each.lstrip())
                if each.strip() and inner < depth:
                    break
                if each.strip() and inner == depth:
                    steps.append(each)
            names.update("◌>>=◌" if "←" in step.split() else "◌>>◌" for step in steps[:-1])
    meanings = [scope.meaning(name) for name in sorted(names)]
    return [meaning for meaning in meanings if isinstance(meaning, (Item, str))]


def words_of(text: str) -> list[str]:
    """Returns the words of a text. The dot of a binder is one apart from the name before it."""
    return WORD.findall(re.sub(r"\.(?=\s|$)", " . ", text))


def fields_of(item: Definition) -> Iterator[tuple[str, set[str]]]:
    """Yields the head and the fields of a record, each with the names that the ones before it bind."""
    at = 0
    fields: set[str] = set()
    starts = [match.start() for match in re.finditer(r"^  (?:pub )?\S+(?: \S+)*? :(?:\s|$)", item.texts[0], re.M)]
    for end in [*starts, len(item.texts[0])]:
        text = item.texts[0][at:end]
        name = re.match(r"  (?:pub )?(\S+(?: \S+)*?) :\s", text)
        here = set(name.group(1).split()) if name else set()
        yield text[name.end(1):] if name else text, fields
        fields = fields | here | (bound(item.module, words_of(text)) if at == 0 else set())
        at = end


def bound_in_clause(module: Definitions, text: str) -> set[str]:
    """Returns the names that a clause binds by its patterns, by its `where` and by the steps of its `do`."""
    words = words_of(text)
    local = bound_in_pattern(module, patterns(words))
    below = [line for line in text.split("\n") if line[:1].isspace()]
    if "where" in words:
        # Definitions below `where` are the clause's own.
        local |= {match.group(1) for match in (re.match(r"\s+(\S+) :(\s|$)", line) for line in below) if match}
    for line in below:
        step = re.match(r"\s+(.*?) ←(\s|$)", line)
        clause = words_of(line)
        if step:
            local |= bound_in_pattern(module, words_of(step.group(1)))
        elif "where" in words and clause[0] in local:
            local |= bound_in_pattern(module, patterns(clause))
    return local


def pieces_of(item: Definition) -> Iterator[tuple[str, set[str]]]:
    """Yields the parts of a definition, each with the names that it binds in addition to those within it: the signature, each clause, each field."""
    if item.kind == "record":
        yield from fields_of(item)
        return
    for text in item.texts:
        is_clause = item.kind == "abbrev" and text is not item.texts[0]
        yield text, bound_in_clause(item.module, text) if is_clause else set()


def uses_of_definition(item: Definition) -> list[Use]:
    """Returns what a definition names. What a clause binds counts as bound in all of it, and in no other clause."""
    module, own = item.module, {item.name}
    meanings: list[Use] = []
    unknown: list[str] = []
    if item.kind == "data":
        own |= {name for name, of in module.constructors.items() if of is item}
        own |= bound(module, words_of(item.texts[0].split("\n")[0]))
    for text, local in pieces_of(item):
        words = words_of(text)
        local = local | bound(module, words)
        meanings += used(module, words, local | own, unknown)
        meanings += sequencing(module, text)
    if unknown:
        fail(f"{item}: {' '.join(sorted(set(unknown)))} isn't known there")
    return meanings
