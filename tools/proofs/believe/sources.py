"""Code: the types, constants and functions of src/, what Rust sees there, and what the terms of a contract name."""

import re
from collections.abc import Iterator, Sequence
from dataclasses import dataclass, field
from pathlib import Path
from typing import NamedTuple, Optional, Union

from tools.proofs.believe.definitions import CRATES, CodeScope, Item, Meaning, Modules, Names, ROOT, Use, bound, fail, imports, read, used, words_of


def hidden(text: str) -> str:
    """Returns the text with its comments and quoted parts as blanks; every other character keeps its place."""
    def blank(match: re.Match[str]) -> str:
        return re.sub(r"[^\n]", " ", match.group())
    return re.sub(r"//[^\n]*|\"(?:[^\"\\]|\\.)*\"|'(?:\\[^']*|[^\\'\n])'", blank, text)


def closing(text: str, at: int) -> int:
    """Returns the place after the bracket that closes the one here."""
    depth = 0
    for place in range(at, len(text)):
        if text[place] in "([{":
            depth += 1
        elif text[place] in ")]}":
            depth -= 1
            if depth == 0:
                return place + 1
    fail("a bracket isn't closed")


class Clause(NamedTuple):
    """A clause: requires, ensures or ghost, its name, where it begins, and its term."""

    kind: str
    name: Optional[str]
    start: int
    opened: int
    end: int


class Declared(NamedTuple):
    """Where a type is declared, and whether as struct, enum, trait or type."""

    start: int
    end: int
    kind: str


class Impl(NamedTuple):
    """An `impl`: where it is, the type, the trait if it has one, and its head."""

    start: int
    end: int
    owner: str
    trait: Optional[str]
    head: str


@dataclass(eq=False)
class Function:
    """A function: its type, its generics, where its parameters and its head are, its result, and its clauses."""

    code: "Code"
    name: str
    start: int
    owner: Optional[str]
    is_public: bool
    generics: str
    params: tuple[int, int]
    head_end: int = 0
    result: str = ""
    clauses: list[Clause] = field(default_factory=list)


@dataclass
class ModelOf:
    """The lines of an `impl Model` that say what a clause sees, their terms, and what these name."""

    lines: list[str]
    terms: list[str]
    names: Names
    modules: Modules
    bounds: "Bounds"
    fields: set[str]


# The files and names through which a name was looked up.
Seen = tuple[tuple[str, str], ...]
# The bounds of each type parameter.
Bounds = dict[str, list[str]]


@dataclass(eq=False, repr=False)
class TypeItem(Item):
    """A type, a trait or a constant of the code, and the model of a type."""

    code: "Code"
    range: tuple[int, int]
    kind: str
    model: Optional[ModelOf] = None
    declaration: list[str] = field(init=False)

    def __post_init__(self) -> None:
        self.declaration = self.lines


def walked(path: list[str], tree: str) -> Iterator[tuple[str, list[str]]]:
    """Yields the names that a tree of `use` brings in, each with its path; `*` has that of its module."""
    match = re.match(r"^((?:\w+::)*)(?:\{(.*)\}|(\w+)(?:\s+as\s+(\w+))?|(\*))$", tree.strip(), re.S)
    if not match:
        return
    path = path + [part for part in match.group(1).split("::") if part]
    if match.group(2) is not None:
        for piece in split_at_commas(match.group(2), "{", "}"):
            yield from walked(path, piece)
    elif match.group(5):
        yield "*", path
    else:
        yield match.group(4) or match.group(3), [*path, match.group(3)]


def split_at_commas(text: str, opening: str, closings: str) -> list[str]:
    """Returns the parts of a text between the commas that are in no brackets."""
    pieces: list[str] = []
    depth, piece = 0, ""
    for c in text + ",":
        depth += (c in opening) - (c in closings)
        if c == "," and depth == 0:
            pieces.append(piece)
            piece = ""
        else:
            piece += c
    return pieces


class Code:
    """A file of code: its types, traits, constants and functions, and what Rust sees there."""

    def __init__(self, crate: str, module: tuple[str, ...], file: str) -> None:
        self.crate, self.module, self.file = crate, module, file
        self.text = read(file)
        self.bare = hidden(self.text)
        self.names, self.modules = imports("\n".join(re.findall(r"^ghost use .*$", self.text, re.M)))
        self.functions: list[Function] = []
        self.rust: dict[str, list[str]] = {}
        self.globs: list[list[str]] = []
        self.read_uses()
        self.types = self.read_types()
        self.impls = self.read_impls()
        self.constants: dict[tuple[Optional[str], str], tuple[int, int]] = {}
        for match in re.finditer(r"^ *(?:pub(?:\([^)]*\))? )?const (\w+): ", self.bare, re.M):
            self.constants[(self.owner(match.start()), match.group(1))] = (match.start(), self.bare.index(";", match.end()) + 1)

    def read_uses(self) -> None:
        """Reads the names that `use` brings in, and the modules of which it brings in all."""
        for tree in re.findall(r"^(?:pub(?:\([^)]*\))? )?use ([^;]+);", self.bare, re.M):
            for name, path in walked([], tree):
                if name == "*":
                    self.globs.append(path)
                else:
                    self.rust[name] = path

    def read_types(self) -> dict[str, Declared]:
        found = re.finditer(r"^(?:pub(?:\([^)]*\))? )?(struct|enum|trait|type) (\w+)", self.bare, re.M)
        return {match.group(2): Declared(match.start(), self.end_of(match.end()), match.group(1)) for match in found}

    def read_impls(self) -> list[Impl]:
        impls: list[Impl] = []
        for match in re.finditer(r"^impl\b([^{]*)\{", self.bare, re.M):
            head = re.sub(r"^\s*<(?:[^<>]|<[^<>]*>)*>", "", match.group(1))
            parts = re.split(r"\bfor\b", head.split(" where ")[0])
            name = re.search(r"\w+", re.sub(r"&'?\w*", "", parts[-1]))
            trait = re.match(r"\s*(?:\w+::)*(\w+)", parts[0]) if len(parts) > 1 else None
            end = closing(self.bare, match.end() - 1)
            impls.append(Impl(match.start(), end, name.group() if name else "", trait.group(1) if trait else None, match.group(1)))
        return impls

    def owner(self, at: int) -> Optional[str]:
        return next((impl.owner for impl in self.impls if impl.start <= at < impl.end), None)

    def end_of(self, at: int) -> int:
        while self.bare[at] not in "{;(":
            at += 1
        if self.bare[at] == "(":
            at = self.bare.index(";", at)
        return at + 1 if self.bare[at] == ";" else closing(self.bare, at)

    def read_functions(self) -> list[Function]:
        if not self.functions:
            for match in re.finditer(r"^ *((?:pub(?:\([^)]*\))? )?)(?:const )?(?:unsafe )?fn (\w+)", self.bare, re.M):
                self.functions.append(self.read_function(match))
        return self.functions

    def read_function(self, match: re.Match[str]) -> Function:
        at = self.bare.index("(", self.skip_generics(match.end()))
        end = closing(self.bare, at)
        start = match.start()
        function = Function(self, match.group(2), start, self.owner(start), match.group(1) == "pub ", self.text[match.end():at], (at + 1, end - 1))
        self.read_clauses(function, end)
        function.result = self.text[end:function.head_end]
        return function

    def read_clauses(self, function: Function, at: int) -> None:
        """Reads the clauses between the parameters of a function and its body; the head ends before the first."""
        while True:
            clause = re.compile(r"(requires|ensures|ghost)(\*?)\s+(\w+)?[^{;]*?\{").match(self.bare, at)
            if clause and self.bare[at - 1].isspace():
                end = closing(self.bare, clause.end() - 1)
                function.clauses.append(Clause(clause.group(1), clause.group(3), at, clause.end(), end))
                function.head_end = function.head_end or at
                at = end
            elif self.bare[at] in "{;":
                function.head_end = function.head_end or at
                return
            elif self.bare[at] in "([":
                at = closing(self.bare, at)
            else:
                at += 1

    def skip_generics(self, at: int) -> int:
        if self.bare[at] != "<":
            return at
        depth = 0
        while True:
            if self.bare[at] == "<":
                depth += 1
            elif self.bare[at] == ">" and self.bare[at - 1] not in "-=":
                depth -= 1
                if depth == 0:
                    return at + 1
            at += 1


def code_files() -> dict[tuple[str, tuple[str, ...]], str]:
    known: dict[tuple[str, tuple[str, ...]], str] = {}
    for crate in CRATES:
        top = Path(ROOT, "crates", crate, "src")
        for file in top.rglob("*.rt"):
            module = tuple(part for part in file.relative_to(top).with_suffix("").parts if part not in ("lib", "main", "mod"))
            known[(crate, module)] = str(file.relative_to(ROOT))
    return known


CODE_FILES = code_files()
codes: dict[tuple[str, tuple[str, ...]], Code] = {}


def code(crate: str, module: Sequence[str]) -> Optional[Code]:
    key = (crate, tuple(module))
    if key in CODE_FILES and key not in codes:
        codes[key] = Code(*key, CODE_FILES[key])
    return codes.get(key)


type_items: dict[tuple[str, Optional[str], str], TypeItem] = {}


def with_docs(text: str, start: int) -> int:
    """The place where the doc comments and attributes above begin."""
    lines = text[:start].split("\n")
    at = len(lines) - 1
    while at > 0 and re.match(r"\s*(///|#\[)", lines[at - 1]):
        at -= 1
    return sum(len(line) + 1 for line in lines[:at])


def line_of(text: str, at: int) -> int:
    return text.count("\n", 0, at)


def clean(text: str) -> list[str]:
    """The lines of a piece of code, without its attributes and ghost fields."""
    kept = re.sub(r"(?m)^ *#\[[^\n]*\]\n", "", text)
    kept = re.sub(r"(?m)^ *(?:pub )?ghost \w+: \{[^\n]*\},?\n", "", kept)
    return kept.rstrip().split("\n")


def type_item(where: Code, name: str) -> TypeItem:
    key = (where.file, None, name)
    if key not in type_items:
        start, end, kind = where.types[name]
        lines = clean(where.text[with_docs(where.text, start):end])
        item = TypeItem(where.file, name, line_of(where.text, start), lines, where, (start, end), kind)
        if kind == "trait":
            item.lines = trait_lines(where, start, end)
        for impl in where.impls:
            if impl.owner == name and impl.trait == "Model":
                item.model = model_of(where, impl)
                item.lines = item.lines + [""] + item.model.lines
        type_items[key] = item
    return type_items[key]


def trait_lines(where: Code, start: int, end: int) -> list[str]:
    """A trait's head and ghost members."""
    text = where.text[with_docs(where.text, start):end]
    members = re.findall(r"(?:^ *///[^\n]*\n)*^ *ghost \w+: \{[^\n]*\};", text, re.M)
    head = text[:text.index("{", start - with_docs(where.text, start)) + 1]
    return clean(head) + [line for member in members for line in member.split("\n")] + ["}"]


def model_of(where: Code, impl: Impl, names: tuple[str, ...] = ("Value", "view")) -> ModelOf:
    """Returns the members of an `impl Model` with these names, and their terms."""
    start, end = impl.start, impl.end
    head = where.text[start:where.text.index("{", start) + 1]
    lines, terms = [head], []
    for match in re.finditer(r"^    ghost (\w+) = \{", where.bare[start:end], re.M):
        if match.group(1) in names:
            first = start + match.start()
            last = closing(where.bare, start + match.end() - 1)
            lines += where.text[first:last + 1].split("\n")
            terms.append(where.text[start + match.end():last - 1])
    uses, modules = imports("\n".join(re.findall(r"^ +ghost use .*$", where.text[start:end], re.M)))
    fields: set[str] = set().union(*map(fields_named, terms))
    return ModelOf(lines + ["}"], terms, {**where.names, **uses}, {**where.modules, **modules}, bounds_of(head), fields)


def declared(crate: str, parts: list[str], name: str) -> TypeItem:
    """The type, or the constant, that `specs.declared` has by this path."""
    parts = [part for part in parts if part != "TheVariants"]
    if "TheConstants" in parts:
        cut = parts.index("TheConstants")
        where, owners = code(crate, parts[:cut]), parts[cut + 1:]
        for owner, constant in where.constants if where else ():
            if where and constant == name and (not owners or owner in owners):
                return constant_item(where, owner, name)
    for cut in range(len(parts), -1, -1):
        where = code(crate, parts[:cut])
        if where:
            wanted = parts[cut] if cut < len(parts) else name
            if wanted in where.types:
                return type_item(where, wanted)
    fail(f"{crate} declares no {'.'.join(parts)}.{name}")


def constant_item(where: Code, owner: Optional[str], name: str) -> TypeItem:
    start, end = where.constants[(owner, name)]
    key = (where.file, owner or "", name)
    if key not in type_items:
        lines = clean(where.text[with_docs(where.text, start):end])
        type_items[key] = TypeItem(where.file, name, line_of(where.text, start), lines, where, (start, end), "const")
    return type_items[key]


def rust_type(where: Code, name: str, seen: Seen = ()) -> Union[TypeItem, str, None]:
    """The item of a type or trait that code sees by a name; its words where it is the library's, None where it isn't seen."""
    if name in where.types:
        return type_item(where, name)
    if (where.file, name) in seen:
        return None
    seen = (*seen, (where.file, name))
    if name in where.rust:
        return by_path(where, where.rust[name], seen)
    for path in where.globs:
        meaning = by_path(where, [*path, name], seen)
        if meaning is not None and not isinstance(meaning, str):
            return meaning
    return None


def by_path(where: Code, path: list[str], seen: Seen) -> Union[TypeItem, str, None]:
    crate, module = where.crate, list(where.module)
    first, *rest = path
    if first == "crate":
        module = []
    elif first == "super":
        module = module[:-1]
        while rest and rest[0] == "super":
            module, rest = module[:-1], rest[1:]
    elif first == "self":
        pass
    elif first in CRATES:
        crate, module = first, []
    elif code(crate, [*module, first]):
        rest = list(path)
    else:
        return "::".join(path)
    there = code(crate, module)
    while len(rest) > 1 and code(crate, [*module, rest[0]]):
        module.append(rest.pop(0))
        there = code(crate, module)
    return rust_type(there, rest[0], seen) if there and rest else None


RUST_LIBRARY = set("Option Result Vec String Box Some None Ok Err AllocError Global str usize".split())


def rust_uses(where: Code, text: str, owner: Optional[str] = None) -> list[Use]:
    """The types of the repository that a piece of code names."""
    meanings: list[Use] = []
    for name in dict.fromkeys(re.findall(r"(?<![\w'])(?:\w+::)*[A-Z]\w*", text)):
        head, *rest = name.split("::")
        if head == "Self" and owner:
            head = owner
        meaning = by_path(where, name.split("::"), ()) if rest and not head[0].isupper() else rust_type(where, head)
        if isinstance(meaning, Item):
            meanings.append(meaning)
    return meanings


FIELD = re.compile(r"^ +(?:pub(?:\([^)]*\))? )?(\w+): ([^\n]*?),?$")


def fields_named(text: str) -> set[str]:
    """The fields that a term reads or sets."""
    return set(re.findall(r"\.(\w+)", text)) | set(re.findall(r"[{;]\s*(\w+) =", text))


def shown_type(item: TypeItem, named: set[str]) -> list[str]:
    """The lines of a type, without the fields of a struct that nothing names."""
    if item.kind != "struct":
        return item.lines
    if item.model:
        named = item.model.fields
    kept: list[str] = []
    above: list[str] = []
    left_out = 0
    for line in item.declaration:
        field_of = FIELD.match(line)
        if line.startswith("    ///"):
            above.append(line)
        elif field_of and field_of.group(1) not in named:
            above, left_out = [], left_out + 1
        else:
            if line == "}" and left_out:
                kept.append("    // and what nothing here names")
            kept += [*above, line]
            above = []
    return kept + ([""] + item.model.lines if item.model else [])


def uses_of_type(item: TypeItem, named: set[str]) -> list[Use]:
    where, (start, end) = item.code, item.range
    text = where.bare[start:end]
    if item.kind == "const":
        return rust_uses(where, text)
    if item.kind == "trait":
        return uses_of_trait(item)
    text = re.sub(r"(?m)^ *(?:pub )?ghost \w+: \{[^\n]*\},?$", "", text)
    uses = uses_of_model(item, item.model, text) if item.model else rust_uses(where, body_of(item.kind, text, named))
    return [each for each in uses if each is not item]


def uses_of_trait(item: TypeItem) -> list[Use]:
    where, (start, end) = item.code, item.range
    terms = re.findall(r"^ *ghost \w+: \{(.*)\};", where.text[start:end], re.M)
    return [use for term in terms for use in uses_of_term(where, term, {"Self"}, {}, where.names, where.modules, {item.name: item})]


def uses_of_model(item: TypeItem, model: ModelOf, text: str) -> list[Use]:
    """Returns what a type's model names, and the types of the fields that it reads."""
    uses: list[Use] = []
    for term in model.terms:
        uses += uses_of_term(item.code, term, set(), model.bounds, model.names, model.modules, {}, item.name)
    for found in filter(None, map(FIELD.match, text.split("\n"))):
        if found.group(1) in model.fields:
            uses += rust_uses(item.code, found.group(2))
    return uses


def body_of(kind: str, text: str, named: set[str]) -> str:
    """Returns the part of a type without a model that names other types: the fields of a struct that something names, the operands of variants."""
    if "{" in text:
        body = text[text.index("{"):]
    else:
        head = re.search(r"\w+ \w+", text)
        body = text[head.end():] if head else text
    if kind == "struct" and "{" in text:
        lines = [(line, FIELD.match(line)) for line in body.split("\n")]
        body = "\n".join(line for line, found in lines if not found or found.group(1) in named)
    return re.sub(r"(?m)^    \w+", "", body) if kind == "enum" else body


def bounds_of(text: str) -> Bounds:
    """The bounds of each type parameter in a piece of code."""
    bounds: Bounds = {}
    for name, given in re.findall(r"(?<![\w:'])([A-Z]\w*)\s*:\s*([^,>{=]*(?:<[^>]*>)?[^,>{=]*)", text):
        bounds.setdefault(name, []).extend(re.findall(r"[A-Z]\w*", given))
    for name in re.findall(r"[<,]\s*([A-Z]\w*)\s*(?=[,>])", text):
        bounds.setdefault(name, [])
    return bounds


def uses_of_term(
    where: Code, term: str, local: set[str], bounds: Bounds, names: Names, modules: Modules,
    own_types: Optional[dict[str, TypeItem]] = None, owner: Optional[str] = None,
) -> list[Use]:
    """Returns what a term in code names."""
    unknown: list[str] = []
    term = re.sub(r"//[^\n]*", "", term)

    def in_rust(name: str) -> Meaning:
        if own_types and name in own_types:
            return own_types[name]
        if name == "Self" and owner:
            return rust_type(where, owner)
        if name in bounds:
            traits: list[Use] = [rust_type(where, trait) or f"Rust's {trait}" for trait in bounds[name]]
            return [trait for trait in traits if isinstance(trait, Item)] or [trait for trait in traits if name + "." in term]
        meaning = rust_type(where, name)
        if meaning is not None:
            return meaning
        if (None, name) in where.constants:
            return constant_item(where, None, name)
        if name in RUST_LIBRARY or name in ("u8", "u16", "u32", "u64", "i64", "i32"):
            return f"Rust's {name}"
        return None

    scope = CodeScope(names, modules, in_rust)
    words = words_of(term)
    meanings = used(scope, words, local | bound(scope, words), unknown)
    if unknown:
        fail(f"{where.file}: {' '.join(sorted(set(unknown)))} isn't known in {' '.join(term.split())[:100]}")
    return meanings
