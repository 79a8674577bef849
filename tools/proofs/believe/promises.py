"""Promises: the clauses of a call or a theorem, and the invariant of a type."""

import re
import sys
from collections.abc import Iterator
from typing import Optional

from tools.proofs.believe.definitions import CHECKS, CRATES, Modules, Names, Use, fail, imports, words_of
from tools.proofs.believe.sources import (
    Bounds, CODE_FILES, Clause, Code, Function, TypeItem, bounds_of, clean, code, model_of, rust_uses, split_at_commas, type_item, uses_of_term, with_docs,
)


def parameters(text: str) -> dict[str, str]:
    """The parameters of a function, each with its type."""
    found: dict[str, str] = {}
    for piece in split_at_commas(text, "([{<", ")]}>"):
        piece = " ".join(piece.split())
        if re.fullmatch(r"(&('\w+ )?)?(mut )?self", piece):
            found["self"] = "Self"
        elif ":" in piece:
            name, ty = piece.split(":", 1)
            found[name.replace("mut ", "").strip()] = ty
    return found


def renamed(names: Names, modules: Modules, text: str) -> list[str]:
    """The imports by which a text uses names under others."""
    words = {word.strip("«»") for word in words_of(text)}
    firsts = {word.split(".")[0] for word in words if "." in word}
    lines = [f"use {path}.{{{there} as {here}}}" for here, (path, there) in names.items() if here != there and here in words | firsts]
    return lines + [f"use {path} as {here}" for here, path in modules.items() if here in firsts]


class Promise:
    """Some clauses of a function, or the invariant of a type: the root of what must be believed."""

    def __init__(self, title: str, where: Code, lines: list[str], uses: list[Use], names: Names, modules: Modules) -> None:
        self.title, self.file, self.lines, self.uses = title, where.file, lines, uses
        self.renamed = renamed(names, modules, "\n".join(line for line in lines if not line.strip().startswith("//")))


def chosen_clauses(function: Function, chosen: Optional[str]) -> list[Clause]:
    """Returns all clauses of a function, or its premises and the clauses of a name. Exits if there are none."""
    clauses = [clause for clause in function.clauses if chosen in (None, clause.name) or clause.kind == "requires"]
    if chosen and not any(clause.name == chosen for clause in clauses):
        fail(f"{function.name} has no clause {chosen}; it has {', '.join(clause.name or 'one without a name' for clause in function.clauses)}")
    if not clauses:
        fail(f"{function.name} has no clauses")
    return clauses


def scope_of(function: Function) -> tuple[Bounds, Names, Modules]:
    """Returns the bounds of type parameters, the names and the modules that a function's clauses see."""
    where = function.code
    bounds, names, modules = bounds_of(function.generics + function.result), where.names, where.modules
    for impl in where.impls:
        if impl.start <= function.start < impl.end:
            bounds.update(bounds_of(impl.head))
            inner_names, inner_modules = imports("\n".join(re.findall(r"^    ghost use .*$", where.text[impl.start:impl.end], re.M)))
            names, modules = {**names, **inner_names}, {**modules, **inner_modules}
    return bounds, names, modules


def uses_of_clauses(function: Function, clauses: list[Clause]) -> list[Use]:
    """Returns what clauses name, and the types of the parameters and of the result that they name."""
    where, owner = function.code, function.owner
    params = parameters(where.text[function.params[0]:function.params[1]])
    bounds, names, modules = scope_of(function)
    uses: list[Use] = []
    seen: set[str] = set()
    for clause in clauses:
        term = where.text[clause.opened:clause.end - 1]
        uses += uses_of_term(where, term, {*params, "result"}, bounds, names, modules, None, owner)
        seen |= {word.split(".")[0] for word in words_of(re.sub(r"//[^\n]*", "", term))}
    for name, ty in params.items():
        if name in seen:
            uses += rust_uses(where, ty, owner)
    if "result" in seen:
        uses += rust_uses(where, re.split(r"\bwhere\b", function.result)[0], owner)
    return uses


def lines_of(function: Function, clauses: list[Clause]) -> list[str]:
    """Returns the lines of a function's head and of these clauses, with the comments above them."""
    where = function.code
    lines = [line for line in clean(where.text[with_docs(where.text, function.start):function.head_end]) if line.strip()]
    if function.owner:
        impl = next(each for each in where.impls if each.start <= function.start < each.end)
        lines.insert(0, f"impl{impl.head.rstrip()} {{")
    for clause in clauses:
        start = where.text.rindex("\n", 0, clause.start) + 1
        comment = re.search(r"(?:^ *//[^\n]*\n)*\Z", where.text[:start], re.M)
        lines += ((comment.group() if comment else "") + where.text[start:clause.end]).split("\n")
    return lines


def path_of(function: Function) -> str:
    owner = f"{function.owner}::" if function.owner else ""
    return f"{function.code.crate}::{owner}{function.name}"


def promise_of_function(function: Function, chosen: Optional[str]) -> Promise:
    clauses = chosen_clauses(function, chosen)
    _, names, modules = scope_of(function)
    title = path_of(function) + (f", clause {chosen}" if chosen else "")
    return Promise(title, function.code, lines_of(function, clauses), uses_of_clauses(function, clauses), names, modules)


def promise_of_type(item: TypeItem) -> Promise:
    where = item.code
    for impl in where.impls:
        if impl.owner == item.name and impl.trait == "Model":
            model = model_of(where, impl, ("invariant",))
            if model.terms:
                uses: list[Use] = [item]
                for term in model.terms:
                    uses += uses_of_term(where, term, set(), bounds_of(impl.head), model.names, model.modules, {}, item.name)
                return Promise(f"the invariant of {where.crate}::{item.name}", where, model.lines, uses, model.names, model.modules)
    fail(f"{item.name} has no invariant")


def exported(crate: str) -> set[str]:
    """The names that a crate's lib.rt hands on."""
    lib = code(crate, [])
    return {*lib.rust, *lib.types} if lib else set()


def exporting(crate: Optional[str]) -> Iterator[tuple[Code, set[str]]]:
    """Yields the files of this crate, or of all that are no checks, with the names that their crates hand on."""
    for each, module in CODE_FILES:
        where = code(each, module)
        if where and each not in CHECKS and crate in (None, each):
            yield where, exported(each)


def functions_named(name: str, owner: Optional[str], crate: Optional[str]) -> list[Function]:
    """Returns the public functions of a name, lowest crate first; only those of no type, if there are any."""
    functions: list[Function] = []
    for where, handed_on in exporting(crate):
        for function in where.read_functions():
            is_seen = function.owner in handed_on if function.owner else name in handed_on
            if function.name == name and function.is_public and is_seen and owner in (None, function.owner):
                functions.append(function)
    functions.sort(key=lambda function: CRATES.index(function.code.crate))
    return [function for function in functions if not function.owner] or functions


def promise_of_any(functions: list[Function], name: str, chosen: Optional[str]) -> Promise:
    """Returns the promise of the only function, or of the highest crate's. Exits if two types have one."""
    full = [path_of(function) for function in functions]
    if len(functions) > 1:
        if any(function.owner for function in functions):
            fail(f"{name} is {', '.join(full)}: say which")
        print(f"believe: {full[-1]} is meant; {', '.join(full[:-1])} is another", file=sys.stderr)
    return promise_of_function(functions[-1], chosen)


def promise(name: str, chosen: Optional[str]) -> Promise:
    """Returns what a name promises: a function, or else a type."""
    *path, last = name.split("::")
    crate = path.pop(0) if path and path[0] in CRATES else None
    owner = path[-1] if path else None
    functions = functions_named(last, owner, crate)
    if functions:
        return promise_of_any(functions, name, chosen)
    types = [type_item(where, last) for where, handed_on in exporting(crate) if not owner and last in where.types and last in handed_on]
    if len(types) > 1:
        fail(f"{name} is {', '.join(f'{item.code.crate}::{last}' for item in types)}: say which")
    if not types:
        fail(f"there is no public call, law or type {name}")
    return promise_of_type(types[0])
