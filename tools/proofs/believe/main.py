"""Prints what must be believed of a public promise, as one text to read from top to bottom. It has the definitions that its clauses reach,
lowest first, each once, below the name of its file. The promise itself follows, the names of the toolchain's library, and the number of
lines of these definitions.

  ./dev believe no_trap             all clauses of a call or a theorem
  ./dev believe no_trap safe        its premises and one clause
  ./dev believe Pool::turn          a method; tw_pool::Pool::turn where two types have one
  ./dev believe Pool                the invariant of a type
  ./dev believe --count decode ..   how many lines, for each name; "no_trap safe" is a name with its clause
  ./dev believe --table decode ..   the same, as rows of the table in docs/PROOFS.md
  ./dev believe --make              writes that table anew, for the promises that it has
  ./dev believe --check             fails if a figure of it is more than five percent from today's

A name that several crates have means the highest one's. Needs Python 3.8.
"""

import re
from collections.abc import Iterable
from itertools import takewhile

from tools import ROOT
from tools.proofs.believe.definitions import CRATES, Definition, Item, Use, fail, read, uses_of_definition
from tools.proofs.believe.promises import Promise, promise, renamed
from tools.proofs.believe.sources import TypeItem, fields_named, shown_type, uses_of_type


DOCUMENT = ROOT / "docs/PROOFS.md"
BEGIN, END = "<!-- ./dev believe -->\n", "<!-- end -->\n"
HEAD = "| Promise | Definitions | Types in the code | Files |\n|---|---|---|---|\n"
TOLERANCE = 0.05


def counted(lines: list[str]) -> int:
    return sum(1 for line in lines if line.strip() and not line.strip().startswith(("--", "//")))


def fixity(line: str, file: str, items: set[Item]) -> str:
    """How operators of a file group, without those that aren't reached."""
    names = {item.name for item in items if item.file == file}
    return " ".join(word for word in line.split() if "◌" not in word or word in names)


def text_of(item: Item) -> str:
    if isinstance(item, Definition):
        return "\n".join(item.texts)
    return "\n".join(item.model.terms if isinstance(item, TypeItem) and item.model else item.lines)


def uses_of(item: Item, named: set[str]) -> list[Use]:
    """Returns what an item names. A definition is read once; what a struct names depends on the fields that are named."""
    if isinstance(item, TypeItem):
        return uses_of_type(item, named)
    if item.uses is None and isinstance(item, Definition):
        return uses_of_definition(item)
    return item.uses or []


def reached_with(root: Promise, named: set[str]) -> tuple[set[Item], set[str]]:
    """Returns all that is reached from a promise if these fields are named, and what of it is the library's."""
    items: set[Item] = set()
    library: set[str] = set()
    left = list(root.uses)
    while left:
        item = left.pop()
        if isinstance(item, str):
            library.add(item)
        elif item not in items:
            items.add(item)
            item.uses = uses_of(item, named)
            left += item.uses
    return items, library


def reached(root: Promise) -> tuple[set[Item], set[str]]:
    """All that is reached from a promise, and what of it is the library's. A struct's field counts where something reached names it."""
    named = fields_named("\n".join(root.lines))
    while True:
        items, library = reached_with(root, named)
        more = named.union(*(fields_named(text_of(item)) for item in items))
        if more == named:
            break
        named = more
    for item in items:
        if isinstance(item, TypeItem):
            item.lines = shown_type(item, named)
        else:
            item.lines = [fixity(line, item.file, items) if line.startswith("infix") else line for line in item.lines]
    return items, library


def place(file: str) -> tuple[int, bool, str]:
    """The order of files: by crate, types before definitions."""
    crate, folder = file.split("/")[1:3]
    return CRATES.index(crate), folder != "src", file


def ready(here: set[Item], done: set[Item]) -> set[Item]:
    """Returns those of a file's items that name nothing but one another and what is done."""
    while True:
        blocked = {item for item in here if any(isinstance(use, Item) and use not in done | here and use is not item for use in item.uses or [])}
        if not blocked:
            return here
        here = here - blocked


def next_group(left: dict[str, set[Item]], done: set[Item]) -> tuple[str, set[Item]]:
    """Returns the first file whose items are all ready, else those that are ready of the first that has some, else the first file."""
    some = [(file, ready(items, done)) for file, items in left.items()]
    whole = [(file, group) for file, group in some if len(group) == len(left[file])]
    partly = [(file, group) for file, group in some if group]
    return (whole or partly or list(left.items()))[0]


def in_order(items: set[Item]) -> list[tuple[str, list[Item]]]:
    """Groups of items of one file, each after what it names."""
    files = sorted({item.file for item in items}, key=place)
    left = {file: {item for item in items if item.file == file} for file in files}
    done: set[Item] = set()
    groups: list[tuple[str, list[Item]]] = []
    while left:
        file, group = next_group(left, done)
        groups.append((file, sorted(group, key=lambda item: item.start)))
        done |= group
        left[file] = left[file] - group
        if not left[file]:
            del left[file]
    return groups


def renamed_in(group: list[Item]) -> list[str]:
    """Returns the imports by which the items of one file use names under others."""
    lines: list[str] = []
    for item in group:
        scope = item.module if isinstance(item, Definition) else item.model if isinstance(item, TypeItem) else None
        if scope:
            lines += renamed(scope.names, scope.modules, text_of(item))
    return list(dict.fromkeys(lines))


def shown_library(names: set[str]) -> list[str]:
    """The library's names, a line a module."""
    by_module: dict[str, set[str]] = {}
    for name in names:
        if name.startswith("Rust's "):
            module, last = "Rust", name.split(" ", 1)[1]
        elif "::" in name:
            module, last = "Rust", name
        else:
            module, _, last = name.rpartition(".")
        by_module.setdefault(module, set()).add(last)
    return [f"{module}: {' '.join(sorted(by_module[module]))}" for module in sorted(by_module)]


def shown(root: Promise, items: set[Item], library: set[str]) -> None:
    begun: set[str] = set()
    print(f"What must be believed of {root.title}, lowest first.\n")
    for file, group in in_order(items):
        print(f"==== {file}\n")
        if file not in begun:
            print("".join(f"{line}\n" for line in takewhile(lambda line: line.startswith(("--", "//!")), read(file).splitlines())))
        begun.add(file)
        if renamed_in(group):
            print("\n".join(renamed_in(group)) + "\n")
        for item in group:
            print("\n".join(item.lines) + "\n")
    print(f"==== the promise: {root.file}\n")
    if root.renamed:
        print("\n".join(root.renamed) + "\n")
    print("\n".join(root.lines) + "\n")
    print("==== of the toolchain's library\n")
    print("\n".join(shown_library(library)) + "\n")


def sizes(items: set[Item]) -> tuple[int, int, int]:
    """The lines of definitions, those of types in the code, and the files."""
    of_types = sum(counted(item.lines) for item in items if item.file.split("/")[2] == "src")
    return sum(counted(item.lines) for item in items) - of_types, of_types, len({item.file for item in items})


def size(items: set[Item]) -> str:
    definitions, types, files = sizes(items)
    return f"{definitions + types} lines in {files} file{'' if files == 1 else 's'}: {definitions} of definitions, {types} of types in the code"


def promise_named(name: str) -> Promise:
    """Returns the promise of a name, and of one of its clauses if a word follows it."""
    call, *clause = name.split()
    return promise(call, clause[0] if clause else None)


def table(names: Iterable[str]) -> list[str]:
    """The rows of the table in docs/PROOFS.md, the smallest first."""
    rows = [(sizes(reached(promise_named(name))[0]), "`" + name.replace(" ", "`, clause `") + "`") for name in names]
    return [f"| {title} | {definitions:,} | {types:,} | {files:,} |" for (definitions, types, files), title in sorted(rows)]


def rows_of(text: str) -> dict[str, list[int]]:
    """Returns the figures of a table's rows, by the names of the promises: `no_trap safe` with a clause."""
    found = re.findall(r"^\| (`.*?) \| ([\d,]+) \| ([\d,]+) \| ([\d,]+) \|$", text, re.M)
    return {title.replace("`, clause `", " ").strip("`"): [int(figure.replace(",", "")) for figure in figures] for title, *figures in found}


def stale(written: dict[str, list[int]], made: dict[str, list[int]]) -> list[str]:
    """Returns the promises with a figure that differs by more than is tolerated."""
    return [name for name, figures in made.items() if any(abs(old - new) > TOLERANCE * new for old, new in zip(written[name], figures))]


def keep_table(is_made: bool) -> None:
    """Writes the document's table anew, or compares it with what would be written."""
    front, _, rest = DOCUMENT.read_text(encoding="utf-8").partition(BEGIN)
    written, _, back = rest.partition(END)
    names = rows_of(written)
    if not names:
        fail("docs/PROOFS.md has no table of what must be believed")
    lines = "\n".join(table(names)) + "\n"
    if is_made:
        DOCUMENT.write_text(front + BEGIN + HEAD + lines + END + back, encoding="utf-8")
    elif found := stale(names, rows_of(lines)):
        fail(f"docs/PROOFS.md: {', '.join(found)}: stale; ./dev believe --make writes the table")
    print(f"{len(names)} checked")


def main(words: list[str]) -> int:
    if words[:1] == ["--count"] and words[1:]:
        for name in words[1:]:
            root = promise_named(name)
            print(f"{root.title}: {size(reached(root)[0])}")
    elif words[:1] == ["--table"] and words[1:]:
        print("\n".join(table(words[1:])))
    elif words in (["--make"], ["--check"]):
        keep_table(words == ["--make"])
    elif 1 <= len(words) <= 2 and not words[0].startswith("-"):
        root = promise(words[0], words[1] if words[1:] else None)
        items, library = reached(root)
        shown(root, items, library)
        print(size(items))
    else:
        fail((__doc__ or "").rstrip())
    return 0
