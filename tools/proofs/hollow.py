"""Judges wrong bodies of a crate's functions in a copy in which its own functions are hollow: their body is a loop, and their proof is a hole, so that
they are taken at their contracts. A check then reads the tried bodies alone, whatever they call. Bodies and tactics are those of `rt plant`."""

import importlib.util
import io
import json
import re
import shutil
import sys
import time
from functools import cache
from importlib.machinery import SourceFileLoader
from itertools import count
from pathlib import Path
from typing import Any

# A check reads so many bodies, in so many seconds at most.
BATCH, SECONDS = 64, 3600

HOLE = """use Rattle.{crate}.proofs.{path}.Statement.{{statement}}

pub {name}_spec : {{M : Type 1}} → statement M
{name}_spec = ?
"""
# A body that makes a value, other than of core, may not compile.
MADE = re.compile(r"Default::|\b(?!(?:Some|Ok|Err|Self)\b)[A-Z]\w*(?: \{|::[a-z_]+\()")
# Of a function's bodies, those that weren't tried come after those that were judged, and those that a check couldn't judge after these.
LATER = {"not-run": 1, "not-judged": 2, "not-source": 3}
# A check says so of a function that is proved, where there are holes.
PROVED = re.compile("no holes$|depends on a hole in ")
# It says so of one that shows nothing; then another body is tried, as for one that only breaks a callee's `requires`.
UNFAIR = re.compile("the borrow checker does not cover ")


def planter(kit: Path) -> Any:
    """Returns the module of `rt plant`."""
    loader = SourceFileLoader("rt_plant", str(kit / "bin/rt-plant"))
    module: Any = importlib.util.module_from_spec(importlib.util.spec_from_loader("rt_plant", loader) or sys.exit("no rt-plant"))
    loader.exec_module(module)
    module.SECONDS, crate = SECONDS, module.rt.Crate
    crate.stamp, crate.below = cache(crate.stamp), cache(crate.below)
    return module


def path_of(source: Any, function: Any) -> list[str]:
    """Returns the path of a function below its crate, as a check names it."""
    block = function.block
    if not block:
        return [*function.module, function.name]
    if not function.in_trait:
        modules = [declared[0] for declared in source.declared[function.owner]]
        return [*(function.module if function.module in modules else modules[0]), function.owner, function.name]
    # A trait's own method has no type, and that of an impl for a type parameter has `Any`. Of modules only that of `io::Error` is in the name.
    words = [*(["any"] if block.ty[0] in block.generics else block.ty * (not block.is_trait)), *block.trait, ""]
    names = [word for word, after in zip(words, words[1:]) if word.isidentifier() and (after != ":" or word == "io") and word not in (*block.generics, "mut", "dyn")]
    return [*function.module, "".join(name[0].upper() + name[1:] for name in names), function.name]


def spread(bodies: list[Any]) -> list[Any]:
    """Returns a function's bodies: one of each form first, and last those that may not compile."""
    first = list({body.kind: body for body in reversed(bodies)}.values())[::-1]
    found = first + [body for body in bodies if body not in first]
    return sorted(found, key=lambda body: bool(MADE.search(body.text)))[:6]


def name_of(plant: Any) -> str:
    """Returns a function with a body, as it is printed."""
    return f"{plant.f.shown}: {{ {plant.body} }}"


def in_place(plants: list[Any]) -> list[Any]:
    """Returns bodies that can be tried at once: a trait's method has one body."""
    of_traits: dict[Any, Any] = {}
    return [plant for plant in plants if not plant.f.in_trait or of_traits.setdefault(plant.f, plant) is plant]


class Trial:
    """The bodies of a crate's functions, so many of a kind, and its hollow copy in a folder. What is known of them is kept in a file, for these sources
    of the crate and those below it."""

    def __init__(self, kit: Path, folder: Path, room: Path, kept: Path, each: int) -> None:
        self.plant, self.room, self.kept, self.each = planter(kit), room, kept, each
        rt, read, self.numbers = self.plant.rt, self.plant.bodies.Source, count()
        self.crate = rt.Crate(str(folder), rt.root_above(str(folder)), {})
        self.crate.out = io.StringIO()
        if missing := [below.name for below in self.crate.below() if not below.is_built()]:
            raise SystemExit(f"bodies: there is no library {missing[0]}: rt check in {folder} makes it")
        whole, self.source, root = read(str(folder)), read(str(room)), "src/main.rt" if self.crate.is_program else "src/lib.rt"
        self.copy = self.plant.Copy(self.crate, self.source, str(room), ["--jobs", "1", "--allow-holes"], 1e9)
        whole.read(root)
        paths = {function: path_of(whole, function) for function in whole.functions if function.has_body}
        self.hollow_out(whole, paths)
        self.source.read(root)
        self.source.read_specs()
        for name, library in self.plant.libraries(self.crate).items():
            if name not in (*rt.SEALED, "libc", "os"):
                self.source.add_library(name, f"{library}/lang")
        for function, was in zip(self.source.functions, whole.functions):
            function.body, function.shown = was.body, was.shown
        symbols = {"::".join([self.crate.name, *path]): "proved" for path in paths.values()}
        self.bodies = {function: self.bodies_of(function) for function in self.plant.chosen(self.crate, self.source, symbols, "")[0]}
        self.all = [plant for parts in self.bodies.values() for part in parts for plant in part]
        known = json.loads(kept.read_text(encoding="utf-8")) if kept.is_file() else {}
        for plant in self.all if known.get("sum") == self.crate.stamp() else []:
            plant.kind, plant.why = known.get(name_of(plant), (plant.kind, plant.why))

    def hollow_out(self, source: Any, paths: dict[Any, list[str]]) -> None:
        """Takes functions at their contracts: not those of a cycle, of constants, or that never return."""
        for file, data in source.data.items():
            text, at = b"", 0
            for function in (function for function in paths if function.file == file):
                if not function.in_cycle and function.ret != ["!"] and not re.search(rb"\bconst\b", data[function.first : function.named[0]]):
                    text, at = text + data[at : function.opens] + b"{ loop {} }", function.end
                    self.dig(paths[function])
            (self.room / file).write_bytes(text + data[at:])

    def dig(self, path: list[str]) -> None:
        """Makes a hole of a function's proof."""
        proof = self.room.joinpath("proofs", *path)
        shutil.rmtree(proof, ignore_errors=True)
        proof.mkdir(parents=True)
        (proof / "Proof.antt").write_text(HOLE.format(crate=self.crate.name, path=".".join(path), name=path[-1]), encoding="utf-8")

    def made(self, function: Any, bodies: list[Any]) -> list[Any]:
        """Returns bodies to try under a function's contract."""
        return [self.plant.Plant(function, body, next(self.numbers)) for body in bodies]

    def bodies_of(self, function: Any) -> list[list[Any]]:
        """Returns bodies that give up, the unchanged call, and bodies over it."""
        written = self.plant.bodies.Bodies(self.source, function)
        giving = spread(written.giving_up())
        if function.in_trait or not all(re.fullmatch(r"[a-z]\w*|_\w+", name) for name, _ in function.params):
            return [self.made(function, giving), [], []]
        fails = next((body.text for body in giving if body.kind == "failure"), None)
        return [self.made(function, bodies) for bodies in (giving, [self.plant.bodies.Body(function.call())], spread(written.over_the_real_one(fails)))]

    def save(self) -> None:
        """Keeps what is known."""
        known = {name_of(plant): (plant.kind, plant.why) for plant in self.all}
        self.kept.parent.mkdir(parents=True, exist_ok=True)
        self.kept.write_text(json.dumps({"sum": self.crate.stamp(), **known}, indent=0), encoding="utf-8")

    def left(self) -> list[Any]:
        """Returns the bodies to try, each function's first ones first. One that couldn't be judged gives its place to the next."""
        parts = [sorted(part, key=lambda plant: LATER.get(plant.kind, 0)) for parts in self.bodies.values() for part in parts]
        ranked = [(at, plant) for part in parts for at, plant in enumerate(part[: self.each]) if plant.kind == "not-run"]
        return [plant for _, plant in sorted(ranked, key=lambda pair: pair[0])]

    def go_on(self, end: float) -> None:
        """Judges bodies until a time. Asks of those let through whether they do what the function does."""
        while (left := self.left()) and time.monotonic() < end:
            now, began = in_place(left)[:BATCH], time.monotonic()
            self.read(now)
            self.save()
            print(f"{self.crate.name}: {len(now)} of {len(left)} bodies in {time.monotonic() - began:.0f} s", file=sys.stderr, flush=True)
        asked = [plant for plant in self.all if plant.kind == "proves" and plant.same and not plant.why]
        asks = [self.made(plant.f, [self.plant.bodies.Body(plant.same)])[0] for plant in asked]
        self.read(asks)
        for plant, ask in zip(asked, asks):
            plant.kind, plant.why = ("same", "") if ask.kind == "proves" else ("proves", "not shown to be equal")
        self.save()

    def read(self, plants: list[Any]) -> None:
        """Judges bodies by a check of those that the toolchain takes; by checks of halves, if one has no end."""
        if not plants:
            return
        self.copy.write(plants)
        replaced = [symbol.split("::")[1:] for symbol in dict.fromkeys(symbol for plant in plants for symbol in plant.f.symbols)]
        for path in replaced:
            shutil.rmtree(self.room.joinpath("proofs", *path))
        said = self.copy.check([name for plant in plants for name in plant.f.symbols or [plant.name]]) or ""
        for path in replaced:
            self.dig(path)
        wrong = [plant for file, line in self.plant.ERROR.findall(said) if (plant := self.copy.lines.get((file, int(line))))]
        half = len(plants) // 2
        if re.search("(?m)^(only=|rattle: no verdict)", said):
            self.plant.read(plants, said)
        elif wrong:
            for plant in wrong:
                plant.kind = "not-source"
            self.read([plant for plant in plants if plant not in wrong])
        elif half:
            self.read(plants[:half])
            self.read(plants[half:])
        else:
            plants[0].kind, plants[0].why = "not-judged", said[-200:] or self.plant.NO_END
        for plant in plants:
            if plant.kind == "not-judged" and PROVED.match(plant.why):
                plant.kind, plant.why = "proves", ""
            elif plant.kind == "elsewhere" or UNFAIR.match(plant.why):
                plant.kind = "not-source"

    def let_through(self) -> list[Any]:
        """Returns the bodies that meet a contract, and aren't shown to do what the function does."""
        return [plant for giving, _, over in self.bodies.values() for plant in giving + over if plant.kind == "proves"]

    def counts(self) -> list[int]:
        """Returns how many functions have a contract, and of how many no body was judged; how many bodies were refused, do what the function does, were let
        through, and weren't judged. One over a call is judged where the unchanged call is proved."""
        kinds, untried, found, left = ["refused", "same", "proves", "unjudged"], 0, list[str](), self.left()
        for giving, call, over in self.bodies.values():
            judged = giving + over * any(plant.kind == "proves" for plant in call)
            tried = [plant for plant in giving + over if plant in left or plant.kind not in ("not-run", "not-source")]
            now = [plant.kind if plant in judged and plant.kind in kinds else "unjudged" for plant in tried]
            untried += {*now} <= {"unjudged"}
            found += now
        return [len(self.bodies), untried, *map(found.count, kinds)]
