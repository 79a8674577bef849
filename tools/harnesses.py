"""The table of the tools: the name of each, its file, and what it checks or makes. Those that check something are harnesses: CI, ./dev check, the
nights and release/HARNESSES take them from here.

The arguments of a harness are those of CI and of quick nights (`short`), and of whole ones (`whole`), each with the least number of things that
it has to count as passed. `@seed` is the run's, `@seconds` and `@count` those of a whole night; `NAME=1` is a variable."""

import sys
from pathlib import Path
from typing import NamedTuple

from tools import ROOT

# The kinds of fuzz tests, and how many CI makes of each: some ten seconds of a processor. A number of tests and no time bounds them, and their
# seed is a sum of what they test (record.sum_of). So the same sources have the same tests here and in CI, and others have others.
KINDS = {
    "check": 100, "bounds": 700, "run": 450, "each": 2000, "names": 2000, "asm": 2000, "decode": 4000, "args": 8000, "library": 2000, "handles": 600,
    "verify": 2000, "orders": 60, "history": 3000, "traces": 4000, "inputs": 2000, "stats": 800,
}


class Run(NamedTuple):
    """The arguments of a run, and the least number of things that pass."""

    words: str = ""
    least: int = 0


class Tool(NamedTuple):
    """A row of the table. The file is below tools/, or below the top if it begins with `./`; its first arguments may follow it."""

    name: str
    file: str
    what: str
    short: Run | None = None
    whole: Run | None = None
    # Crates whose programs and libraries it takes, commands and `module:NAME`s that it needs, files beside its own that decide what it does.
    tests: str = ""
    needs: str = ""
    depends: str = ""
    limit: int = 600
    # The night of seven in which it is run whole; each night if there is none.
    shard: int | None = None
    # Whether CI runs the short form; whether it may run beside another one, since it measures no time.
    in_ci: bool = True
    is_beside: bool = False
    # Whether fewer things than before are no fault, down to `least`, since the program or the sources decide how many there are.
    may_fall: bool = False

    @property
    def is_harness(self) -> bool:
        """Says if it checks something by itself."""
        return bool(self.short or self.whole)


def path_of(file: str) -> Path:
    """Returns the path of a file of the table, without arguments."""
    file = file.split()[0]
    return ROOT / file if file.startswith("./") else ROOT / "tools" / file


def named(words: list[str]) -> list[Tool]:
    """Returns the harnesses of these names; `fuzz` is each of its kinds. Exits if one is none."""
    found: list[Tool] = []
    for word in words:
        rows = [tool for tool in TOOLS if tool.is_harness and (tool.name == word or word == "fuzz" and tool.name.startswith("fuzz_"))]
        if not rows:
            print(f"there is no harness {word}; ./dev list names them", file=sys.stderr)
            raise SystemExit(2)
        found += rows
    return found


def fuzz(kind: str) -> Tool:
    """Returns the row of a kind of fuzz tests."""
    short, whole = Run(f"{kind} @seed {KINDS[kind]}", KINDS[kind]), Run(f"{kind} @seed @count --seconds @seconds", KINDS[kind])
    return Tool(f"fuzz_{kind}", "fuzz/main.py", f"the kind {kind} of fuzz tests", short, whole, tests="tw_main tw_embed", depends="fuzz", limit=1500, is_beside=True)


PROGRAM, BOTH, LINKED = "tw_main", "tw_main tw_embed", "tw_main libyuglemit.a"

TOOLS = (
    # Of the sources. They test no program.
    Tool("words", "sources/words.py", "docs/STYLE.md; that what documents cite is there", Run("", 30_000)),
    Tool("cases", "cases/main.py", "cases/, and what CI reads of them", Run("--check", 3000)),
    Tool("json_cases", "cases/json_cases.py", "the JSON that cases expect, and the schemas", Run("", 1000)),
    Tool("instructions", "sources/instructions.py", "rows of instructions, and docs/ADDING.md", Run("--check", 90)),
    Tool("instruction_rows", "sources/instruction_rows.py", "rows that follow from the table of instructions", Run("--check", 6)),
    Tool("adding", "sources/adding.py", "the example of docs/ADDING.md, made in a copy; at night it is built, unverified, and runs", Run("--rows", 6), Run("", 14),
         needs="rt", depends="sources/instructions.py sources/instruction_rows.py", limit=1200, shard=2),
    Tool("stacks", "sources/stacks.py", "which crate depends on which", Run("--check", 50)),
    Tool("site", "release/site.py", "the manual as HTML: its titles, contents and links", Run("--check", 90)),
    Tool("believed", "proofs/believe/main.py", "the table of docs/PROOFS.md of what must be believed", Run("--check", 8), depends="proofs/believe"),
    Tool("scale", "sources/scale.py", "how many lines each group of crates has, and its ceiling", Run("--check", 3), depends="sources/ceilings.txt"),
    Tool("walks", "sources/walks.py", "that each step of a walk of docs/ARCHITECTURE.md is called by one before", Run("--check", 30)),
    Tool("edits", "proofs/mutants.py --list", "that what mutants edit is there", Run("", 100)),
    Tool("edits_of_proofs", "proofs/must_fail.py --check", "that what mutants of proofs edit is there", Run("", 20), may_fall=True),
    Tool("plot", "./bench/test_plot.py", "the plot of bench/", Run("", 1)),
    Tool("lint", "sources/lint.sh", "shell scripts and Python, by shellcheck, mypy and pyflakes", Run("", 290), needs="shellcheck mypy pyflakes3", is_beside=True, may_fall=True),
    # Of the program and the library.
    Tool("test", "tests.py", "the tests of the tools", Run("", 420), tests=BOTH, is_beside=True, may_fall=True),
    Tool("twins", "sources/twins.py", "expansions and copies of examples", Run("--check", 80), tests=PROGRAM),
    Tool("manual", "sources/manual.py", "docs/tw.1 against the help texts", Run("--check", 35), tests=PROGRAM),
    Tool("shown", "program/shown.sh", "every command that documents show", Run("", 200), tests=PROGRAM),
    Tool("json_runs", "program/json_runs.py", "--json of each command against what is printed without it, and the schemas", Run("", 500), tests=PROGRAM, is_beside=True),
    Tool("stream", "program/stream.py", "--each as a process that answers line by line: order, bytes, long lines, memory, signals", Run("--short", 14), Run("", 18), PROGRAM),
    Tool("echoes", "program/echoes.py", "that no hidden character is printed wherever tw echoes a text", Run("--texts 100 --seed @seed", 2400),
         Run("--texts 10000 --seed @seed", 240_000), PROGRAM, limit=3600, shard=6, is_beside=True),
    Tool("loaded", "library/loaded.sh", "loaded programs against the program", Run("--quick", 190), Run("", 190), LINKED, "cc", "library ./embed", 900, 0),
    Tool("abi", "library/abi.sh", "the tests of earlier releases, with the library", Run("--quick", 5), Run("", 20), tests="tw_embed libyuglemit.a", needs="cc c++ readelf", shard=3),
    Tool("orders", "program/orders.py", "runs in several layouts and orders; those in threads replayed", Run("--examples --runs 1 --seeds 1", 50), Run("--examples --runs 200 --seeds 100", 50),
         PROGRAM, limit=7200, shard=3),
    Tool("scarce", "program/scarce.sh", "sessions that are short of memory, with one arena of malloc", Run("1", 1), Run("5", 5), "tw_cases", "cc taskset", limit=1200),
    Tool("installed", "release/installed.sh", "./tw install, help pages, completions, the Python package of a clone", Run("", 14), tests=BOTH, depends="./script ./embed", is_beside=True),
    Tool("python", "./embed/python/test.sh", "the Python package", Run("", 280), tests="tw_embed", depends="./embed/python", limit=900, is_beside=True),
    Tool("events", "program/events.py", "instructions of an event, by callgrind, against bench/events.csv", Run("--check", 9), tests=PROGRAM, needs="valgrind",
         depends="./bench/events.csv", limit=900, is_beside=True),
    *(fuzz(kind) for kind in KINDS),
    # For nights alone: they take long, or measure.
    Tool("progress", "program/progress.py", "progress and colours on a terminal", Run("", 19), tests=PROGRAM, in_ci=False),
    Tool("seconds", "program/seconds.py", "that --seconds stops runs after their time, and a session of the library rejects it; that Ctrl-C prints a report", Run("", 21), tests=BOTH, in_ci=False),
    Tool("memory", "program/memory.py", "runs with the memory that docs/HOSTING.md says", Run("--only pipeline", 1), Run("", 70), PROGRAM, limit=1800, in_ci=False),
    Tool("prices", "program/prices.py", "the seconds of the dearest instructions and events, by which runs are bounded", Run("ADD", 1), Run("", 40), "tw_embed", shard=3, in_ci=False),
    Tool("load", "program/orders.py --load", "a large run many times", Run("3", 3), Run("100", 100), PROGRAM, depends="./bench/load.tw", limit=1800, shard=5, in_ci=False),
    Tool("hostile", "program/hostile.py", "time and memory of the worst inputs", Run("--commands 1", 100), Run("", 900), PROGRAM, limit=3600, shard=4, in_ci=False),
    Tool("refused", "program/refused.py", "a run for each failing allocation", Run("--most 60", 500), Run("", 5600), PROGRAM, "cc", "program/refuse.c", 3600, 5, False, True, True),
    Tool("many", "program/many.sh", "the engines of docs/MANY.md", Run("threads", 1), Run("", 20), BOTH, depends="./examples/many ./embed/python", limit=2400, shard=5, in_ci=False),
    Tool("callers", "library/callers.sh", "C, C++ and Rust with hostile calls, under valgrind and with sanitizers", Run("--quick", 35), Run("", 40), "libyuglemit.a", "cc c++ objcopy",
         "library ./embed", 3600, 0, False, True),
    Tool("embedded", "library/embedded.sh", "callers in C, C++, Rust and Python against the program", Run("c cpp python", 1000), Run("", 2000), f"{LINKED} tw_embed", "cc c++ cargo",
         "library ./embed", 1200, 0, False, True),
    Tool("builder", "./embed/python/test.sh", "Python's builder, with more programs", Run("FILES=100 MUTANTS=500 FUNCTIONS=50 test_build test_build_source", 50),
         Run("FILES=10000 MUTANTS=30000 FUNCTIONS=3000 test_build test_build_source", 50), "tw_embed",
         depends="./embed/python", limit=3600, shard=1, in_ci=False, is_beside=True),
    Tool("python_calls", "./embed/python/test.sh", "the package's calls under valgrind", None, Run("--valgrind", 60), "tw_embed", "valgrind", "./embed/python", limit=1800, shard=1, in_ci=False, is_beside=True),
    Tool("page", "./page/test.sh", "the page, in Chromium and Firefox", None, Run("", 1), PROGRAM, "chromium node cc", "./page", limit=1800, shard=1, in_ci=False),
    Tool("wheel", "release/wheel.sh", "the wheel, where there is no network", None, Run("", 300), "tw_embed", "unshare", "./embed/python release", limit=900, shard=1, in_ci=False, is_beside=True),
    Tool("packaged", "release/packaged.sh", "the packages", None, Run("", 10), BOTH, "unshare mmdebstrap", "./embed release", limit=2400, shard=1, in_ci=False),
    Tool("released", "release/released.sh", "a clean clone, and the commands of docs/HOSTING.md", None, Run("", 10), BOTH, depends="./script ./docs/HOSTING.md", limit=1200, shard=6, in_ci=False),
    Tool("mutants", "proofs/mutants.py", "that tests notice edits of what no contract holds", None,
         Run("--table main terminal script release cases python build cpp rust page", 100), BOTH, "node rt", "./script ./embed ./page", limit=5400, shard=2, in_ci=False, is_beside=True),
    Tool("wakes", "proofs/mutants.py host", "that cases notice each place that doesn't wake", None, Run("", 20), "tw_host_cases", "rt", limit=3600, shard=2, in_ci=False),
    Tool("must_fail", "proofs/must_fail.py", "that the mutants which CI leaves out are rejected", None, Run("", 20), "tw_main", "rt", "proofs/must-fail", 10800, 6, False),
    Tool("planted", "night/planted.py", "that harnesses fail on a program that always rejects, on one that is always quiet, and on others", Run("", 40), tests=BOTH, needs="cc",
         depends="night harnesses.py", limit=1800, shard=4, in_ci=False, is_beside=True),
    # These make or print something.
    Tool("fuzz", "fuzz/main.py", "fuzz tests of the library and the program, by their arguments"),
    Tool("believe", "proofs/believe/main.py", "prints the definitions on which a promise depends"),
    Tool("editor", "sources/editor.py", "the files of editors and shells in script/install"),
    Tool("alone", "proofs/alone.py", "a crate over unproved sources"),
    Tool("bodies", "proofs/bodies.py", "wrong bodies under contracts, and how many weren't proved"),
    Tool("release", "release/release.py", "makes the release, and compares it"),
    Tool("package", "release/package.py", "writes the packages into dist/ (./tw package)"),
)
