"""The cases of cases/: runs them, lists them, and makes what CI reads of them.

    cases.py --check                    says whether the crates that run cases have what cases/ gives
    cases.py --make                     writes stdin and stdout of these crates
    cases.py --list [PATTERN..]         lists cases with their places
    cases.py --crates [PATTERN..]       lists the crates that run these cases
    cases.py --run CRATE=KIND:PROGRAM.. [--update] [PATTERN..]    runs cases by programs of these crates; `./tw test` calls it

A pattern is a case's name, a part of a name or of a file's (as names/errors), or has `*`, `?` or `[` and is the whole of one.
"""

import fnmatch
import os
import re
import shutil
import sys
from pathlib import Path

from tools import ROOT
from tools.cases.files import CRATES, SCARCE_KINDS, Book, Case, Fault, answer_text, lets_of, read_book, unknown_names, unused_lets
from tools.cases.runs import LONG, Program, Progress, Result, Runner, Times, run_all, shown_failure

CASES = ROOT / "cases"
ROWS = ROOT / "crates"
# The folder that the programs are run in.
DATA = ROWS / "tw_cases" / "data"
HEAD = "# Made of cases/ by ./dev cases --make: edit those files, not this one."
# Columns of what is shown of a failed case: at least, and where there is no terminal.
NARROW, WIDE = 80, 160


# --- What CI reads


def cases_of(book: Book, crate: str) -> list[Case]:
    return [case for case in book.cases if case.crate == crate]


def stdin_of(book: Book, crate: str) -> str:
    """Returns the lines that a crate's program reads: each case, after the bytes that it names."""
    lines = [HEAD]
    done: set[str] = set()
    topic = ""
    for case in cases_of(book, crate):
        if case.topic != topic:
            topic = case.topic
            lines += ["", f"# cases/{case.path.as_posix()}"]
        lines += [made.row for made in lets_of(book, case.given, done)]
        lines.append(case.row)
    return "\n".join(lines) + "\n"


def stdout_of(book: Book, crate: str) -> str:
    """Returns what the program prints if all is as expected: each control's complaint, and the number of the other cases."""
    cases = cases_of(book, crate)
    controls = [case for case in cases if case.complaint is not None]
    lines = [f"{case.name}: {case.complaint}" for case in controls]
    return "\n".join([*lines, f"{len(cases) - len(controls)} cases as wanted"]) + "\n"


def doubles_of(book: Book) -> list[str]:
    """Returns the cases that give a program the same arguments and input as one before. A control has them, too, since it expects something wrong."""
    first: dict[tuple[str, str], Case] = {}
    for case in book.cases:
        if case.complaint is None and case.given:
            first.setdefault((case.kind, case.given), case)
    found = ((case, first.get((case.kind, case.given), case)) for case in book.cases if case.complaint is None)
    return [f"{case.place}: {case.name} is {other.name} once more" for case, other in found if other is not case]


def faults_of(book: Book) -> list[str]:
    """Returns what is wrong with the files beyond their form."""
    faults = doubles_of(book) + [f"cases/{made.path}:{made.first}: no case names @{made.name}" for made in unused_lets(book)]
    return faults + [f"{case.place}: no file has let {name}" for case, name in unknown_names(book)]


def made_files(book: Book) -> dict[str, str]:
    """Returns the files that CI reads, with their texts."""
    made = {f"{crate}/stdin": stdin_of(book, crate) for crate in CRATES}
    return made | {f"{crate}/stdout": stdout_of(book, crate) for crate in CRATES}


def stale_files(book: Book) -> list[str]:
    """Returns the files that aren't what cases/ gives."""
    made = made_files(book)
    return [f"crates/{name}" for name, text in made.items() if not (ROWS / name).exists() or (ROWS / name).read_text(encoding="utf-8") != text]


def check(book: Book) -> int:
    faults = faults_of(book) + [f"{name} isn't what cases/ gives; ./dev cases --make writes it" for name in stale_files(book)]
    counts = ", ".join(f"{len(cases_of(book, crate))} in crates/{crate}" for crate in CRATES)
    print("\n".join(faults) or f"{len(book.cases)} checked: {counts}")
    return 1 if faults else 0


def make(book: Book) -> int:
    for name, text in made_files(book).items():
        (ROWS / name).write_text(text, encoding="utf-8")
    return check(book)


# --- Which cases


def matches(case: Case, pattern: str) -> bool:
    texts = (case.name, case.topic)
    if re.search(r"[*?\[]", pattern):
        return any(fnmatch.fnmatchcase(text, pattern) for text in texts)
    return any(pattern in text for text in texts)


def chosen(book: Book, patterns: list[str]) -> list[Case]:
    """Returns the cases of the patterns; all of them if there is none. A pattern that is a case's name is this one alone."""
    names = {case.name for case in book.cases}
    for pattern in patterns:
        if not any(matches(case, pattern) for case in book.cases):
            raise SystemExit(f"tw: no case or file matches {pattern!r}; ./tw test --list lists them")
    def fits(case: Case, pattern: str) -> bool:
        return case.name == pattern if pattern in names else matches(case, pattern)
    return [case for case in book.cases if not patterns or any(fits(case, pattern) for pattern in patterns)]


def list_cases(cases: list[Case]) -> int:
    for case in cases:
        print(f"{case.name:<45} {case.place:<40} {case.words}")
    return 0


# --- Running


def processors() -> int:
    return len(os.sched_getaffinity(0)) if hasattr(os, "sched_getaffinity") else os.cpu_count() or 1


def run_cases(book: Book, programs: dict[str, Program], cases: list[Case]) -> list[Result]:
    times = Times(ROOT / "out" / "case_times")
    progress = Progress(len(cases))
    jobs = max(1, min(processors(), len(cases)))
    results = run_all(cases, times, lambda crate: Runner(programs[crate].path, DATA, book), jobs, progress)
    progress.close()
    times.note(results)
    times.keep()
    order = {case.name: place for place, case in enumerate(cases)}
    return sorted(results, key=lambda result: order[result.case.name])


def possible(cases: list[Case], programs: dict[str, Program], patterns: list[str]) -> list[Case]:
    """Returns the cases without those that an unverified build can't run, or takes long for, unless they are named."""
    unverified = [case for case in cases if programs[case.crate].is_unverified]
    scarce = [case for case in unverified if case.kind.split(" ")[0] in SCARCE_KINDS]
    if scarce:
        print(f"tw: {len(scarce)} cases are short of memory, which an unverified build can't be, and are left out", file=sys.stderr)
    long = [case for case in unverified if case.name.startswith(LONG) and case.name not in patterns and case not in scarce]
    if long:
        print(f"tw: {len(long)} cases take long by an unverified build, and are left out: {LONG}*", file=sys.stderr)
    return [case for case in cases if case not in scarce and case not in long]


def test(book: Book, programs: dict[str, Program], patterns: list[str]) -> list[Result]:
    """Runs cases, and prints what failed and how many passed. Returns those that failed."""
    cases = possible(chosen(book, patterns), programs, patterns)
    results = run_cases(book, programs, cases)
    failed = [result for result in results if not result.is_expected]
    width = max(NARROW, shutil.get_terminal_size((WIDE, 0)).columns)
    for result in failed:
        print(shown_failure(result, width))
    controls = sum(result.case.complaint is not None and result.is_expected for result in results)
    passed = len(results) - len(failed) - (controls if len(results) > controls else 0)
    print(f"{passed} passed, {len(failed)} failed")
    return failed


def update(failed: list[Result]) -> int:
    """Writes what came into the files of the cases that failed."""
    done = 0
    for result in sorted(failed, key=lambda each: each.case.first, reverse=True):
        if result.got is None or result.case.complaint is not None:
            print(f"tw: {result.case.place}: {result.case.name} has no output to write")
            continue
        write_answer(result.case, result.got)
        done += 1
    print(f"tw: the expected output of {done} cases is the actual one now. Read `git diff cases`: what is expected comes from the")
    print("tw: format, the rules or arithmetic, and never from what the program printed. Then ./dev cases --make")
    return 0 if done == len(failed) else 1


def write_answer(case: Case, got: str) -> None:
    """Writes another expected output into a case's file."""
    path = CASES / case.path
    lines = path.read_text(encoding="utf-8").split("\n")
    if case.answer is None:
        row = lines[case.first - 1]
        lines[case.first - 1] = f"{row[:row.rindex('|')]}| {got}"
    else:
        first, last = case.answer
        lines[first - 1:last] = answer_text(case.kind, got)
    path.write_text("\n".join(lines), encoding="utf-8")


def read_programs(words: list[str]) -> dict[str, Program]:
    """Returns the programs of words such as tw_cases=built:PATH, by their crates."""
    found = [re.fullmatch(r"(\w+)=(\w+):(.*)", word, re.DOTALL) for word in words]
    return {match[1]: Program(Path(match[3]), match[2] == "unverified") for match in found if match and match[1] in CRATES}


def run_command(book: Book, words: list[str]) -> int:
    programs = read_programs(words)
    rest = words[len(programs):]
    is_update = "--update" in rest
    patterns = [word for word in rest if word != "--update"]
    if is_update and (os.environ.get("CI") or not patterns):
        print("tw: --update takes the cases that it may write, and is refused in CI", file=sys.stderr)
        return 2
    failed = test(book, programs, patterns)
    if is_update and failed:
        return update(failed)
    if stale_files(book):
        print("tw: CI doesn't have these cases yet; ./dev cases --make writes them for it", file=sys.stderr)
    return 1 if failed else 0


def command(words: list[str]) -> int:
    book = read_book(CASES)
    match words:
        case ["--check"]:
            return check(book)
        case ["--make"]:
            return make(book)
        case ["--list", *patterns]:
            return list_cases(chosen(book, patterns))
        case ["--crates", *patterns]:
            print("\n".join(sorted({case.crate for case in chosen(book, [word for word in patterns if word != "--update"])})))
            return 0
        case ["--run", _, *_]:
            return run_command(book, words[1:])
        case _:
            print(__doc__, file=sys.stderr)
            return 2


def main(words: list[str]) -> int:
    """Does what the arguments say; returns an exit status."""
    try:
        return command(words)
    except Fault as fault:
        print(f"tw: {fault}", file=sys.stderr)
    except BrokenPipeError:
        pass
    return 1
