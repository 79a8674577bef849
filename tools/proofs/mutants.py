"""Makes edits of what no contract holds, one after another, in a copy of the repository: the script tw, its tools, the page's JavaScript, the
packages for Python, C++ and Rust, and what tw says on standard error. The tests of the edited part have to fail. Prints a line for each mutant and
ends with `N killed, M survive`. It fails if a mutant survives that isn't said to be harmless, if one is killed that is, or if the tests of a part
fail without an edit, whose mutants aren't tried.

    ./dev mutants                  all of them, in some ten minutes
    ./dev mutants NAME..           these, or those of a part: main, terminal, host, script, release, cases, python, build, cpp, rust, page
    ./dev mutants --list           their names; like each call, it fails if an edit's text isn't in its file once
    ./dev mutants --table NAME..   prints a table of Markdown at the end

The page's tests need node. Parts of `BUILT` are built once for each crate, unproved, with all its edits (tools/proofs/breaks.py), which takes some
minutes and needs the toolchain. Cases have to notice those of the host (./dev wakes) as `late wakes N`, or since a run takes too long.
"""

import gzip
import os
import shutil
import signal
import subprocess
import sys
import tempfile
import time
from concurrent.futures import ThreadPoolExecutor
from dataclasses import dataclass
from functools import cache
from pathlib import Path
from queue import SimpleQueue

from tools import ROOT
from tools.common.program import ARCHIVE, LIBRARY, found
from tools.proofs.breaks import Place, built, names_of, write_broken

# The tests of a part may take so many seconds without an edit, and so many times as long with one.
SECONDS = 900 * float(os.environ.get("PATIENCE", "1"))
TIMES = 5

# The edits that are tried at once have a copy each.
COPIES = max(1, len(os.sched_getaffinity(0)) - 1)

# The command that tests each part, its quick tests first. @LIBRARY@, @ARCHIVE@ and @MODULE@ are the libraries and the page's module.
TESTS = {
    "main": "./dev shown --first",
    "terminal": "./dev progress",
    "host": "$TW_OUT/tw_host_cases <out/host_cases >out/host_said; head -n 1 out/host_said; grep -qxFf out/host_wanted out/host_said",
    "script": "./dev shown --first",
    "release": "python3 -B -m unittest -f tools.release.test_release",
    "cases": "python3 -B -m unittest -f tools.cases.test_cases",
    "python": "export PYTHONPATH=$PWD/embed/python YUGLEMIT_LIBRARY=@LIBRARY@ && cd embed/python/tests && python3 -B -m unittest -f test_[eip]*.py test_[!beip]*.py test_b*.py",
    "build": "export PYTHONPATH=$PWD/embed/python YUGLEMIT_LIBRARY=@LIBRARY@ && cd embed/python/tests && python3 -B -m unittest -f test_build_loops test_build_lines test_build",
    "cpp": "c++ -std=c++17 -pthread -I embed -o out/cpp_test embed/cpp/test.cpp @ARCHIVE@ && out/cpp_test examples",
    "rust": "cd embed/rust && YUGLEMIT_FOLDER=$(dirname @ARCHIVE@) CARGO_TARGET_DIR=../../out/rust cargo test --offline --quiet",
    "page": "node page/machine_test.js @MODULE@ page examples",
}

# The crates of the parts that are built, and the kinds of cases that turn or run a host.
BUILT = {"main": "tw_main", "terminal": "tw_main", "host": "tw_host_cases"}
OF_HOSTS = ("turns ", "rounds ", "stops ", "drives", "threads ", "woken ")


@dataclass(frozen=True)
class Mutant:
    """An edit: a text that a file has once, and what replaces it. `harmless` says why tests needn't notice it. Of a part that is built, `new` has the
    name of the edit between two @, which asks whether it is the one that is tried."""

    name: str
    part: str
    file: str
    old: str
    new: str
    harmless: str = ""


HOST = "crates/tw_host/src/host.rt"
PARKERS = "crates/tw_host/src/parkers.rt"
SLEEPERS = "crates/tw_host/src/sleepers.rt"
WORK = "crates/tw_pool_state/src/work.rt"


def unless(name: str, bits: str) -> str:
    """Returns the text of bits that are 0 if the edit is tried."""
    return f"(if @{name}@ {{ 0 }} else {{ {bits} }})"


# Each place that decides or makes a wake of an idle thread. The lock's invariant refuses the edits of `Sleepers`.
WAKES = (
    Place(HOST, "        self.parkers.unpark(due);\n        answer\n", "        if !@turns_wake_nobody@ {\n            self.parkers.unpark(due);\n        }\n        answer\n"),
    Place(HOST, "            self.progress.end();\n        }\n", "            if !@turns_do_not_end@ {\n                self.progress.end();\n            }\n        }\n"),
    Place(
        HOST,
        "        self.progress.end();\n        self.parkers.unpark(due);\n",
        "        if !@stop_does_not_end@ {\n            self.progress.end();\n        }\n        if !@stop_wakes_nobody@ {\n            self.parkers.unpark(due);\n        }\n",
    ),
    Place(PARKERS, "                parker.unpark();\n", "                if !@nobody_is_unparked@ {\n                    parker.unpark();\n                }\n"),
    Place(PARKERS, "            self.state.wake_one();\n", "            if !@kernel_is_not_called@ {\n                self.state.wake_one();\n            }\n"),
    Place(SLEEPERS, "            return self.asleep;\n", f"            return {unless('end_wakes_nobody', 'self.asleep')};\n"),
    Place(SLEEPERS, "            self.is_over = true;\n        }\n", "            self.is_over = !@end_is_not_noted@;\n        }\n"),
    Place(SLEEPERS, "        let asleep = self.asleep;\n", f"        let asleep = {unless('stop_wakes_no_sleeper', 'self.asleep')};\n"),
    Place(
        SLEEPERS,
        "self.due_engines(pool) | self.due_servers(pool) | self.due_workers(pool)",
        " | ".join(unless(f"engine_wakes_no_{kind}", f"self.due_{kind}s(pool)") for kind in ("engine", "server", "worker")),
    ),
    Place(SLEEPERS, "Actor::Server(_) => self.due_engines(pool),", f"Actor::Server(_) => {unless('server_wakes_no_engine', 'self.due_engines(pool)')},"),
    Place(SLEEPERS, "                } else {\n                    self.due_servers(pool)\n", f"                }} else {{\n                    {unless('worker_wakes_no_server', 'self.due_servers(pool)')}\n"),
    Place(
        SLEEPERS,
        "                    self.due_servers(pool) | self.due_workers(pool)\n",
        f"                    {unless('worker_out_wakes_no_server', 'self.due_servers(pool)')} | {unless('worker_out_wakes_no_worker', 'self.due_workers(pool)')}\n",
    ),
    Place(
        SLEEPERS,
        "if pool.has_own_work(pool.layout().actor_at(index)) {\n            *due = with(*due, index);",
        f"if pool.has_own_work(pool.layout().actor_at(index)) {{\n            *due |= {unless('own_work_wakes_nobody', 'with(0, index)')};",
    ),
    Place(SLEEPERS, "} else if *left {\n            *due = with(*due, index);", f"}} else if *left {{\n            *due |= {unless('task_wakes_nobody', 'with(0, index)')};"),
    Place(SLEEPERS, "nobody_looks(of_kind, self.asleep, self.out)", f"nobody_looks(of_kind, self.asleep, {unless('who_is_out_looks', 'self.out')})"),
    Place(WORK, "self.rules.next_release(engine).is_some()", "(!@releases_wake_nobody@ && self.rules.next_release(engine).is_some())"),
    Place(WORK, "self.store.oldest_notice(server).is_some()", "(!@notices_wake_nobody@ && self.store.oldest_notice(server).is_some())"),
    Place(WORK, " || self.tasks.has_targeted(actor)", " || (!@targets_wake_no_engine@ && self.tasks.has_targeted(actor))"),
    Place(WORK, "Actor::Worker(_) => self.tasks.has_targeted(actor)", "Actor::Worker(_) => (!@targets_wake_no_worker@ && self.tasks.has_targeted(actor))"),
    Place(WORK, "self.tasks.has_untargeted(kind)", "(!@tasks_wake_nobody@ && self.tasks.has_untargeted(kind))"),
)

SOURCES = "script/sources.sh"
FILES, RUNS, CASES = "tools/cases/files.py", "tools/cases/runs.py", "tools/cases/main.py"
PYTHON = "embed/python/yuglemit/"
BUILD = PYTHON + "build/"
MAIN = "crates/tw_main/src/"
CPP, RUST = "embed/cpp/yuglemit.hpp", "embed/rust/src/"

MUTANTS = (
    # The program: which files it reads, and what it says on standard error.
    Mutant("dash_is_a_file", "main", MAIN + "system_files.rt", 'if path == "-" {', 'if path == "-" && !@dash_is_a_file@ {'),
    Mutant("long_files_are_cut", "main", MAIN + "system_files.rt", "MOST_BYTES as u64 + 1", "MOST_BYTES as u64 + (if @long_files_are_cut@ { 0 } else { 1 })"),
    Mutant("missing_files_have_no_reason", "main", MAIN + "hints.rt", "        ErrorKind::NotFound =>", "        ErrorKind::NotFound if !@missing_files_have_no_reason@ =>"),
    Mutant("folders_have_no_reason", "main", MAIN + "hints.rt", "        ErrorKind::IsADirectory =>", "        ErrorKind::IsADirectory if !@folders_have_no_reason@ =>"),
    Mutant("terminals_are_read_silently", "terminal", MAIN + "tool.rt", "if stdin.is_terminal() {", "if stdin.is_terminal() && !@terminals_are_read_silently@ {"),
    Mutant("errors_have_no_hint", "main", MAIN + "hints.rt", "            print_error_hint(alloc, stderr, answered, &failure)\n", "            if @errors_have_no_hint@ { Ok(()) } else { print_error_hint(alloc, stderr, answered, &failure) }\n"),
    Mutant("hex_text_has_no_hint", "main", MAIN + "hints.rt", "if answered.reads_input && ", "if answered.reads_input && !@hex_text_has_no_hint@ && "),
    Mutant("files_are_standard_input", "main", MAIN + "tool.rt", "is_each, misnamed, false, &writer)", "is_each, misnamed, @files_are_standard_input@, &writer)"),
    Mutant("commands_have_no_hint", "main", MAIN + "hints.rt", "if tw_cli::reads_program(command.as_str()) => {", "if !@commands_have_no_hint@ && tw_cli::reads_program(command.as_str()) => {"),
    Mutant("pictures_have_no_limit", "main", MAIN + "hints.rt", "if draws(answered.words) => {", "if draws(answered.words) && !@pictures_have_no_limit@ => {"),
    Mutant("comments_hide_no_names", "main", MAIN + "symbolic.rt", "line.split(';').next().unwrap_or(\"\").trim()", "(if @comments_hide_no_names@ { line } else { line.split(';').next().unwrap_or(\"\") }).trim()"),
    Mutant("any_twn_has_names", "main", MAIN + "symbolic.rt", "Ok(text) if !begins_with_names(text) =>", "Ok(text) if !@any_twn_has_names@ && !begins_with_names(text) =>"),
    Mutant("rejected_words_say_nothing", "main", MAIN + "tool.rt", "                self.complain(&complaint);\n", "                if !@rejected_words_say_nothing@ {\n                    self.complain(&complaint);\n                }\n"),
    Mutant("quiet_runs_print", "terminal", MAIN + "progress_printer.rt", "!self.is_quiet && self", "(!self.is_quiet || @quiet_runs_print@) && self"),
    Mutant("pipes_get_progress", "terminal", MAIN + "progress_printer.rt", "&& self.stderr.is_terminal()\n", "&& (self.stderr.is_terminal() || @pipes_get_progress@)\n"),
    Mutant("progress_at_each_look", "terminal", MAIN + "progress_printer.rt", "if second <= self.printed {", "if second <= self.printed && !@progress_at_each_look@ {"),
    *(Mutant(name, "host", place.file, place.old, place.new) for place in WAKES for name in names_of((place,))[1:]),
    # The script: what it answers itself, and the program that it calls.
    Mutant("versions_are_the_programs", "script", "tw", 'echo "tw $(cat "$root/VERSION")"', "echo tw"),
    Mutant("statuses_are_lost", "script", "script/terminal.sh", '[ -n "$room" ] || exec "$program" "$@"', '[ -n "$room" ] || { "$program" "$@"; exit 0; }'),
    Mutant("every_release_fits", "release", SOURCES, "    lines_of_crates \"$1\" | sha256sum | sed 's/-$/crates.txt/'\n", ""),
    Mutant("proofs_are_code", "release", SOURCES, "grep -v '  crates/[^/]*/\\(specs\\|proofs\\)/'", "cat"),
    Mutant("crates_below_do_not_count", "release", SOURCES, "for (i = split(uses[crate], deps, \" \"); i > 0; i--) visit(deps[i])", "i = 0"),
    Mutant("files_in_any_order", "release", SOURCES, "LC_ALL=C sort -z", "LC_ALL=C sort -rz"),
    # Cases: what is read of their files, and what counts as failed.
    Mutant("names_may_be_taken", "cases", FILES, "        if case.name in places:", "        if False:"),
    Mutant("lines_may_be_long", "cases", FILES, "if len(line) > WIDTH:", "if len(line) > 2 * WIDTH:"),
    Mutant("counters_lose_zeros", "cases", FILES, ".zfill(len(run[0]))", ""),
    Mutant("leading_blank_lines_go", "cases", FILES, "        while lines and not lines[-1]:", "        while lines and not lines[0]:\n            lines.pop(0)\n        while lines and not lines[-1]:"),
    Mutant("a_dead_runner_passes", "cases", RUNS, 'Result(case, f"{case.name}: the program stopped, or took longer than {MOST_SECONDS:.0f} s", 0.0)', 'Result(case, "", 0.0)'),
    Mutant("controls_are_not_looked_at", "cases", RUNS, "        return self.said == expected", "        return self.said == expected or self.case.complaint is not None"),
    Mutant("uncounted_cases_pass", "cases", RUNS, 'if said.decode(errors="replace") != f"{self.silent} cases as wanted\\n":', "if False:"),
    Mutant("a_batch_goes_on_after_a_stop", "cases", RUNS, "while len(results) < len(batch):", "while not results:"),
    Mutant("ci_may_update", "cases", CASES, 'if is_update and (os.environ.get("CI") or not patterns):', "if is_update and not patterns:"),
    Mutant("cases_may_be_double", "cases", CASES, "in found if other is not case]", "in found if other is None]"),
    Mutant("unused_bytes_stay", "cases", CASES, "for made in unused_lets(book)]", "for made in []]"),
    # The Python package: inputs, reports, errors, bounds and many runs.
    Mutant("bools_are_ints", "python", PYTHON + "_inputs.py", 'return hasattr(value, "__index__") and not _is_bool(value)', 'return hasattr(value, "__index__")'),
    Mutant("ints_of_65_bits", "python", PYTHON + "_inputs.py", "if not -(2**63) <= number < 2**63:", "if not -(2**63) <= number <= 2**63:"),
    Mutant("subscripts_may_fall", "python", PYTHON + "_inputs.py", "if last is not None and not _before(last, subscript):", "if False:"),
    Mutant("texts_count_characters", "python", PYTHON + "_inputs.py", "size = len(value.encode())", "size = len(value.encode()) and len(value)"),
    Mutant("members_are_not_sorted", "python", PYTHON + "_inputs.py", "order = sorted(range(len(keys)), key=subscripts.__getitem__)", "order = list(range(len(keys)))"),
    Mutant("quotes_stay_open", "python", PYTHON + "_inputs.py", '''escape = {'"': '\\\\"', "\\\\"''', '''escape = {"\\\\"'''),
    Mutant("limits_read_as_quiet", "python", PYTHON + "_report.py", '_ENDS = ("quiet", "stuck", "limit"', '_ENDS = ("quiet", "stuck"'),
    Mutant("open_outputs_are_finished", "python", PYTHON + "_report.py", 'if not found and " closed " not in line:', "if not found and line == '':"),
    Mutant("unset_members_are_left_out", "python", PYTHON + "_report.py", "read_scalar(found[2]) if found[2] else None", "read_scalar(found[2]) if found[2] else 0"),
    Mutant("instructions_are_events", "python", PYTHON + "_report.py", "self.meter.instructions", "self.meter.events"),
    Mutant("errors_by_quoted_lines", "python", PYTHON + "_errors.py", 'r"at line (?P<line>\\d+)(?: in [^\\s:]+)?: ", rest[:1]', 'r".*at line (?P<line>\\d+)", rest'),
    Mutant("lines_without_procedures", "python", PYTHON + "_errors.py", "(?: in [^\\s:]+)?: ", ": "),
    Mutant("traps_are_refusals", "python", PYTHON + "_commands.py", "raise (Trap if status == 6 else Refused)(text)", "raise Refused(text)"),
    Mutant("no_memory_is_an_answer", "python", PYTHON + "_commands.py", "    if status == 5:\n", "    if status == 55:\n"),
    Mutant("limits_bound_nothing", "python", PYTHON + "_listing.py", "min(limit, self.events)", "self.events"),
    Mutant("greatest_is_the_first", "python", PYTHON + "_listing.py", "max(it.budget for it in procedures)", "procedures[0].budget"),
    Mutant("maps_begin_with_the_last", "python", PYTHON + "_map.py", "future, jobs = self.waiting[0]", "future, jobs = self.waiting[-1]"),
    Mutant("dropped_maps_run_on", "python", PYTHON + "_map.py", "        if self.stop is not None:\n            self.stop.set()\n", ""),
    Mutant("lost_chunks_stay_lost", "python", PYTHON + "_map.py", "return run_chunk(Chunk(jobs, self.options))", "return []"),
    Mutant("outputs_of_any_end", "python", PYTHON + "_report.py", 'if self.end != "quiet":\n            raise Unfinished', 'if self.end == "":\n            raise Unfinished'),
    Mutant("pickles_of_any_form", "python", PYTHON + "_report.py", 'if state.pop("form", None) != _FORM:', 'if state.pop("form", None) is False:'),
    Mutant("limits_of_before", "python", PYTHON + "_program.py", "layout._replace(limit=self.bounds.events_within())", "layout._replace(limit=min(10_000, self.bounds.events_within()))"),
    Mutant("maps_read_first", "python", PYTHON + "_map.py", "len(self.waiting) < self.window and not", "len(self.waiting) <= self.window and not"),
    Mutant("slow_inputs_hold_reports", "python", PYTHON + "_map.py", "if self.patience and self.waiting and _is_done", "if False and _is_done"),
    Mutant("deadlines_never_pass", "python", PYTHON + "_map.py", "return self.left() == 0", "return False"),
    Mutant("lost_runs_end_a_map", "python", PYTHON + "_map.py", 'if self.on_broken == "error":\n                return', 'if self.on_broken == "":\n                return'),
    Mutant("versions_are_not_compared", "python", PYTHON + "_chunk.py", "if version.decode() != __version__:", "if not version:"),
    Mutant("small_buffers_cut", "python", PYTHON + "_native.py", "        if length <= len(room):\n            return", "        if True:\n            return"),
    Mutant("words_end_at_either_sign", "python", PYTHON + "_native.py", "if has_nul and has_line_feed:", "if False:"),
    Mutant("words_end_at_a_nul", "python", PYTHON + "_native.py", "_session_by_lines if has_nul else _session", "_session"),
    Mutant("interrupts_stop_nothing", "python", PYTHON + "_native.py", "        interrupt()\n", ""),
    Mutant("brief_runs_release_the_gil", "python", PYTHON + "_native.py", "calls = short() if seconds < BRIEF_SECONDS else library()", "calls = library()"),
    Mutant("open_containers_are_finished", "python", PYTHON + "_native.py", 'item.kind in b"cm" and item.closed', 'item.kind in b"cm"'),
    Mutant("stops_come_too_late", "python", PYTHON + "_stop.py", "        if self._event.is_set():\n", "        if False:\n"),
    # Programs written in Python: comparisons, divisions, loops, rights, calls, constants and the places of errors.
    Mutant("at_most_is_below", "build", BUILD + "conditions.py", "yes if strict else no)", "yes)"),
    Mutant("remainders_keep_their_sign", "build", BUILD + "values.py", '    body.code.put("ADD", result, result, right, body.refused(cause))\n', ""),
    Mutant("breaks_return", "build", BUILD + "loops.py", 'body.code.put("INT", turns.flag, flag)', 'body.code.put("INT", turns.flag, RETURN)'),
    Mutant("failures_are_lost_beside_returns", "build", BUILD + "loops.py", "in enumerate(turns.failed, FAILED):", "in enumerate(turns.failed if not turns.return_sets else [], FAILED):"),
    Mutant("loops_leave_out_the_rest", "build", BUILD + "loops.py", "    if shape.cut:\n", "    if False:\n"),
    Mutant("breaks_are_refused", "build", BUILD + "loops.py", "        if turns.is_broken:\n", "        if False:\n"),
    Mutant("ranges_stay_at_the_greatest_int", "build", BUILD + "loops.py", "if shape.limit and abs(shape.step) > 1:", "if False:"),
    Mutant("ranges_are_read_again", "build", BUILD + "loops.py", "value(body, over.args[1] if len(over.args) > 1 else over.args[0], INT, limit)", "limit = value(body, over.args[1] if len(over.args) > 1 else over.args[0], INT)"),
    Mutant("containers_close_without_the_rest", "build", BUILD + "refusals.py", '"JLT v1 v0 refused", ', ""),
    Mutant("records_have_no_rule", "build", BUILD + "refusals.py", "if record_of(keys) not in body.now.rights and all(", "if record_of(keys) in body.now.rights and all("),
    Mutant("causes_are_the_first", "build", BUILD + "loops.py", "number, body.refused(cause))", "number, body.refused(turns.failed[0]))"),
    Mutant("budgets_forget_skips", "build", BUILD + "budgets.py", "if words[0] in SKIPS else 0", "if False else 0"),
    Mutant("unset_names_are_read", "build", BUILD + "values.py", "if node.id not in body.now.assigned:", "if False:"),
    Mutant("write_rights_are_dropped", "build", BUILD + "body.py", 'return self.mode != "write" or not self.type.is_scalar', "return True"),
    Mutant("priorities_are_lost", "build", BUILD + "tasks.py", "                priority = str(constant)\n", '                priority = "0"\n'),
    Mutant("targets_are_lost", "build", BUILD + "tasks.py", "            target = str(constant)\n", '            target = "any"\n'),
    Mutant("copies_are_the_rights", "build", BUILD + "tasks.py", "return uses <= 1 and not is_kept and", "return not is_kept and", "arguments are compiled in the order of the text, so the last of two uses is the last of all"),
    Mutant("inner_calls_take_rights", "build", BUILD + "tasks.py", "(not is_kept or node is", "(True or node is"),
    Mutant("homes_keep_what_is_given", "build", BUILD + "statements.py", "otherwise = body.shrink_home(failing)", "otherwise = failing.home"),
    Mutant("refused_ways_take_held_registers", "build", BUILD + "body.py", "held = {**self.places, **{its: it.register for its, it in self.now.rights.items()}}", "held = dict(self.places)"),
    Mutant("refused_ways_are_those_of_names", "build", BUILD + "body.py", "frozenset(self.now.rights.items())", "frozenset((it, None) for it in self.now.rights)"),
    Mutant("registers_are_not_taken_again", "build", BUILD + "statements.py", "body.forget([it for it in body.places if it not in body.now.rights])", "pass"),
    Mutant("constants_divide_towards_zero", "build", BUILD + "constants.py", "return left // right", "return int(left / right)"),
    Mutant("columns_count_bytes", "build", BUILD + "reading.py", 'len(line.encode()[:offset].decode(errors="ignore"))', "offset"),
    Mutant("constants_count_characters", "build", BUILD + "constants.py", "size = len(found.encode())", "size = len(found)"),
    Mutant("controls_are_not_escaped", "build", BUILD + "values.py", 'if c < " " or c ==', "if c =="),
    Mutant("helpers_take_names", "build", BUILD + "body.py", 'while f"{what}_{number}" in self._taken:', "while False:"),
    Mutant("what_nothing_reaches_stays", "build", BUILD + "code.py", "if open_way or line.is_comment:", "if True:"),
    # C++ and Rust: values, caps, bounds, errors and handles.
    Mutant("caps_are_swapped", "cpp", CPP, "cap(data), cap(bytes)", "cap(bytes), cap(data)"),
    Mutant("bounds_without_limit", "cpp", CPP, "yuglemit_program_bounds(handle_.get(), limit, at)", "yuglemit_program_bounds(handle_.get(), 0, at)"),
    Mutant("null_for_empty_texts", "cpp", CPP, 'text.empty() ? "" : text.data()', "text.data()", "the library reads nothing of a length of 0, and no text of the tests has a null pointer"),
    Mutant("errors_lose_zeros", "cpp", CPP, 'std::string(number < 10 ? "0" : "") + ', ""),
    Mutant("unset_members_are_set", "cpp", CPP, "member.value.kind != YUGLEMIT_KIND_UNSET && member.value.kind != YUGLEMIT_KIND_NONE", "true", "no container of a finished run has a member that is unset"),
    Mutant("moved_handles_stay", "cpp", CPP, "std::exchange(other.raw_, Raw{nullptr})", "other.raw_"),
    Mutant("texts_are_a_byte_longer", "cpp", CPP, "    text.resize(length);\n", ""),
    Mutant("default_runs_are_shorter", "cpp", CPP, "std::size_t limit = 1000000;", "std::size_t limit = 500000;"),
    Mutant("unfinished_outputs_are_answers", "cpp", CPP, "        if (!is_quiet()) return unfinished();\n        return try_partial();", "        return try_partial();"),
    Mutant("caps_are_not_passed", "rust", RUST + "program.rs", "caps.raw()", "Caps::default().raw()"),
    Mutant("bounds_of_all_runs", "rust", RUST + "program.rs", "yuglemit_raw_program_bounds(&mut self.owner.seen(), limit, found", "yuglemit_raw_program_bounds(&mut self.owner.seen(), 0, found"),
    Mutant("orders_are_the_same", "rust", RUST + "program.rs", "if may_show == 0 {", "if may_show <= 1 {"),
    Mutant("limits_are_stops", "rust", RUST + "report.rs", "            4 => End::Limit,\n", ""),
    Mutant("over_is_a_number", "rust", RUST + "program.rs", "            raw::OVER => Bound::Over,\n", ""),
    Mutant("reads_are_writes", "rust", RUST + "program.rs", "            b'r' => Mode::Read,\n", ""),
    Mutant("runs_are_shorter", "rust", RUST + "program.rs", "limit: 1_000_000", "limit: 500_000"),
    Mutant("partial_outputs_are_answers", "rust", RUST + "report.rs", "        self.finished()?;\n        self.partial()", "        self.partial()"),
    Mutant("subscripts_are_the_members", "rust", RUST + "report.rs", "raw::yuglemit_raw_report_subscript_text(", "raw::yuglemit_raw_report_member_text("),
    Mutant("memory_is_no_error", "rust", RUST + "report.rs", "            5 => return Err(Error::NoMemory),\n", "", "only a run out of memory ends so"),
    # The page: its machine, its bounds, and what it reads of texts and answers.
    Mutant("sums_have_no_end", "page", "page/machine.js", "ADD: (a, b) => checked(a + b)", "ADD: (a, b) => a + b"),
    Mutant("texts_have_no_end", "page", "page/machine.js", "byteLength(a) + byteLength(b) > LONGEST_TEXT", "byteLength(a) + byteLength(b) > 2 * LONGEST_TEXT"),
    Mutant("remainders_of_the_least", "page", "page/machine.js", "b === 0n || a === LEAST && b === -1n ? REFUSED : a % b", "b === 0n ? REFUSED : a % b"),
    Mutant("numbers_with_zeros", "page", "page/machine.js", "/^(0|-?[1-9][0-9]*)$/", "/^-?[0-9]+$/"),
    Mutant("inserts_write_over", "page", "page/machine.js", "if (!members || members.has(key)) return true;", "if (!members) return true;"),
    Mutant("looks_count_no_read", "page", "page/machine.js", "    datumOf(state, id).reads++;\n    rights[to] = id;", "    rights[to] = id;"),
    Mutant("members_are_never_freed", "page", "page/machine.js", " if (state.data.get(id)?.reads) lessRead(state, datumOf(state, id));", ";"),
    Mutant("the_last_of_equal_tasks", "page", "page/machine.js", "task.number < best.number;", "task.number > best.number;"),
    Mutant("targets_of_0_are_anybodys", "page", "page/machine.js", "[null, +actor.slice(1)]", "[null, 0, +actor.slice(1)]"),
    Mutant("notices_of_server_0", "page", "page/machine.js", "server: datum.id % state.servers", "server: 0"),
    Mutant("waiters_of_closed_data", "page", "page/machine.js", "    if (!isClosed(datum)) {\n        datum.waiters.push(", "    {\n        datum.waiters.push("),
    Mutant("rules_cost_no_release", "page", "page/bounds.js", "BigInt(2 * waits + 1)", "BigInt(2 * waits)"),
    Mutant("loops_cost_once", "page", "page/bounds.js", "BigInt(operands[0]) * next + costs", "next + costs"),
    Mutant("subscripts_by_length", "page", "page/values.js", "if (left[k] !== right[k]) return left[k] - right[k];", "if (left[k] !== right[k]) break;"),
    Mutant("escapes_in_capitals", "page", "page/values.js", 'toString(16).padStart(2, "0")', 'toString(16).toUpperCase().padStart(2, "0")'),
    Mutant("comments_have_words", "page", "page/source.js", "return found ? found[0] : line;", "return line;"),
    Mutant("states_one_event_late", "page", "page/run.js", "now.count < count; now.count++) {", "now.count <= count && now.count < this.length; now.count++) {"),
)


# --- The copy


def copy_repository(folder: Path) -> None:
    """Copies the tracked files, and the programs that are unpacked or built."""
    names = subprocess.run(["git", "ls-files", "-z"], cwd=ROOT, stdout=subprocess.PIPE, check=True).stdout.decode().split("\0")
    for name in filter(None, [*names, "crates/tw_main/out/tw_main"]):
        if (ROOT / name).is_file():
            (folder / name).parent.mkdir(parents=True, exist_ok=True)
            shutil.copy2(ROOT / name, folder / name)
    for kept in filter(Path.is_dir, (ROOT / "out/release", ROOT / "out/unverified")):
        shutil.copytree(kept, folder / "out" / kept.name)


def places_of(crate: str) -> tuple[Place, ...]:
    """Returns the edits of a crate that is built, each of which asks whether it is tried."""
    return tuple(dict.fromkeys(Place(mutant.file, mutant.old, mutant.new) for mutant in MUTANTS if BUILT.get(mutant.part) == crate))


@cache
def with_edits(crate: str) -> bytes:
    return built(crate, places_of(crate))


def write_cases(folder: Path) -> None:
    """Writes the cases that turn or run a host, the names that they use, and the line that they have to end with."""
    lines = [line for line in (ROOT / "crates/tw_host_cases/stdin").read_text(encoding="utf-8").splitlines() if not line.startswith(("#", "long_", "control_"))]
    kept = [line for line in lines if line.startswith("let ") or (line.count("|") > 1 and line.split("|")[1].strip().startswith(OF_HOSTS))]
    (folder / "out").mkdir(exist_ok=True)
    (folder / "out/host_cases").write_text("\n".join(kept) + "\n", encoding="utf-8")
    (folder / "out/host_wanted").write_text(f"{sum(not line.startswith('let ') for line in kept)} cases as wanted\n", encoding="utf-8")


def put_built(folder: Path, part: str, name: str) -> None:
    """Puts the program in which an edit is tried where TW_OUT finds it, for the tests of the part alone; without a name no edit is tried."""
    program = folder / "out/tried" / BUILT[part].removesuffix("_main")
    program.parent.mkdir(parents=True, exist_ok=True)
    write_broken(program, with_edits(BUILT[part]), names_of(places_of(BUILT[part])).index(name))
    if part == "host":
        write_cases(folder)


def archive_of(folder: Path) -> Path:
    """Returns the library for C, C++ and Rust; its folder has no other file of that name."""
    made = folder / "out" / "archive" / "libyuglemit.a"
    if not made.exists():
        made.parent.mkdir(parents=True)
        shutil.copyfile(found(ARCHIVE).path, made)
    return made


def module_of(folder: Path) -> Path:
    """Returns the page's WebAssembly module: the built one, or that of the release's page."""
    built = ROOT / "page/out/yuglemit.wasm"
    if built.exists():
        return built
    page, module = folder / "out" / "index.html", folder / "out" / "yuglemit.wasm"
    page.parent.mkdir(parents=True, exist_ok=True)
    page.write_bytes(gzip.decompress((folder / "release" / "index.html.gz").read_bytes()))
    subprocess.run([sys.executable, "-B", str(folder / "page" / "unpack.py"), str(page), str(module)], check=True)
    return module


# --- Trying


def test(part: str, folder: Path, seconds: float = SECONDS) -> tuple[bool, str]:
    """Runs the tests of a part for so many seconds at most. Returns whether they pass, and the first that failed or the last line that they wrote."""
    command = TESTS[part]
    if "@LIBRARY@" in command:
        command = command.replace("@LIBRARY@", str(found(LIBRARY).path))
    for word, path_in in (("@ARCHIVE@", archive_of), ("@MODULE@", module_of)):
        if word in command:
            command = command.replace(word, str(path_in(folder)))
    environment = {**os.environ, "TW_OUT": str(folder / "out/tried") if part in BUILT else ""}
    run = subprocess.Popen(command, shell=True, cwd=folder, env=environment, stdin=subprocess.DEVNULL, stdout=subprocess.PIPE, stderr=subprocess.STDOUT, start_new_session=True)
    try:
        said, _ = run.communicate(timeout=seconds)
    except subprocess.TimeoutExpired:
        os.killpg(run.pid, signal.SIGKILL)
        run.communicate()
        return False, f"longer than {seconds:.0f} s"
    lines = said.decode(errors="replace").strip().splitlines()
    failed = [line for line in lines if line.startswith(("FAIL: ", "ERROR: "))]
    return run.returncode == 0, (failed[:1] or lines[-1:] or [""])[0][:100]


def tested_with(mutant: Mutant, folder: Path, seconds: float) -> tuple[bool, str]:
    """Makes the edit, runs the tests, and takes the edit back."""
    if mutant.part in BUILT:
        put_built(folder, mutant.part, mutant.name)
        return test(mutant.part, folder, seconds)
    path = folder / mutant.file
    text = path.read_text(encoding="utf-8")
    path.write_text(text.replace(mutant.old, mutant.new), encoding="utf-8")
    try:
        return test(mutant.part, folder, seconds)
    finally:
        path.write_text(text, encoding="utf-8")


def attempt(mutant: Mutant, folder: Path, seconds: float) -> bool:
    """Tries an edit, and prints its line. Returns whether the tests fail."""
    passes, last = tested_with(mutant, folder, seconds)
    word = "killed  " if not passes else "harmless" if mutant.harmless else "SURVIVES"
    print(f"{word} {mutant.name} ({mutant.part}): {mutant.harmless if passes and mutant.harmless else last}", flush=True)
    return not passes


def attempts(mutants: list[Mutant], copies: SimpleQueue[Path], most: dict[str, float]) -> list[tuple[Mutant, bool]]:
    """Tries edits, as many at once as there are copies. Returns of each whether the tests fail."""

    def attempted(mutant: Mutant) -> bool:
        folder = copies.get()
        is_killed = attempt(mutant, folder, most[mutant.part])
        copies.put(folder)
        return is_killed

    with ThreadPoolExecutor(copies.qsize()) as pool:
        return list(zip(mutants, pool.map(attempted, mutants)))


def chosen(words: list[str]) -> list[Mutant]:
    unknown = [word for word in words if word not in TESTS and word not in [mutant.name for mutant in MUTANTS]]
    if unknown:
        sys.exit(f"mutants: there is no {unknown[0]}; --list lists them")
    return [mutant for mutant in MUTANTS if not words or mutant.name in words or mutant.part in words]


def check_texts() -> None:
    """Ends the script if the text of an edit isn't in its file once."""
    counts = {mutant: (ROOT / mutant.file).read_text(encoding="utf-8").count(mutant.old) for mutant in MUTANTS}
    wrong = [f"mutants: {mutant.name}: {mutant.file} has its text {count} times" for mutant, count in counts.items() if count != 1]
    if wrong:
        sys.exit("\n".join(wrong))


def table(results: list[tuple[Mutant, bool]]) -> None:
    print("\n| Part | Mutants | Killed | Survive |\n|---|---|---|---|")
    for part in TESTS:
        mine = [(mutant, is_killed) for mutant, is_killed in results if mutant.part == part]
        if mine:
            alive = "; ".join(f"`{mutant.name}`" + (f" (harmless: {mutant.harmless})" if mutant.harmless else "") for mutant, is_killed in mine if not is_killed)
            print(f"| {part} | {len(mine)} | {sum(is_killed for _, is_killed in mine)} | {alive} |")


def times_of(parts: list[str], folder: Path) -> dict[str, float]:
    """Runs the tests of each part without an edit. Returns how many seconds they may take with one, for each part whose tests pass."""
    most: dict[str, float] = {}
    for part in parts:
        if part in BUILT:
            put_built(folder, part, "")
        begun = time.monotonic()
        passes, last = test(part, folder)
        if passes:
            most[part] = TIMES * (time.monotonic() - begun) + 60
        else:
            print(f"FAILED   the tests of {part} without an edit, so its mutants aren't tried: {last}", flush=True)
    return most


def main(words: list[str]) -> int:
    check_texts()
    if words == ["--list"]:
        print("\n".join([*(f"{mutant.part:<8} {mutant.name}" for mutant in MUTANTS), f"{len(MUTANTS)} checked"]))
        return 0
    mutants = chosen([word for word in words if word != "--table"])
    parts = list(dict.fromkeys(mutant.part for mutant in mutants))
    with tempfile.TemporaryDirectory() as name:
        copies: SimpleQueue[Path] = SimpleQueue()
        for number in range(COPIES):
            copies.put(Path(name) / str(number))
            copy_repository(Path(name) / str(number))
        most = times_of(parts, Path(name) / "0")
        results = attempts([mutant for mutant in mutants if mutant.part in most], copies, most)
    if "--table" in words:
        table(results)
    killed = sum(is_killed for _, is_killed in results)
    print(f"{killed} killed, {len(results) - killed} survive")
    wrong = [mutant.name for mutant, is_killed in results if is_killed and mutant.harmless]
    if wrong:
        print(f"not harmless, since tests notice it: {', '.join(wrong)}")
    is_alive = any(not is_killed and not mutant.harmless for mutant, is_killed in results)
    return 1 if wrong or is_alive or len(most) < len(parts) else 0
