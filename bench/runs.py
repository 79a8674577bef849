# SPDX-License-Identifier: Apache-2.0
"""Times runs of `tw` and of peers in turn, prints the least of each with its ratio to what it is measured by, and a table of all at the end."""

from __future__ import annotations

import os
import re
import resource
import subprocess
import sys
import time
from collections.abc import Callable, Iterable, Mapping
from typing import TypeVar

program, here, peers = sys.argv[1:]
LIMIT = "--limit=1000000"
LEAF = "proc leaf\nregs\nRET\n"
WORKERS = (1, 2, 4, 16)
ENGINE_RUNS = ("put", "rules", "cont")
# The table of a sitting: rows of a name, the measurement, and the aim.
table: list[tuple[str, str, str]] = []

# Seconds on the clock, and of processors, and what was written.
Times = tuple[float, float, str]
Run = Callable[[], Times]
Name = TypeVar("Name", bound=object)


def hex_of(text: str) -> bytes:
    words = ["--names"] if text.startswith("names\n") else []
    made = subprocess.run([program, "asm", *words], input=text.encode(), stdout=subprocess.PIPE, check=True)
    return made.stdout


def read(name: str) -> str:
    with open(os.path.join(here, name), encoding="utf-8") as file:
        return file.read()


def timed(command: list[str], given: bytes | None = None) -> Times:
    before, begun = resource.getrusage(resource.RUSAGE_CHILDREN), time.perf_counter()
    # Many runs end by their limit, which `tw` says on standard error.
    run = subprocess.run(command, input=given, stdout=subprocess.PIPE, stderr=subprocess.DEVNULL, check=False)
    clock, after = time.perf_counter() - begun, resource.getrusage(resource.RUSAGE_CHILDREN)
    return clock, after.ru_utime + after.ru_stime - before.ru_utime - before.ru_stime, run.stdout.decode()


def tw_run(text: str, *words: str) -> Run:
    given = hex_of(text)
    return lambda: timed([program, "run", *words], given)


def least_of(times: int, runs: Mapping[Name, Run]) -> dict[Name, tuple[float, float]]:
    """The least clock time and the least processor time of each run, all made in turn."""
    least = {name: (float("inf"), float("inf")) for name in runs}
    for _ in range(times):
        for name, run in runs.items():
            clock, processors, _ = run()
            least[name] = (min(least[name][0], clock), min(least[name][1], processors))
    return least


def several(numbers: Iterable[float], form: str = "{:.2f}") -> str:
    return ", ".join(form.format(number) for number in numbers)


def waiting_then_chain(waiting: int) -> str:
    """Main puts so many tasks, and one of a higher priority that puts the next such as it ends."""
    rounds, rest = divmod(waiting, 1000)
    many = f"REPEAT {rounds}\n" + "PUT 1 0 any\n" * 1000 + "END\n" if rounds else ""
    return "proc control\nregs\n" + many + "PUT 1 0 any\n" * rest + "PUT 2 1 any\nRET\nproc control\nregs\nRET\nproc control\nregs\nPUT 2 1 any\nRET\n"


def empty_tasks(thousands: int) -> str:
    return f"proc control\nregs\nREPEAT {thousands}\n" + "PUT 1 0 any\n" * 1000 + "END\nRET\n" + LEAF


def long_tasks(count: int, thousands: int) -> str:
    """Returns a program with this many tasks, each of this many thousand adds with the END of their iteration."""
    return (f"proc control\nregs\nREPEAT {count}\nPUT 1 0 any\nEND\nRET\n"
            f"proc leaf\nregs int int\nINT v1 1\nREPEAT 1000\nREPEAT {thousands}\nADD v0 v0 v1 +0\nEND\nEND\nRET\n")


def of_one_engine() -> None:
    print("Events of one engine, a million at most, beside lua5.4 with 20 million turns: seconds on the clock, of processors, ratios")
    runs = {"lua5.4": lambda: timed(["lua5.4", os.path.join(here, "loop.lua"), "20000"])}
    for name in ENGINE_RUNS:
        runs[name] = tw_run(read(name + ".tw"), LIMIT)
    least = least_of(9, runs)
    lua = least["lua5.4"]
    for name, (clock, processors) in least.items():
        print(f"{clock:8.3f} {processors:8.3f}   {clock / lua[0]:6.2f} {processors / lua[1]:6.2f}  {name}")
    table.append(("`put.tw`, `rules.tw`, `cont.tw` of lua5.4's loop by the clock", several(least[name][0] / lua[0] for name in ENGINE_RUNS), "0.45, 0.35, 0.8"))


def beside_waiting() -> None:
    print("An event of a chain of tasks beside waiting tasks: nanoseconds on the clock")
    runs, events = {}, 400_000
    for waiting in (100, 10_000, 500_000):
        text = waiting_then_chain(waiting)
        for more in (1000, events):
            runs[waiting, more] = tw_run(text, f"--limit={waiting + more}")
    least = least_of(5, runs)
    costs = {waiting: (least[waiting, events][0] - least[waiting, 1000][0]) / (events - 1000) * 1e9 for waiting in (100, 10_000, 500_000)}
    for waiting, cost in costs.items():
        print(f"{cost:8.0f}   {cost / costs[100]:6.2f}  {waiting} waiting")


def of_statistics() -> None:
    print("The same runs with statistics or a timeline, for which the events are executed again: seconds of processors, and how many times as long")
    runs, asked = {}, ("", "--stats", "--picture")
    for name in (*ENGINE_RUNS, "load"):
        for more in asked:
            runs[name, more] = tw_run(read(name + ".tw"), LIMIT, "--workers=4", *more.split())
    least = least_of(5, runs)
    for name in (*ENGINE_RUNS, "load"):
        used = [least[name, more][1] for more in asked]
        print(f"{several(used)}   {several(time / used[0] for time in used[1:])}  {name}")


def rate_of(written: str) -> float:
    return float(re.findall(r"(\d+) tasks/s", written)[0])


def empty_leaf_tasks() -> None:
    tasks = 330_000
    print("Empty leaf tasks put by one engine: millions a second, on", *WORKERS, "workers or threads")
    peer = {}
    for name in ("tbb", "omp"):
        peer[name] = [max(rate_of(timed([os.path.join(peers, name), "2000000", str(threads)])[2]) for _ in range(9)) / 1e6 for threads in WORKERS]
        print("   ".join(f"{rate:6.2f}" for rate in peer[name]), name)
    text = empty_tasks(tasks // 1000)
    runs = {workers: tw_run(text, LIMIT, f"--workers={workers}") for workers in WORKERS}
    least = least_of(9, runs)
    own = [tasks / least[workers][0] / 1e6 for workers in WORKERS]
    print("   ".join(f"{rate:6.2f}" for rate in own), "tw")
    table.append(("empty tasks on 1, 2, 4 workers, against oneTBB", several(mine / its for mine, its in zip(own[:3], peer["tbb"])), "1, 1, 1"))
    table.append(("the same on 2, 4 and 16 workers against our own on 1", several(rate / own[0] for rate in own[1:]), "0.95, 0.95, 0.95"))


def waiting_for_one_another() -> None:
    """Tasks and rules that wait for one another: what threads take beside one thread."""
    print("The squares of 1 to 100, added one after the other: milliseconds on the clock, median of 25, and of a run in turn")
    text = read("squares.twn")
    runs = {"in turn": tw_run(text, LIMIT, "--in-turn")}
    for layout in ((1, 1, 1), (1, 1, 4), (4, 4, 16)):
        words = (f"--{kind}={count}" for kind, count in zip(("engines", "servers", "workers"), layout))
        runs["/".join(map(str, layout))] = tw_run(text, LIMIT, *words)
    times: dict[str, list[float]] = {name: [] for name in runs}
    for _ in range(25):
        for name, run in runs.items():
            times[name].append(run()[0] * 1000)
    medians = {name: sorted(of_run)[12] for name, of_run in times.items()}
    for name, median in medians.items():
        print(f"{median:8.2f}   {median / medians['in turn']:6.2f}  {name}, longest {max(times[name]):.2f}")
    ratios = several(median / medians["in turn"] for name, median in medians.items() if name != "in turn")
    table.append(("`squares.twn` in threads 1/1/1, 1/1/4, 4/4/16 of the time in turn", ratios, "2.5, 2.5, 2.5"))


def seconds_of_jobs(thousands: int, threads: int) -> Run:
    return lambda: (float(timed([os.path.join(peers, "jobs"), "500", str(thousands * 1000), str(threads)])[2]), 0.0, "")


def long_jobs(thousands: int, aim: str) -> None:
    print(f"500 tasks of {thousands},000 adds: seconds on the clock, and how many times as fast as on one worker; oneTBB beside it")
    text = long_tasks(500, thousands)
    runs = {("tw", workers): tw_run(text, LIMIT, f"--workers={workers}") for workers in WORKERS}
    runs |= {("tbb", workers): seconds_of_jobs(thousands, workers) for workers in WORKERS}
    least = least_of(5, runs)
    for (name, workers), (clock, _) in least.items():
        print(f"{clock:8.3f}   {least[name, 1][0] / clock:6.2f}  {workers} workers, {name}")
    faster = {name: least[name, 1][0] / least[name, 4][0] for name in ("tw", "tbb")}
    table.append((f"500 jobs of {2 * thousands},000 instructions on 4 workers, times as fast as on 1; oneTBB's with as many adds", several((faster["tw"], faster["tbb"])), aim))


def peak_memory(text: str, *words: str) -> float:
    """The most memory that a run had at once, in MiB."""
    return float(timed([os.path.join(peers, "memory"), program, "run", *words], hex_of(text))[2]) / 1024


def memory() -> None:
    print("The most memory at once, of a million events and of none: MiB")
    most, least = peak_memory(read("put.tw"), LIMIT), peak_memory(LEAF.replace("leaf", "control"), "--limit=1")
    print(f"{most:8.1f} {least:8.1f}")
    table.append(("memory of a million events of `put.tw` (most of the process), beside a run of none", f"{most:.1f} MiB, {least:.1f} MiB", "half"))


def repeated(head: str, step: str, end: str, thousands: int) -> str:
    """Returns a main that makes a step so many thousand times."""
    return f"version 4\nproc control {head}\nregs int int\nINT v1 1\nREPEAT {thousands}\n{step * 1000}END\n{end}RET\n"


# Steps of main, with what its parameter is, the instruction that ends its right, and an input.
STEPS = {
    "GET": ("closed int", "GET v0 d0\n", "DROPR", "int:1"),
    "MGET": ("closed map int", "MGET v0 d0 v1 +0\n", "DROPR", "ints:1=1"),
    "MADD": ("write map sum", "MADD d0 v0 v1\n", "DROPW", ""),
    "GET, ADD": ("closed int", "GET v1 d0\nADD v0 v0 v1 +0\n", "DROPR", "int:1"),
    "MADD, ADD": ("write map sum", "MADD d0 v0 v1\nADD v0 v0 v1 +0\n", "DROPW", ""),
    "MINS, ADD": ("write map int", "MINS d0 v0 v1 +0\nADD v0 v0 v1 +0\n", "DROPW", ""),
}


def steps_of(name: str, thousands: int) -> tuple[str, list[str]]:
    """Returns the program of so many thousand steps, and the words of its run."""
    head, step, drop, given = STEPS[name]
    return repeated(head, step, f"{drop} d0\n", thousands), [LIMIT, "--in-turn", *given.split()]


def run_of_steps(name: str, thousands: int) -> Run:
    text, words = steps_of(name, thousands)
    return tw_run(text, *words)


def of_maps() -> None:
    print("Events on maps, or with an ADD after each, beside GET: nanoseconds on the clock, and ratios")
    least = least_of(9, {(name, thousands): run_of_steps(name, thousands) for name in STEPS for thousands in (1, 100)})
    costs = {name: (least[name, 100][0] - least[name, 1][0]) / 99e3 * 1e9 for name in STEPS}
    ratios = {name: cost / costs["GET, ADD" if "," in name else "GET"] for name, cost in costs.items()}
    for name, cost in costs.items():
        print(f"{cost:8.0f}   {ratios[name]:6.2f}  {name}")
    table.append(("an event MGET, MADD of GET's time", several((ratios["MGET"], ratios["MADD"])), "1.2, 1.2"))
    table.append(("MADD, MINS under 100,000 subscripts, with an ADD after each, of GET's with an ADD", several((ratios["MADD, ADD"], ratios["MINS, ADD"])), ""))


def bytes_of_a_step(name: str) -> float:
    """The memory that a step keeps."""
    few, many = (steps_of(name, thousands) for thousands in (100, 200))
    return (peak_memory(many[0], *many[1]) - peak_memory(few[0], *few[1])) * 2**20 / 100e3


def of_values() -> None:
    print("A value of a map under an int, without its events: bytes")
    kept = bytes_of_a_step("MINS, ADD") - bytes_of_a_step("GET, ADD")
    print(f"{kept:8.0f}")
    table.append(("memory of a value of a map under an int", f"{kept:.0f} bytes", "100 bytes"))


def sum_of_inputs() -> None:
    print("The sum of 100,000 inputs by one leaf: seconds on the clock")
    given = (read("sum.tw") + "inputs\nints:" + ",".join(f"{number}=7" for number in range(100_000))).encode()
    least = least_of(9, {"sum": lambda: timed([program, "run", "--text", "--inputs", LIMIT], given)})["sum"][0]
    print(f"{least:8.3f}")
    table.append(("the sum of 100,000 inputs by one leaf", f"{least:.2f} s", "0.4 s"))


def start_to_end() -> None:
    print("A run of store_seven from start to end: milliseconds on the clock")
    with open(os.path.join(here, "..", "examples", "store_seven.hex"), "rb") as file:
        given = file.read()
    least = least_of(99, {"store_seven": lambda: timed([program, "run"], given)})["store_seven"][0] * 1000
    print(f"{least:8.2f}")
    table.append(("start to end of `store_seven`", f"{least:.2f} ms", "not slower"))


def print_table() -> None:
    print("| | measured | aim |\n|---|---|---|")
    for name, measured, aim in table:
        print(f"| {name} | {measured} | {aim} |")


def main() -> None:
    of_one_engine()
    beside_waiting()
    of_statistics()
    empty_leaf_tasks()
    waiting_for_one_another()
    long_jobs(50, "3.5")
    long_jobs(500, "3.5")
    memory()
    of_maps()
    of_values()
    sum_of_inputs()
    start_to_end()
    print_table()


if __name__ == "__main__":
    try:
        main()
    except (OSError, subprocess.CalledProcessError) as fault:
        sys.exit(f"runs: {fault}")
