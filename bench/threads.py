#!/usr/bin/env python3
# SPDX-License-Identifier: Apache-2.0
"""Compares the runs a second of one thread of a Python process with those of several: of long runs, which release the GIL, and of brief ones,
which keep it.

    bench/threads.py [THREADS [SITTINGS]]    four threads, and the best of nine sittings, which take two seconds each

It needs as many idle processors as threads; on a busy machine start it by `chrt -f 1 taskset -c 0-3`, as root. YUGLEMIT_LIBRARY may name the
library, which else is that of ./tw build --library.
"""

from __future__ import annotations

import pathlib
import sys
import time
from collections.abc import Callable, Sequence
from concurrent.futures import ThreadPoolExecutor
from functools import partial

ROOT = pathlib.Path(__file__).resolve().parent.parent
sys.path.insert(0, str(ROOT / "embed" / "python"))
import yuglemit  # noqa: E402

LONG = """proc control write int
regs int int
INT v1 1
REPEAT 1000
REPEAT 1000
REPEAT 10
ADD v0 v0 v1 no
no:
END
END
END
STORE d0 v0
RET
"""
SECONDS = 0.5


def many_runs(run: Callable[[], object], ends: float) -> int:
    """Makes runs until a time, and returns how many."""
    made = 0
    while time.perf_counter() < ends:
        run()
        made += 1
    return made


def rate(run: Callable[[], object], threads: int) -> float:
    """Returns the runs a second of so many threads."""
    begun = time.perf_counter()
    with ThreadPoolExecutor(threads) as pool:
        made = sum(pool.map(lambda _: many_runs(run, begun + SECONDS), range(threads)))
    return made / (time.perf_counter() - begun)


def measure(name: str, run: Callable[[], object], threads: int, sittings: int) -> None:
    """Prints the best rates of one thread and of all, and their ratio."""
    run()
    pairs = [(rate(run, 1), rate(run, threads)) for _ in range(sittings)]
    one, several = (max(rates) for rates in zip(*pairs))
    print(f"{name}: {one:,.0f} runs a second by one thread, {several:,.0f} by {threads}, ratio {several / one:.2f}", flush=True)


def main(words: Sequence[str]) -> int:
    threads, sittings = (int(word) for word in [*words, *("4", "9")[len(words):]])
    print(f"{threads} threads, Python {sys.version.split()[0]}, yuglemit {yuglemit.__version__}")
    measure("30 ms", yuglemit.load(LONG).run, threads, sittings)
    program = yuglemit.load(ROOT / "examples" / "mapreduce.twn")
    measure("0.1 ms, examples/mapreduce.twn", partial(program.run, {1: 5, 2: 7}), threads, sittings)
    return 0


if __name__ == "__main__":
    sys.exit(main(sys.argv[1:]))
