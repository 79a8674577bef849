# SPDX-License-Identifier: Apache-2.0
"""Things that the tests share: the repository's examples, and small programs."""

from __future__ import annotations

from pathlib import Path

import yuglemit

TESTS = Path(__file__).resolve().parent
ROOT = TESTS.parents[2]
EXAMPLES = ROOT / "examples"

DOUBLE = """proc control closed int write int
regs int int
GET v0 d0
DROPR d0
ADD v0 v0 v0 too_large
too_large:
STORE d1 v0
RET
"""


# Each task takes 300,000 instructions, and the limit allows 200,000 tasks: a run that nothing stops takes longer than any test waits.
ENDLESS = """proc control
regs int int
INT v1 1
REPEAT 100
REPEAT 1000
ADD v0 v0 v1 no
no:
END
END
PUT 0 0 any
RET
"""

# Gives its input back, after it has filled a container with 100,000 texts of 4,096 bytes.
HUNGRY = f"""proc control closed int write int
regs int text int int
GET v0 d0
DROPR d0
TEXT v1 "{'x' * 4096}"
INT v3 1
NEW d2 d3 cont text
REPEAT 100
REPEAT 1000
NEW d4 d5 text
STORE d4 v1
INS d2 v2 d5 +1
JMP +1
DROPR d5
ADD v2 v2 v3 +0
END
END
DROPW d2
DROPR d3
STORE d1 v0
RET
"""


def slow(times: int) -> yuglemit.Program:
    """A program that gives its input back, after so many times a million iterations: some milliseconds each time."""
    loops = f"REPEAT 1000\nREPEAT 1000\nREPEAT {times}\nEND\nEND\nEND\n" if times else ""
    return yuglemit.load(f"proc control closed int write int\nregs int\nGET v0 d0\nDROPR d0\n{loops}STORE d1 v0\nRET\n")


def slower() -> yuglemit.Program:
    """A program that takes many seconds, without inputs and outputs."""
    leaf = "proc leaf\nregs\nREPEAT 1000\nREPEAT 1000\nREPEAT 900\nEND\nEND\nEND\nRET\n"
    return yuglemit.load(f"proc control\nregs\nREPEAT 50\nPUT 1 0 any\nEND\nRET\n{leaf}")


def same(mode: str, kind: str) -> str:
    """A program that gives its input back, for a scalar type."""
    return f"proc control {mode} {kind} write {kind}\nregs {kind}\nGET v0 d0\nDROPR d0\nSTORE d1 v0\nRET\n"


def sized(kind: str) -> str:
    """A program that gives the size of its input, a container."""
    version = "version 2\n" if "tcont" in kind else ""
    return f"{version}proc control closed {kind} write int\nregs int\nSIZE v0 d0\nDROPR d0\nSTORE d1 v0\nRET\n"


def example(name: str) -> str:
    """The text of an example."""
    return (EXAMPLES / name).read_text(encoding="utf-8")
