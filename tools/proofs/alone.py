"""Checks the crate in whose folder it is called, with the crates below taken from their sources, as they are and unproved.

This is for the first minutes in a fresh clone, where `rt check` would prove all of those first. It takes the arguments of `rt check`. With
--only FUNCTION it checks that function and what it calls, in the crates below too. Without it all functions of those are checked as well."""

import os
import sys

from tools.common import kit


def main(given: list[str]) -> int:
    rtlib = kit.rtlib(kit.folder())  # the words of a check, as `rt check` has them
    if not os.path.isdir("src"):
        sys.exit("alone: call it in a crate's folder")
    here = os.getcwd()
    crate = rtlib.Crate(here, rtlib.root_above(here) or here, {})
    words = crate.words(["--jobs", "1", *given], as_source=True)
    status = int(crate.call(rtlib.RATTLE, "check", *words, *rtlib.KEPT, "--progress"))
    below = ", ".join(dep.name for dep in crate.below()) or "nothing"
    print(f"alone: taken from sources, unproved: {below}", file=sys.stderr)
    return status
