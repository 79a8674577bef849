#!/bin/sh
# Checks what is tracked: shell scripts by shellcheck (warnings and errors), Python by mypy --strict and pyflakes. Prints what they find, and ends
# with how many files passed; it fails if one didn't. ./dev night runs it.
#
# Needs shellcheck, mypy and pyflakes3. Programs that the Python package translates aren't annotated as Python is, and setup.py and
# examples/many name packages that may be missing, so mypy leaves these out.
cd "$(dirname "$(readlink -f "$0")")/../.." || exit
room=$(mktemp -d)
trap 'rm -rf "$room"' EXIT
export MYPY_CACHE_DIR="${MYPY_CACHE_DIR:-$room/mypy}"
failed=0

# Runs a checker on the files that standard input lists.
check() {
    xargs env MYPYPATH=embed/python "$@" || failed=1
}

# `git` isn't piped into a function, which would set `failed` in a shell of its own.
git grep -lE '^#!/(usr/)?bin/(env )?(ba|da)?sh' >"$room/scripts"
{ echo dev; git ls-files '*.py'; } >"$room/python"
git ls-files 'bench/*.py' 'embed/python/yuglemit/*.py' 'embed/python/tests/*.py' ':!embed/python/tests/programs' >"$room/package"
grep -E '^(dev$|tools/)' "$room/python" >"$room/tools"
grep '^page/' "$room/python" >"$room/page"
check shellcheck -x -S warning <"$room/scripts"
check pyflakes3 <"$room/python"
# Files of a part import one another.
for part in tools page package; do check mypy --strict --no-error-summary <"$room/$part"; done
[ "$failed" = 0 ] && echo "$(cat "$room/scripts" "$room/python" | wc -l) passed"
exit "$failed"
