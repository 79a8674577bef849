#!/bin/sh
# SPDX-License-Identifier: Apache-2.0
# Tests the Python package: the unit tests, the examples of docstrings and README.md, and mypy and pyflakes if they are installed.
#
#   embed/python/test.sh              the modules of this folder, with the library that YUGLEMIT_LIBRARY names, or the built or released one
#   embed/python/test.sh FILE.whl     a wheel, from a folder of its own, offline
#   embed/python/test.sh test_build   one file of tests
#   embed/python/test.sh --valgrind   tests that call the library, under valgrind, which has to find no error in a call
here=$(dirname "$(readlink -f "$0")")
python=${PYTHON:-python3}
room=$(mktemp -d)
trap 'rm -rf "$room"' EXIT
source=$here
case $1 in
    *.whl)
        "$python" -m zipfile -e "$1" "$room/wheel" || exit
        source=$room/wheel
        shift ;;
esac
PYTHONPATH=$source PYTHONDONTWRITEBYTECODE=1 MYPY_CACHE_DIR=$room/mypy
export PYTHONPATH PYTHONDONTWRITEBYTECODE MYPY_CACHE_DIR
failed=0

# Runs Python with the arguments under valgrind, and writes the errors and leaks with a frame of the library to $room/errors.
watched() {
    rm -f "$room"/valgrind.*
    PYTHONMALLOC=malloc valgrind --fair-sched=yes --error-limit=no --num-callers=40 --leak-check=full --show-leak-kinds=definite --log-file="$room/valgrind.%p" \
        "$@" || return
    sed 's/^==[0-9]*== \{0,1\}//' "$room"/valgrind.* | awk 'BEGIN { RS = ""; ORS = "\n\n" } /libyuglemit/' >"$room/errors"
}

# The wrong calls have to be found. Tests of time and of other processes are left out.
run_watched() {
    binary=$("$python" -c 'import sys; print(sys.executable)')
    watched "$binary" -m wrong_calls || return
    for error in '^Invalid read' 'definitely lost'; do
        grep -q "$error" "$room/errors" || { echo "valgrind doesn't report: $error"; return 1; }
    done
    watched "$binary" -m unittest test_inputs test_errors test_program.Programs test_program.Reports test_program.Stops \
        test_program.Handles.test_threads_share_a_program || return
    cat "$room/errors"
    [ ! -s "$room/errors" ] && echo "no errors in calls of the library"
}

cd "$here/tests" || exit
if [ "$1" = --valgrind ]; then
    run_watched || failed=1
elif [ $# -gt 0 ]; then
    "$python" -m unittest "$@" || failed=1
else
    "$python" -m unittest discover -p 'test_*.py' || failed=1
    if command -v mypy >/dev/null 2>&1; then
        (cd "$here" && mypy --strict yuglemit) || failed=1
    else
        echo "left out: types, since mypy isn't installed"
    fi
    for flakes in "$python" /usr/bin/python3; do
        if "$flakes" -c 'import pyflakes' 2>/dev/null; then
            "$flakes" -m pyflakes "$here/yuglemit" "$here"/tests/*.py || failed=1
            break
        fi
    done
fi
exit "$failed"
