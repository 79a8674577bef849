# shellcheck shell=sh disable=SC2154
# `./tw test [PATTERN..]`: runs the cases of cases/ by the program of crates/tw_cases. The script tw reads this file.

test_usage() {
    cat <<'TEXT'
Runs the example tests, which are the cases of cases/.

Usage: ./tw test [--update] [PATTERN..]
       ./tw test --list [PATTERN..]

PATTERN is a case's name, or a part of names or of a file's name: names/errors is the cases of cases/names/errors.case. With *, ? or [ it
is the whole of a name. Without a pattern all cases are run.

  --list    Lists the cases, where they are and what they are about
  --update  Writes the actual outputs into the files of the failed cases, for review; not in CI

CONTRIBUTING.md, "Cases", says how a case is written.
TEXT
}

has_python() {
    python3 -c 'import sys; sys.exit(sys.version_info < (3, 10))' 2>/dev/null
}

# Runs the cases of a crate as CI does. Adds to `passed`, `failed` and `differs`.
run_crate_as_in_ci() {
    (cd "$root/crates/tw_cases/data" && exec "$program" <"$root/crates/$1/stdin") >"$room/out"
    diff "$root/crates/$1/stdout" "$room/out" >"$room/diff" || differs=1
    cat "$room/diff" >&2
    count=$(sed -n 's/ cases as wanted$//p' "$room/out")
    passed=$((passed + ${count:-0})) failed=$((failed + $(grep -c '^>.*: wanted ' "$room/diff")))
}

# Runs all cases as CI does, which needs no Python.
run_as_in_ci() {
    [ $# = 0 ] || { say "./tw test takes arguments only with Python 3.10 or newer"; exit 70; }
    need_room
    passed=0 failed=0 differs=0
    for crate in tw_cases tw_host_cases; do
        pick "$crate"
        say_kind
        run_crate_as_in_ci "$crate"
    done
    echo "$passed passed, $failed failed"
    return "$differs"
}

test_command() {
    case $1 in
        --help | -h) printed test_usage; return ;;
        --list) exec python3 -B "$root/dev" cases "$@" ;;
        --update) ;;
        -*) say "./tw test takes --list, --update and patterns"; exit 2 ;;
    esac
    if ! has_python; then
        run_as_in_ci "$@"
        return
    fi
    crates=$(python3 -B "$root/dev" cases --crates "$@") || exit
    # The programs precede the patterns.
    for crate in $crates; do
        pick "$crate"
        say_kind
        set -- "$crate=$kind:$program" "$@"
    done
    exec python3 -B "$root/dev" cases --run "$@"
}
