#!/bin/sh
# Builds the library's examples in C, C++ and Rust. Makes the commands of examples/sessions.txt by them and by the Python module, and compares text
# and status with the program tw (which runs by --in-turn). Prints each that differs, ends with `N same, 0 differ`, and fails if one does.
#
#   ./dev embedded           all five
#   ./dev embedded c python  these
#
# `stack` makes calls over the inputs of ./dev hostile, 1 MiB of each, in a thread, and prints the most stack that a
# call took; more than 64 KiB fails.
#
# Needs a C and a C++ compiler (cc, c++), cargo, and Python 3.9.
root=$(readlink -f "$0") && root=${root%/tools/*}
[ $# -gt 0 ] || set -- c cpp rust python stack
library=$("$root/script/pick.sh" libyuglemit.a) || exit
room=$(mktemp -d)
trap 'rm -rf "$room"' EXIT
warnings="-Wall -Wextra -pedantic -Werror"

build_rust() {
    (cd "$root/embed/rust" && export YUGLEMIT_FOLDER="${library%/*}" CARGO_TARGET_DIR="$room/target" RUSTFLAGS="-D warnings" &&
        cargo build --offline --quiet --release --example example && cp "$room/target/release/examples/example" "$room/rust")
}

for language; do
    case $language in
        c) cc -std=c99 -O2 $warnings -o "$room/c" "$root/embed/c/example.c" "$library" ;;
        cpp) c++ -std=c++17 -O2 $warnings -o "$room/cpp" -pthread -I "$root/embed" "$root/embed/cpp/example.cpp" "$library" ;;
        rust) build_rust ;;
        python) ;;
        stack) cc -std=c99 -O2 $warnings -pthread -o "$room/stack" "$root/tools/library/embedded.c" "$library" ;;
        *) echo "unknown language $language: c, cpp, rust, python; or stack" >&2; exit 2 ;;
    esac || exit
done
PYTHONPATH=$root python3 -B "$root/tools/library/embedded.py" "$root" "$room" "$@"
