#!/bin/sh
# Compiles and runs the examples and tests of C, C++ and Rust on the library, hostile calls included (tools/library/callers.c): under
# valgrind, and with the caller's side under AddressSanitizer with UndefinedBehaviorSanitizer, and under ThreadSanitizer. Compiles the C
# examples as C99 and as C++17, and links two copies of the library into one program. Prints a line for each; ends with `N passed, 0 failed`.
#
#   ./dev callers             sources of 16 MiB
#   ./dev callers --quick     sources of 64 KiB
#
# Needs cc and c++ with sanitizers, objcopy and Python 3.9. What needs valgrind or cargo is left out if it isn't installed.
root=$(readlink -f "$0") && root=${root%/tools/*}
large=16777216
# shellcheck source=tools/common/report.sh
. "$root/tools/common/report.sh"
library=$("$root/script/pick.sh" libyuglemit.a) || exit
[ "$1" != --quick ] || large=65536
warnings="-Wall -Wextra -pedantic -Werror"
c="-std=c99 -O1 -g $warnings -pthread"
cpp="-std=c++17 -O1 -g $warnings -pthread -I $root/embed"
wrapped="-Wl,--wrap=malloc,--wrap=realloc,--wrap=free"
memory="-fsanitize=address,undefined -fno-sanitize-recover=all"
threads="-fsanitize=thread"
watch="valgrind --quiet --leak-check=full --show-leak-kinds=all --error-exitcode=9"
export UBSAN_OPTIONS=print_stacktrace=1 ASAN_OPTIONS=detect_leaks=1 TSAN_OPTIONS=halt_on_error=1

# Runs a command, and reports whether it succeeded, with its last line: `tried NAME COMMAND..`.
tried() {
    name=$1
    shift
    "$@" >"$room/log" 2>&1 </dev/null
    report $? "$name" "$(grep -v '^$' "$room/log" | tail -n 1 | cut -c 1-100)"
}

has() {
    command -v "$1" >"$room/which" && return
    echo "left out: $2, since $1 isn't installed"
    false
}

# Writes the bytes of an example, by the library itself.
assemble() {
    "$room/session_plain" asm --names <"$root/examples/$1.twn" | python3 -c 'import sys; sys.stdout.buffer.write(bytes.fromhex(sys.stdin.read()))' >"$room/$1"
}

# Compiles all programs: `compiled SUFFIX FLAGS`.
compiled() {
    suffix=$1 flags=$2
    # shellcheck disable=SC2086
    {
        tried "c_$suffix" cc $c $flags -o "$room/session_$suffix" "$root/embed/c/example.c" "$library"
        tried "c_loaded_$suffix" cc $c $flags -o "$room/loaded_$suffix" "$root/embed/c/loaded.c" "$library"
        tried "c_callers_$suffix" cc $c $flags $wrapped -o "$room/callers_$suffix" "$root/tools/library/callers.c" "$root/tools/library/loaded.c" "$library"
        tried "cpp_$suffix" c++ $cpp $flags -o "$room/cpp_$suffix" "$root/embed/cpp/test.cpp" "$library"
        tried "cpp_results_$suffix" c++ $cpp -fno-exceptions $flags -o "$room/cpp_results_$suffix" "$root/embed/cpp/test.cpp" "$library"
        tried "cpp_example_$suffix" c++ $cpp $flags -o "$room/cpp_example_$suffix" "$root/embed/cpp/example.cpp" "$library"
    }
}

# Runs them all: `ran SUFFIX LARGE COMMAND..`.
ran() {
    suffix=$1 size=$2
    shift 2
    tried "session_$suffix" "$@" "$room/session_$suffix" explain V04
    tried "callers_$suffix" "$@" "$room/callers_$suffix" "$room/read_number" "$size"
    tried "cpp_test_$suffix" "$@" "$room/cpp_$suffix" "$root/examples"
    tried "cpp_results_test_$suffix" "$@" "$room/cpp_results_$suffix" "$root/examples"
    tried "cpp_example_$suffix" "$@" "$room/cpp_example_$suffix" explain V04
    tried "loaded_$suffix" sh -c '"$@" <"$0"' "$room/fan_out" "$@" "$room/loaded_$suffix"
}

# Two copies of the library, of which one has other names for its calls, in one program.
two_libraries() {
    nm --defined-only "$library" | awk '$3 ~ /^yuglemit_/ { print $3, "other_" substr($3, 10) }' >"$room/names" &&
        objcopy --redefine-syms="$room/names" "$library" "$room/other.a" &&
        cat >"$room/two.c" <<'END' &&
#include "yuglemit.h"
uint32_t other_version(void);
uint8_t other_raw_verify(const uint8_t *bytes, size_t length, uint64_t *verdict, size_t count);
int main(void) {
    yuglemit_verdict one = YUGLEMIT_VERDICT, two = YUGLEMIT_VERDICT;
    yuglemit_verify((const uint8_t *)"TWB", 3, &one);
    other_raw_verify((const uint8_t *)"TWB", 3, &two.letter, 9);
    return yuglemit_version() != other_version() || one.letter != 'F' || two.letter != 'F' || one.number != two.number;
}
END
        cc -std=c99 $warnings -I "$root/embed" -o "$room/two" "$room/two.c" "$library" "$room/other.a" && "$room/two"
}

# Only the calls of the header are names that a program sees.
exports_calls_alone() {
    nm --defined-only --extern-only "$library" | awk '$3 != "" { print $3 }' | sort >"$room/exported"
    grep -oE '^[a-z0-9_]+ yuglemit_[a-z_]+\(' "$root/embed/yuglemit.h" | sed 's/.* //; s/(//' | sort -u >"$room/declared"
    diff "$room/exported" "$room/declared"
}

for example in example loaded; do
    tried "${example}_as_c++17" c++ -std=c++17 -x c++ $warnings -fsyntax-only "$root/embed/c/$example.c"
done
tried two_libraries two_libraries
tried exports exports_calls_alone
compiled plain ""
compiled memory "$memory"
compiled threads "$threads"
assemble read_number && assemble fan_out || exit
ran plain "$large"
ran memory "$large"
tried callers_threads "$room/callers_threads" "$room/read_number" 65536
tried cpp_test_threads "$room/cpp_threads" "$root/examples"
if [ "$large" != 65536 ] && has valgrind "runs under valgrind"; then
    # shellcheck disable=SC2086
    ran plain 1048576 $watch
fi
if has cargo "the Rust crate's tests"; then
    cd "$root/embed/rust" || exit
    export YUGLEMIT_FOLDER="${library%/*}" CARGO_TARGET_DIR="$room/target"
    tried rust cargo test --offline --quiet
    if [ "$large" != 65536 ] && has valgrind "Rust under valgrind"; then
        export CARGO_TARGET_X86_64_UNKNOWN_LINUX_GNU_RUNNER="valgrind --quiet --leak-check=full --errors-for-leak-kinds=definite --error-exitcode=9"
        tried rust_valgrind cargo test --offline --quiet --test runs
    fi
fi
summary
