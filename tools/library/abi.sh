#!/bin/sh
# Builds each earlier release's own tests of C, C++ and Rust, from git and with their own headers, and runs them with a newer library. With the
# same number of the ABI (embed/ABI) they are linked as they were then, and have to pass. With another the loader has to refuse their caller; and
# linked with the newer library they have to pass except for the numbers whose meaning changed with the number of the ABI (`changed`, below). Also checks
# the soname, and that the name of each call has the version of its release. Ends with `N passed, 0 failed`.
#
#   ./dev abi            all releases
#   ./dev abi --quick    the first and the last
#
# Needs git with all commits, Python 3.9, C and C++ compilers (cc, c++) and ld. Rust's tests are left out if cargo isn't installed.
root=$(readlink -f "$0") && root=${root%/tools/*}
# shellcheck source=tools/common/report.sh
. "$root/tools/common/report.sh"
read -r abi since <"$root/embed/ABI"
mkdir "$room/installed" "$room/static"
library=$("$root/script/pick.sh" tw_embed) && archive=$("$root/script/pick.sh" libyuglemit.a) || exit
cp "$library" "$room/installed/libyuglemit.so.$abi" && cp "$archive" "$room/static/libyuglemit.a" || exit

# The releases that have a number of the ABI: the first commit and the version of each.
releases() {
    git -C "$root" log --reverse --format='%h %s' | awk '$2 == "Release" { sub(/:$/, "", $3); if (!seen[$3]++) print $1, $3 }' |
        while read -r commit version; do
            git -C "$root" cat-file -e "$commit:embed/ABI" 2>"$room/none" && echo "$commit $version"
        done
}

# The numbers whose meaning changed. With ABI 2: `bytes` of caps and bounds counts the texts of tasks and rules, too, since 0.25.
changed() {
    case $2.$abi in
    0.2[234].2) sed -i 's/\b8192\b/12288/; s/\b8192\b/12288/; s/\b8191\b/12287/' "$1/embed/cpp/test.cpp" "$1/embed/rust/tests/runs.rs" ;;
    esac
}

# An empty library with the soname, the names and their versions of a release, to link its callers with.
write_stub() {
    grep -oE '\byuglemit_[a-z_0-9]+\(' "$1/embed/yuglemit.h" | tr -d '(' | sort -u | sed 's/.*/void &(void); void &(void) {}/' >"$1/stub.c"
    python3 -B "$root/tools/release/link_library.py" --exports "$1/embed/ABI" >"$1/exports" &&
        cc -shared -fPIC -w -Wl,-soname,"libyuglemit.so.$2" -Wl,--version-script="$1/exports" -o "$1/libyuglemit.so" "$1/stub.c"
}

# Runs a release's example: a sum of two inputs, and a program that isn't accepted.
run_example() {
    LD_LIBRARY_PATH=$room/installed "$1" ints:1=7,5=-3 int:-4 <"$root/examples/two_inputs.tw" >"$room/log" 2>&1 && grep -qx 'out 0 cont int closed 2' "$room/log" || return
    printf 'TWB' | LD_LIBRARY_PATH=$room/installed "$1" >"$room/log" 2>&1
    [ $? = 1 ] && grep -q '^refused F03' "$room/log"
}

# Builds and runs a release's tests: `check_tests FOLDER VERSION LINKED..`, where LINKED is what callers of C and C++ are linked with.
check_tests() {
    folder=$1 version=$2
    shift 2
    cc -std=c99 -o "$folder/example" "$folder/embed/c/loaded.c" "$@" >"$room/log" 2>&1 && run_example "$folder/example"
    report $? "C of $version"
    c++ -std=c++17 -pthread -I "$folder/embed" -o "$folder/test" "$folder/embed/cpp/test.cpp" "$@" >"$room/log" 2>&1 &&
        LD_LIBRARY_PATH=$room/installed "$folder/test" "$folder/examples" >"$room/log" 2>&1
    report $? "C++ of $version: $(tail -n 1 "$room/log")"
    command -v cargo >"$room/none" || return
    (cd "$folder/embed/rust" && YUGLEMIT_FOLDER=$room/static CARGO_TARGET_DIR=$room/target cargo test --offline --quiet --test runs >"$room/log" 2>&1)
    report $? "Rust of $version: $(grep '^test result' "$room/log")"
}

check_release() {
    folder=$room/$2
    mkdir "$folder" && git -C "$root" archive "$1" embed examples | tar -x -C "$folder" || exit
    read -r its _ <"$folder/embed/ABI"
    write_stub "$folder" "$its" || exit
    if [ "$its" = "$abi" ]; then
        check_tests "$folder" "$2" -L "$folder" -lyuglemit
        return
    fi
    cc -std=c99 -o "$folder/caller" "$folder/embed/c/loaded.c" -L "$folder" -lyuglemit >"$room/log" 2>&1
    LD_LIBRARY_PATH=$room/installed "$folder/caller" <"$root/examples/two_inputs.tw" >"$room/log" 2>&1
    [ $? = 127 ] && grep -q "libyuglemit.so.$its" "$room/log"
    report $? "a caller of $2 isn't started with a library of ABI $abi"
    changed "$folder" "$2"
    check_tests "$folder" "$2" "$room/static/libyuglemit.a"
}

# The version that the name of a call is to have: that of its line in embed/ABI, or of the ABI's first release, if that had the call.
version_of() {
    later=$(awk -v call="$1" 'NR > 1 { for (k = 2; k <= NF; k++) if ($k == call) print $1 }' "$root/embed/ABI")
    [ -z "$later" ] || { echo "YUGLEMIT_$later"; return; }
    first=$(releases | awk -v since="${since%.0}" '$2 == since { print $1 }')
    [ -z "$first" ] || git -C "$root" show "$first:embed/yuglemit.h" | grep -q "\b$1(" || { echo "none: embed/ABI has no line for $1"; return; }
    echo "YUGLEMIT_$abi"
}

check_library() {
    readelf -d "$room/installed/libyuglemit.so.$abi" >"$room/log"
    grep -q "soname: \[libyuglemit.so.$abi\]" "$room/log"
    report $? "the soname is libyuglemit.so.$abi"
    readelf --dyn-syms --wide "$room/installed/libyuglemit.so.$abi" | awk '$8 ~ /^yuglemit_/ { sub("@@", " ", $8); print $8 }' >"$room/calls"
    while read -r call version; do
        wanted=$(version_of "$call")
        [ "$version" = "$wanted" ] || echo "$call has the version $version, not $wanted"
    done <"$room/calls" >"$room/log"
    [ -s "$room/calls" ] && [ ! -s "$room/log" ]
    report $? "each call has the version of its release"
}

check_library
releases >"$room/releases"
[ "$1" != --quick ] || sed -i -n '1p;$p' "$room/releases"
[ -s "$room/releases" ] || { echo "the history has no release" >"$room/log"; report 1 "releases"; }
while read -r commit version; do check_release "$commit" "$version"; done <"$room/releases"
summary
