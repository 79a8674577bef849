#!/bin/sh
# Tests the packages that `./tw package` writes, in minimal Debian systems that have no toolchain and no network. In one without a compiler the Debian
# package and the wheel are installed and used. In one with g++, CMake, pkg-config and cargo programs in C, C++ and Rust are built.
# Prints each check, and fails if one does. It needs root, mmdebstrap and a mirror of Debian.
#
#   ./dev packaged            makes the packages first
#   KEEP=FOLDER ./dev packaged    keeps the two systems in a folder, and takes them from there if they are there
root=$(readlink -f "$0") && root=${root%/tools/*}
version=$(cat "$root/VERSION")
read -r abi _ <"$root/embed/ABI"
# shellcheck source=tools/common/report.sh
. "$root/tools/common/report.sh"

# Removes the folder of this run, unless something is mounted in it. (What mmdebstrap mounts is in a name space of its own.)
clean_up() {
    grep -qF " $room/" /proc/mounts && { echo "$room is left, since something is mounted in it"; return; }
    rm -rf --one-file-system "$room"
}
trap clean_up EXIT
systems=${KEEP:-$room}
deb=yuglemit_${version}_amd64.deb
wheel=yuglemit-$version-py3-none-manylinux_2_14_x86_64.whl

# ---- Minimal systems

# Makes a minimal Debian of a suite with further packages, unless it is kept. (The crate wants a Rust of 2025, which bookworm lacks.)
make_system() {
    [ -x "$systems/$1/bin/sh" ] && return
    unshare --mount mmdebstrap --quiet --variant=apt --include="$3" "$2" "$systems/$1" >"$room/why" 2>&1
}

# Runs a command in a system, in a folder of its own there, with no network.
inside() {
    # shellcheck disable=SC2016
    unshare --mount --pid --net --fork --mount-proc="$system/proc" chroot "$system" \
        env -i PATH=/usr/sbin:/usr/bin:/sbin:/bin HOME=/root LANG=C.UTF-8 sh -c 'mkdir -p /work && cd /work && eval "$1"' sh "$1" >"$room/log" 2>&1
}

check_inside() {
    inside "$2"
    report $? "$1"
}

# Checks that a command's first line of output is the expected one.
check_output() {
    inside "$2"
    [ "$(head -n 1 "$room/log")" = "$3" ]
    report $? "$1"
}

# The files of a system, except for what apt, dpkg and ldconfig keep of their own work.
files() {
    (cd "$system" && find . -xdev \( -path ./work -o -path ./proc -o -path ./tmp -o -path ./var/lib/dpkg -o -path ./var/lib/apt -o -path ./var/log -o -path ./var/cache -o -path ./root/.cache \) -prune -o -print) |
        grep -v '^./etc/ld.so.cache$\|__pycache__' | LC_ALL=C sort
}

# Copies what the checks read into a system.
fill() {
    system=$systems/$1
    rm -rf "$system/work"
    mkdir -p "$system/work"
    cp -R "$root/dist/." "$root/examples" "$root/embed" "$root/README.md" "$system/work"
    cp "$root/crates/tw_cases/data/sum_3.twn" "$system/work/sum.twn"
}

# README's lines for Python, as a text for doctest.
python_lines() {
    # shellcheck disable=SC2016
    sed -n '/^```python$/,/^```$/p' "$root/README.md" | sed 's/^```.*//'
}

check_plain_system() {
    fill plain
    files >"$room/before"
    check_inside "no compiler is there" "! command -v cc && ! command -v gcc && ! command -v rt"
    check_inside "the Debian package installs by apt" "apt-get -o Dpkg::Use-Pty=0 install --yes /work/$deb"
    check_output "tw run answers" "tw run examples/store_seven.tw" "out 0 int 7"
    check_output "an option comes before the file" "tw run --workers 2 sum.twn" "out 0 int 55"
    check_output "tw --version" "tw --version" "tw $version"
    check_inside "tw at a terminal" "[ \$(script -qec 'tw help run' /dev/null | wc -L) -le 81 ] && [ \$(tw help run | wc -L) -gt 81 ]"
    check_inside "man tw" "MANPAGER=cat man tw | grep -q 'dataflow programs'"
    check_inside "bash completes" "bash -c '. /usr/share/bash-completion/completions/tw; COMP_WORDS=(tw ru); COMP_CWORD=1; _tw; [ \"\${COMPREPLY[0]}\" = run ]'"
    check_inside "the package says since when each call is there" "grep -q '^ yuglemit_raw_run@YUGLEMIT_$abi ' /var/lib/dpkg/info/yuglemit.symbols"
    check_inside "the library loads" "python3 -c 'import ctypes; ctypes.CDLL(\"libyuglemit.so.$abi\").yuglemit_session'"
    check_inside "the Debian package is removed" "dpkg -P yuglemit"
    files >"$room/after"
    diff "$room/before" "$room/after" >"$room/log"
    report $? "nothing of it is left"
    python_lines >"$system/work/lines.txt"
    check_inside "the wheel installs" "python3 -m venv venv && venv/bin/pip install --no-index --quiet $wheel"
    check_inside "the wheel runs README's lines" "venv/bin/python -m doctest lines.txt"
    check_inside "the wheel is removed" "venv/bin/pip uninstall --yes --quiet yuglemit && ! ls venv/lib/python3*/site-packages | grep -i yuglemit"
}

# Copies the examples of C and C++ into a folder, where they take the headers that are installed.
copy_examples() {
    sed 's|"../yuglemit.h"|<yuglemit.h>|' "$root/embed/c/example.c" >"$1/example.c"
    sed 's|"yuglemit.hpp"|<yuglemit.hpp>|' "$root/embed/cpp/example.cpp" >"$1/example.cpp"
}

CMAKE='cmake_minimum_required(VERSION 3.16)
project(example C CXX)
find_package(yuglemit 0.1...1.0 REQUIRED)
add_executable(shared example.c)
target_link_libraries(shared yuglemit::yuglemit)
add_executable(static example.c)
target_link_libraries(static yuglemit::static)
add_executable(cpp example.cpp)
target_compile_features(cpp PRIVATE cxx_std_17)
target_link_libraries(cpp yuglemit::yuglemit)
add_executable(cpp_static example.cpp)
target_compile_features(cpp_static PRIVATE cxx_std_17)
target_link_libraries(cpp_static yuglemit::static)'

check_system_with_compiler() {
    fill compiler
    echo "$CMAKE" | sed "s/0.1...1.0/$version/" >"$system/work/CMakeLists.txt"
    copy_examples "$system/work"
    check_inside "the Debian package installs beside a compiler" "dpkg -i $deb"
    run='run --text <examples/store_seven.tw'
    check_inside "pkg-config knows the library" "[ \$(pkg-config --modversion yuglemit) = $version ]"
    check_output "a C program builds by pkg-config" "cc -O2 -o shared example.c \$(pkg-config --cflags --libs yuglemit) && ./shared $run" "out 0 int 7"
    check_inside "it takes the library by its soname" "readelf -d shared | grep -q 'NEEDED.*libyuglemit.so.$abi'"
    check_output "a C program builds by CMake" "cmake -S . -B build >/dev/null && cmake --build build --target shared static >/dev/null && build/shared $run" "out 0 int 7"
    check_output "and with the static library" "build/static $run" "out 0 int 7"
    check_output "a C++ program builds by pkg-config" "c++ -std=c++17 -O2 -o cpp example.cpp \$(pkg-config --cflags --libs yuglemit) && ./cpp" 8
    check_output "a C++ program builds by CMake" "cmake --build build >/dev/null && build/cpp" 8
    check_output "and with the static library, in C++" "build/cpp_static" 8
    check_inside "the static library has its own calls alone" "nm --defined-only --extern-only /usr/lib/x86_64-linux-gnu/libyuglemit.a | awk 'NF == 3 && \$3 !~ /^yuglemit_/ { bad = 1 } END { exit bad }'"
    check_output "the tar archive unpacks and answers" "tar xf yuglemit-$version-x86_64-linux.tar.gz && dpkg -P yuglemit >/dev/null && yuglemit-$version/bin/tw run examples/store_seven.tw" "out 0 int 7"
    check_inside "the Rust crate builds" "cd yuglemit-$version-crate && cargo build --offline --quiet && cargo run --offline --quiet --example example"
}

"$root/tw" package >"$room/log" 2>&1
report $? "./tw package"
cat "$room/log"
if make_system plain bookworm man-db,python3-venv && make_system compiler trixie g++,libc6-dev,cmake,make,pkg-config,cargo,python3; then
    check_plain_system
    check_system_with_compiler
else
    tail -n 3 "$room/why" >"$room/log"
    report 1 "minimal systems"
fi
summary
