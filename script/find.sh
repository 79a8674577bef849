#!/bin/sh
# SPDX-License-Identifier: Apache-2.0
# Finds the program of a crate. In this order:
#
#   1. the program that ./tw build or `rt ci` built, if no source is newer;
#   2. the release's, if its sources are these, or if their code is (then a line says so);
#   3. an unverified build, which is kept under the sum of its code.
#
# Other scripts read this file after script/pick.sh. As a command, script/find.sh CRATE OUT prints which of these it is (built, same,
# same_code or unverified), and its path; OUT is the folder where unpacked and built programs are kept.
case ${0##*/} in
    find.sh)
        root=$(dirname "$(dirname "$(readlink -f "$0")")")
        # shellcheck source=script/pick.sh
        . "$root/script/pick.sh"
        out=$2 ;;
esac
# shellcheck source=script/sources.sh disable=SC2154
. "$root/script/sources.sh"
manifest=$root/release/MANIFEST

# The name of a crate's file in release/.
released_name() {
    case $1 in
        tw_main) echo tw ;;
        tw_embed) echo libyuglemit.so ;;
        *) echo "$1" ;;
    esac
}

# Whether a built file is there and none of its sources is newer.
is_built() {
    [ -e "$(built_file "$1")" ] || return
    # shellcheck disable=SC2046
    [ -z "$(cd "$root" && find crates.txt $(folders_of_sources "$1") -newer "$(built_file "$1")" 2>/dev/null | head -n 1)" ]
}

# A field of MANIFEST: the line's first two words, and the number of the field.
in_manifest() {
    [ -r "$manifest" ] && awk -v key="$1" -v name="$2" -v field="$3" '$1 == key && $2 == name { print $field; exit }' "$manifest"
}

# Unpacks a file of release/ into out/release, unless it is there; what isn't as MANIFEST says is refused.
unpack() {
    unpacked=$out/release/$1
    sum=$(in_manifest file "$1" 4)
    [ -f "$unpacked" ] && [ "$(cat "$unpacked.sum" 2>/dev/null)" = "$sum" ] && return
    if ! gzip -dc "$root/release/$1.gz" 2>/dev/null | sum_of_input | grep -qx "$sum"; then
        say "release/$1.gz isn't the file that release/MANIFEST names"
        return 1
    fi
    part=$unpacked.$$
    mkdir -p "$out/release" && gzip -dc "$root/release/$1.gz" >"$part" && chmod 755 "$part" && mv "$part" "$unpacked" && echo "$sum" >"$unpacked.sum" && return
    rm -f "$part" "$unpacked.sum"
    say "release/$1.gz can't be unpacked into $out/release; is there room?"
    return 1
}

# Compares a file of the release with the sources at hand: `same`, `same_code`, or another word.
compare_release() {
    [ -r "$root/release/$(released_name "$1").gz" ] || { echo none; return; }
    if [ "$(in_manifest sources "$1" 3)" = "$2" ]; then
        echo same
    elif [ "$(in_manifest code "$1" 3)" = "$3" ]; then
        echo same_code
    else
        echo changed
    fi
}

# Why the release's file of a crate doesn't serve.
reason_to_build() {
    if [ ! -r "$root/release/$(released_name "$1").gz" ]; then
        echo "release/$(released_name "$1").gz is missing"
    elif [ ! -r "$manifest" ]; then
        echo "release/MANIFEST is missing"
    else
        echo "the sources aren't the release's"
    fi
}

# Makes an unverified build of a crate, as the file `program`, and removes older ones than the newest three.
build_unverified() {
    say "$(reason_to_build "$1"), so an unverified build is made; it takes one to two minutes, and is kept"
    kit=$(dirname "$(dirname "$(readlink -f "$(command -v rt)")")")
    if ! python3 -B "$root/tools/proofs/unverified.py" "$kit" "$root" "$1" "$program" >&2; then
        say "the unverified build failed; \`rt try\` in crates/$1 says more"
        exit 70
    fi
    # (names of sums have no blanks)
    # shellcheck disable=SC2012
    ls -td "$out/unverified/$1"/* | tail -n +4 | while read -r old; do rm -rf "$old"; done
}

# Sets `program` to a kept unverified build, which is made first if it isn't there. A second command waits for the first one's build.
unverified() {
    program=$out/unverified/$1/$2/$1 kind=unverified
    [ -x "$program" ] && return
    need_rt "$(reason_to_build "$1")"
    mkdir -p "$out/unverified"
    exec 9>"$out/unverified/lock"
    ! command -v flock >/dev/null 2>&1 || flock 9
    [ -x "$program" ] || build_unverified "$1"
    exec 9>&-
}

# Sets `program` and `kind` (built, same or same_code) for a crate, by its sources and their two sums; or fails, if nothing proved fits. If what
# fits can't be unpacked, all ends.
pick_proved() {
    if is_built "$1"; then
        program=$(built_file "$1") kind=built
        return
    fi
    kind=$(compare_release "$@") program=$out/release/$(released_name "$1")
    case $kind in
        same | same_code) unpack "$(released_name "$1")" || exit 70 ;;
        *) return 1 ;;
    esac
}

# Picks a file that was proved, without a note.
need_proved() {
    [ -n "$out" ] || use_out
    # shellcheck disable=SC2046
    pick_proved "$1" $(sums_of_crate "$1") && return
    say "crates/$1 isn't built, and the release is of other sources; $2 proves and builds it"
    exit 70
}

# Ends without a toolchain; its argument says why one is needed.
need_rt() {
    command -v rt >/dev/null 2>&1 && return
    say "$1, and the command rt of the Rattle toolchain, which builds them, isn't on the PATH (README.md, \"The toolchain\")"
    exit 70
}

# The static library beside a shared one that was picked.
static_library() {
    case $kind in
        built) echo "$root/crates/tw_embed/out/libyuglemit.a" ;;
        *) unpack libyuglemit.a && echo "$out/release/libyuglemit.a" ;;
    esac
}

# Sets `program` and `kind` for a crate. There is no unverified library.
find_program() {
    # shellcheck disable=SC2046
    set -- "$1" $(sums_of_crate "$1")
    pick_proved "$@" && return
    if [ "$1" = tw_embed ]; then
        say "the library isn't built, and the release is of other sources; ./tw build --library proves and builds it, and TW_OUT=release takes the release's"
        exit 70
    fi
    unverified "$1" "$3"
}

case ${0##*/} in
    find.sh)
        find_program "$1"
        echo "$kind $program" ;;
esac
