#!/bin/sh
# SPDX-License-Identifier: Apache-2.0
# Picks the program that answers a command of ./tw. The script tw reads this file, and sets `root`.
#
# As a command, script/pick.sh [--kind] NAME prints the path of what the tools test: of tw_main, tw_cases, tw_host_cases, tw_embed or
# libyuglemit.a; --kind puts before it what it is. The folder that TW_OUT names has it, under the name that it has in release/; TW_OUT=release
# takes the release's, whatever the sources are. Otherwise it is what is found for ./tw, which answers by TW_OUT's, too. No library is built for it.
#
# script/find.sh finds the program. What it found is noted in out/, with the names, sizes and times of all files that were read for it, so
# that the next command only looks whether these are the same.
out='' program='' kind=''
case ${0##*/} in pick.sh) root=$(dirname "$(dirname "$(readlink -f "$0")")") ;; esac
# shellcheck source=script/terminal.sh
. "$root/script/terminal.sh"

need_room() {
    make_room || { say "no folder can be made in ${TMPDIR:-/tmp}"; exit 70; }
}

# Sets `out` to the folder where unpacked and built programs are kept: the clone's out/, or this command's own if that can't be written.
use_out() {
    # shellcheck disable=SC2154
    out=$root/out
    mkdir -p "$out" 2>/dev/null && [ -w "$out" ] && return
    need_room
    out=$room
}

# The path of the file that is built of a crate.
built_file() {
    case $1 in
        tw_embed) echo "$root/crates/tw_embed/out/libyuglemit.so" ;;
        *) echo "$root/crates/$1/out/$1" ;;
    esac
}

# Identifies the state of all that a pick reads.
state_of_files() {
    (cd "$root" && find crates.txt release/MANIFEST "$(built_file "$1")" crates/*/src crates/*/specs crates/*/proofs -printf '%p %s %T@ %C@\n' 2>/dev/null) | sha256sum
}

# Says what a pick's program is, if it isn't what was proved of the sources at hand.
say_kind() {
    case $kind in
        same_code) say "the proofs or definitions have changed since the release, but not the code: the release's program answers" ;;
        unverified) say "this answer comes from an unverified build; ./tw build makes a proved one" ;;
    esac
}

# Sets `program` and `kind` for a crate; by what was noted, if nothing has changed.
pick() {
    [ -n "$out" ] || use_out
    note=$out/picked_$1
    now=$(state_of_files "$1")
    if [ -r "$note" ]; then
        { read -r state && read -r kind && read -r program; } <"$note"
        [ "$state" = "$now" ] && [ -e "$program" ] && return
    fi
    found=$("$root/script/find.sh" "$1" "$out") || exit
    kind=${found%% *} program=${found#* }
    printf '%s\n' "$now" "$kind" "$program" >"$note.$$"
    mv "$note.$$" "$note"
}

# Sets `program` and `kind` for a tool.
pick_for_tool() {
    file=$(released_name "$1")
    case ${TW_OUT:-} in
        '')
            if [ "$file" != libyuglemit.a ]; then
                pick "$1"
            else
                pick tw_embed && archive=$(static_library) && program=$archive
            fi ;;
        release) kind=release && use_out && program=$out/release/$file && unpack "$file" ;;
        *) kind=named program=$TW_OUT/$file && [ -e "$program" ] || { say "TW_OUT has no $file"; false; } ;;
    esac
}

case ${0##*/} in
    pick.sh)
        # shellcheck source=script/find.sh
        . "$root/script/find.sh"
        shows_kind=''
        [ "$1" != --kind ] || { shows_kind=yes; shift; }
        pick_for_tool "$1" || exit 70
        say_kind
        echo "${shows_kind:+$kind }$program" ;;
esac
