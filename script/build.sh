# SPDX-License-Identifier: Apache-2.0
# shellcheck shell=sh
# `./tw build [--library]`: proves what a program or the library depends on, and builds it. The script tw reads this file.
# shellcheck source=script/find.sh disable=SC2154
. "$root/script/find.sh"

build_usage() {
    cat <<'TEXT'
Proves everything that the program depends on, and builds it.

Usage: ./tw build [--library]

It needs the Rattle toolchain, and takes half an hour or more the first time. What is proved is kept, so a build that was stopped continues.
Standard error reports each crate that is done; crates/tw_main/out/build.log has the whole output.

  --library  Builds the library for programs in other languages (embed/): libyuglemit.so and libyuglemit.a in crates/tw_embed/out

Exit status: 0 built, 2 command line rejected, 70 the build failed or there is no toolchain, 130 stopped.
TEXT
}

# Lays the crate and those below it out as a repository of their own, without the mutants.
lay_out() {
    mkdir -p "$tree/.git" "$tree/crates" && cp "$root/HANDLES" "$tree" && lines_of_crates "$crate" >"$tree/crates.txt" &&
        sed 's/[: ].*//' "$tree/crates.txt" >"$room/names" &&
        tar -C "$root/crates" --exclude='*/out' --exclude='*/must-fail' -cf - -T "$room/names" | tar -C "$tree/crates" -xf -
}

minutes() {
    echo $((($(date +%s) - started) / 60))
}

# Copies its input to the log, and reports each crate that is done.
follow() {
    all=$(lines_of_crates "$crate" | wc -l) ready=0
    while IFS= read -r line; do
        printf '%s\n' "$line"
        case $line in
            "rt: tw_"*" proved" | "rt: tw_"*" is kept:"*)
                done=${line#rt: } ready=$((ready + 1))
                say "crate $ready of $all, ${done%% *}, after $(minutes) min" ;;
        esac
    done >"$log"
}

# Runs a command in the tree in the background, so that a signal is met at once.
run_in_tree() {
    (cd "$tree" && exec "$@") </dev/null >&8 2>&1 8>&- &
    child=$!
    wait "$child"
}

stop_build() {
    trap '' INT TERM HUP
    kill "$child"
    exec 8>&-
    wait
    say "stopped; the next ./tw build continues from there"
    exit 130
}

# Takes what is proved out of the tree.
finish() {
    case $crate in
        tw_embed)
            kit=$(dirname "$(dirname "$(readlink -f "$(command -v rt)")")")
            run_in_tree python3 -B "$root/tools/release/library.py" "$kit" "$tree" "$folder" &&
                run_in_tree python3 -B "$root/tools/release/link_library.py" "$kit" "$folder" ;;
        *) cp "$tree/crates/$crate/out/$crate" "$built.new" && mv "$built.new" "$built" ;;
    esac
}

# Proves what the crate depends on and builds it, in a tree of its own. `rt ci` does it: it begins with the crates that most others wait for,
# and keeps what it proved beside the toolchain, for the next ./tw build and for CI.
prove_and_build() {
    started=$(date +%s)
    say "proving and building ($log has the whole output)"
    need_room
    tree=$room/tree fifo=$room/said
    mkfifo "$fifo" && lay_out || exit 70
    follow <"$fifo" &
    exec 8>"$fifo"
    trap stop_build INT TERM HUP
    run_in_tree rt ci && finish && touch "$built"
    status=$?
    exec 8>&-
    wait
    trap - INT TERM HUP
    if [ "$status" != 0 ]; then
        sed -n 's/^rt: \(tw_[a-z_]*\) NOT PROVED.*/tw: \1 is not proved/p' "$log" >&2
        say "the build failed; $log says why"
        exit 70
    fi
    say "built, in $(minutes) min"
}

# One build at a time. The lock ends with its holder; without a command flock rt makes the second wait.
take_turn() {
    exec 9>"$folder/build.lock"
    if command -v flock >/dev/null 2>&1 && ! flock -n 9; then
        say "waiting for another ./tw build"
        flock 9
    fi
}

build_command() {
    case $* in
        --help | -h) printed build_usage; return ;;
        '') crate=tw_main ;;
        --library) crate=tw_embed ;;
        *) say "./tw build takes no argument except --library; ./tw help build says more"; exit 2 ;;
    esac
    built=$(built_file "$crate") folder=$root/crates/$crate/out
    log=$folder/build.log
    need_rt "./tw build proves the sources"
    mkdir -p "$folder"
    take_turn
    if is_built "$crate"; then
        say "it is built already"
    else
        prove_and_build
    fi
    [ "$crate" = tw_main ] || say "the library is $built, and libyuglemit.a beside it; embed/ has the header and callers"
}
