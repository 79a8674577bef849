# SPDX-License-Identifier: Apache-2.0
# shellcheck shell=sh
# Runs `program` at a terminal: a page of help has its width, and Ctrl-C ends a run with its report. ./tw reads this file, and so does the script
# tw that `./tw install` installs.
#
# A run that can be stopped is beside the script, which catches the signals. It ignores Ctrl-C, and stops at the sight of the file that TW_STOP names.
room=''

# Prints its input without hidden characters, as the program does (docs/FORMAT.md, "Errors of a text").
shown() {
    LC_ALL=C awk '
        function hide(bytes, point) { text[bytes] = sprintf("\\u{%x}", point) }
        BEGIN {
            for (i = 1; i < 32; i++) if (i != 10) hide(sprintf("%c", i), i)
            for (i = 127; i < 160; i++) hide((i > 127 ? "\302" : "") sprintf("%c", i), i)
            for (i = 14; i < 47; i++) if (i < 16 || i > 41) hide("\342\200" sprintf("%c", 128 + i), 8192 + i)
            for (i = 38; i < 42; i++) hide("\342\201" sprintf("%c", 128 + i), 8256 + i)
            hide("\330\234", 1564)
            text["\t"] = " "
        }
        { for (bytes in text) gsub(bytes, text[bytes]); print }'
}

say() {
    printf 'tw: %s\n' "$1" | shown >&2
}

# Sets `room` to a folder for the files of this command, if one can be made.
make_room() {
    [ -n "$room" ] && return
    room=$(mktemp -d) && trap 'rm -rf "$room"' EXIT
}

# Whether the arguments request a page of help, and a terminal shows it.
shows_help() {
    [ -t 1 ] || return
    for word; do
        case $word in
            --help | -h) return ;;
            --) return 1 ;;
        esac
    done
    [ "$1" = help ]
}

# Wraps a page at the terminal's width, with the text of an option below itself.
wrapped() {
    { size=$(stty size 2>/dev/null <&4); } 4>&1
    awk -v width="${size#* }" '
        BEGIN { if (width < 1) width = 80 }
        function indent_of(line) {
            return match(line, /^ +[^ ]+( [^ ]+)*  +/) ? RLENGTH : match(line, /^ */) ? RLENGTH : 0
        }
        function put(line,    indent, at, rest) {
            indent = indent_of(line)
            if (indent > width / 2) indent = 4
            while (length(line) > width) {
                at = width
                while (at > indent && substr(line, at + 1, 1) != " ") at--
                if (at <= indent) break
                rest = substr(line, at + 2)
                print substr(line, 1, at)
                line = sprintf("%" indent "s", "") rest
            }
            print line
        }
        # A line of full length continues in the next one, unless a sentence ends with it.
        /^$/ && held != "" { put(held); held = "" }
        { held = held == "" ? $0 : held " " $0 }
        length($0) < 90 || /^ / || /\.$/ { put(held); held = "" }
        END { if (held != "") put(held) }'
}

# Whether the arguments request a run that can be stopped, standard input isn't closed, and there is room for the file.
is_stoppable() {
    [ "$1" = run ] && [ -t 2 ] && { true <&0; } 2>/dev/null || return
    for word; do
        case $word in --each | --each=*) return 1 ;; esac
    done
    make_room 2>/dev/null
}

# Stops the run. A second time, or if the file can't be made, the program is ended. What comes a moment after a signal is the same key, since
# `timeout` sends it again.
stop_run() {
    trap '' INT
    sleep 0.1
    again=$interrupted interrupted=yes
    trap stop_run INT
    if [ -z "$again" ]; then
        echo "tw: stopping; a second Ctrl-C ends it without a report" >&2
        { true >"$TW_STOP"; } 2>/dev/null && return
    fi
    kill "$child"
}

# Runs the program, and ends with its status, or with 130 after Ctrl-C.
run_stoppable() {
    interrupted=''
    export TW_STOP="$room/stop"
    trap stop_run INT
    # A program in the background reads standard input only if it is named, here by a number that the caller doesn't use.
    for free in 3 4 5 6 7 8 9; do { true <&"$free"; } 2>/dev/null || break; done
    eval "exec $free<&0"
    # shellcheck disable=SC2154
    "$program" "$@" <&"$free" &
    child=$!
    trap 'kill "$child"' HUP QUIT TERM
    while :; do
        wait "$child"
        status=$?
        kill -0 "$child" 2>/dev/null || break
    done
    [ -z "$interrupted" ] || status=130
    exit "$status"
}

# Becomes the program, if nothing is to be done for a terminal; else ends with its status.
run_program() {
    if shows_help "$@"; then
        page=$("$program" "$@")
        status=$?
        [ -z "$page" ] || printf '%s\n' "$page" | wrapped
        exit "$status"
    fi
    if is_stoppable "$@"; then run_stoppable "$@"; fi
    # A program in a folder of this command's own is removed with it.
    [ -n "$room" ] || exec "$program" "$@"
    "$program" "$@"
}
