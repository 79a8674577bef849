#!/bin/sh
# Tries what a user of the release meets: makes a clean clone of the committed files, and there, with nothing in the environment but
# PATH=/usr/bin:/bin, runs commands, `./tw test`, `./tw install` and the blocks of docs/HOSTING.md.
# Prints each check with its processor time, ends with `N passed, M failed`, and fails if one does. It needs no toolchain.
root=$(readlink -f "$0") && root=${root%/tools/*}
# shellcheck source=tools/common/report.sh
. "$root/tools/common/report.sh"
clone=$room/clone

# Sets `used` to the processor milliseconds that all commands have used so far. The clock isn't read, since a machine may do other things too.
count_used() {
    times >"$room/times"
    used=$(awk 'NR == 2 { for (i = 1; i <= 2; i++) { split($i, part, /[ms]/); all += 60000 * part[1] + 1000 * part[2] } printf "%d", all }' "$room/times")
}

# Runs a command in the clone with a clean environment; its output and messages are left in `room`, its processor milliseconds in `took`.
clean() {
    count_used
    before=$used
    (cd "$clone" && env -i PATH=/usr/bin:/bin HOME="$room/home" "$@") >"$room/out" 2>"$room/err" </dev/null
    status=$?
    count_used
    took=$((used - before))
    return "$status"
}

# Checks that a command succeeds within so many processor milliseconds, with this output and nothing on standard error.
check_quick() {
    name=$1 most=$2 wanted=$3
    shift 3
    clean "$@"
    [ "$status" = 0 ] && [ ! -s "$room/err" ] && [ "$took" -lt "$most" ] && [ "$(cat "$room/out")" = "$wanted" ]
    report $? "$name" "$took ms of $most"
}

check_first_commands() {
    answer='out 0 int 7
quiet'
    check_quick "the first command" 500 "$answer" ./tw run examples/store_seven.tw
    check_quick "the second command" 200 "$answer" ./tw run examples/store_seven.tw
    check_quick "an option before the file" 200 "$answer" ./tw run --workers 2 examples/store_seven.tw
    clean ./tw explain V10 && [ "$took" -lt 200 ]
    report $? "./tw explain V10" "$took ms"
    rm -rf "$clone/out"
    chmod a-w "$clone"
    if [ "$(id -u)" = 0 ]; then
        echo "left out: a clone that can't be written, since root writes everywhere"
    else
        check_quick "a clone that can't be written" 500 "$answer" ./tw run examples/store_seven.tw
    fi
    chmod u+w "$clone"
}

check_tests() {
    clean ./tw test
    [ "$status" = 0 ] && tail -n 1 "$room/out" | grep -q '^[1-9][0-9]* passed, 0 failed$' && [ "$took" -lt 60000 ]
    report $? "./tw test" "$(tail -n 1 "$room/out"), $((took / 1000)) s of 60"
    [ "$status" = 0 ] || cat "$room/err"
}

# Installs below a prefix with a blank in its name, plays HOSTING.md with it, and uninstalls.
check_install() {
    prefix="$room/a prefix"
    clean ./tw install "$prefix"
    report "$status" "./tw install" "$took ms, $(du -sk "$prefix" | cut -f 1) KB"
    (cd "$room" && env -i PATH=/usr/bin:/bin "$prefix/bin/tw" run --workers 2 "$clone/examples/store_seven.tw") >"$room/out" 2>"$room/err"
    [ "$(head -n 1 "$room/out")" = "out 0 int 7" ] && [ ! -s "$room/err" ]
    report $? "the installed tw"
    check_hosting
    check_first_block
    clean ./tw install "$prefix" --uninstall
    [ "$status" = 0 ] && [ -z "$(find "$prefix" -mindepth 1)" ]
    report $? "./tw install --uninstall" "$(find "$prefix" -mindepth 1 | wc -l) files are left"
}

# Runs each block `sh` of HOSTING.md, one after the other in one folder.
check_hosting() {
    mkdir "$room/hosting" && ln -s "$clone/examples" "$room/hosting"
    awk -v room="$room/hosting" '/^```sh$/ { file = sprintf("%s/block%02d", room, ++number); next } /^```/ { close(file); file = "" } file { print >file }' "$clone/docs/HOSTING.md"
    for block in "$room"/hosting/block*; do
        case $(id -u):$(grep -c setpriv "$block") in
            0:* | *:0) ;;
            *) echo "left out: HOSTING.md, ${block##*/}, since it needs root"; continue ;;
        esac
        chmod -R a+rX "$room"
        (cd "$room/hosting" && env -i PATH="$prefix/bin:/usr/bin:/bin" sh -e "$block") >"$room/out" 2>"$room/err"
        report $? "HOSTING.md, ${block##*/}" "$(tail -n 1 "$room/out")"
    done
}

# The first block names the line of a rejected program.
check_first_block() {
    printf 'proc control write int\nregs int\nSTORE d0 v0\nSTORE d0 v0\nRET\n' >"$room/hosting/refused.tw"
    sed 's|examples/[a-z_]*.twn*|refused.tw|' "$room/hosting/block01" >"$room/first"
    (cd "$room/hosting" && env -i PATH="$prefix/bin:/usr/bin:/bin" sh "$room/first") >"$room/out" 2>"$room/err"
    grep -qx 'at line 4: STORE d0 v0' "$room/out"
    report $? "HOSTING.md, a rejected program" "$(sed -n 2p "$room/out")"
}

git clone -q --no-hardlinks --depth 1 "file://$root" "$clone" || exit
if [ ! -r "$clone/release/MANIFEST" ]; then
    echo "there is no release: ./dev release makes it"
    exit 1
fi
check_first_commands
check_tests
check_install
summary
