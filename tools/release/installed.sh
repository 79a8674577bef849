#!/bin/sh
# Tests what ./tw does of its own: `./tw install` and its removal, help pages, statuses, completions, and the Python package of a clone. Works in a
# fresh clone of the committed files, with nothing in the environment but PATH=/usr/bin:/bin. Prints each check, ends with `N passed, M failed`,
# and fails if one does. It needs no toolchain, but a release of these sources. Completions of zsh are left out if it isn't installed.
root=$(readlink -f "$0") && root=${root%/tools/*}
# shellcheck source=tools/common/report.sh
. "$root/tools/common/report.sh"
trap 'chmod -R u+w "$room"; rm -rf "$room"' EXIT
clone=$room/clone home=$room/home prefix=$room/prefix
mkdir "$home"
git clone -q --no-hardlinks --depth 1 "file://$root" "$clone" || exit

# Runs a command in the clone with a clean environment.
clean() {
    (cd "$clone" && env -i PATH=/usr/bin:/bin HOME="$home" "$@") </dev/null
}

# Whether a command ends with a status.
ends_with() {
    wanted=$1
    shift
    clean "$@"
    status=$?
    echo "status $status"
    [ "$status" = "$wanted" ]
}

# --- installing

files() {
    (cd "$1" && find . -mindepth 1 ! -type d | LC_ALL=C sort)
}

two_prefixes() {
    ends_with 2 ./tw install "$room/one" "$room/two" && ends_with 2 ./tw install --uninstall "$room/one" "$room/two" && [ ! -e "$room/one" ] && [ ! -e "$room/two" ] &&
        ends_with 2 ./tw install '' && ends_with 2 ./tw install --unknown && [ -z "$(find "$home" -mindepth 1)" ]
}

# A file of somebody else is neither replaced nor removed, and then nothing is installed.
foreign_file() {
    mkdir -p "$prefix/bin" && echo mine >"$prefix/bin/tw"
    ends_with 73 ./tw install "$prefix" && [ "$(files "$prefix")" = ./bin/tw ] && [ "$(cat "$prefix/bin/tw")" = mine ] &&
        ends_with 66 ./tw install --uninstall "$prefix" && [ "$(cat "$prefix/bin/tw")" = mine ]
}

forced() {
    ends_with 0 ./tw install --force "$prefix" && [ "$("$prefix/bin/tw" --version)" = "tw $(cat "$clone/VERSION")" ]
}

installed_again() {
    before=$(files "$prefix")
    ends_with 0 ./tw install "$prefix" && [ "$(files "$prefix")" = "$before" ] && [ "$(sort "$prefix/share/yuglemit/installed" | uniq -d)" = '' ]
}

# A file that was changed after the installation is somebody's; a link and a folder are files in the way, too.
changed_files() {
    echo mine >"$prefix/bin/tw"
    ends_with 73 ./tw install "$prefix" && [ "$(cat "$prefix/bin/tw")" = mine ] && ends_with 0 ./tw install --force "$prefix" || return
    rm "$prefix/include/yuglemit.h" && ln -s /etc/passwd "$prefix/include/yuglemit.h"
    ends_with 73 ./tw install "$prefix" && [ "$(readlink "$prefix/include/yuglemit.h")" = /etc/passwd ] || return
    rm "$prefix/include/yuglemit.h" && mkdir "$prefix/include/yuglemit.h"
    ends_with 73 ./tw install "$prefix" && rmdir "$prefix/include/yuglemit.h" && ends_with 0 ./tw install "$prefix"
}

# A list as version 0.19 wrote it has no sums.
earlier_list() {
    sed -i 's/^[0-9a-f]*  //' "$prefix/share/yuglemit/installed" && echo old >"$prefix/bin/tw" && echo share/old >>"$prefix/share/yuglemit/installed" &&
        echo old >"$prefix/share/old" && ends_with 0 ./tw install "$prefix" && "$prefix/bin/tw" --version && grep -qx share/old "$prefix/share/yuglemit/installed"
}

uninstalled() {
    echo mine >"$prefix/include/yuglemit.hpp" && echo mine >"$prefix/bin/other"
    ends_with 0 ./tw install --uninstall "$prefix" && [ "$(files "$prefix")" = "./bin/other
./include/yuglemit.hpp" ] && ends_with 66 ./tw install --uninstall "$prefix"
}

uninstalled_by_force() {
    ends_with 0 ./tw install --force "$prefix" && echo mine >"$prefix/include/yuglemit.hpp" && ends_with 0 ./tw install --force --uninstall "$prefix" &&
        [ "$(files "$prefix")" = ./bin/other ]
}

# Runs the installed tw at a terminal without a width, where standard input is typed. Prints what it shows, and the status.
at_terminal() {
    (cd "$room" && env -i --default-signal=INT PATH="$prefix/bin:/usr/bin:/bin" script -qec "exec $1" /dev/null; echo "status $?") | tr -d '\r'
}

# At a terminal help has its width, or 80 columns, and Ctrl-C ends a run with its report.
installed_terminal() {
    ends_with 0 ./tw install "$prefix" && [ "$(at_terminal 'tw help run' </dev/null | wc -L)" -le 80 ] && [ "$("$prefix/bin/tw" help run | wc -L)" -gt 80 ] || return
    cat >"$room/long.tw" <<'TEXT'
proc control closed int write int
regs int
GET v0 d0
DROPR d0
PUT 1 0 any 1 0
RET
proc control write int val int
regs int int int
JEQ v0 v1 done
INT v2 -1
ADD v0 v0 v2 +0
REPEAT 1000
REPEAT 1000
INT v2 7
END
END
PUT 1 0 any 0 0
RET
done:
STORE d0 v0
RET
TEXT
    (sleep 2; printf '\003'; sleep 1) | at_terminal 'tw run --quiet long.tw int:100000' >"$room/page"
    cat "$room/page"
    [ "$(tail -n 3 "$room/page" | sed 's/\x1b\[[0-9]*m//g; s/\x1b\[K//')" = "$(printf 'out 0 unset\nstopped\nstatus 130')" ]
}

# The last line says how to remove what is installed, also where a name has blanks and a quote.
closing_hint() {
    ends_with 0 ./tw install "$room/it's here" || return
    hint=$(sed -n 's/.*; \(.*\) removes it$/\1/p' "$room/log")
    clean sh -c "$hint" && [ -z "$(files "$room/it's here")" ]
}

# Each link of each installed document leads to an installed file.
no_dead_links() {
    ends_with 0 ./tw install "$room/documents" || return
    count=0
    for file in $(cd "$room/documents" && find share/doc -name '*.md'); do
        folder=$(dirname "$file")
        for target in $(awk '/^ *```/ { code = !code } !code' "$room/documents/$file" | grep -o '\]([^() ]*)' | sed 's/^](//; s/)$//; s/#.*//'); do
            case $target in *:*) continue ;; esac
            count=$((count + 1))
            [ -e "$room/documents/$folder/$target" ] || { echo "$file: $target"; return 1; }
        done
    done
    echo "$count links"
    [ "$count" -gt 50 ]
}

# --- help

help_pages() {
    for command in install package build test; do
        clean ./tw help "$command" >"$room/page" && grep -q "^Usage: ./tw $command" "$room/page" && clean ./tw "$command" --help | cmp - "$room/page" || return
    done
    clean ./tw help run | grep -q '^Usage: tw run' && clean ./tw --help | grep -q '^Usage: ./tw COMMAND'
}

full_output() {
    for words in --help --version -V help "install --help" "help build" "test --help" "package --help" "help package"; do
        # shellcheck disable=SC2086
        (cd "$clone" && env -i PATH=/usr/bin:/bin ./tw $words) 2>"$room/errors" >/dev/full
        status=$?
        echo "$words: $status"
        [ "$status" = 7 ] && grep -q "can't be written" "$room/errors" || return
    done
}

wrong_words() {
    ends_with 2 ./tw package zip && ends_with 2 ./tw build --fast && [ ! -e "$clone/dist" ]
}

# --- completions

# Prints what bash completes after these words, the last of which is incomplete.
bash_completes() {
    (cd "$room/files" && bash -c '. "$1"; shift; compopt() { echo "compopt $*"; }; COMP_WORDS=("$@"); COMP_CWORD=$(($# - 1)); _tw; printf "%s\n" "${COMPREPLY[@]}"' bash "$clone/script/install/tw.bash" "$@") | sed '/^$/d' | LC_ALL=C sort | tr '\n' ' '
}

is() {
    wanted=$1
    shift
    found=$("$@")
    echo "$found, not $wanted"
    [ "$found" = "$wanted" ]
}

of_bash() {
    mkdir -p "$room/files/folder" && touch "$room/files/a.tw" "$room/files/b.twn" "$room/files/c.hex" "$room/files/d.history" "$room/files/e.txt"
    is "V04 " bash_completes tw explain V04 && is "V04 " bash_completes tw explain v04 && [ "$(bash_completes tw explain '' | wc -w)" -gt 60 ] &&
        is "compopt +o bashdefault " bash_completes tw run a.tw --limit '' && is "compopt +o bashdefault " bash_completes tw run --engines '' &&
        is "a.tw b.twn c.hex folder " bash_completes tw check '' && is "a.tw b.twn folder " bash_completes tw asm '' &&
        is "a.tw " bash_completes tw run a && is "d.history " bash_completes tw replay d && is "" bash_completes tw run d. &&
        is "e.txt " bash_completes tw run a.tw --inputs e && is "--force " bash_completes ./tw install --f && is "run " bash_completes tw ru &&
        is "compopt -o nospace int: ints: " bash_completes tw run i
}

# Likewise in zsh, in which what would be shown is recorded.
zsh_completes() {
    (cd "$room/files" && zsh -fc 'file=$1; shift; words=("$@"); CURRENT=$#; PREFIX=$words[-1]
        compadd() { print -l "compadd ${@[-1]}"; }; _files() { print "files $*"; }; _message() { print "message $*"; }
        complete_it() { source $file; }; complete_it' zsh "$clone/script/install/tw.zsh" "$@") | tr '\n' ' '
}

of_zsh() {
    is "message number " zsh_completes tw run a.tw --limit '' && is "files -g *.(tw|twn|hex) " zsh_completes tw check '' &&
        is "files  " zsh_completes tw run --inputs '' && is "compadd C15 " zsh_completes tw explain '' && is "compadd --help " zsh_completes ./tw install --
}

# --- Python

README='import pathlib, yuglemit
print(yuglemit.load(pathlib.Path("examples/pipeline.twn")).run(39).outputs, yuglemit.session(["--version"])[1].decode().split()[1])'

python_answers() {
    wanted="[42] $(cat "$clone/VERSION")"
    found=$(cd "$clone" && env -i PATH=/usr/bin:/bin HOME="$home" PYTHONDONTWRITEBYTECODE=1 PYTHONPATH=embed/python "$@" python3 -c "$README")
    echo "$found"
    [ "$found" = "$wanted" ]
}

# Without write access the library is unpacked for this process alone. (root writes everywhere.) embed/python/tests/test_released.py has the other places.
python_of_clone() {
    rm -rf "$clone/out" && python_answers || return
    rm -rf "$clone/out" "$home/.cache" && echo "no folder" >"$clone/out" && echo "no folder" >"$home/.cache" && mkdir "$room/temporary" || return
    python_answers TMPDIR="$room/temporary" && [ -z "$(find "$room/temporary" -mindepth 1)" ] && rm "$clone/out" "$home/.cache"
}

clean ./tw install "$room/first" 2>"$room/said"
if [ $? = 70 ]; then
    cat "$room/said"
    exit 1
fi
check "two prefixes are an error" two_prefixes
check "a foreign file stays" foreign_file
check "--force replaces it" forced
check "an installation is replaced" installed_again
check "what was changed stays" changed_files
check "a list of an earlier version" earlier_list
check "the installed tw at a terminal" installed_terminal
check "uninstalling leaves what isn't ours" uninstalled
check "--force --uninstall" uninstalled_by_force
check "the closing hint removes what is installed" closing_hint
check "installed documents have no dead links" no_dead_links
check "help pages" help_pages
check "an output that can't be written is status 7" full_output
check "wrong words" wrong_words
check "completions of bash" of_bash
if command -v zsh >/dev/null; then
    check "completions of zsh" of_zsh
else
    echo "left out: zsh isn't installed"
fi
check "PYTHONPATH=embed/python in a fresh clone" python_of_clone
summary
