#!/bin/sh
# Runs each command `$ ./tw ..` that README.md, docs/, examples/sessions.txt and orders.txt there show, and those of tools/program/scripted.txt, which open files
# or use the shell, and compares its standard output with what is shown below it. After an error, standard error has to name its explanation. Also
# compares the commands that `./tw --help` and the program list, and checks that the files for editors and shells are up to date. Prints each
# difference, and fails if there is one; with --first it ends at the first one.
root=$(readlink -f "$0") && root=${root%/tools/*}
room=$(mktemp -d)
trap 'rm -rf "$room"' EXIT
awk -f "$root/tools/program/shown.awk" -v folder="$room" "$root/README.md" "$root"/docs/*.md
ln -s "$root/examples" "$root/bench" "$root/CHANGELOG.md" "$root/tw" "$room"
# The marker ends the last command.
{ cat "$root/tools/program/scripted.txt" "$room/shown.txt" "$root/examples/sessions.txt" "$root/examples/orders.txt"; echo '$ '; } >"$room/all"
program=$("$root/script/pick.sh" tw_main) || exit
first=${1:-}
cd "$room" || exit

compare() {
    [ -n "$command" ] || return 0
    shown=$((shown + 1))
    sh -c "$command" >printed 2>errors </dev/null
    number=$(sed -n '/^refused /{s/^refused \([A-Z][0-9]*\).*/\1/p;q;}' printed)
    cmp -s printed wanted && { [ -z "$number" ] || grep -qF "tw explain $number says more" errors; } && return
    differ=$((differ + 1))
    echo "\$ $command"
    diff wanted printed && cat errors
    [ -z "$first" ] || exit 1
}

compare_all() {
    shown=0 differ=0 command=''
    while IFS= read -r line <&4; do
        case $line in
            "$ "*) compare; command=${line#"$ "}; : >wanted ;;
            *) printf '%s\n' "$line" >>wanted ;;
        esac
    done 4<all
}

compare_all

# The lines of a help text that list commands.
commands() {
    sed -n '/^Commands:/,/^$/s/^  \([a-z]* .*\)/\1/p'
}
"$program" --help | commands | grep -v '^help ' >wanted
./tw --help | commands | grep -v '^build \|^test \|^install \|^package ' >printed
diff wanted printed || differ=$((differ + 1))
"$root/dev" editor --check || differ=$((differ + 1))
echo "$shown shown, $differ differ"
[ "$differ" = 0 ]
