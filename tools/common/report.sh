# shellcheck shell=sh
# Counts checks, for the scripts of tools/ that read this file. Makes their folder $room, and removes it at the end. What a check says is in $room/log.
passed=0 failed=0
room=$(mktemp -d) || exit
trap 'rm -rf "$room"' EXIT

# Reports a check: whether it holds (0), what it is, and what else there is to say.
report() {
    if [ "$1" = 0 ]; then
        passed=$((passed + 1))
        echo "ok      $2${3:+, $3}"
    else
        failed=$((failed + 1))
        echo "FAILED  $2${3:+, $3}"
        [ ! -s "$room/log" ] || tail -n 30 "$room/log" | sed 's/^/        /'
    fi
}

# check NAME COMMAND..: a check, which the command's status decides.
check() {
    name=$1
    shift
    "$@" >"$room/log" 2>&1
    report $? "$name"
}

# Prints how many passed, and returns whether all did.
summary() {
    echo "$passed passed, $failed failed"
    [ "$failed" = 0 ]
}
