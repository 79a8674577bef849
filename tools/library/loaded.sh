#!/bin/sh
# Runs programs that are loaded once, by the library's handles: hostile calls (tools/library/callers.c) and the tests of C++ (embed/cpp/test.cpp, if
# there is a compiler c++), under valgrind if it is there. Then runs every example by embed/c/loaded.c, whose outputs and status are compared
# with those of the program tw, as are the input words that both reject. Ends with `N same, 0 differ`, and fails if a check fails or one
# differs.
#
#   ./dev loaded              all of it
#   ./dev loaded --quick      without valgrind
#
# Needs a C compiler (cc) and Python 3.9.
root=$(readlink -f "$0") && root=${root%/tools/*}
room=$(mktemp -d)
trap 'rm -rf "$room"' EXIT
library=$("$root/script/pick.sh" libyuglemit.a) && program=$("$root/script/pick.sh" tw_main) || exit
warnings="-std=c99 -O2 -Wall -Wextra -pedantic -Werror"
# shellcheck disable=SC2086
cc $warnings -o "$room/loaded" "$root/embed/c/loaded.c" "$library" &&
    cc $warnings -pthread -Wl,--wrap=malloc,--wrap=realloc,--wrap=free -o "$room/hostile" "$root/tools/library/callers.c" "$root/tools/library/loaded.c" "$library" || exit
if command -v c++ >"$room/which"; then
    c++ -std=c++17 -O2 -Wall -Wextra -pedantic -Werror -pthread -I "$root/embed" -o "$room/cpp" "$root/embed/cpp/test.cpp" "$library" || exit
fi
if [ "$1" = --quick ]; then
    set --
elif command -v valgrind >"$room/which"; then
    set -- valgrind --quiet --leak-check=full --show-leak-kinds=all --error-exitcode=9
else
    echo "left out: runs under valgrind, since it isn't installed"
    set --
fi
PYTHONPATH=$root python3 -B "$root/tools/library/loaded.py" "$root" "$room" "$program" "$@"
