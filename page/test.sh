#!/bin/sh
# SPDX-License-Identifier: Apache-2.0
# Tests the page: its types, if TypeScript's tsc is there; the 128-bit arithmetic against the machine's own. Then its machine against the library's
# replay, for each prefix of the runs of all examples, and for traces of random programs (three each of RUNS, else 300); and its steps back against
# its steps on. The page itself is used in headless Chromium like by a reader, and compared with the program tw; then in Firefox, if firefox-esr is
# there. Each part ends with `N passed, 0 failed`. A part whose browser was lost, by its connection or its end, is done once more in a new one, at most
# three times in a run; the test says so. On a busy machine PATIENCE=3 allows three times as long for each answer. What has to be quick may take
# longer by the clock than by what the browser computes.
#
# The program is that of script/pick.sh. The page is the one that is built, else one with the release's module, which isn't compared with the
# wide one. Screenshots are in `page/out/pictures`. Needs chromium, node 20 and a C compiler.
here=$(dirname "$(readlink -f "$0")")
root=$(dirname "$here")
out=$here/out
program=$("$root/script/pick.sh" tw_main) || exit
mkdir -p "$out/pictures"
[ -e "$out/index.html" ] || "$here/build.sh" --released || exit
set --
[ ! -e "$out/test_wide.wasm" ] || set -- "$out/test_wide.wasm" "$out/test_narrow.wasm"
if command -v tsc >/dev/null; then tsc -p "$here" || exit; else echo "left out: types, since tsc isn't installed"; fi
cc -O2 -o "$out/wide_test" "$here/wide_test.c" && "$out/wide_test" || exit
node "$here/machine_test.js" "$out/yuglemit.wasm" "$here" "$root/examples" || exit
node "$here/random_test.js" "$out/yuglemit.wasm" "${RUNS:-300}" || exit
node "$here/test.js" "$out/index.html" "$program" "$root/examples" "$out/pictures" "$@" || exit
if command -v firefox-esr >/dev/null; then BROWSER=firefox node "$here/test.js" "$out/index.html" "$program" "$root/examples" "$out/pictures"; else echo "left out: the page in Firefox, since firefox-esr isn't installed"; fi
