#!/bin/sh
# SPDX-License-Identifier: Apache-2.0
# The installed command tw. It becomes the program, ../libexec/yuglemit/tw; at a terminal, as terminal.sh there says.
case $0 in
    */*) own=$0 ;;
    *) own=./$0; [ -e "$own" ] || own=$(command -v "$0") ;;
esac
[ ! -L "$own" ] || own=$(readlink -f "$own")
program=${own%/*}/../libexec/yuglemit/tw
[ -x "$program" ] || { echo "tw: ../libexec/yuglemit/tw is missing: copy the whole installation, or that program alone" >&2; exit 70; }
[ -t 1 ] || [ -t 2 ] || exec "$program" "$@"
# shellcheck source=script/terminal.sh
. "${program%/*}/terminal.sh"
run_program "$@"
