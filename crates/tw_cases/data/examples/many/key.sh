#!/bin/sh
# SPDX-License-Identifier: Apache-2.0
# Prints a hash of what answers depend on, except the inputs: the version of TW, the program, and the options of `tw run`.
#
#   key.sh TW PROGRAM [OPTION OF TW RUN..]
tw=$1 program=$2
shift 2
version=$("$tw" --version) && [ -r "$program" ] || { echo "key.sh: $tw doesn't answer, or $program can't be read" >&2; exit 70; }
{ printf '%s\n' "$version" "$@" && cat "$program"; } | sha256sum | cut -d ' ' -f 1
