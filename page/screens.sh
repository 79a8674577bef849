#!/bin/sh
# SPDX-License-Identifier: Apache-2.0
# Shrinks the screenshots that page/test.sh keeps to those that README.md shows. Needs pngquant.
here=$(dirname "$(readlink -f "$0")")
mkdir -p "$here/screens"
for name in start step refusal break phone dark; do
    pngquant --force --strip --speed 1 64 --output "$here/screens/$name.png" "$here/out/pictures/$name.png" || exit
done
du -bc "$here"/screens/*.png | tail -n 1
