#!/bin/sh
# Makes the Python wheel of what is proved here, and tests it where there is no network. Needs unshare.
root=$(readlink -f "$0") && root=${root%/tools/*}
cd "$root" && ./tw package wheel && unshare --map-root-user --net embed/python/test.sh "$root"/dist/*.whl
