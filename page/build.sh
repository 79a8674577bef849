#!/bin/sh
# SPDX-License-Identifier: Apache-2.0
# Makes out/index.html, a page in one file: the proved library tw_embed as a WebAssembly module, the examples, and the page's
# script and style.
#
#   page/build.sh             builds the library first
#   page/build.sh MODULE.bc   uses this module of the library
#   page/build.sh --released  uses the release's WebAssembly module: only scripts, style and examples are new. It needs python3 alone
#
# The module is the library's own, as rattle passed it to its clang (tools/release/library.py keeps it). It is retargeted from x86-64 to wasm64, whose pointers,
# sizes and alignments are the same (retarget.py). A heap (heap.c), 128-bit arithmetic (wide.c) and rattle's three functions over malloc
# (glue.ll) are added. Then its memory is made 32 bits wide, which browsers have had for longer (narrow.py). No proof covers these, nor that the module
# means there what it means as a program.
set -e
here=$(dirname "$(readlink -f "$0")")
root=$(dirname "$here")
out=$here/out
join() {
    python3 -B "$here/join.py" "$root" "$out/yuglemit.wasm" >"$out/index.html"
    echo "the page is $out/index.html, $(wc -c <"$out/index.html") bytes, $(gzip -9c "$out/index.html" | wc -c) compressed"
}
if [ "${1-}" = --released ]; then
    mkdir -p "$out"
    gzip -dc "$root/release/index.html.gz" >"$out/released.html"
    python3 -B "$here/unpack.py" "$out/released.html" "$out/yuglemit.wasm"
    join
    exit
fi
kit=$(dirname "$(dirname "$(readlink -f "$(command -v rt)")")")
tools=$kit/toolchain/bin
module=${1:-$root/crates/tw_embed/out/module.bc}
[ $# -gt 0 ] || "$root/tw" build --library
mkdir -p "$out"
wasm="$tools/clang --no-default-config --target=wasm64-unknown-unknown -mcpu=lime1 -O3 -ffunction-sections -fdata-sections"
"$tools/clang" --no-default-config --target=x86_64-unknown-linux-gnu -S -emit-llvm -Xclang -disable-llvm-passes -x ir "$module" -o "$out/module.ll"
python3 -B "$here/retarget.py" <"$out/module.ll" >"$out/wasm.ll"
$wasm -mllvm -no-trap-after-noreturn -mllvm -trap-unreachable -c -x ir "$out/wasm.ll" -o "$out/module.o"
for part in heap.c wide.c glue.ll narrow_test.c; do
    $wasm -nostdlib -ffreestanding -fno-builtin -c "$here/$part" -o "$out/${part%.*}.o"
done
ln -sf "$tools/ld.lld" "$out/wasm-ld"
link="$out/wasm-ld -mwasm64 --no-entry --gc-sections --stack-first --strip-all"
$link -z stack-size=1048576 --export=yuglemit_session --export=yuglemit_raw_verify --export=yuglemit_room --export=yuglemit_free \
    "$out/module.o" "$out/heap.o" "$out/wide.o" "$out/glue.o" -o "$out/wide.wasm"
$link --export=go "$out/narrow_test.o" -o "$out/test_wide.wasm"
python3 -B "$here/narrow.py" <"$out/wide.wasm" >"$out/yuglemit.wasm"
python3 -B "$here/narrow.py" <"$out/test_wide.wasm" >"$out/test_narrow.wasm"
join
