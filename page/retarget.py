# SPDX-License-Identifier: Apache-2.0
"""Turns rattle's LLVM module for x86-64 into one for wasm64: both have 64-bit pointers, and the same sizes and alignments."""
import re
import sys

# An instruction of x86-64 that serde_json uses. Its replacement: each byte is the one at its place, or 0 for a negative place.
SHUFFLE = "llvm.x86.ssse3.pshuf.b.128"
SHUFFLE_BYTES = """\
define internal <16 x i8> @shuffle_bytes(<16 x i8> %bytes, <16 x i8> %places) {
start:
  br label %each
each:
  %k = phi i32 [ 0, %start ], [ %next, %each ]
  %made = phi <16 x i8> [ zeroinitializer, %start ], [ %more, %each ]
  %place = extractelement <16 x i8> %places, i32 %k
  %low = and i8 %place, 15
  %at = zext i8 %low to i32
  %byte = extractelement <16 x i8> %bytes, i32 %at
  %is_none = icmp slt i8 %place, 0
  %put = select i1 %is_none, i8 0, i8 %byte
  %more = insertelement <16 x i8> %made, i8 %put, i32 %k
  %next = add i32 %k, 1
  %is_last = icmp eq i32 %next, 16
  br i1 %is_last, label %end, label %each
end:
  ret <16 x i8> %more
}
"""

for line in sys.stdin:
    if line.startswith("declare") and f"@{SHUFFLE}(" in line:
        line = SHUFFLE_BYTES
    line = line.replace(f"@{SHUFFLE}(", "@shuffle_bytes(")
    if line.startswith("target datalayout"):
        line = 'target datalayout = "e-m:e-p:64:64-p10:8:8-p20:8:8-i64:64-i128:128-n32:64-S128-ni:1:10:20"\n'
    elif line.startswith("target triple"):
        line = 'target triple = "wasm64-unknown-unknown"\n'
    elif line.startswith("attributes"):
        line = re.sub(r'"probe-stack"="[^"]*" |"stack-probe-size"="[^"]*" ', "", line)
        line = re.sub(r'"target-cpu"="[^"]*"', '"target-cpu"="lime1"', line)
    sys.stdout.write(line)
