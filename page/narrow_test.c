/* SPDX-License-Identifier: Apache-2.0 */
// Uses what narrow.py changes: loads and stores of all sizes, calls through a table, copies and fills of memory, and its growth.
// The results of the wide and the narrowed module are compared by test.js.
typedef unsigned long u64;

static u64 triple(u64 k) { return k * 3; }
static u64 more(u64 k) { return k + 5; }
static u64 (*volatile const calls[2])(u64) = {triple, more};
static unsigned char bytes[70000];

static u64 stored(u64 n) {
    *(volatile unsigned short *)(bytes + 2) = (unsigned short)n;
    *(volatile unsigned int *)(bytes + 4) = (unsigned int)(n * 77777);
    *(volatile u64 *)(bytes + 8) = n * 0x9e3779b97f4a7c15;
    *(volatile double *)(bytes + 16) = 2.5 * (double)n;
    *(volatile float *)(bytes + 24) = 1.5f;
    *(volatile signed char *)(bytes + 28) = (signed char)n;
    return (u64)*(volatile double *)(bytes + 16) + (u64)*(volatile float *)(bytes + 24) + (u64)(long)*(volatile signed char *)(bytes + 28) +
           (u64)(long)*(volatile short *)(bytes + 2) + (u64)(long)*(volatile int *)(bytes + 4);
}

u64 go(u64 n) {
    u64 sum = 0;
    for (u64 k = 0; k < n; k++) {
        bytes[100 + k * 7 % 60000] += (unsigned char)k;
        sum += calls[k & 1](k);
    }
    __builtin_memcpy(bytes + 1000, bytes, n % 900);
    __builtin_memset(bytes + 60000, 9, n % 9000);
    sum += stored(n);
    for (u64 k = 0; k < sizeof bytes; k++) sum = sum * 31 + bytes[k];
    u64 before = __builtin_wasm_memory_grow(0, 3);
    sum = sum * 31 + before + __builtin_wasm_memory_grow(0, 1ul << 20);
    return sum * 31 + __builtin_wasm_memory_size(0);
}
