/* SPDX-License-Identifier: Apache-2.0 */
// Arithmetic on 128 bits, which clang calls by these names where the processor has none. wide_test.c compares it with the machine's own.
#ifndef WIDE
#define WIDE(name) __##name
#endif
typedef unsigned long u64;
typedef unsigned __int128 u128;

static u128 of(u64 high, u64 low) { return (u128)high << 64 | low; }

u128 WIDE(multi3)(u128 x, u128 y) {
    u64 a = (u64)x, b = (u64)y, a_low = (unsigned)a, a_high = a >> 32, b_low = (unsigned)b, b_high = b >> 32;
    u64 low = a_low * b_low, one = a_low * b_high, other = a_high * b_low;
    u64 middle = (low >> 32) + (unsigned)one + (unsigned)other;
    u64 high = a_high * b_high + (one >> 32) + (other >> 32) + (middle >> 32);
    return of(high + (u64)(x >> 64) * b + a * (u64)(y >> 64), middle << 32 | (unsigned)low);
}

u128 WIDE(ashlti3)(u128 x, int by) {
    u64 low = (u64)x, high = (u64)(x >> 64);
    if (by == 0) return x;
    return by < 64 ? of(high << by | low >> (64 - by), low << by) : of(low << (by - 64), 0);
}

u128 WIDE(lshrti3)(u128 x, int by) {
    u64 low = (u64)x, high = (u64)(x >> 64);
    if (by == 0) return x;
    return by < 64 ? of(high >> by, low >> by | high << (64 - by)) : of(0, high >> (by - 64));
}

u128 WIDE(ashrti3)(u128 x, int by) {
    u64 low = (u64)x;
    long high = (long)(x >> 64);
    if (by == 0) return x;
    return by < 64 ? of((u64)(high >> by), low >> by | (u64)high << (64 - by)) : of((u64)(high >> 63), (u64)(high >> (by - 64)));
}

static u128 without_sign(u128 x) { return (long)(x >> 64) < 0 ? -x : x; }

u128 WIDE(divti3)(u128 x, u128 y) {
    u128 whole = without_sign(x), divisor = without_sign(y), rest = 0, quotient = 0;
    for (int bit = 127; bit >= 0; bit--) {
        rest = rest << 1 | (whole >> bit & 1);
        quotient <<= 1;
        if (rest >= divisor) {
            rest -= divisor;
            quotient |= 1;
        }
    }
    return (long)((x ^ y) >> 64) < 0 ? -quotient : quotient;
}
