/* SPDX-License-Identifier: Apache-2.0 */
// Compares wide.c with the machine's own arithmetic on 128 bits.
#define WIDE(name) own_##name
#include "wide.c"
#include <stdio.h>

int main(void) {
    u128 seed = 1;
    long differ = 0;
    for (long k = 0; k < 2000000; k++) {
        seed = seed * (((u128)0x2360ed051fc65da4 << 64) | 0x4385df649fccf645) + 1442695040888963407;
        u128 x = k % 3 ? seed : seed >> (k % 128), y = seed * 6364136223846793005;
        int by = (int)(k % 128);
        if (k % 5 == 0) y = y << (k % 100);
        if (own_multi3(x, y) != x * y) differ++;
        if (own_ashlti3(x, by) != x << by) differ++;
        if (own_lshrti3(x, by) != x >> by) differ++;
        if (own_ashrti3(x, by) != (u128)((__int128)x >> by)) differ++;
        __int128 divisor = (__int128)y >> by;
        if (divisor != 0 && divisor != -1 && own_divti3(x, (u128)divisor) != (u128)((__int128)x / divisor)) differ++;
    }
    printf("wide: %ld differ\n", differ);
    return differ != 0;
}
