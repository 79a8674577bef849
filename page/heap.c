/* SPDX-License-Identifier: Apache-2.0 */
// A heap for wasm64: blocks in classes of sizes (multiples of 16 up to 1 KiB, then four steps a doubling), a list of free ones for each, and
// memory that grows. Before each block there are 16 bytes with its class; each is aligned to 16, as rattle asks at most.
typedef unsigned long u64;
typedef unsigned char u8;

extern u8 __heap_base;
static u64 at, end;
static void *free_blocks[256];

static u64 room_of(u64 class) {
    if (class < 64) return (class + 1) * 16;
    u64 base = 1024ul << ((class - 64) / 4);
    return base + base / 4 * ((class - 64) % 4 + 1);
}

static u64 class_of(u64 bytes) {
    if (bytes <= 1024) return bytes ? (bytes - 1) / 16 : 0;
    u64 doubling = 63 - (u64)__builtin_clzl(bytes - 1) - 10, base = 1024ul << doubling;
    return 64 + doubling * 4 + (bytes - base - 1) / (base / 4);
}

// Takes so many bytes after the memory that is used; returns null if it can't grow.
static u8 *more(u64 bytes) {
    if (!at) {
        at = ((u64)&__heap_base + 15) & ~15ul;
        end = __builtin_wasm_memory_size(0) << 16;
    }
    if (end - at < bytes) {
        u64 pages = (bytes - (end - at) + 65535) >> 16;
        if (pages < 16) pages = 16;
        if (__builtin_wasm_memory_grow(0, pages) == (u64)-1) return 0;
        end = __builtin_wasm_memory_size(0) << 16;
    }
    at += bytes;
    return (u8 *)(at - bytes);
}

void *malloc(u64 bytes) {
    if (bytes > 1ul << 36) return 0;
    u64 class = class_of(bytes);
    u8 *block = free_blocks[class];
    if (block) {
        free_blocks[class] = *(void **)block;
        return block;
    }
    block = more(room_of(class) + 16);
    if (!block) return 0;
    *(u64 *)block = class;
    return block + 16;
}

void free(void *block) {
    if (!block) return;
    u64 class = *(u64 *)((u8 *)block - 16);
    *(void **)block = free_blocks[class];
    free_blocks[class] = block;
}

void *memcpy(void *to, const void *from, u64 bytes);

void *realloc(void *block, u64 bytes) {
    if (!block) return malloc(bytes);
    u64 had = room_of(*(u64 *)((u8 *)block - 16));
    if (bytes <= had && bytes > had / 4) return block;
    void *other = malloc(bytes);
    if (!other) return 0;
    memcpy(other, block, bytes < had ? bytes : had);
    free(block);
    return other;
}

// For the page's script.
u64 yuglemit_room(u64 bytes) { return (u64)malloc(bytes); }
void yuglemit_free(u64 block) { free((void *)block); }

// There is no C library.
typedef u64 __attribute__((aligned(1), may_alias)) anywhere;
void *memcpy(void *to, const void *from, u64 bytes) {
    u8 *a = to;
    const u8 *b = from;
    for (; bytes >= 8; bytes -= 8, a += 8, b += 8) *(anywhere *)a = *(const anywhere *)b;
    while (bytes--) *a++ = *b++;
    return to;
}
void *memmove(void *to, const void *from, u64 bytes) {
    u8 *a = to;
    const u8 *b = from;
    if (a <= b || a >= b + bytes) return memcpy(to, from, bytes);
    while (bytes--) a[bytes] = b[bytes];
    return to;
}
void *memset(void *to, int byte, u64 bytes) {
    u8 *a = to;
    while (bytes--) *a++ = (u8)byte;
    return to;
}
int memcmp(const void *one, const void *other, u64 bytes) {
    const u8 *a = one, *b = other;
    for (; bytes--; a++, b++)
        if (*a != *b) return *a - *b;
    return 0;
}
int bcmp(const void *one, const void *other, u64 bytes) { return memcmp(one, other, bytes); }
