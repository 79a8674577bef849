/* Measures how much stack calls of the library take: makes them in a thread, and prints how many bytes below the caller's frame were written.
 * Fails if they are more than the 64 KiB that yuglemit.h asks for. The arguments are those of tw, for which the session is kept in a handle too,
 * and standard input is the input. The stack ends at a page that can't be touched.
 * ./dev embedded builds and runs it. */
#define _GNU_SOURCE /* MAP_ANONYMOUS, MAP_STACK */
#define main example
#include "../../embed/c/example.c"
#undef main
#include <pthread.h>
#include <sys/mman.h>

enum { LEFT = 65536, STACK = 2 * LEFT, GUARD = 4096, BLANK = 0xA5 };

/* A call's arguments, each ended by a line feed or by a NUL, and its input. */
static bytes lines, words, input;
static uintptr_t frame; /* an address in the caller's frame */

static void *made(void *unused) {
    uint8_t status, room[1];
    yuglemit_text output = {NULL};
    frame = (uintptr_t)&output;
    yuglemit_session(lines.at, lines.length, input.at, input.length, room, 0, &status);
    yuglemit_session_text(words.at, words.length, input.at, input.length, &output);
    yuglemit_text_free(output);
    return unused;
}

int main(int count, char **word) {
    pthread_t thread;
    pthread_attr_t attributes;
    size_t untouched = 0, used;
    uint8_t *stack = mmap(NULL, STACK + GUARD, PROT_READ | PROT_WRITE, MAP_PRIVATE | MAP_ANONYMOUS | MAP_STACK, -1, 0);
    if (stack == MAP_FAILED || mprotect(stack, GUARD, PROT_NONE)) return 5;
    memset(stack + GUARD, BLANK, STACK);
    need(&lines, 1);
    need(&words, 1);
    need(&input, 1);
    for (int i = 1; i < count; i++) {
        add(&words, word[i], strlen(word[i]) + 1);
        add(&lines, word[i], strlen(word[i]));
        add(&lines, "\n", 1);
    }
    read_all(stdin, &input);
    pthread_attr_init(&attributes);
    if (pthread_attr_setstack(&attributes, stack + GUARD, STACK) || pthread_create(&thread, &attributes, made, NULL) || pthread_join(thread, NULL)) return 5;
    while (untouched < STACK && stack[GUARD + untouched] == BLANK) untouched++;
    used = (size_t)(frame - (uintptr_t)(stack + GUARD)) - untouched;
    printf("%zu\n", used);
    return used > LEFT ? 5 : 0;
}
