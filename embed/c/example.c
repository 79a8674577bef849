/* SPDX-License-Identifier: Apache-2.0 */
/* Like the command tw, by the library: takes tw's arguments, reads standard input if tw would, ends with its status. With `verify` it reads a
 * program's bytes. TIMES=n in the environment makes n calls, and prints on standard error how long one takes. */
#define _POSIX_C_SOURCE 199309L /* clock_gettime */
#include "../yuglemit.h"
#include <inttypes.h>
#include <stdio.h>
#include <stdlib.h>
#include <string.h>
#include <time.h>

/* Bytes that grow. */
typedef struct bytes {
    uint8_t *at;
    size_t length, room;
} bytes;

static void no_memory(void) {
    fputs("memory\n", stderr);
    exit(5);
}

static void need(bytes *b, size_t room) {
    if (b->at && room <= b->room) return;
    b->room = room > 2 * b->room ? room : 2 * b->room;
    b->at = (uint8_t *)realloc(b->at, b->room ? b->room : 1);
    if (!b->at) no_memory();
}

static void add(bytes *b, const void *from, size_t length) {
    need(b, b->length + length);
    if (length) memcpy(b->at + b->length, from, length);
    b->length += length;
}

static void read_all(FILE *file, bytes *all) {
    uint8_t part[65536];
    for (size_t got; (got = fread(part, 1, sizeof part, file)) > 0;) add(all, part, got);
}

/* One session: the text comes to `text`, and the status is returned. */
static int session(const bytes *words, const bytes *input, bytes *text) {
    yuglemit_text output = {NULL};
    int status = yuglemit_session_text(words->at, words->length, input->at, input->length, &output);
    text->length = 0;
    if (status == 5 || yuglemit_text_length(&output, &text->length)) no_memory();
    need(text, text->length);
    yuglemit_text_copy(&output, text->at, text->length);
    yuglemit_text_free(output);
    return status;
}

/* Whether tw reads an input with these arguments: an empty one is refused by status 1 or comes to an empty text, and nothing else does. */
static int is_read(const bytes *words, const bytes *empty, bytes *text) {
    return session(words, empty, text) == 1 || text->length == 0;
}

static void tell_verdict(const yuglemit_verdict *v) {
    switch ((char)v->letter) {
    case 0: printf("accepted\nneeds engines %" PRIu64 " workers %" PRIu64 "\n", v->engines, v->workers); break;
    case 'F': printf("refused F%02" PRIu64 " at byte %" PRIu64 "\n", v->number, v->place); break;
    case 'V': printf("refused V%02" PRIu64 " in procedure %" PRIu64 " at place %" PRIu64 "\n", v->number, v->procedure, v->place); break;
    default: puts("memory");
    }
}

static double seconds(void) {
    struct timespec now;
    clock_gettime(CLOCK_MONOTONIC, &now);
    return (double)now.tv_sec + (double)now.tv_nsec / 1e9;
}

int main(int count, char **word) {
    bytes words = {NULL, 0, 0}, text = {NULL, 0, 0}, input = {NULL, 0, 0};
    yuglemit_verdict verdict = YUGLEMIT_VERDICT;
    int status = 0, verifies = count == 2 && !strcmp(word[1], "verify");
    long times = getenv("TIMES") ? atol(getenv("TIMES")) : 1;
    need(&words, 1);
    need(&input, 1);
    for (int i = 1; i < count; i++) add(&words, word[i], strlen(word[i]) + 1);
    if (verifies || is_read(&words, &input, &text)) read_all(stdin, &input);
    double from = seconds();
    for (long k = 0; k < times; k++) {
        if (verifies) yuglemit_verify(input.at, input.length, &verdict);
        else status = session(&words, &input, &text);
    }
    if (times > 1) fprintf(stderr, "%.2f microseconds a call\n", (seconds() - from) / (double)times * 1e6);
    if (verifies) {
        tell_verdict(&verdict);
        status = verdict.letter ? verdict.letter == 'M' ? 5 : 1 : 0;
    } else {
        fwrite(text.at, 1, text.length, stdout);
    }
    free(words.at);
    free(text.at);
    free(input.at);
    return status;
}
