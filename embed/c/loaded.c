/* SPDX-License-Identifier: Apache-2.0 */
/* Loads a program once and runs it: `loaded INPUT.. < PROGRAM`, where PROGRAM is a program as bytes, hex text or assembly text, and an INPUT is
 * int:7, text:abc, ints:1=7,5=-3, texts:1="a",2="b", tints:"a"=1 or ttexts:"a"="b", without escapes in the quotes. Prints the report's outputs as `tw run` does, and ends with
 * its status: 2 if an INPUT has another form. TIMES=n in the environment makes n runs, and prints how many a second. */
#define _POSIX_C_SOURCE 199309L /* clock_gettime */
#include "../yuglemit.h"
#include <errno.h>
#include <inttypes.h>
#include <stdio.h>
#include <stdlib.h>
#include <string.h>
#include <time.h>

enum {
    LONGEST_TEXT = 4096,
    MALFORMED = -1 /* a word of the command line is no input; no code of the library is this */
};

/* Prints why a program isn't loaded: the error's code, and where it is. */
static int fail_load(const yuglemit_verdict *v) {
    printf("refused %c%02d procedure %zu place %zu line %zu word %zu column %zu\n", (char)v->letter, (int)v->number, (size_t)v->procedure,
           (size_t)v->place, (size_t)v->line, (size_t)v->word, (size_t)v->column);
    return v->letter == YUGLEMIT_LETTER_MEMORY ? 5 : 1;
}

/* Prints which call failed, and the code's name and what it says. */
static int fail(const char *what, uint8_t code) {
    printf("refused %s %s: %s\n", what, yuglemit_code_name(code), yuglemit_code_text(code));
    return code == YUGLEMIT_NO_MEMORY ? 5 : 1;
}

static size_t read_all(uint8_t *at, size_t room) {
    return fread(at, 1, room, stdin);
}

/* A text between quotes in a word of the command line. */
typedef struct quoted { const uint8_t *at; size_t length; } quoted;

/* The three that follow read what a word begins with, and move it to the rest. They return whether the word begins so. */
static int read_quoted(const char **word, quoted *text) {
    const char *begin = *word + 1, *end = **word == '"' ? strchr(begin, '"') : NULL;
    if (!end) return 0;
    text->at = (const uint8_t *)begin;
    text->length = (size_t)(end - begin);
    *word = end + 1;
    return 1;
}

/* Reads an integer of 64 bits: an optional `-` and digits. */
static int read_number(const char **word, int64_t *number) {
    const char *digits = *word + (**word == '-');
    char *end;
    if (*digits < '0' || *digits > '9') return 0;
    errno = 0;
    *number = strtoll(*word, &end, 10);
    *word = end;
    return errno != ERANGE;
}

static int read_sign(const char **word, char sign) {
    if (**word != sign) return 0;
    ++*word;
    return 1;
}

/* Adds a member to a container of these types: subscript, `=`, value. */
static int add_member(yuglemit_container *container, char by, char scalar, const char **word) {
    quoted name = {NULL, 0}, text = {NULL, 0};
    int64_t subscript = 0, number = 0;
    if (!(by == 't' ? read_quoted(word, &name) : read_number(word, &subscript)) || !read_sign(word, '=')) return MALFORMED;
    if (!(scalar == 't' ? read_quoted(word, &text) : read_number(word, &number))) return MALFORMED;
    if (by == 't' && scalar == 't') return yuglemit_member_text_by_text(container, name.at, name.length, text.at, text.length);
    if (by == 't') return yuglemit_member_int_by_text(container, name.at, name.length, number);
    if (scalar == 't') return yuglemit_member_text(container, subscript, text.at, text.length);
    return yuglemit_member_int(container, subscript, number);
}

static int add_container(yuglemit_inputs *inputs, char by, char scalar, const char *members) {
    yuglemit_container container = {NULL};
    int code = yuglemit_container_new(&container, (uint8_t)by, (uint8_t)scalar);
    if (*members && code == 0) {
        do code = add_member(&container, by, scalar, &members);
        while (code == 0 && read_sign(&members, ','));
    }
    if (*members && code == 0) code = MALFORMED;
    if (code == 0) code = yuglemit_input_container(inputs, &container);
    yuglemit_container_free(container);
    return code;
}

static int add_int(yuglemit_inputs *inputs, const char *word) {
    int64_t number;
    if (!read_number(&word, &number) || *word) return MALFORMED;
    return yuglemit_input_int(inputs, number);
}

/* Returns the rest of a word that begins so, or NULL. */
static const char *after(const char *word, const char *front) {
    size_t length = strlen(front);
    return strncmp(word, front, length) ? NULL : word + length;
}

static int add_input(yuglemit_inputs *inputs, const char *word) {
    const char *rest;
    if ((rest = after(word, "int:")) != NULL) return add_int(inputs, rest);
    if ((rest = after(word, "text:")) != NULL) return yuglemit_input_text(inputs, (const uint8_t *)rest, strlen(rest));
    if ((rest = after(word, "ints:")) != NULL) return add_container(inputs, 'i', 'i', rest);
    if ((rest = after(word, "texts:")) != NULL) return add_container(inputs, 'i', 't', rest);
    if ((rest = after(word, "tints:")) != NULL) return add_container(inputs, 't', 'i', rest);
    if ((rest = after(word, "ttexts:")) != NULL) return add_container(inputs, 't', 't', rest);
    return MALFORMED;
}

static void print_byte(uint8_t byte) {
    if (byte == '"' || byte == '\\') printf("\\%c", byte);
    else if (byte == '\n') fputs("\\n", stdout);
    else if (byte < 32 || byte == 127) printf("\\x%02x", byte);
    else putchar(byte);
}

static void print_text(const uint8_t *text, size_t length) {
    putchar('"');
    for (size_t k = 0; k < length; k++) print_byte(text[k]);
    putchar('"');
}

static const char *type_name(uint8_t letter) {
    return letter == 'i' ? "int" : letter == 's' ? "sum" : "text";
}

static void print_item(const yuglemit_item *item, const uint8_t *text) {
    switch (item->kind) {
    case 'i': printf("int %" PRId64, item->number); break;
    case 't': fputs("text ", stdout); print_text(text, item->length); break;
    case 'u': fputs("unset", stdout); break;
    case 'c':
    case 'm':
        printf("%s%s %s %s %zu", item->by == 't' ? "t" : "", item->kind == 'm' ? "map" : "cont", type_name(item->scalar),
               item->closed ? "closed" : "open", item->length);
        break;
    default: fputs("gone", stdout);
    }
}

static void print_member(const yuglemit_report *report, size_t output, size_t place) {
    yuglemit_member member;
    uint8_t text[LONGEST_TEXT];
    if (yuglemit_report_member(report, output, place, &member)) return;
    fputs("  at ", stdout);
    if (member.subscript.kind == 'i') printf("%" PRId64, member.subscript.number);
    else if (yuglemit_report_subscript_text(report, output, place, text, sizeof text) == YUGLEMIT_DONE) print_text(text, member.subscript.length);
    putchar(' ');
    yuglemit_report_member_text(report, output, place, text, sizeof text);
    print_item(&member.value, text);
    putchar('\n');
}

static void print_output(const yuglemit_report *report, size_t output) {
    yuglemit_item item;
    uint8_t text[LONGEST_TEXT];
    if (yuglemit_report_output(report, output, &item)) return;
    yuglemit_report_text(report, output, text, sizeof text);
    printf("out %zu ", output);
    print_item(&item, text);
    putchar('\n');
    for (size_t place = 0; (item.kind == 'c' || item.kind == 'm') && place < item.length; place++) print_member(report, output, place);
}

static int print_report(const yuglemit_report *report) {
    yuglemit_ending ending = YUGLEMIT_ENDING;
    if (yuglemit_report_ending(report, &ending)) return 1;
    for (size_t output = 0; output < ending.outputs; output++) print_output(report, output);
    return (int)ending.status;
}

static double seconds(void) {
    struct timespec t;
    clock_gettime(CLOCK_PROCESS_CPUTIME_ID, &t);
    return (double)t.tv_sec + (double)t.tv_nsec * 1e-9;
}

/* Runs the program as often as TIMES says, and returns the code of the last run. */
static uint8_t run(const yuglemit_program *program, const yuglemit_inputs *inputs, yuglemit_report *report) {
    const char *times = getenv("TIMES");
    long count = times ? strtol(times, NULL, 10) : 1;
    yuglemit_options options = YUGLEMIT_OPTIONS;
    yuglemit_stop no_stop = {NULL};
    double begun = seconds();
    uint8_t code = 0;
    for (long k = 0; k < count && code == 0; k++) code = yuglemit_run(program, inputs, &options, &no_stop, report);
    if (times) fprintf(stderr, "%.0f runs a second\n", (double)count / (seconds() - begun));
    return code;
}

/* Runs the program with these inputs, and prints what comes of it. */
static int answer(const yuglemit_program *program, int count, char **words) {
    yuglemit_inputs inputs = {NULL};
    yuglemit_report report = {NULL};
    int code = 0, status, k = 0;
    while (k < count && (code = add_input(&inputs, words[k])) == 0) k++;
    if (code == MALFORMED) {
        printf("input word %d refused\n", k + 1);
        status = YUGLEMIT_STATUS_ARGUMENTS;
    } else if (code) status = fail("input", (uint8_t)code);
    else if ((code = run(program, &inputs, &report)) != 0) status = fail("run", (uint8_t)code);
    else status = print_report(&report);
    yuglemit_inputs_free(inputs);
    yuglemit_report_free(report);
    return status;
}

int main(int argc, char **argv) {
    static uint8_t bytes[1 << 20];
    yuglemit_program program = {NULL};
    yuglemit_verdict verdict = YUGLEMIT_VERDICT;
    uint8_t code = yuglemit_load_source(bytes, read_all(bytes, sizeof bytes), YUGLEMIT_ANY_FORMAT, &program, &verdict);
    int status = code ? fail_load(&verdict) : answer(&program, argc - 1, argv + 1);
    yuglemit_program_free(program);
    return status;
}
