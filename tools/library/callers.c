/* Makes large and hostile calls over handles: `callers PROGRAM [SIZE]`, where PROGRAM holds the bytes of examples/read_number.twn, which takes a text
 * and writes the text of the next number, and SIZE is how many bytes the large sources have, 16 MiB if it isn't given. Refuses each request for
 * memory in turn, too. It is this file with loaded.c, whose calls are made with little stack. Links with
 * `-Wl,--wrap=malloc,--wrap=realloc,--wrap=free`, so that it counts what the library asks for and frees. Prints each check that fails, and their
 * number; ends with status 1 if one did. ./dev callers and ./dev loaded compile and run it. */
#include "callers.h"
#include <stdio.h>
#include <stdlib.h>
#include <string.h>

enum { MANY = 900000, LIMIT = 10000, MOST_REQUESTS = 100000, ROOM = 8 };

uint8_t program_bytes[1 << 16];
size_t program_length;
static size_t large_length = 16 << 20;
static int checks, failures;

void check(int holds, const char *what) {
    checks++;
    if (holds) return;
    failures++;
    printf("FAILS %s\n", what);
}

/* ---- Memory that is counted, and refused */

void *__real_malloc(size_t size);
void *__real_realloc(void *old, size_t size);
void __real_free(void *old);

static long held;                 /* blocks that aren't freed yet, in all threads */
static unsigned long requests, refused; /* the number of requests so far, and that of the one that is refused; 0: none */

static int is_refused(void) { return __atomic_add_fetch(&requests, 1, __ATOMIC_RELAXED) == refused; }

static void hold(int blocks) { __atomic_add_fetch(&held, blocks, __ATOMIC_RELAXED); }

void *__wrap_malloc(size_t size) {
    void *block = is_refused() ? NULL : __real_malloc(size);
    hold(block != NULL);
    return block;
}

void *__wrap_realloc(void *old, size_t size) {
    void *block = is_refused() ? NULL : __real_realloc(old, size);
    hold(!old && block);
    return block;
}

void __wrap_free(void *old) {
    hold(-(old != NULL));
    __real_free(old);
}

/* ---- All handles of a run */

void free_all(handles *all) {
    yuglemit_program_free(all->program);
    yuglemit_program_free(all->other);
    yuglemit_inputs_free(all->inputs);
    yuglemit_container_free(all->container);
    yuglemit_stop_free(all->stop);
    yuglemit_report_free(all->report);
    yuglemit_text_free(all->text);
    memset(all, 0, sizeof *all);
}

static uint8_t run(handles *all) {
    yuglemit_options options = YUGLEMIT_OPTIONS;
    options.limit = LIMIT;
    options.order = 1;
    yuglemit_caps caps = YUGLEMIT_CAPS;
    caps.tasks = UINT64_MAX - 1;
    return yuglemit_run_within(&all->program, &all->inputs, &options, &caps, &all->stop, &all->report);
}

static uint8_t load(handles *all, const uint8_t *source, size_t length, uint8_t format) {
    yuglemit_verdict verdict = YUGLEMIT_VERDICT;
    return yuglemit_load_source(source, length, format, &all->program, &verdict);
}

/* ---- Each request for memory is refused in turn */

static int is_memory(uint8_t code) { return code == 0 || code == YUGLEMIT_NO_MEMORY; }

/* Makes a session. Returns whether the handle holds its text, or memory ran out and the handle is as it was. */
static int is_kept(const uint8_t *words, size_t words_length, const uint8_t *input, size_t input_length, yuglemit_text *output) {
    void *was = output->at;
    uint8_t status = yuglemit_session_text(words, words_length, input, input_length, output);
    return status == 5 ? output->at == was : output->at && output->at != was;
}

/* Makes every kind of handle, as far as memory allows. Returns whether each call was done or said that memory ran out. */
static int make_all(handles *all) {
    static const uint8_t digits[] = "41", words[] = "run\0--text", source[] = "names\nproc control main(w: write int)\nregs n: int\nINT n 7\nSTORE w n\nRET\n";
    handles other = NO_HANDLES;
    yuglemit_ending ending = YUGLEMIT_ENDING;
    yuglemit_bounds bounds = YUGLEMIT_BOUNDS;
    yuglemit_order order = YUGLEMIT_ORDER;
    yuglemit_meter meter = YUGLEMIT_METER;
    int holds = is_memory(load(all, program_bytes, program_length, YUGLEMIT_ANY_FORMAT)) && is_memory(load(&other, source, sizeof source - 1, YUGLEMIT_TEXT));
    holds = holds && is_kept(words, sizeof words, source, sizeof source - 1, &other.text);
    holds = holds && is_memory(yuglemit_source_name(source, sizeof source - 1, 0, &all->text)) && is_memory(yuglemit_stop_new(&all->stop));
    holds = holds && is_memory(yuglemit_container_new(&all->container, 't', 't'));
    if (all->container.at) holds = holds && is_memory(yuglemit_member_text_by_text(&all->container, digits, 2, digits, 2)) && is_memory(yuglemit_input_container(&other.inputs, &all->container));
    static const uint64_t ends[] = {1, 2};
    static const int64_t numbers[] = {4, 1};
    void *was = other.inputs.at;
    holds = holds && is_memory(yuglemit_input_texts(&other.inputs, numbers, digits, 2, ends, 2)) && is_memory(yuglemit_input_ints(&other.inputs, NULL, numbers, 2));
    holds = holds && is_memory(yuglemit_input_ints_by_text(&other.inputs, digits, 2, ends, numbers, 2));
    holds = holds && is_memory(yuglemit_input_texts_by_text(&other.inputs, digits, 2, ends, digits, 2, ends, 2)) && (!was || other.inputs.at == was);
    if (all->program.at) holds = holds && is_memory(yuglemit_program_share(&all->program, &all->other)) && is_memory(yuglemit_program_bounds(&all->program, 0, &bounds));
    if (all->program.at) holds = holds && is_memory(yuglemit_program_order(&all->program, &order));
    if (all->program.at && is_memory(yuglemit_input_text(&all->inputs, digits, 2)) && all->inputs.at) {
        uint8_t code = run(all);
        holds = holds && (is_memory(code) || code == YUGLEMIT_INPUT_COUNT) && (code == 0) == (all->report.at != NULL);
    }
    if (all->report.at) {
        holds = holds && yuglemit_report_ending(&all->report, &ending) == 0 && is_memory(yuglemit_print_report(&all->report, &all->text));
        holds = holds && yuglemit_report_meter(&all->report, &meter) == 0 && meter.events == ending.events;
        holds = holds && yuglemit_report_order(&all->report, &order) == 0;
        holds = holds && is_memory(yuglemit_print_trace(&all->report, &all->text));
        uint8_t code = yuglemit_print_json(&all->report, &all->text);
        holds = holds && (is_memory(code) || (code == YUGLEMIT_NO_END && ending.status == 5));
    }
    free_all(&other);
    return holds;
}

static void check_refused(void) {
    handles all = NO_HANDLES;
    long before = held;
    for (unsigned long number = 1; number <= MOST_REQUESTS; number++) {
        requests = 0, refused = number;
        int holds = make_all(&all);
        unsigned long made = requests;
        refused = 0;
        free_all(&all);
        if (!holds || held != before) printf("request %lu of %lu\n", number, made);
        check(holds, "a refused request is out of memory");
        check(held == before, "nothing is left after a refused request");
        if (made < number) return;
    }
    check(0, "the requests end");
}

/* Refuses each request of a move of a container's members to the inputs. They stay in the container, and the next call moves them. */
static void check_kept_members(void) {
    static const uint8_t source[] = "names\nproc control main(all: closed cont int, out: write int)\nregs n: int\nSIZE n all\nDROPR all\nSTORE out n\nRET\n";
    for (unsigned long number = 1; number <= MOST_REQUESTS; number++) {
        handles all = NO_HANDLES;
        yuglemit_item item;
        check(load(&all, source, sizeof source - 1, YUGLEMIT_TEXT) == 0 && yuglemit_container_new(&all.container, 'i', 'i') == 0, "a container");
        check(yuglemit_member_int(&all.container, 3, 7) == 0 && yuglemit_member_int(&all.container, 4, 7) == 0, "two members");
        requests = 0, refused = number;
        uint8_t code = yuglemit_input_container(&all.inputs, &all.container);
        unsigned long made = requests;
        refused = 0;
        check(code == (made < number ? 0 : YUGLEMIT_NO_MEMORY), "they are moved, or memory ran out");
        check(code == 0 || yuglemit_input_container(&all.inputs, &all.container) == 0, "they are moved then");
        check(run(&all) == 0 && yuglemit_report_output(&all.report, 0, &item) == 0 && item.number == 2, "an input of two members");
        free_all(&all);
        if (made < number) return;
    }
    check(0, "the requests of a move end");
}

/* ---- Members in lists */

/* Runs a program, which reads one member of its input, and frees the inputs. Returns whether its output is this number or this text. */
static int reads(const char *source, yuglemit_inputs *inputs, int64_t number, const char *text) {
    handles all = NO_HANDLES;
    yuglemit_item item;
    uint8_t room[ROOM] = {0};
    all.inputs = *inputs;
    inputs->at = NULL;
    int is_right = load(&all, (const uint8_t *)source, strlen(source), YUGLEMIT_TEXT) == 0 && run(&all) == 0 && yuglemit_report_output(&all.report, 0, &item) == 0;
    if (is_right && item.kind == YUGLEMIT_KIND_TEXT) is_right = yuglemit_report_text(&all.report, 0, room, ROOM - 1) == 0;
    is_right = is_right && item.number == number && strcmp((char *)room, text) == 0;
    free_all(&all);
    return is_right;
}

#define READS(map, of, key, subscript) "version 4\nproc control closed " map " " of " write " of "\nregs " key " " of "\n" subscript "\nMGET v1 d0 v0 +0\nDROPR d0\nSTORE d1 v1\nRET\n"

/* "he", "is" and "" by 5, 7 and 9, or by "a", "b" and "be". */
static const uint8_t texts[] = "heis", names[] = "abbe";
static const uint64_t text_ends[] = {2, 4, 4}, name_ends[] = {1, 2, 4};
static const int64_t numbers[] = {5, 7, 9};

static void check_lists(void) {
    const char *by_int = READS("map", "int", "int", "INT v0 1"), *by_seven = READS("map", "int", "int", "INT v0 7");
    yuglemit_inputs inputs = {NULL};
    check(yuglemit_input_ints(&inputs, NULL, numbers, 3) == 0 && reads(by_int, &inputs, 7, ""), "numbered from 0");
    check(yuglemit_input_ints(&inputs, numbers, numbers, 3) == 0 && reads(by_seven, &inputs, 7, ""), "by their subscripts");
    check(yuglemit_input_texts(&inputs, NULL, texts, 4, text_ends, 3) == 0 && reads(READS("map", "text", "int", "INT v0 0"), &inputs, 0, "he"), "texts from 0");
    check(yuglemit_input_texts(&inputs, numbers, texts, 4, text_ends, 3) == 0 && reads(READS("map", "text", "int", "INT v0 9"), &inputs, 0, ""), "an empty text");
    check(yuglemit_input_ints_by_text(&inputs, names, 4, name_ends, numbers, 3) == 0 && reads(READS("tmap", "int", "text", "TEXT v0 \"be\""), &inputs, 9, ""), "by text");
    check(yuglemit_input_texts_by_text(&inputs, names, 4, name_ends, texts, 4, text_ends, 3) == 0 && reads(READS("tmap", "text", "text", "TEXT v0 \"b\""), &inputs, 0, "is"), "texts by text");
    check(yuglemit_input_ints(&inputs, NULL, NULL, 0) == 0 && yuglemit_input_texts(&inputs, NULL, NULL, 0, NULL, 0) == 0, "no members");
    check(yuglemit_input_ints_by_text(&inputs, NULL, 0, NULL, NULL, 0) == 0 && yuglemit_input_texts_by_text(&inputs, NULL, 0, NULL, NULL, 0, NULL, 0) == 0 && inputs.at, "by no text");
    yuglemit_inputs_free(inputs);
}

/* Lists that don't fit: nothing is appended. */
static void check_wrong_lists(void) {
    static const uint64_t falling[] = {2, 1, 4}, past[] = {2, 5, 4}, most[] = {2, UINT64_MAX, 4}, within[] = {1, 2, 3}, cut[] = {1, 3};
    static const uint64_t *const wrong[] = {falling, past, most, within, NULL};
    yuglemit_inputs inputs = {NULL};
    for (int k = 0; k < 5; k++) {
        check(yuglemit_input_texts(&inputs, NULL, texts, 4, wrong[k], 3) == YUGLEMIT_NO_LIST, "ends of texts");
        check(yuglemit_input_ints_by_text(&inputs, names, 4, wrong[k], numbers, 3) == YUGLEMIT_NO_LIST, "ends of subscripts");
        check(yuglemit_input_texts_by_text(&inputs, names, 4, name_ends, texts, 4, wrong[k], 3) == YUGLEMIT_NO_LIST, "ends beside right ones");
        check(yuglemit_input_texts_by_text(&inputs, names, 4, wrong[k], texts, 4, text_ends, 3) == YUGLEMIT_NO_LIST, "right ends beside them");
    }
    check(yuglemit_input_ints(&inputs, numbers, NULL, 3) == YUGLEMIT_NO_LIST && yuglemit_input_texts(&inputs, NULL, NULL, 4, text_ends, 3) == YUGLEMIT_NO_LIST, "no list");
    check(yuglemit_input_ints_by_text(&inputs, NULL, 4, name_ends, numbers, 3) == YUGLEMIT_NO_LIST && yuglemit_input_ints_by_text(&inputs, names, 4, name_ends, NULL, 3) == YUGLEMIT_NO_LIST, "no list of them");
    check(yuglemit_input_texts(&inputs, NULL, texts, 4, text_ends, 1) == YUGLEMIT_NO_LIST && yuglemit_input_texts(&inputs, NULL, texts, 4, NULL, 0) == YUGLEMIT_NO_LIST, "too few texts");
    check(yuglemit_raw_input_ints(&inputs, numbers, 2, numbers, 3) == YUGLEMIT_NO_LIST && yuglemit_raw_input_ints(&inputs, numbers, 3, numbers, 2) == YUGLEMIT_NO_LIST, "counts");
    check(yuglemit_raw_input_texts(&inputs, numbers, 2, texts, 4, text_ends, 3) == YUGLEMIT_NO_LIST && yuglemit_raw_input_ints_by_text(&inputs, names, 4, name_ends, 3, numbers, 2) == YUGLEMIT_NO_LIST, "of texts");
    check(yuglemit_raw_input_texts_by_text(&inputs, names, 4, name_ends, 3, texts, 4, text_ends, 2) == YUGLEMIT_NO_LIST, "of both");
    check(yuglemit_input_texts(&inputs, NULL, (const uint8_t *)"\xc3\xa9s", 3, cut, 2) == YUGLEMIT_NO_UTF8, "an end within a character");
    check(yuglemit_input_ints(NULL, NULL, numbers, 3) == YUGLEMIT_NO_INPUTS && yuglemit_input_texts(NULL, NULL, texts, 4, text_ends, 3) == YUGLEMIT_NO_INPUTS, "no handle");
    check(yuglemit_input_ints_by_text(NULL, names, 4, name_ends, numbers, 3) == YUGLEMIT_NO_INPUTS && yuglemit_input_texts_by_text(NULL, names, 4, name_ends, texts, 4, text_ends, 3) == YUGLEMIT_NO_INPUTS, "of texts");
    check(!inputs.at, "nothing is appended");
}

/* ---- Runs that don't end by themselves */

/* Outputs of an unfinished run are read if the options ask for it. Those of six numbers are of a caller that read them before there was that option. */
static void check_unfinished(void) {
    static const char source[] = "proc control write int\nregs int\nPUT 0 0 any 0\nRET\n";
    handles all = NO_HANDLES;
    yuglemit_options options = YUGLEMIT_OPTIONS;
    yuglemit_item item;
    options.limit = 1;
    check(load(&all, (const uint8_t *)source, strlen(source), YUGLEMIT_TEXT) == 0, "a program");
    for (int row = 0; row < 3; row++) {
        if (row == 1) options.partial = 1;
        if (row == 2) options.size -= sizeof options.partial, options.partial = 0;
        check(yuglemit_run(&all.program, &all.inputs, &options, &all.stop, &all.report) == 0, "a run of one event");
        check(yuglemit_report_output(&all.report, 0, &item) == (row ? 0 : YUGLEMIT_UNFINISHED), "its output");
        check(yuglemit_print_report(&all.report, &all.text) == 0 && yuglemit_print_json(&all.report, &all.text) == 0, "it is printed");
    }
    free_all(&all);
}

/* Why a program is refused, in words: lines of a check if the error is in a line, else what the code means. */
static void check_told(void) {
    static const struct { const char *source, *begin; uint64_t most; } rows[] = {
        {"proc control write int\nregs int\nINT v0 7\nRET\n", "refused V10", 1000}, {"TWB", "F03: ", 1000}, {"5", "H01: ", 1000}, {"version 4\nproc control\nregs\nRET\n", "H02: ", 9}};
    for (size_t k = 0; k < sizeof rows / sizeof *rows; k++) {
        handles all = NO_HANDLES;
        yuglemit_verdict verdict = YUGLEMIT_VERDICT;
        yuglemit_load_options options = YUGLEMIT_LOAD_OPTIONS;
        char room[2000] = {0};
        options.most_bytes = rows[k].most;
        uint8_t code = yuglemit_load_told((const uint8_t *)rows[k].source, strlen(rows[k].source), YUGLEMIT_ANY_FORMAT, &options, &all.program, &verdict, &all.text);
        check(code == YUGLEMIT_REJECTED && !all.program.at && yuglemit_text_copy(&all.text, (uint8_t *)room, sizeof room - 1) == 0, "a refused program has words");
        check(!strncmp(room, rows[k].begin, strlen(rows[k].begin)), rows[k].begin);
        options.most_bytes = 1000;
        code = yuglemit_load_told((const uint8_t *)rows[3].source, strlen(rows[3].source), YUGLEMIT_TEXT, &options, &all.program, &verdict, &all.text);
        check(code == 0 && all.program.at, "an accepted one has none");
        free_all(&all);
    }
}

/* ---- Lengths of 0, with a pointer and without */

static void check_empty(void) {
    static uint8_t none[1] = {9};
    uint8_t *pointers[] = {none, NULL};
    for (int k = 0; k < 2; k++) {
        handles all = NO_HANDLES;
        uint8_t *p = pointers[k], status = 9;
        static const uint8_t formats[] = {YUGLEMIT_ANY_FORMAT, YUGLEMIT_BYTES, YUGLEMIT_HEX, YUGLEMIT_TEXT, 'x'};
        for (size_t f = 0; f < sizeof formats; f++) check(load(&all, p, 0, formats[f]) != 0 && !all.program.at, "no source");
        check(yuglemit_session(p, 0, p, 0, p, 0, &status) > 0 && status == 2, "a session without words");
        check(yuglemit_session_text(p, 0, p, 0, &all.text) == 2 && all.text.at, "and its text");
        check(yuglemit_input_text(&all.inputs, p, 0) == 0 && all.inputs.at, "an empty text");
        check(yuglemit_container_new(&all.container, 't', 't') == 0 && yuglemit_member_text_by_text(&all.container, p, 0, p, 0) == 0, "an empty subscript");
        check(yuglemit_source_name(p, 0, 0, &all.text) == 0 && all.text.at, "the name in no source");
        check(yuglemit_text_copy(&all.text, p, 0) == 0 && none[0] == 9, "an empty text is copied");
        size_t place = 9;
        check(yuglemit_report_find_text(&all.report, 0, p, 0, &place) == YUGLEMIT_NO_REPORT && place == 9, "an empty subscript in no report");
        check(yuglemit_unfit_input(&all.program, &all.inputs, &place) == YUGLEMIT_NO_PROGRAM && place == 9, "an empty text for no program");
        free_all(&all);
    }
}

/* ---- Many inputs, many members, long texts */

static void check_many(void) {
    handles all = NO_HANDLES;
    check(load(&all, program_bytes, program_length, YUGLEMIT_BYTES) == 0, "the program");
    int wrong = 0;
    for (int k = 0; k < MANY; k++) wrong += yuglemit_input_int(&all.inputs, k) != 0;
    check(wrong == 0 && run(&all) == YUGLEMIT_INPUT_COUNT && !all.report.at, "O01: 900,000 inputs");
    yuglemit_inputs_free(all.inputs);
    all.inputs.at = NULL;
    check(yuglemit_container_new(&all.container, 'i', 'i') == 0, "a container");
    for (int k = 0; k < MANY; k++) wrong += yuglemit_member_int(&all.container, k, -k) != 0;
    check(wrong == 0 && yuglemit_input_container(&all.inputs, &all.container) == 0, "900,000 members");
    check(run(&all) == YUGLEMIT_INPUT_TYPE && !all.report.at, "O02: they are no text");
    size_t index = 9;
    check(yuglemit_unfit_input(&all.program, &all.inputs, &index) == 0 && index == 0, "they are the first that doesn't fit");
    free_all(&all);
}

static void check_long_text(const uint8_t *text, size_t length) {
    handles all = NO_HANDLES;
    check(load(&all, program_bytes, program_length, YUGLEMIT_BYTES) == 0, "the program");
    check(yuglemit_input_text(&all.inputs, text, length) == 0 && run(&all) == YUGLEMIT_INPUT_TYPE && !all.report.at, "O02: a text that is too long");
    check(yuglemit_container_new(&all.container, 't', 't') == 0 && yuglemit_member_text_by_text(&all.container, text, length, text, length) == 0, "a long member");
    free_all(&all);
}

/* ---- Large sources of each shape */

static void check_source(const uint8_t *source, size_t length, const char *shape) {
    static const uint8_t formats[] = {YUGLEMIT_ANY_FORMAT, YUGLEMIT_BYTES, YUGLEMIT_HEX, YUGLEMIT_TEXT};
    handles all = NO_HANDLES;
    yuglemit_verdict verdict = YUGLEMIT_VERDICT;
    for (size_t f = 0; f < sizeof formats; f++) check(load(&all, source, length, formats[f]) != 0 && !all.program.at, shape);
    yuglemit_verify(source, length, &verdict);
    check(verdict.letter != 0, shape);
    uint8_t code = yuglemit_source_name(source, length, 3, &all.text);
    check((code == 0) == (all.text.at != NULL) && (code == 0 || code == YUGLEMIT_NO_UTF8), shape);
    free_all(&all);
}

static const char *const shapes[] = {
    "a", "\n", " ", "\t\r\n", "0", "54", "5 ", "(", ";", "\xff", "\xc3\xa9", "\xed\xa0\x80", "proc control\n", "proc leaf x(a: val int)\nregs\nRET\n",
    "names\n", "const a 7\n", "REPEAT 2\n", "END\n", "cont ", "INT v0 7 ", "label:\n", "TWB\x01", "545742", "-9", "\"",
};

static void fill(uint8_t *room, size_t length, const char *shape) {
    size_t one = strlen(shape);
    for (size_t k = 0; k < length; k++) room[k] = (uint8_t)shape[k % one];
}

static void check_large(void) {
    uint8_t *room = __real_malloc(large_length);
    if (!room) {
        check(0, "memory for the large sources");
        return;
    }
    for (size_t k = 0; k < sizeof shapes / sizeof *shapes; k++) {
        fill(room, large_length, shapes[k]);
        check_source(room, large_length, shapes[k]);
    }
    memset(room, 0, large_length);
    check_source(room, large_length, "zeros");
    fill(room, large_length, "a");
    check_long_text(room, large_length);
    __real_free(room);
}

/* ---- Each call with each kind of handle, and each layout. The rest of what a call takes is right. */

enum { EMPTY, OF_PROGRAM, OF_INPUTS, OF_CONTAINER, OF_STOP, OF_REPORT, OF_TEXT, KINDS };

static uint8_t run_with(yuglemit_program *program, const yuglemit_inputs *inputs, const yuglemit_stop *stop) {
    yuglemit_options options = YUGLEMIT_OPTIONS;
    yuglemit_report report = {NULL};
    uint8_t code = yuglemit_run(program, inputs, &options, stop, &report);
    yuglemit_report_free(report);
    return code;
}

/* A call that takes handles of a kind says so of one of another kind. */
#define TAKES(its, code, call) check(kind == (its) || (call) == (code), #call)
/* One that changes nothing is made with its own kind, too, and says something else of that. */
#define ASKS(its, code, call) check((kind == (its)) != ((call) == (code)), #call)
#define OF_A_PROGRAM(call) ASKS(OF_PROGRAM, YUGLEMIT_NO_PROGRAM, call)
#define OF_A_REPORT(call) ASKS(OF_REPORT, YUGLEMIT_NO_REPORT, call)
#define OF_A_CONTAINER(call) TAKES(OF_CONTAINER, YUGLEMIT_NO_CONTAINER, call)
/* An empty handle has no input. */
#define OF_SOME_INPUTS(call) TAKES(kind == EMPTY ? EMPTY : OF_INPUTS, YUGLEMIT_NO_INPUTS, call)
#define OF_A_FLAG(call) TAKES(OF_STOP, YUGLEMIT_NO_STOP, call)
#define OF_A_TEXT(call) TAKES(OF_TEXT, YUGLEMIT_NO_STRING, call)

static void ask_program_and_report(int kind, yuglemit_program *program, yuglemit_report *report) {
    yuglemit_program other = {NULL};
    yuglemit_inputs none = {NULL};
    yuglemit_stop no_stop = {NULL};
    yuglemit_text text = {NULL};
    yuglemit_bounds bounds = YUGLEMIT_BOUNDS;
    yuglemit_order order = YUGLEMIT_ORDER;
    yuglemit_procedure procedure = YUGLEMIT_PROCEDURE;
    yuglemit_parameter parameter = YUGLEMIT_PARAMETER;
    yuglemit_needs needs = YUGLEMIT_NEEDS;
    yuglemit_ending ending = {sizeof ending, 9, 9, 9};
    yuglemit_meter meter = {sizeof meter, 9, 9, 9, 9, 9, 9};
    yuglemit_item item;
    yuglemit_member member;
    uint8_t room[ROOM] = {0};
    size_t place;
    uint64_t count;
    OF_A_PROGRAM(yuglemit_program_procedures(program, &place));
    OF_A_PROGRAM(yuglemit_program_budget(program, 0, &count));
    OF_A_PROGRAM(yuglemit_program_bounds(program, 1, &bounds));
    OF_A_PROGRAM(yuglemit_program_order(program, &order));
    OF_A_PROGRAM(yuglemit_program_procedure(program, 0, &procedure));
    OF_A_PROGRAM(yuglemit_program_parameter(program, 0, 0, &parameter));
    OF_A_PROGRAM(yuglemit_program_needs(program, &needs));
    OF_A_PROGRAM(yuglemit_program_share(program, &other));
    OF_A_PROGRAM(yuglemit_unfit_input(program, &none, &place));
    OF_A_PROGRAM(run_with(program, &none, &no_stop));
    OF_A_REPORT(yuglemit_report_ending(report, &ending));
    OF_A_REPORT(yuglemit_report_meter(report, &meter));
    OF_A_REPORT(yuglemit_report_instructions(report, &count));
    OF_A_REPORT(yuglemit_report_output(report, 0, &item));
    OF_A_REPORT(yuglemit_report_member(report, 0, 0, &member));
    OF_A_REPORT(yuglemit_report_members(report, 0, 0, &member, 1));
    OF_A_REPORT(yuglemit_report_find_int(report, 0, 0, &place));
    OF_A_REPORT(yuglemit_report_find_text(report, 0, room, 0, &place));
    OF_A_REPORT(yuglemit_report_text(report, 0, room, ROOM));
    OF_A_REPORT(yuglemit_report_member_text(report, 0, 0, room, ROOM));
    OF_A_REPORT(yuglemit_report_subscript_text(report, 0, 0, room, ROOM));
    OF_A_REPORT(yuglemit_print_report(report, &text));
    OF_A_REPORT(yuglemit_print_trace(report, &text));
    OF_A_REPORT(yuglemit_print_json(report, &text));
    OF_A_REPORT(yuglemit_report_order(report, &order));
    check(kind == OF_REPORT || (ending.events == 9 && meter.events == 9), "nothing is written");
    yuglemit_program_free(other);
    yuglemit_text_free(text);
}

static void ask_others(int kind, void *at, handles *all) {
    static const uint8_t one[] = "1";
    yuglemit_container container = {at};
    yuglemit_inputs none = {NULL}, inputs = {at};
    yuglemit_stop no_stop = {NULL}, other = {NULL}, stop = {at};
    yuglemit_text text = {at};
    uint8_t room[ROOM];
    size_t size;
    OF_A_CONTAINER(yuglemit_member_int(&container, 1, 1));
    OF_A_CONTAINER(yuglemit_member_text(&container, 1, one, 1));
    OF_A_CONTAINER(yuglemit_member_int_by_text(&container, one, 1, 1));
    OF_A_CONTAINER(yuglemit_member_text_by_text(&container, one, 1, one, 1));
    OF_A_CONTAINER(yuglemit_input_container(&none, &container));
    OF_SOME_INPUTS(yuglemit_input_int(&inputs, 1));
    OF_SOME_INPUTS(yuglemit_input_text(&inputs, one, 1));
    OF_SOME_INPUTS(yuglemit_input_container(&inputs, &all->container));
    OF_SOME_INPUTS(yuglemit_unfit_input(&all->program, &inputs, &size));
    OF_SOME_INPUTS(run_with(&all->program, &inputs, &no_stop));
    OF_SOME_INPUTS(yuglemit_input_ints(&inputs, NULL, numbers, 3));
    OF_SOME_INPUTS(yuglemit_input_texts(&inputs, NULL, texts, 4, text_ends, 3));
    OF_SOME_INPUTS(yuglemit_input_ints_by_text(&inputs, names, 4, name_ends, numbers, 3));
    OF_SOME_INPUTS(yuglemit_input_texts_by_text(&inputs, names, 4, name_ends, texts, 4, text_ends, 3));
    OF_A_FLAG(yuglemit_stop_raise(&stop));
    OF_A_FLAG(yuglemit_stop_lower(&stop));
    OF_A_FLAG(yuglemit_stop_share(&stop, &other));
    if (kind != EMPTY) OF_A_FLAG(run_with(&all->program, &all->inputs, &stop)); /* a run without a flag has an empty one */
    OF_A_TEXT(yuglemit_text_length(&text, &size));
    OF_A_TEXT(yuglemit_text_copy(&text, room, ROOM));
}

/* Makes each kind of handle. The one of inputs has what the program takes. */
static void make_each(handles *all) {
    check(load(all, program_bytes, program_length, YUGLEMIT_BYTES) == 0 && yuglemit_input_text(&all->inputs, (const uint8_t *)"41", 2) == 0, "a program and inputs");
    check(yuglemit_container_new(&all->container, 'i', 'i') == 0 && yuglemit_stop_new(&all->stop) == 0, "a container and a flag");
    check(run(all) == 0 && yuglemit_print_report(&all->report, &all->text) == 0, "a report and a text");
}

/* Each call with each kind of handle that it doesn't take: they are as they were then. */
void check_pairs(void) {
    handles all = NO_HANDLES;
    size_t size;
    make_each(&all);
    void *const each[KINDS] = {NULL, all.program.at, all.inputs.at, all.container.at, all.stop.at, all.report.at, all.text.at};
    for (int kind = 0; kind < KINDS; kind++) {
        yuglemit_program program = {each[kind]};
        yuglemit_report report = {each[kind]};
        ask_program_and_report(kind, &program, &report);
        ask_others(kind, each[kind], &all);
    }
    check(yuglemit_program_procedures(&all.program, &size) == 0 && yuglemit_text_length(&all.text, &size) == 0, "a program and a text");
    check(yuglemit_member_int(&all.container, 1, 1) == 0 && run_with(&all.program, &all.inputs, &all.stop) == 0, "a container, inputs and a flag");
    check(yuglemit_print_report(&all.report, &all.text) == 0, "a report");
    free_all(&all);
}

/* Layouts and limits, beside their bounds and where a byte or 32 bits would cut them. */
static void check_layouts(void) {
    static const uint64_t counts[] = {0, 1, 2, 3, 4, 5, 15, 16, 17, 255, 256, 257, 65537, 4294967297, UINT64_MAX};
    static const uint64_t limits[] = {0, 1, 10000, 1000000, 1000001, 4294967297, UINT64_MAX};
    enum { COUNTS = sizeof counts / sizeof *counts, LIMITS = sizeof limits / sizeof *limits };
    handles all = NO_HANDLES;
    yuglemit_options options = YUGLEMIT_OPTIONS;
    int wrong = 0;
    make_each(&all);
    for (int k = 0; k < COUNTS * COUNTS * COUNTS * LIMITS; k++) {
        options.engines = counts[k % COUNTS];
        options.servers = counts[k / COUNTS % COUNTS];
        options.workers = counts[k / COUNTS / COUNTS % COUNTS];
        options.limit = limits[k / COUNTS / COUNTS / COUNTS];
        int is_layout = options.engines - 1 < 4 && options.servers - 1 < 4 && options.workers - 1 < 16;
        uint8_t code = yuglemit_run(&all.program, &all.inputs, &options, &all.stop, &all.report);
        wrong += code != (!is_layout ? YUGLEMIT_NO_LAYOUT : options.limit - 1 < 1000000 ? YUGLEMIT_DONE : YUGLEMIT_NO_LIMIT);
    }
    check(!wrong, "layouts and limits");
    free_all(&all);
}

int main(int argc, char **argv) {
    FILE *file = argc >= 2 ? fopen(argv[1], "rb") : NULL;
    if (!file) return 2;
    program_length = fread(program_bytes, 1, sizeof program_bytes, file);
    fclose(file);
    if (argc > 2) large_length = strtoul(argv[2], NULL, 10);
    long before = held;
    check_with_little_stack();
    check_empty();
    check_lists();
    check_wrong_lists();
    check_unfinished();
    check_told();
    check_layouts();
    check_many();
    check_refused();
    check_kept_members();
    check_large();
    check(held == before, "nothing is left");
    printf("%d checks, %d failed\n", checks, failures);
    return failures > 0;
}
