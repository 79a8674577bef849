/* Hostile calls over handles, made in threads with a stack of 64 KiB, or of 96 with a sanitizer. callers.c has the program and others. */
#include "callers.h"
#include <pthread.h>
#include <stdio.h>
#include <string.h>

/* A sanitizer's own frames, such as those of its memcpy, and its data of a thread are in the same stack. */
#if defined(__SANITIZE_ADDRESS__) || defined(__SANITIZE_THREAD__)
enum { STACK = 96 * 1024 };
#else
enum { STACK = 64 * 1024 };
#endif
enum { THREADS = 8, RUNS = 200, LIMIT = 10000 };

static pthread_attr_t small; /* of a thread with little stack */

static uint8_t run(const yuglemit_program *program, const yuglemit_inputs *inputs, size_t limit, yuglemit_report *report) {
    yuglemit_options options = YUGLEMIT_OPTIONS;
    yuglemit_stop no_stop = {NULL};
    options.limit = limit;
    return yuglemit_run(program, inputs, &options, &no_stop, report);
}

static void check_load(yuglemit_program *program) {
    yuglemit_verdict verdict = YUGLEMIT_VERDICT;
    uint8_t none = 0;
    check(yuglemit_load(&none, 0, program, &verdict) == YUGLEMIT_REJECTED, "a rejected program has its code");
    check(verdict.letter == 'F' && !program->at, "no byte is no program, and the handle stays empty");
    for (size_t k = 1; k < program_length; k++) {
        yuglemit_load(program_bytes, k, program, &verdict);
        check(verdict.letter != 0 && !program->at, "a prefix is no program");
    }
    check(yuglemit_load(program_bytes, program_length, program, &verdict) == YUGLEMIT_DONE, "an accepted program is done");
    check(verdict.letter == 0 && program->at, "the program is loaded");
    void *was = program->at;
    yuglemit_load(program_bytes, program_length - 1, program, &verdict);
    check(verdict.letter != 0 && program->at == was, "a refused load leaves the handle as it was");
    yuglemit_load(program_bytes, program_length, program, &verdict);
    check(verdict.letter == 0, "a load over a full handle");
}

/* Changes each byte in turn. What is accepted then may be run. */
static void check_damaged(void) {
    for (size_t k = 0; k < program_length; k++) {
        for (unsigned mask = 1; mask < 256; mask *= 4) {
            handles all = NO_HANDLES;
            yuglemit_verdict verdict = YUGLEMIT_VERDICT;
            program_bytes[k] ^= (uint8_t)mask;
            yuglemit_load(program_bytes, program_length, &all.program, &verdict);
            program_bytes[k] ^= (uint8_t)mask;
            check((verdict.letter == 0) == (all.program.at != NULL), "the handle is full if the verdict accepts");
            uint8_t code = run(&all.program, &all.inputs, LIMIT, &all.report);
            check((code == YUGLEMIT_NO_PROGRAM) == (verdict.letter != 0), "a run needs a program");
            check((code == 0) == (all.report.at != NULL), "a report comes of a run");
            free_all(&all);
        }
    }
}

/* A struct of numbers, which begins with its size in bytes, with room for more numbers than there are. */
enum { MOST = 12 };
typedef union numbers {
    yuglemit_load_options load;
    yuglemit_caps caps;
    yuglemit_options options;
    yuglemit_bounds bounds;
    yuglemit_order order;
    yuglemit_meter meter;
    uint64_t at[MOST];
} numbers;

static int is_size(size_t size) { return size >= 8 && size % 8 == 0; }

/* Caps, and options of a run and of a load, of each size. Those that a smaller struct lacks are as usual. The program has each kind of bound, and a cap may be one below it. */
static void check_caps(void) {
    static const char text[] = "proc control\nregs int text\nNEW d0 d1 cont int\nDROPR d1\nNEW d2 d3 int\nSTORE d2 v0\nINS d0 v0 d3 there\nJMP done\nthere:\nDROPR d3\ndone:\nDROPW d0\n"
                               "RULE 1 0 any\nRET\n\nproc leaf\nregs\nRET\n";
    handles all = NO_HANDLES;
    yuglemit_verdict verdict = YUGLEMIT_VERDICT;
    yuglemit_bounds b = YUGLEMIT_BOUNDS;
    uint64_t budget = 0;
    numbers caps = {.at = {0}}, options = {.at = {0}}, load = {.at = {0}};
    yuglemit_load_source((const uint8_t *)text, sizeof text - 1, YUGLEMIT_TEXT, &all.program, &verdict);
    check(yuglemit_program_bounds(&all.program, 0, &b) == 0 && yuglemit_program_budget(&all.program, 0, &budget) == 0, "bounds and a budget");
    caps.caps = (yuglemit_caps){sizeof(yuglemit_caps), b.tasks, b.instructions, b.data, b.bytes, budget, b.members, b.rules};
    options.options = (yuglemit_options)YUGLEMIT_OPTIONS;
    load.load = (yuglemit_load_options)YUGLEMIT_LOAD_OPTIONS;
    for (size_t k = 1; k <= sizeof(yuglemit_caps) / 8; k++) {
        caps.at[0] = 8 * k;
        check(yuglemit_run_within(&all.program, &all.inputs, &options.options, &caps.caps, &all.stop, &all.report) == 0, "caps at the bounds");
        if (k == sizeof(yuglemit_caps) / 8) break;
        caps.at[k]--;
        check(yuglemit_run_within(&all.program, &all.inputs, &options.options, &caps.caps, &all.stop, &all.report) == 0, "a cap that isn't given");
        caps.at[0] += 8;
        check(yuglemit_run_within(&all.program, &all.inputs, &options.options, &caps.caps, &all.stop, &all.report) == YUGLEMIT_ABOVE_CAP, "O07: a bound above its cap");
        caps.at[k]++;
    }
    for (size_t k = 0; k <= sizeof caps + 2; k++) {
        size_t size = k <= sizeof caps ? k : SIZE_MAX - 7 * (k - sizeof caps - 1);
        caps.at[0] = size;
        uint8_t code = yuglemit_run_within(&all.program, &all.inputs, &options.options, &caps.caps, &all.stop, &all.report);
        check(code == (is_size(size) && size <= sizeof(yuglemit_caps) ? YUGLEMIT_DONE : YUGLEMIT_NO_SIZE), "caps of a size");
        options.at[0] = size;
        code = yuglemit_run(&all.program, &all.inputs, &options.options, &all.stop, &all.report);
        check(code == (is_size(size) && size <= sizeof(yuglemit_options) ? YUGLEMIT_DONE : YUGLEMIT_NO_SIZE), "options of a size");
        options.at[0] = sizeof(yuglemit_options);
        load.at[0] = size;
        code = yuglemit_load_with((const uint8_t *)text, sizeof text - 1, YUGLEMIT_TEXT, &load.load, &all.program, &verdict);
        check(code == (is_size(size) && size <= sizeof(yuglemit_load_options) ? YUGLEMIT_DONE : YUGLEMIT_NO_SIZE), "options of a load");
    }
    free_all(&all);
}

enum { BOUNDS, ORDER, RUN_ORDER, METER, KINDS };

static uint8_t write_numbers(int kind, const yuglemit_program *program, const yuglemit_report *report, numbers *room) {
    switch (kind) {
    case BOUNDS: return yuglemit_program_bounds(program, LIMIT, &room->bounds);
    case ORDER: return yuglemit_program_order(program, &room->order);
    case RUN_ORDER: return yuglemit_report_order(report, &room->order);
    default: return yuglemit_report_meter(report, &room->meter);
    }
}

/* Structs that are written, of each size: as many numbers as there is room for, and the rest stays. */
static void check_written(const yuglemit_program *program) {
    static const size_t counts[KINDS] = {7, 3, 3, 6};
    yuglemit_options options = YUGLEMIT_OPTIONS;
    handles all = NO_HANDLES;
    numbers part = {.at = {sizeof(yuglemit_order), 99}};
    check(yuglemit_input_text(&all.inputs, (const uint8_t *)"41", 2) == 0 && run(program, &all.inputs, LIMIT, &all.report) == 0, "a run without its order");
    check(write_numbers(RUN_ORDER, program, &all.report, &part) == YUGLEMIT_NO_ORDER && part.at[1] == 99, "has none");
    options.order = 1;
    check(yuglemit_run(program, &all.inputs, &options, &all.stop, &all.report) == 0, "a run with its order");
    for (int kind = 0; kind < KINDS; kind++) {
        numbers whole = {.at = {8 * (counts[kind] + 1)}};
        check(write_numbers(kind, program, &all.report, &whole) == 0, "all numbers");
        for (size_t size = 0; size <= sizeof part; size++) {
            for (size_t k = 1; k < MOST; k++) part.at[k] = 99;
            part.at[0] = size;
            check(write_numbers(kind, program, &all.report, &part) == (is_size(size) ? YUGLEMIT_DONE : YUGLEMIT_NO_SIZE), "a struct of a size");
            for (size_t k = 1; k < MOST; k++) check(part.at[k] == (is_size(size) && k < size / 8 && k <= counts[kind] ? whole.at[k] : 99), "a number is written, or stays");
        }
    }
    free_all(&all);
}

/* One handle for two parameters. */
static void check_one_handle(yuglemit_program *program) {
    handles all = NO_HANDLES;
    yuglemit_options options = YUGLEMIT_OPTIONS;
    check(yuglemit_program_share(program, program) == YUGLEMIT_ONE_HANDLE && program->at, "a program shared into itself");
    check(yuglemit_input_text(&all.inputs, (const uint8_t *)"41", 2) == 0 && yuglemit_stop_new(&all.stop) == 0, "inputs and a flag");
    check(yuglemit_stop_share(&all.stop, &all.stop) == YUGLEMIT_ONE_HANDLE, "a flag shared into itself");
    check(yuglemit_run(program, (yuglemit_inputs *)(void *)program, &options, &all.stop, &all.report) == YUGLEMIT_NO_INPUTS, "a program as its inputs");
    check(yuglemit_run(program, &all.inputs, &options, &all.stop, (yuglemit_report *)(void *)program) == YUGLEMIT_ONE_HANDLE, "a report over its program");
    check(yuglemit_run(program, &all.inputs, &options, &all.stop, (yuglemit_report *)(void *)&all.inputs) == YUGLEMIT_ONE_HANDLE, "over its inputs");
    check(yuglemit_run(program, &all.inputs, &options, &all.stop, (yuglemit_report *)(void *)&all.stop) == YUGLEMIT_ONE_HANDLE, "over its flag");
    check(yuglemit_run(program, &all.inputs, &options, &all.stop, &all.report) == 0, "a run");
    yuglemit_text *text = (yuglemit_text *)(void *)&all.report;
    check(yuglemit_print_report(&all.report, text) == YUGLEMIT_ONE_HANDLE && yuglemit_print_trace(&all.report, text) == YUGLEMIT_ONE_HANDLE
              && yuglemit_print_json(&all.report, text) == YUGLEMIT_ONE_HANDLE, "a text over its report");
    yuglemit_ending ending = YUGLEMIT_ENDING;
    check(yuglemit_report_ending(&all.report, &ending) == 0 && ending.outputs == 1, "the report is as it was");
    check(yuglemit_container_new(&all.container, 'i', 'i') == 0, "a container");
    check(yuglemit_input_container((yuglemit_inputs *)(void *)&all.container, &all.container) == YUGLEMIT_ONE_HANDLE, "a container into itself");
    check(yuglemit_input_container(&all.inputs, &all.container) == 0 && yuglemit_input_container(&all.inputs, &all.container) == 0 && all.container.at, "and into inputs, then an empty one");
    free_all(&all);
}

/* Each code has a name and words of its own. */
static void check_codes(void) {
    int known = 0;
    for (int code = 0; code < 256; code++) {
        const char *name = yuglemit_code_name((uint8_t)code), *text = yuglemit_code_text((uint8_t)code);
        int is_known = strcmp(name, "UNKNOWN") != 0;
        known += is_known;
        check(is_known == (strcmp(text, "unknown code") != 0), "a code with a name has words");
        check(!is_known || code == 0 || code > 200, "no code is a letter, a kind or a status");
    }
    check(known == 25 && !strcmp(yuglemit_code_name(YUGLEMIT_NO_MEMORY), "NO_MEMORY"), "the codes of the header");
}

/* What a thread reads of a report that others read, too. */
static void *read_report(void *given) {
    const yuglemit_report *report = given;
    size_t wrong = 0;
    for (int k = 0; k < RUNS; k++) {
        yuglemit_ending ending = YUGLEMIT_ENDING;
        yuglemit_meter meter = YUGLEMIT_METER;
        yuglemit_item item;
        yuglemit_text text = {NULL};
        uint8_t room[4];
        wrong += yuglemit_report_ending(report, &ending) || ending.outputs != 1;
        wrong += yuglemit_report_meter(report, &meter) || meter.events != ending.events;
        wrong += yuglemit_report_output(report, 0, &item) || item.length != 2;
        wrong += yuglemit_report_text(report, 0, room, sizeof room) || memcmp(room, "42", 2);
        wrong += yuglemit_print_report(report, &text) || yuglemit_print_json(report, &text);
        yuglemit_text_free(text);
    }
    return wrong ? given : NULL;
}

/* What a thread runs of a program that others run, too, with the same inputs. */
typedef struct given_to_all {
    const yuglemit_program *program;
    const yuglemit_inputs *inputs;
    const yuglemit_stop *stop;
} given_to_all;

static void *run_given(void *given) {
    const given_to_all *all = given;
    const yuglemit_options options = YUGLEMIT_OPTIONS;
    yuglemit_report report = {NULL};
    size_t wrong = 0, count = 0;
    for (int k = 0; k < RUNS; k++) {
        wrong += yuglemit_run(all->program, all->inputs, &options, all->stop, &report);
        wrong += yuglemit_program_procedures(all->program, &count);
    }
    yuglemit_report_free(report);
    return wrong ? given : NULL;
}

/* One program, its inputs and one report, read by several threads at once. */
static void check_readers(const yuglemit_program *program) {
    pthread_t threads[THREADS];
    handles all = NO_HANDLES;
    given_to_all given = {program, &all.inputs, &all.stop};
    check(yuglemit_input_text(&all.inputs, (const uint8_t *)"41", 2) == 0 && run(program, &all.inputs, LIMIT, &all.report) == 0, "a run");
    check(yuglemit_stop_new(&all.stop) == 0, "a flag");
    for (int k = 0; k < THREADS; k++) check(pthread_create(&threads[k], &small, k % 2 ? read_report : run_given, k % 2 ? (void *)&all.report : &given) == 0, "a thread");
    for (int k = 0; k < RUNS; k++) check(yuglemit_stop_raise(&all.stop) == 0, "the flag is raised under their hands");
    for (int k = 0; k < THREADS; k++) {
        void *wrong = NULL;
        pthread_join(threads[k], &wrong);
        check(!wrong, "what a thread reads");
    }
    free_all(&all);
}

/* What a thread does with its own handle of the program. */
static void *work(void *given) {
    yuglemit_program *program = given;
    handles all = NO_HANDLES;
    size_t wrong = yuglemit_input_text(&all.inputs, (const uint8_t *)"41", 2);
    for (int k = 0; k < RUNS; k++) {
        yuglemit_ending ending = {sizeof ending, 0, 0, 9};
        wrong += run(program, &all.inputs, LIMIT, &all.report);
        wrong += yuglemit_report_ending(&all.report, &ending) || ending.status;
    }
    free_all(&all);
    yuglemit_program_free(*program);
    program->at = NULL;
    return wrong ? given : NULL;
}

static void check_threads(yuglemit_program *program) {
    pthread_t threads[THREADS];
    yuglemit_program shared[THREADS];
    memset(shared, 0, sizeof shared);
    for (int k = 0; k < THREADS; k++) {
        check(yuglemit_program_share(program, &shared[k]) == 0 && shared[k].at && shared[k].at != program->at, "a share");
        check(pthread_create(&threads[k], &small, work, &shared[k]) == 0, "a thread");
    }
    yuglemit_program_free(*program); /* the threads' handles keep it */
    program->at = NULL;
    for (int k = 0; k < THREADS; k++) {
        void *wrong = NULL;
        pthread_join(threads[k], &wrong);
        check(!wrong, "the runs of a thread");
    }
}

static void *check_all(void *unused) {
    yuglemit_program program = {NULL};
    check(yuglemit_version() == YUGLEMIT_VERSION_NUMBER, "the header's version");
    check_load(&program);
    check_damaged();
    check_caps();
    check_written(&program);
    check_pairs();
    check_codes();
    check_one_handle(&program);
    check_readers(&program);
    check_threads(&program);
    return unused;
}

void check_with_little_stack(void) {
    pthread_t thread;
    int is_made = !pthread_attr_init(&small) && !pthread_attr_setstacksize(&small, STACK) && !pthread_create(&thread, &small, check_all, NULL);
    check(is_made && !pthread_join(thread, NULL), "a thread with little stack");
}
