/* SPDX-License-Identifier: Apache-2.0 */
/* Yuglemit for C and C++: libyuglemit.a or libyuglemit.so for Linux on x86-64 (x86-64-v2: SSE4.2 and POPCNT), which `./tw build --library`
 * makes. All calls are proved (crates/tw_calls, crates/tw_handles, crates/tw_embed). docs/ABI.md says what stays between versions.
 *
 * Runs are in turn, in the caller's thread: no call starts a thread or waits. Several runs side by side, in threads of the caller, use
 * several cores. No call keeps anything from one to the next but what the caller's handles hold. Memory comes from malloc; all of it is
 * freed before a call returns, or when its handle is freed.
 *
 * How long a call takes. Reading, checking and verifying take time by the input's length, at most some 0.1 seconds a MiB, and can't be stopped: give
 * yuglemit_load_with the greatest length that you can wait for. A run takes as long as its program: at most `--limit` events (1,000,000 if nothing
 * is said), each of at most as many instructions as the greatest budget, which may be 1,000,000,000. Only the calls that run a loaded program
 * can be stopped from outside: before a turn, or within 65,536 local instructions of a task, whose event isn't made then. So run a stranger's
 * program by yuglemit_run_within, whose caps reject it before it runs, or with --most-instructions and --most-budget in a session.
 *
 * The caller's duties, which no proof can check:
 *   - each pointer is no null pointer, and points to as many bytes as its length says, also if that is 0;
 *   - what is written (status, a struct, or `room`, a buffer) overlaps nothing else that is passed;
 *   - nothing of it is changed by another thread during a call;
 *   - there are 64 KiB of stack left (./dev embedded measures the calls over hostile inputs).
 *
 * The functions named yuglemit_raw_ are the library's calls below the functions of this header. Call those instead. A binding for another
 * language calls them: with a copy of each handle that is `const` in the function, and with a list of numbers for a struct without its size.
 */
#ifndef YUGLEMIT_H
#define YUGLEMIT_H
#include <stddef.h>
#include <stdint.h>
#ifdef __cplusplus
extern "C" {
#endif

/* The version: 1,000,000 times major, 1,000 times minor, and patch. The call returns that of the library. */
#define YUGLEMIT_VERSION_NUMBER 34000
uint32_t yuglemit_version(void);

/* ---- Codes. A call returns 0 or the code of an error. No code is an exit status, a letter or a kind, and memory that runs out is one code. */
typedef enum yuglemit_code {
    YUGLEMIT_DONE = 0,
    YUGLEMIT_INPUT_COUNT = 201,    /* O01: more or fewer inputs than main takes */
    YUGLEMIT_INPUT_TYPE = 202,     /* O02: an input that doesn't fit its parameter; yuglemit_unfit_input says which */
    YUGLEMIT_NO_ACTOR = 203,       /* O03: the program needs more engines or workers */
    YUGLEMIT_NO_LIMIT = 204,       /* O04: the limit isn't from 1 to 1,000,000 */
    YUGLEMIT_NO_MEMORY = 205,      /* an allocation failed (of a run: O05) */
    YUGLEMIT_ABOVE_CAP = 207,      /* O07: a bound of the program is above its cap */
    YUGLEMIT_NO_PROGRAM = 211,     /* the handle is empty or holds no program */
    YUGLEMIT_NO_INPUTS = 212,      /* the handle holds no inputs */
    YUGLEMIT_NO_CONTAINER = 213,   /* the handle is empty, or holds no container or one of other types */
    YUGLEMIT_NO_STOP = 214,        /* the handle holds no stop flag */
    YUGLEMIT_NO_REPORT = 215,      /* the handle is empty or holds no report */
    YUGLEMIT_NO_STRING = 216,      /* the handle is empty or holds no text */
    YUGLEMIT_NO_SIZE = 221,        /* a struct's `size` is none that this library knows */
    YUGLEMIT_NO_LAYOUT = 222,      /* engines and servers are 1 to 4, workers 1 to 16 */
    YUGLEMIT_NO_INDEX = 223,       /* there is none of this index, or no such member */
    YUGLEMIT_NO_TEXT = 224,        /* the value isn't a text */
    YUGLEMIT_NO_UTF8 = 225,        /* the bytes aren't UTF-8 */
    YUGLEMIT_NO_ROOM = 226,        /* the buffer is shorter than the text */
    YUGLEMIT_NO_END = 227,         /* the run was stopped, or memory ran out, so it has no JSON line */
    YUGLEMIT_ONE_HANDLE = 228,     /* one handle is passed for two parameters */
    YUGLEMIT_REJECTED = 229,       /* the program isn't accepted; the verdict says why */
    YUGLEMIT_NO_ORDER = 230,       /* the run's options didn't ask for its order */
    YUGLEMIT_NO_LIST = 231,        /* lists of members don't fit each other, or one is NULL */
    YUGLEMIT_UNFINISHED = 232      /* the run didn't end quiet, and its options don't ask for partial outputs */
} yuglemit_code;

/* The rows of yuglemit_code: code, name, words. */
#define YUGLEMIT_CODES(ROW) \
    ROW(DONE, "the call succeeded") \
    ROW(INPUT_COUNT, "there are more or fewer inputs than main takes") \
    ROW(INPUT_TYPE, "an input is of another type than its parameter, or is too large") \
    ROW(NO_ACTOR, "the program needs more engines or workers") \
    ROW(NO_LIMIT, "the limit of events isn't from 1 to 1,000,000") \
    ROW(NO_MEMORY, "out of memory") \
    ROW(ABOVE_CAP, "a bound of the program is above its cap") \
    ROW(NO_PROGRAM, "the handle is empty or holds no program") \
    ROW(NO_INPUTS, "the handle holds no inputs") \
    ROW(NO_CONTAINER, "the handle is empty, or holds no container or one of other types") \
    ROW(NO_STOP, "the handle holds no stop flag") \
    ROW(NO_REPORT, "the handle is empty or holds no report") \
    ROW(NO_STRING, "the handle is empty or holds no text") \
    ROW(NO_SIZE, "a struct has a size that the library doesn't know") \
    ROW(NO_LAYOUT, "engines and servers are 1 to 4, workers 1 to 16") \
    ROW(NO_INDEX, "there is none of this index") \
    ROW(NO_TEXT, "the value isn't a text") \
    ROW(NO_UTF8, "the bytes aren't UTF-8") \
    ROW(NO_ROOM, "the buffer is shorter than the text") \
    ROW(NO_END, "the run was stopped or memory ran out, so it has no JSON line") \
    ROW(ONE_HANDLE, "one handle is passed for two parameters") \
    ROW(REJECTED, "the program isn't accepted") \
    ROW(NO_ORDER, "the run's options didn't ask for its order") \
    ROW(NO_LIST, "lists of members don't fit each other") \
    ROW(UNFINISHED, "the run didn't end quiet, so its outputs aren't the program's answer")

/* Return what a code says, and its name, as "NO_MEMORY". A code that this header doesn't know is "unknown code" and "UNKNOWN". */
static inline const char *yuglemit_code_text(uint8_t code) {
    switch (code) {
#define YUGLEMIT_ROW(name, words) case YUGLEMIT_##name: return words;
        YUGLEMIT_CODES(YUGLEMIT_ROW)
#undef YUGLEMIT_ROW
    default: return "unknown code";
    }
}
static inline const char *yuglemit_code_name(uint8_t code) {
    switch (code) {
#define YUGLEMIT_ROW(name, words) case YUGLEMIT_##name: return #name;
        YUGLEMIT_CODES(YUGLEMIT_ROW)
#undef YUGLEMIT_ROW
    default: return "UNKNOWN";
    }
}

/* Exit statuses of a session, and how a run ended. */
typedef enum yuglemit_status {
    YUGLEMIT_STATUS_QUIET = 0,     /* quiet or done */
    YUGLEMIT_STATUS_REFUSED = 1,
    YUGLEMIT_STATUS_ARGUMENTS = 2, /* the arguments are refused */
    YUGLEMIT_STATUS_STUCK = 3,
    YUGLEMIT_STATUS_LIMIT = 4,
    YUGLEMIT_STATUS_MEMORY = 5,    /* memory ran out */
    YUGLEMIT_STATUS_TRAP = 6,
    YUGLEMIT_STATUS_STOPPED = 8    /* a run alone: its stop flag was raised */
} yuglemit_status;

/* The letters of verdicts. */
typedef enum yuglemit_letter {
    YUGLEMIT_LETTER_NONE = 0,      /* accepted */
    YUGLEMIT_LETTER_BYTES = 'F',   /* the bytes are no program */
    YUGLEMIT_LETTER_VERIFIER = 'V',
    YUGLEMIT_LETTER_ASSEMBLY = 'A',
    YUGLEMIT_LETTER_NAMES = 'N',
    YUGLEMIT_LETTER_SOURCE = 'H',  /* no hex text (1), too long (2), or no UTF-8 (3) */
    YUGLEMIT_LETTER_MEMORY = 'M'   /* memory ran out: the call returns YUGLEMIT_NO_MEMORY */
} yuglemit_letter;

/* The kinds of data in a report, and the types of values and subscripts. */
typedef enum yuglemit_kind {
    YUGLEMIT_KIND_NONE = 0,        /* not live */
    YUGLEMIT_KIND_INT = 'i',
    YUGLEMIT_KIND_TEXT = 't',
    YUGLEMIT_KIND_UNSET = 'u',
    YUGLEMIT_KIND_CONTAINER = 'c',
    YUGLEMIT_KIND_MAP = 'm'
} yuglemit_kind;

/* ---- Structs. Each begins with its size, and later versions add fields at the end. So begin it with its macro, as YUGLEMIT_OPTIONS, which sets
 * all fields, and change those that you need. A library that is older than the header writes the fields that it knows, and reads only
 * those: it returns YUGLEMIT_NO_SIZE if there are more. A newer one reads and writes as many as there are. */

typedef struct yuglemit_verdict {
    size_t size;
    uint64_t letter;       /* a yuglemit_letter; 0 is accepted */
    uint64_t number;       /* the number after the letter: `tw explain V04` says what it means, also by yuglemit_session_text of "explain\0V04" */
    uint64_t engines;      /* accepted: how many engines and workers its targets need */
    uint64_t workers;
    uint64_t procedure;    /* V: the procedure, and the place in it; F: the byte, in `place` */
    uint64_t place;
    uint64_t line;         /* A, N, V of a text: the line, from 1, of V16 that of main's first instruction; 0: none */
    uint64_t word;         /* A: the word of the line at which the error is, from 1; 0: at no word, or the written line isn't the expanded one.
                            * N: the word in which the error's name is, from 1; 0: unknown, as if the line has this name twice */
    uint64_t column;       /* A, N: the character of the line at which this word or name begins, from 1; 0: there is no word */
} yuglemit_verdict;

#define YUGLEMIT_VERDICT {sizeof(yuglemit_verdict), 0, 0, 0, 0, 0, 0, 0, 0, 0}

typedef struct yuglemit_load_options {
    size_t size;
    uint64_t most_bytes;   /* the greatest length of a source, 16 MiB if it is left out. A longer one is H02, and isn't read */
    uint64_t version;      /* the newest version of the language, 4 if it is left out. A program of a later one is F02, in each format */
} yuglemit_load_options;

/* The newest version of the language that this header describes: types and letters of later ones aren't in it. */
#define YUGLEMIT_LANGUAGE 5
#define YUGLEMIT_LOAD_OPTIONS {sizeof(yuglemit_load_options), 16777216, YUGLEMIT_LANGUAGE}

/* The most that runs do, whatever the inputs, the layout and the order of events. A bound is a number up to 1,000,000,000,000; or YUGLEMIT_OVER
 * if it is larger; or YUGLEMIT_NO_BOUND if a procedure starts itself, directly or through others. */
typedef struct yuglemit_bounds {
    size_t size;
    uint64_t tasks;        /* tasks that are taken, main's included */
    uint64_t instructions; /* instructions that are executed */
    uint64_t data;         /* data made by NEW */
    uint64_t members;      /* members that the store holds at any time, beyond those of the inputs */
    uint64_t rules;        /* rules made by RULE */
    uint64_t bytes;        /* bytes of the texts of data, rules and tasks at any time, beyond those of the inputs and of outputs that are texts */
    uint64_t events;
} yuglemit_bounds;

#define YUGLEMIT_BOUNDS {sizeof(yuglemit_bounds), 0, 0, 0, 0, 0, 0, 0}
#define YUGLEMIT_OVER (UINT64_MAX - 1)
#define YUGLEMIT_NO_BOUND UINT64_MAX

/* Whether the order of events may show in outputs, as `tw check --order` says it of a program, and `tw run --order` of a run. If `may_show` is 0, all
 * runs with the same inputs that end by themselves end alike with the same outputs, in any layout and order; after a run, like that one. If it is 1,
 * outputs may differ: the first insertion that may make them so is at `place` in `procedure`. If it is 2, the run was cut off, and no insertion
 * before may make them so; one after its last event may. */
typedef struct yuglemit_order {
    size_t size;
    uint64_t may_show;
    uint64_t procedure, place;
} yuglemit_order;

#define YUGLEMIT_ORDER {sizeof(yuglemit_order), 0, 0, 0}

typedef struct yuglemit_procedure {
    size_t size;
    uint64_t parameters;   /* their number */
    uint64_t kind;         /* 'c' control; 'l' leaf */
} yuglemit_procedure;

#define YUGLEMIT_PROCEDURE {sizeof(yuglemit_procedure), 0, 0}

typedef struct yuglemit_parameter {
    size_t size;
    uint64_t mode;         /* 'v' a value; 'c' a read right on a closed datum; 'r' a read right; 'w' a write right */
    uint64_t depth;        /* the number of containers around the scalar or the map */
    uint64_t scalar;       /* 'i' an integer; 't' a text; of a map, the type of its values: also 's', integers that are added up */
    uint64_t by;           /* the subscripts of the outermost container: 'i', 't', or 0 if there is none */
    uint64_t by_second;    /* likewise of the containers in it */
    uint64_t by_third;     /* and of those in these */
    uint64_t map;          /* the subscripts of the map: 'i', 't', or 0 if there is none */
} yuglemit_parameter;

#define YUGLEMIT_PARAMETER {sizeof(yuglemit_parameter), 0, 0, 0, 0, 0, 0, 0}

/* How many actors a run needs at least. It always needs an engine and a server. */
typedef struct yuglemit_needs {
    size_t size;
    uint64_t engines, workers;
} yuglemit_needs;

#define YUGLEMIT_NEEDS {sizeof(yuglemit_needs), 0, 0}

typedef struct yuglemit_options {
    size_t size;
    uint64_t limit;        /* the most events, 1 to 1,000,000 */
    uint64_t engines;      /* 1 to 4 */
    uint64_t servers;      /* 1 to 4 */
    uint64_t workers;      /* 1 to 16 */
    uint64_t seed;         /* decides the order of the turns, as `tw run --in-turn --seed`; 0: the actors take turns */
    uint64_t order;        /* 0: no; else yuglemit_report_order has the run's order. That takes the time and the memory of a replay, which no flag stops */
    uint64_t partial;      /* 0: the outputs of a run that doesn't end by itself, quiet, are YUGLEMIT_UNFINISHED; else what is there is read */
} yuglemit_options;

#define YUGLEMIT_OPTIONS {sizeof(yuglemit_options), 1000000, 1, 1, 1, 0, 0, 0}

/* The most that a run may do: the options --most-tasks and so on of `tw run`, and two more. UINT64_MAX is no cap. */
typedef struct yuglemit_caps {
    size_t size;
    uint64_t tasks;        /* tasks that are taken */
    uint64_t instructions; /* instructions that are executed */
    uint64_t data;         /* data made by NEW */
    uint64_t bytes;        /* bytes of the texts of data, rules and tasks at any time, beyond those of the inputs and of outputs that are texts */
    uint64_t budget;       /* instructions of one task */
    uint64_t members;      /* members that the store holds at any time, beyond those of the inputs */
    uint64_t rules;        /* rules made by RULE */
} yuglemit_caps;

#define YUGLEMIT_CAPS {sizeof(yuglemit_caps), UINT64_MAX, UINT64_MAX, UINT64_MAX, UINT64_MAX, UINT64_MAX, UINT64_MAX, UINT64_MAX}

typedef struct yuglemit_ending {
    size_t size;
    uint64_t events, outputs;
    uint64_t status;       /* YUGLEMIT_STATUS_QUIET, _STUCK, _LIMIT or _MEMORY; _STOPPED: the report is of the events so far */
} yuglemit_ending;

#define YUGLEMIT_ENDING {sizeof(yuglemit_ending), 0, 0, 0}

/* The meter of a run: how much it did, and what its store held at the end. Events, tasks and instructions count as the bounds of these names do. */
typedef struct yuglemit_meter {
    size_t size;
    uint64_t events;
    uint64_t tasks;        /* tasks that were taken, main's included */
    uint64_t instructions; /* instructions that were executed; UINT64_MAX if they were more */
    uint64_t data;         /* data that were made, with inputs, outputs and the members of inputs; a map is one */
    uint64_t members;      /* members and values of maps that the store held at the end, also in inputs and outputs */
    uint64_t bytes;        /* bytes of the texts that it held then: values and subscripts */
} yuglemit_meter;

#define YUGLEMIT_METER {sizeof(yuglemit_meter), 0, 0, 0, 0, 0, 0}

/* A datum of a report. This struct and the next never change, since reports are read in arrays of them. */
typedef struct yuglemit_item {
    int64_t number;        /* i: the integer */
    size_t length;         /* t: the bytes of the text; c, m: the number of members or values */
    uint8_t kind;          /* a yuglemit_kind */
    uint8_t closed;        /* 1: it never changes again */
    uint8_t scalar;        /* 'i' or 't': the type of the value, of the members or of a map's values; 's' if those are sums, whose items are i */
    uint8_t by;            /* c, m: 'i' or 't', the type of the subscripts */
} yuglemit_item;

typedef struct yuglemit_member { yuglemit_item subscript, value; } yuglemit_member;

/* Returns whether a size is that of a struct of numbers, and how many there are after the size. */
static inline int yuglemit_raw_is_size(size_t size) { return size >= sizeof(size_t) && size % sizeof(uint64_t) == 0; }
static inline size_t yuglemit_raw_count(size_t size) { return size / sizeof(uint64_t) - 1; }

/* ---- Sessions */

/* Writes the output of the command `tw` with these arguments and this input; `tw --help` lists the arguments. All are UTF-8, and each ends
 * with a line feed, which the last may lack: "run\n--text\n--workers\n4\n". So no argument has a line feed in it; any other character
 * is allowed, a carriage return at its end too. The text is written to the start of `room`, if it fits, and the rest of `room` stays as it
 * was. *status is the exit status, a yuglemit_status.
 * Returns the length of the text: if it is more than `room_length`, nothing is written to `room`; call again with as much.
 * A program is run in the caller's thread, its actors in turn, as by `tw run --in-turn`: `--workers 4` are four workers of that one thread,
 * and the second call answers the same: its run has the same events and the same results, by proof, unless memory runs out.
 * Nothing is printed before the end, nor on standard error.
 * yuglemit_session_text, below, takes arguments with line feeds, and needs no second call. */
size_t yuglemit_session(const uint8_t *words, size_t words_length, const uint8_t *input, size_t input_length,
                        uint8_t *room, size_t room_length, uint8_t *status);

/* ---- Handles
 *
 * A handle is a pointer to memory of the library. The caller keeps it, begins it as {NULL} and frees it once, by value:
 *
 *     yuglemit_program program = {NULL};
 *     yuglemit_report report = {NULL};
 *     yuglemit_verdict verdict = YUGLEMIT_VERDICT;
 *     if (yuglemit_load(bytes, length, &program, &verdict) == 0 && yuglemit_run(&program, &inputs, &options, &no_stop, &report) == 0) ..
 *     yuglemit_report_free(report);
 *     yuglemit_program_free(program);
 *
 * A handle may be made in one thread and used in another. Any number of calls, in any threads, may read a handle at once: it is `const` there.
 * While a call that changes a handle runs, no other call has it. A handle isn't copied: of two copies one would be freed by the other.
 * A call that makes a handle frees what it held before, and takes no handle that it reads: that is YUGLEMIT_ONE_HANDLE.
 *
 * Each call's comment has the codes that it returns beside 0. Then it has written nothing, except where the comment says so. */
typedef struct yuglemit_program { void *at; } yuglemit_program;
typedef struct yuglemit_inputs { void *at; } yuglemit_inputs;
typedef struct yuglemit_report { void *at; } yuglemit_report;
typedef struct yuglemit_container { void *at; } yuglemit_container;
typedef struct yuglemit_stop { void *at; } yuglemit_stop;
typedef struct yuglemit_text { void *at; } yuglemit_text;

/* Free what a handle holds; an empty one is allowed. The handle isn't used after that. */
void yuglemit_program_free(yuglemit_program program);
void yuglemit_inputs_free(yuglemit_inputs inputs);
void yuglemit_container_free(yuglemit_container container);
void yuglemit_stop_free(yuglemit_stop stop);
void yuglemit_report_free(yuglemit_report report);
void yuglemit_text_free(yuglemit_text text);

/* ---- Programs that are loaded once and run many times */

/* The verifier alone, of a program's bytes (not of hex text): what `tw check` decides. Returns 0 if it accepts them, or YUGLEMIT_REJECTED or
 * _NO_MEMORY, with the verdict in each case; or _NO_SIZE. */
uint8_t yuglemit_raw_verify(const uint8_t *bytes, size_t length, uint64_t *verdict, size_t count);
static inline uint8_t yuglemit_verify(const uint8_t *bytes, size_t length, yuglemit_verdict *verdict) {
    if (!yuglemit_raw_is_size(verdict->size)) return YUGLEMIT_NO_SIZE;
    return yuglemit_raw_verify(bytes, length, &verdict->letter, yuglemit_raw_count(verdict->size));
}

enum { YUGLEMIT_ANY_FORMAT = 0, YUGLEMIT_BYTES = 'b', YUGLEMIT_HEX = 'h', YUGLEMIT_TEXT = 't' };

/* Reads and verifies a source of one of these formats: a program's bytes, hex text of them, or assembly text, symbolic or not. With
 * YUGLEMIT_ANY_FORMAT, and with any other number, it is found: bytes begin with TWB; hex text has only digits and white space; anything else is
 * assembly text. If the call returns 0, the handle holds the program; else it is as it was. Returns YUGLEMIT_REJECTED or _NO_MEMORY, with the
 * verdict; or _NO_SIZE. */
uint8_t yuglemit_raw_load_source(const uint8_t *source, size_t length, uint8_t format, const uint64_t *options, size_t option_count,
                                 yuglemit_program *program, uint64_t *verdict, size_t count);
static inline uint8_t yuglemit_load_with(const uint8_t *source, size_t length, uint8_t format, const yuglemit_load_options *options,
                                         yuglemit_program *program, yuglemit_verdict *verdict) {
    if (!yuglemit_raw_is_size(options->size) || !yuglemit_raw_is_size(verdict->size)) return YUGLEMIT_NO_SIZE;
    return yuglemit_raw_load_source(source, length, format, &options->most_bytes, yuglemit_raw_count(options->size), program, &verdict->letter,
                                    yuglemit_raw_count(verdict->size));
}

/* Like yuglemit_load_with, with the usual options. */
static inline uint8_t yuglemit_load_source(const uint8_t *source, size_t length, uint8_t format, yuglemit_program *program,
                                           yuglemit_verdict *verdict) {
    const yuglemit_load_options usual = YUGLEMIT_LOAD_OPTIONS;
    return yuglemit_load_with(source, length, format, &usual, program, verdict);
}

/* Likewise, for a program's bytes. */
static inline uint8_t yuglemit_load(const uint8_t *bytes, size_t length, yuglemit_program *program, yuglemit_verdict *verdict) {
    return yuglemit_load_source(bytes, length, YUGLEMIT_BYTES, program, verdict);
}

/* Makes `other` a handle of the same program. The program isn't copied, and lives until the last handle is freed.
 * YUGLEMIT_NO_PROGRAM, _NO_MEMORY, _ONE_HANDLE. */
uint8_t yuglemit_raw_program_share(yuglemit_program *program, yuglemit_program *other);
static inline uint8_t yuglemit_program_share(const yuglemit_program *program, yuglemit_program *other) {
    if (program == other) return YUGLEMIT_ONE_HANDLE;
    yuglemit_program same = *program;
    return yuglemit_raw_program_share(&same, other);
}

/* Writes the number of procedures. YUGLEMIT_NO_PROGRAM. */
uint8_t yuglemit_raw_program_procedures(yuglemit_program *program, size_t *count);
static inline uint8_t yuglemit_program_procedures(const yuglemit_program *program, size_t *count) {
    yuglemit_program same = *program;
    return yuglemit_raw_program_procedures(&same, count);
}

/* Writes the most instructions that one task of a procedure executes. YUGLEMIT_NO_PROGRAM, _NO_INDEX. */
uint8_t yuglemit_raw_program_budget(yuglemit_program *program, size_t procedure, uint64_t *budget);
static inline uint8_t yuglemit_program_budget(const yuglemit_program *program, size_t procedure, uint64_t *budget) {
    yuglemit_program same = *program;
    return yuglemit_raw_program_budget(&same, procedure, budget);
}

/* Writes the bounds of the runs with at most `limit` events, or of all runs if `limit` is 0.
 * YUGLEMIT_NO_PROGRAM, _NO_LIMIT if it is over 1,000,000, _NO_MEMORY, _NO_SIZE. */
uint8_t yuglemit_raw_program_bounds(yuglemit_program *program, size_t limit, uint64_t *bounds, size_t count);
static inline uint8_t yuglemit_program_bounds(const yuglemit_program *program, size_t limit, yuglemit_bounds *bounds) {
    if (!yuglemit_raw_is_size(bounds->size)) return YUGLEMIT_NO_SIZE;
    yuglemit_program same = *program;
    return yuglemit_raw_program_bounds(&same, limit, &bounds->tasks, yuglemit_raw_count(bounds->size));
}

/* Writes whether the order of events may show in the program's outputs, whatever its inputs. YUGLEMIT_NO_PROGRAM, _NO_MEMORY, _NO_SIZE. */
uint8_t yuglemit_raw_program_order(yuglemit_program *program, uint64_t *order, size_t count);
static inline uint8_t yuglemit_program_order(const yuglemit_program *program, yuglemit_order *order) {
    if (!yuglemit_raw_is_size(order->size)) return YUGLEMIT_NO_SIZE;
    yuglemit_program same = *program;
    return yuglemit_raw_program_order(&same, &order->may_show, yuglemit_raw_count(order->size));
}

/* Describe a procedure, a parameter, and the needed actors. YUGLEMIT_NO_PROGRAM, _NO_INDEX, _NO_SIZE. */
uint8_t yuglemit_raw_program_procedure(yuglemit_program *program, size_t procedure, uint64_t *found, size_t count);
static inline uint8_t yuglemit_program_procedure(const yuglemit_program *program, size_t procedure, yuglemit_procedure *found) {
    if (!yuglemit_raw_is_size(found->size)) return YUGLEMIT_NO_SIZE;
    yuglemit_program same = *program;
    return yuglemit_raw_program_procedure(&same, procedure, &found->parameters, yuglemit_raw_count(found->size));
}
uint8_t yuglemit_raw_program_parameter(yuglemit_program *program, size_t procedure, size_t index, uint64_t *found, size_t count);
static inline uint8_t yuglemit_program_parameter(const yuglemit_program *program, size_t procedure, size_t index, yuglemit_parameter *found) {
    if (!yuglemit_raw_is_size(found->size)) return YUGLEMIT_NO_SIZE;
    yuglemit_program same = *program;
    return yuglemit_raw_program_parameter(&same, procedure, index, &found->mode, yuglemit_raw_count(found->size));
}
uint8_t yuglemit_raw_program_needs(yuglemit_program *program, uint64_t *needs, size_t count);
static inline uint8_t yuglemit_program_needs(const yuglemit_program *program, yuglemit_needs *needs) {
    if (!yuglemit_raw_is_size(needs->size)) return YUGLEMIT_NO_SIZE;
    yuglemit_program same = *program;
    return yuglemit_raw_program_needs(&same, &needs->engines, yuglemit_raw_count(needs->size));
}

/* Finds the name that an assembly text gives the procedure of this number. The name is empty if the text gives none.
 * YUGLEMIT_NO_UTF8, _NO_MEMORY. */
uint8_t yuglemit_source_name(const uint8_t *source, size_t length, size_t procedure, yuglemit_text *name);

/* ---- Inputs */

/* Append an input, by the order of main's parameters. An empty handle has no input; a run doesn't change it. A text is copied. Inputs that
 * don't fit main are refused by the run; a text that is longer than 4,096 bytes is one of them. YUGLEMIT_NO_INPUTS, _NO_UTF8, _NO_MEMORY. */
uint8_t yuglemit_input_int(yuglemit_inputs *inputs, int64_t number);
uint8_t yuglemit_input_text(yuglemit_inputs *inputs, const uint8_t *text, size_t length);

/* Begins a container without members, whose subscripts are integers ('i') or texts ('t') by `by`, and its values by `scalar`. Any letter but 't'
 * means integers. YUGLEMIT_NO_MEMORY. */
uint8_t yuglemit_container_new(yuglemit_container *container, uint8_t by, uint8_t scalar);

/* Add a member at the end of a container of these types. Subscripts have to rise, texts by their bytes; otherwise the run is refused.
 * YUGLEMIT_NO_CONTAINER, _NO_UTF8, _NO_MEMORY. */
uint8_t yuglemit_member_int(yuglemit_container *container, int64_t subscript, int64_t number);
uint8_t yuglemit_member_text(yuglemit_container *container, int64_t subscript, const uint8_t *text, size_t length);
uint8_t yuglemit_member_int_by_text(yuglemit_container *container, const uint8_t *subscript, size_t subscript_length, int64_t number);
uint8_t yuglemit_member_text_by_text(yuglemit_container *container, const uint8_t *subscript, size_t subscript_length,
                                     const uint8_t *text, size_t length);

/* Append a container with all its members in one call. `subscripts` are as many as values; NULL means 0, 1, 2 and so on. Texts are in one buffer, one
 * after the other, and `ends` has the place at which each ends: 3 and 5 for "one" and "is" in "oneis". NULL is allowed for a list of none.
 * YUGLEMIT_NO_LIST if a place is before the last one or after the buffer's end, or the last isn't the buffer's end; _NO_INPUTS, _NO_UTF8, _NO_MEMORY. */
uint8_t yuglemit_raw_input_ints(yuglemit_inputs *inputs, const int64_t *subscripts, size_t subscript_count, const int64_t *values, size_t count);
static inline uint8_t yuglemit_input_ints(yuglemit_inputs *inputs, const int64_t *subscripts, const int64_t *values, size_t count) {
    const int64_t none = 0;
    if (!inputs) return YUGLEMIT_NO_INPUTS;
    if (count && !values) return YUGLEMIT_NO_LIST;
    return yuglemit_raw_input_ints(inputs, subscripts ? subscripts : &none, subscripts ? count : 0, values ? values : &none, count);
}
uint8_t yuglemit_raw_input_texts(yuglemit_inputs *inputs, const int64_t *subscripts, size_t subscript_count, const uint8_t *texts, size_t length,
                                 const uint64_t *ends, size_t count);
static inline uint8_t yuglemit_input_texts(yuglemit_inputs *inputs, const int64_t *subscripts, const uint8_t *texts, size_t length,
                                           const uint64_t *ends, size_t count) {
    const int64_t none = 0;
    const uint8_t empty = 0;
    const uint64_t no_end = 0;
    if (!inputs) return YUGLEMIT_NO_INPUTS;
    if ((length && !texts) || (count && !ends)) return YUGLEMIT_NO_LIST;
    return yuglemit_raw_input_texts(inputs, subscripts ? subscripts : &none, subscripts ? count : 0, texts ? texts : &empty, length,
                                    ends ? ends : &no_end, count);
}
uint8_t yuglemit_raw_input_ints_by_text(yuglemit_inputs *inputs, const uint8_t *subscripts, size_t subscripts_length, const uint64_t *subscript_ends,
                                        size_t subscript_count, const int64_t *values, size_t count);
static inline uint8_t yuglemit_input_ints_by_text(yuglemit_inputs *inputs, const uint8_t *subscripts, size_t subscripts_length,
                                                  const uint64_t *subscript_ends, const int64_t *values, size_t count) {
    const int64_t none = 0;
    const uint8_t empty = 0;
    const uint64_t no_end = 0;
    if (!inputs) return YUGLEMIT_NO_INPUTS;
    if ((subscripts_length && !subscripts) || (count && (!subscript_ends || !values))) return YUGLEMIT_NO_LIST;
    return yuglemit_raw_input_ints_by_text(inputs, subscripts ? subscripts : &empty, subscripts_length, subscript_ends ? subscript_ends : &no_end, count,
                                           values ? values : &none, count);
}
uint8_t yuglemit_raw_input_texts_by_text(yuglemit_inputs *inputs, const uint8_t *subscripts, size_t subscripts_length, const uint64_t *subscript_ends,
                                         size_t subscript_count, const uint8_t *texts, size_t length, const uint64_t *ends, size_t count);
static inline uint8_t yuglemit_input_texts_by_text(yuglemit_inputs *inputs, const uint8_t *subscripts, size_t subscripts_length,
                                                   const uint64_t *subscript_ends, const uint8_t *texts, size_t length, const uint64_t *ends,
                                                   size_t count) {
    const uint8_t empty = 0;
    const uint64_t no_end = 0;
    if (!inputs) return YUGLEMIT_NO_INPUTS;
    if ((subscripts_length && !subscripts) || (length && !texts) || (count && (!subscript_ends || !ends))) return YUGLEMIT_NO_LIST;
    return yuglemit_raw_input_texts_by_text(inputs, subscripts ? subscripts : &empty, subscripts_length, subscript_ends ? subscript_ends : &no_end, count,
                                            texts ? texts : &empty, length, ends ? ends : &no_end, count);
}

/* Moves the members of a container to the inputs, as one input. The container keeps its types, and has no member; if memory runs out, it keeps
 * its members. YUGLEMIT_NO_CONTAINER, _NO_INPUTS, _NO_MEMORY, _ONE_HANDLE. */
uint8_t yuglemit_raw_input_container(yuglemit_inputs *inputs, yuglemit_container *container);
static inline uint8_t yuglemit_input_container(yuglemit_inputs *inputs, yuglemit_container *container) {
    return (void *)inputs == (void *)container ? (uint8_t)YUGLEMIT_ONE_HANDLE : yuglemit_raw_input_container(inputs, container);
}

/* ---- Runs */

/* A stop flag is raised by one thread and stops the runs of another, which may have the same handle. A flag that is raised stays so until it is
 * lowered. A signal handler may call yuglemit_stop_raise. YUGLEMIT_NO_STOP, _NO_MEMORY, _ONE_HANDLE. */
uint8_t yuglemit_stop_new(yuglemit_stop *stop);
uint8_t yuglemit_raw_stop_share(yuglemit_stop *stop, yuglemit_stop *other);
static inline uint8_t yuglemit_stop_share(const yuglemit_stop *stop, yuglemit_stop *other) {
    if (stop == other) return YUGLEMIT_ONE_HANDLE;
    yuglemit_stop same = *stop;
    return yuglemit_raw_stop_share(&same, other);
}
uint8_t yuglemit_raw_stop_raise(yuglemit_stop *stop);
static inline uint8_t yuglemit_stop_raise(const yuglemit_stop *stop) { yuglemit_stop same = *stop;
 return yuglemit_raw_stop_raise(&same); }
uint8_t yuglemit_raw_stop_lower(yuglemit_stop *stop);
static inline uint8_t yuglemit_stop_lower(const yuglemit_stop *stop) { yuglemit_stop same = *stop;
 return yuglemit_raw_stop_lower(&same); }

/* Runs a program in this thread, its actors in turn. `inputs` and `stop` may be empty handles; the flag is looked at before each turn that may make
 * an event, and for each 65,536 local instructions of a task. If the call returns 0, the report is that of the run, and a bound of the program's runs
 * with options->limit events, or its greatest budget, is at most its cap. Else nothing is run: YUGLEMIT_INPUT_COUNT, _INPUT_TYPE, _NO_ACTOR,
 * _NO_LIMIT, _NO_MEMORY, _ABOVE_CAP, _NO_PROGRAM, _NO_INPUTS, _NO_STOP, _NO_LAYOUT, _NO_SIZE, _ONE_HANDLE. yuglemit_unfit_input finds the input of _INPUT_TYPE. */
uint8_t yuglemit_raw_run(yuglemit_program *program, yuglemit_inputs *inputs, const uint64_t *options, size_t option_count, const uint64_t *caps,
                         size_t cap_count, yuglemit_stop *stop, yuglemit_report *report);
static inline uint8_t yuglemit_run_within(const yuglemit_program *program, const yuglemit_inputs *inputs, const yuglemit_options *options,
                                          const yuglemit_caps *caps, const yuglemit_stop *stop, yuglemit_report *report) {
    const void *const made = report;
    yuglemit_program same = *program;
    yuglemit_inputs given = *inputs;
    yuglemit_stop flag = *stop;
    if (made == (const void *)program || made == (const void *)inputs || made == (const void *)stop) return YUGLEMIT_ONE_HANDLE;
    if (!yuglemit_raw_is_size(options->size) || !yuglemit_raw_is_size(caps->size)) return YUGLEMIT_NO_SIZE;
    return yuglemit_raw_run(&same, &given, &options->limit, yuglemit_raw_count(options->size), &caps->tasks, yuglemit_raw_count(caps->size), &flag,
                            report);
}

/* Like yuglemit_run_within, without caps. */
static inline uint8_t yuglemit_run(const yuglemit_program *program, const yuglemit_inputs *inputs, const yuglemit_options *options,
                                   const yuglemit_stop *stop, yuglemit_report *report) {
    const yuglemit_caps none = YUGLEMIT_CAPS;
    return yuglemit_run_within(program, inputs, options, &none, stop, report);
}

/* Writes which input doesn't fit its parameter of main, so that a run returns YUGLEMIT_INPUT_TYPE: the index of the first such input, from 0.
 * YUGLEMIT_INPUT_COUNT if there are more or fewer inputs than main takes, _NO_INDEX if each fits, _NO_PROGRAM, _NO_INPUTS. */
uint8_t yuglemit_raw_unfit_input(yuglemit_program *program, yuglemit_inputs *inputs, size_t *index);
static inline uint8_t yuglemit_unfit_input(const yuglemit_program *program, const yuglemit_inputs *inputs, size_t *index) {
    yuglemit_program same = *program;
    yuglemit_inputs given = *inputs;
    return yuglemit_raw_unfit_input(&same, &given, index);
}

/* ---- Reports. Each call below may return YUGLEMIT_NO_REPORT. Those on outputs return YUGLEMIT_UNFINISHED if the run didn't end by itself, quiet:
 * what is there then isn't the program's answer. With options.partial it is read. */

/* Writes how the run ended. _NO_SIZE. */
uint8_t yuglemit_raw_report_ending(yuglemit_report *report, uint64_t *ending, size_t count);
static inline uint8_t yuglemit_report_ending(const yuglemit_report *report, yuglemit_ending *ending) {
    if (!yuglemit_raw_is_size(ending->size)) return YUGLEMIT_NO_SIZE;
    yuglemit_report same = *report;
    return yuglemit_raw_report_ending(&same, &ending->events, yuglemit_raw_count(ending->size));
}

/* Describes an output of main. _NO_INDEX. */
uint8_t yuglemit_raw_report_output(yuglemit_report *report, size_t output, yuglemit_item *item);
static inline uint8_t yuglemit_report_output(const yuglemit_report *report, size_t output, yuglemit_item *item) {
    yuglemit_report same = *report;
    return yuglemit_raw_report_output(&same, output, item);
}

/* Writes the member of an output at a place: the number of subscripts that are smaller than the member's. _NO_INDEX. */
uint8_t yuglemit_raw_report_member(yuglemit_report *report, size_t output, size_t place, yuglemit_member *member);
static inline uint8_t yuglemit_report_member(const yuglemit_report *report, size_t output, size_t place, yuglemit_member *member) {
    yuglemit_report same = *report;
    return yuglemit_raw_report_member(&same, output, place, member);
}

/* Writes the members of an output from a place on, as many as `count`, to an array: one call reads a container, whose item has the number of
 * members. _NO_INDEX if there is no such output, or it has fewer. `members` isn't NULL, also if the count is 0. */
uint8_t yuglemit_raw_report_members(yuglemit_report *report, size_t output, size_t first, yuglemit_member *members, size_t count);
static inline uint8_t yuglemit_report_members(const yuglemit_report *report, size_t output, size_t first, yuglemit_member *members, size_t count) {
    yuglemit_report same = *report;
    return yuglemit_raw_report_members(&same, output, first, members, count);
}

/* Write the place of the member of an output with this subscript, for yuglemit_report_member and the calls below: how many subscripts are smaller.
 * A place takes log n comparisons of n members. _NO_INDEX if the output isn't a container with this subscript; _NO_UTF8. */
uint8_t yuglemit_raw_report_find_int(yuglemit_report *report, size_t output, int64_t subscript, size_t *place);
static inline uint8_t yuglemit_report_find_int(const yuglemit_report *report, size_t output, int64_t subscript, size_t *place) {
    yuglemit_report same = *report;
    return yuglemit_raw_report_find_int(&same, output, subscript, place);
}
uint8_t yuglemit_raw_report_find_text(yuglemit_report *report, size_t output, const uint8_t *subscript, size_t length, size_t *place);
static inline uint8_t yuglemit_report_find_text(const yuglemit_report *report, size_t output, const uint8_t *subscript, size_t length, size_t *place) {
    yuglemit_report same = *report;
    return yuglemit_raw_report_find_text(&same, output, subscript, length, place);
}

/* Write the text of an output, a member or a subscript to the start of `room`, if it fits; the rest of `room` stays. Its item has the
 * length. There is no byte 0 after it. _NO_INDEX, _NO_TEXT, _NO_ROOM. */
uint8_t yuglemit_raw_report_text(yuglemit_report *report, size_t output, uint8_t *room, size_t room_length);
static inline uint8_t yuglemit_report_text(const yuglemit_report *report, size_t output, uint8_t *room, size_t room_length) {
    yuglemit_report same = *report;
    return yuglemit_raw_report_text(&same, output, room, room_length);
}
uint8_t yuglemit_raw_report_member_text(yuglemit_report *report, size_t output, size_t place, uint8_t *room, size_t room_length);
static inline uint8_t yuglemit_report_member_text(const yuglemit_report *report, size_t output, size_t place, uint8_t *room, size_t room_length) {
    yuglemit_report same = *report;
    return yuglemit_raw_report_member_text(&same, output, place, room, room_length);
}
uint8_t yuglemit_raw_report_subscript_text(yuglemit_report *report, size_t output, size_t place, uint8_t *room, size_t room_length);
static inline uint8_t yuglemit_report_subscript_text(const yuglemit_report *report, size_t output, size_t place, uint8_t *room, size_t room_length) {
    yuglemit_report same = *report;
    return yuglemit_raw_report_subscript_text(&same, output, place, room, room_length);
}

/* Writes how much the run did, until it ended or was stopped. It takes time by the number of events. _NO_SIZE. */
uint8_t yuglemit_raw_report_meter(yuglemit_report *report, uint64_t *meter, size_t count);
static inline uint8_t yuglemit_report_meter(const yuglemit_report *report, yuglemit_meter *meter) {
    if (!yuglemit_raw_is_size(meter->size)) return YUGLEMIT_NO_SIZE;
    yuglemit_report same = *report;
    return yuglemit_raw_report_meter(&same, &meter->events, yuglemit_raw_count(meter->size));
}

/* Writes whether the order of events may show in the run's outputs. YUGLEMIT_NO_ORDER if the run's options have 0 for `order`; _NO_SIZE. */
uint8_t yuglemit_raw_report_order(yuglemit_report *report, uint64_t *order, size_t count);
static inline uint8_t yuglemit_report_order(const yuglemit_report *report, yuglemit_order *order) {
    if (!yuglemit_raw_is_size(order->size)) return YUGLEMIT_NO_SIZE;
    yuglemit_report same = *report;
    return yuglemit_raw_report_order(&same, &order->may_show, yuglemit_raw_count(order->size));
}

/* Writes how many instructions the run executed; UINT64_MAX if they were more. */
uint8_t yuglemit_raw_report_instructions(yuglemit_report *report, uint64_t *count);
static inline uint8_t yuglemit_report_instructions(const yuglemit_report *report, uint64_t *count) {
    yuglemit_report same = *report;
    return yuglemit_raw_report_instructions(&same, count);
}

/* Print a report as `tw run` prints that of a program's bytes, the events as `tw run --trace` does, and the line of `tw run --json`. The handle
 * of the text holds what is printed. The run isn't made again. The report of a run that was stopped, or for which memory ran out, ends with
 * `running`. _NO_MEMORY, _ONE_HANDLE; the line alone _NO_END. */
uint8_t yuglemit_raw_print_report(yuglemit_report *report, yuglemit_text *text);
static inline uint8_t yuglemit_print_report(const yuglemit_report *report, yuglemit_text *text) {
    if ((const void *)report == (const void *)text) return YUGLEMIT_ONE_HANDLE;
    yuglemit_report same = *report;
    return yuglemit_raw_print_report(&same, text);
}
uint8_t yuglemit_raw_print_trace(yuglemit_report *report, yuglemit_text *text);
static inline uint8_t yuglemit_print_trace(const yuglemit_report *report, yuglemit_text *text) {
    if ((const void *)report == (const void *)text) return YUGLEMIT_ONE_HANDLE;
    yuglemit_report same = *report;
    return yuglemit_raw_print_trace(&same, text);
}
uint8_t yuglemit_raw_print_json(yuglemit_report *report, yuglemit_text *text);
static inline uint8_t yuglemit_print_json(const yuglemit_report *report, yuglemit_text *text) {
    if ((const void *)report == (const void *)text) return YUGLEMIT_ONE_HANDLE;
    yuglemit_report same = *report;
    return yuglemit_raw_print_json(&same, text);
}

/* ---- Texts */

/* Makes the output of the command `tw` with these arguments and this input, like yuglemit_session, and puts it into the handle of a text. Each
 * argument ends with a NUL, which the last may lack: "run\0--text\0text:a\nb". So an argument has any other character. Returns the exit status,
 * a yuglemit_status and no code; if that is 5, memory ran out, and the text is as it was. */
uint8_t yuglemit_session_text(const uint8_t *words, size_t words_length, const uint8_t *input, size_t input_length, yuglemit_text *output);

/* Like yuglemit_load_with. If the program is refused, `words` says why in words: what `tw check --text` prints if the error is in a line of a text, else
 * what `tw explain` says of the code. If memory runs out for them, they are as they were. _ONE_HANDLE. */
uint8_t yuglemit_raw_load_told(const uint8_t *source, size_t length, uint8_t format, const uint64_t *options, size_t option_count,
                               yuglemit_program *program, uint64_t *verdict, size_t count, yuglemit_text *words);
static inline uint8_t yuglemit_load_told(const uint8_t *source, size_t length, uint8_t format, const yuglemit_load_options *options,
                                         yuglemit_program *program, yuglemit_verdict *verdict, yuglemit_text *words) {
    char explain[] = "explain\0V00";
    if ((void *)program == (void *)words) return YUGLEMIT_ONE_HANDLE;
    if (!yuglemit_raw_is_size(options->size) || !yuglemit_raw_is_size(verdict->size)) return YUGLEMIT_NO_SIZE;
    uint8_t code = yuglemit_raw_load_told(source, length, format, &options->most_bytes, yuglemit_raw_count(options->size), program, &verdict->letter,
                                          yuglemit_raw_count(verdict->size), words);
    if (code != YUGLEMIT_REJECTED || verdict->line) return code;
    explain[8] = (char)verdict->letter;
    explain[9] = (char)('0' + verdict->number / 10);
    explain[10] = (char)('0' + verdict->number % 10);
    yuglemit_session_text((const uint8_t *)explain, sizeof explain - 1, source, 0, words);
    return code;
}

/* Write the length of a text in bytes, and the text to the start of `room`, if it fits; the rest of `room` stays. YUGLEMIT_NO_STRING, _NO_ROOM. */
uint8_t yuglemit_raw_text_length(yuglemit_text *text, size_t *length);
static inline uint8_t yuglemit_text_length(const yuglemit_text *text, size_t *length) {
    yuglemit_text same = *text;
    return yuglemit_raw_text_length(&same, length);
}
uint8_t yuglemit_raw_text_copy(yuglemit_text *text, uint8_t *room, size_t room_length);
static inline uint8_t yuglemit_text_copy(const yuglemit_text *text, uint8_t *room, size_t room_length) {
    yuglemit_text same = *text;
    return yuglemit_raw_text_copy(&same, room, room_length);
}

#ifdef __cplusplus
}
#endif
#endif
