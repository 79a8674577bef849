/* What callers.c and loaded.c share. */
#include "../../embed/yuglemit.h"

extern uint8_t program_bytes[1 << 16]; /* those of examples/read_number.twn */
extern size_t program_length;

/* All handles of a run. */
typedef struct handles {
    yuglemit_program program, other;
    yuglemit_inputs inputs;
    yuglemit_container container;
    yuglemit_stop stop;
    yuglemit_report report;
    yuglemit_text text;
} handles;

#define NO_HANDLES {{NULL}, {NULL}, {NULL}, {NULL}, {NULL}, {NULL}, {NULL}}

void free_all(handles *all);

/* Counts a check, and prints what it is if it doesn't hold. */
void check(int holds, const char *what);

/* Makes each call with each kind of handle. */
void check_pairs(void);

/* The checks of loaded.c. */
void check_with_little_stack(void);
