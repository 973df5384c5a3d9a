/* What is timed: a call on a guest, made by the library, by plain C, and as its bytes alone. */
#ifndef SCENARIOS_H
#define SCENARIOS_H

#include <stddef.h>
#include <stdint.h>

#include "bound.h"
#include "guests.h"

enum doer { BOUND, PLAIN, LIBRARY, DOERS };

struct scenario {
    const char *call;
    int guest;
    double target; /* the library's time over plain C's; 0: none set */
    void (*run[DOERS])(struct scenario *s, uint64_t times);
    uint8_t state[STATE_BYTES]; /* or an XICS, which is shorter */
    uint8_t *memory;
    size_t memory_len;
    const uint8_t *event; /* the next event's row to look up */
    struct run *runs;
    size_t run_count, bytes;
};

enum { SAVE_SOME, SAVE_BLANK, SAVE_WIDE, RESTORE_SOME, RESTORE_BLANK, RESTORE_WIDE, EXPLAIN_SOME, EXPLAIN_BLANK, EXPLAIN_WIDE,
       LOOKUP_SOME, LOOKUP_WIDE, LINE_SMALL, LINE_SOME, LINE_FULL, DELIVERABLE_FULL, SCENARIOS };

extern struct scenario scenarios[SCENARIOS];

void make_scenarios(void);

/* Ends the bench if the timed calls left another state than they must. */
void check_scenarios(void);

#endif
