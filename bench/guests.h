/* The guests that the bench runs on, each set up by the library's own calls. */
#ifndef GUESTS_H
#define GUESTS_H

#include <stddef.h>
#include <stdint.h>

#include "plain_state.h"

#define MEMORY_START UINT64_C(0x40000000)

struct guest {
    const char *name;
    uint8_t state[STATE_BYTES];
    uint8_t *memory;
    size_t memory_len;
};

enum {
    FRESH, /* 1 VCPU and a distributor; no count was set */
    READY, /* also what INIT needs, and 256 interrupts */
    SMALL, /* the same after INIT */
    SOME,  /* 3 devices, 30 events */
    BLANK, /* no mapping, two tables of 128 pages */
    WIDE,  /* 32 devices, 1,024 events, ITTs of 16 bits */
    FULL,  /* every limit reached */
    GUESTS
};

/* Memory holds old bytes until a save. */
extern struct guest guests[GUESTS];

void make_guests(void);

/* Ends the bench unless what was asked for holds. */
void need(int holds, const char *what);

/* Guest memory holds anything before a save: bytes that no table has by chance. */
void fill_old(uint8_t *bytes, size_t len);

#endif
