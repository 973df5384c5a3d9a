/* An XICS in bytes of its own, and what the two files of its example share. */
#ifndef XICS_H
#define XICS_H

#include <stddef.h>
#include <stdint.h>

struct xics {
    uint8_t *bytes;
    size_t len;
};

/* What the bytes hold before set-up: no number of servers or sources that can be. */
enum { GARBAGE = 0xA7 };

/* Room for an XICS, not set up and full of garbage. */
struct xics open_xics(void);
void close_xics(struct xics *xics);
void set_up(struct xics *xics);

/* What is refused, on the example's XICS, on a full one and on garbage; each refusal leaves every byte. */
void refuse_all(const struct xics *xics);

#endif
