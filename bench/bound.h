/* The least that a call can cost: its bytes moved by memcpy and memset. */
#ifndef BOUND_H
#define BOUND_H

#include <stddef.h>
#include <stdint.h>

/* one run of bytes: read (copied from there) or, where `from` is null, zeroed */
struct run {
    uint8_t *to;
    const uint8_t *from;
    size_t len;
};

/* in a file of its own, so that the compiler cannot leave out a second pass that changes nothing */
void touch(const struct run *runs, size_t count);

#endif
