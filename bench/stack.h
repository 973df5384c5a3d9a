/* The most stack that a call uses, measured on a painted stack of its own. */
#ifndef STACK_H
#define STACK_H

#include <stddef.h>

struct depth {
    const char *call;
    size_t bytes;
};

/* the deepest of all calls of the library, and of the plain C ones */
struct depth library_depth(void);
struct depth plain_depth(void);

/* the same of the calls whose names begin so */
size_t library_depth_of(const char *call);
size_t plain_depth_of(const char *call);

#endif
