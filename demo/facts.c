#include "facts.h"

#include <inttypes.h>
#include <stdio.h>

static unsigned passed;
static unsigned failed;

bool fact(bool holds, const char *what)
{
    if (holds) {
        passed++;
    } else {
        failed++;
        printf("NOT SO: %s\n", what);
    }
    return holds;
}

bool answers(int64_t answer, int64_t want, const char *what)
{
    if (answer != want)
        printf("answer %" PRId64 ", should be %" PRId64 ": ", answer, want);
    return fact(answer == want, what);
}

int close_facts(const char *name)
{
    printf("%s: %u passed, %u failed\n", name, passed, failed);
    return failed == 0 && passed > 0 ? 0 : 1;
}
