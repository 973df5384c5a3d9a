#include "bound.h"

#include <string.h>

void touch(const struct run *runs, size_t count)
{
    for (size_t i = 0; i < count; i++)
        if (runs[i].from != NULL)
            memcpy(runs[i].to, runs[i].from, runs[i].len);
        else
            memset(runs[i].to, 0, runs[i].len);
}
