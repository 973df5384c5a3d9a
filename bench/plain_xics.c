#include "plain_xics.h"

#include "plain_state.h"
#include "ritikancha.h"

/* A table of rows in an XICS: its first row and the number of them. */
struct rows {
    const uint8_t *first;
    size_t count;
};

static uint64_t number_at(struct rows t, size_t i)
{
    return get64(t.first + i * XICS_ROW_BYTES);
}

static uint64_t word_at(struct rows t, size_t i)
{
    return get64(t.first + i * XICS_ROW_BYTES + 8);
}

/* The row with a number, or the count where there is none. */
static size_t find_row(struct rows t, uint64_t number)
{
    size_t i = 0;
    while (i < t.count && number_at(t, i) != number)
        i++;
    return i;
}

/* Every number is below 2^bits, and none stands in a row before it. */
static bool numbers_ok(struct rows t, int bits)
{
    for (size_t i = 0; i < t.count; i++)
        if (number_at(t, i) >> bits != 0 || find_row(t, number_at(t, i)) != i)
            return false;
    return true;
}

static bool sources_ok(struct rows sources, struct rows servers)
{
    for (size_t i = 0; i < sources.count; i++) {
        uint64_t word = word_at(sources, i);
        if (word >> 43 != 0 || find_row(servers, word & 0xFFFFFFFF) == servers.count)
            return false;
    }
    return true;
}

static bool servers_ok(struct rows servers)
{
    for (size_t i = 0; i < servers.count; i++) {
        uint64_t word = word_at(servers, i);
        bool no_source = (word >> 32 & 0xFFFFFF) == 0, no_priority = (word >> 16 & 0xFF) == 0xFF;
        if ((word & 0xFFFF) != 0 || no_source != no_priority)
            return false;
    }
    return true;
}

int64_t plain_xics_deliverable(const uint8_t *xics, size_t xics_len, uint64_t source)
{
    if (xics_len != XICS_BYTES)
        return -RK_EFAULT;
    if (get64(xics + AT_SERVER_COUNT) > XICS_ROWS || get64(xics + AT_SOURCE_COUNT) > XICS_ROWS)
        return -RK_EINVAL;
    struct rows servers = {xics + AT_SERVERS, (size_t)get64(xics + AT_SERVER_COUNT)};
    struct rows sources = {xics + AT_SOURCES, (size_t)get64(xics + AT_SOURCE_COUNT)};
    if (!numbers_ok(servers, 32) || !numbers_ok(sources, 20) || !sources_ok(sources, servers) || !servers_ok(servers))
        return -RK_EINVAL;
    size_t i = find_row(sources, source);
    if (i == sources.count)
        return -RK_ENOENT;
    uint64_t word = word_at(sources, i);
    uint64_t current = word_at(servers, find_row(servers, word & 0xFFFFFFFF)) >> 56;
    return (word >> 41 & 3) == 2 && (word >> 32 & 0xFF) < current;
}
