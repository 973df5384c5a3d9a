#include "xics.h"

#include <stdio.h>
#include <stdlib.h>
#include <string.h>

#include "guests.h"
#include "ritikancha.h"

uint8_t full_xics[XICS_BYTES];
uint8_t roomy_xics[XICS_BYTES];

static unsigned long compared;

/* Numbers of all their bits, and not rising: 997 has no factor in common with 2^20, 2654435761 none with 2^32. */
uint64_t source_number(uint64_t i)
{
    return i * 997 * 997 % (1 << 20);
}

uint64_t server_number(uint64_t i)
{
    return i * UINT64_C(2654435761) % (UINT64_C(1) << 32);
}

/* Source i has priority i, and the servers' current priority is 31. The last server is the first source's, and none goes to server 0. Every
 * third source is masked, every fourth is not pending, and every fifth is level: the one with priority 31 fails by its priority alone. */
static uint64_t source_word(uint64_t i, uint64_t rows)
{
    uint64_t server = i + 1 < rows ? rows - 1 - i : 1;
    return server_number(server) | i << 32 | (uint64_t)(i % 5 == 0) << 40 | (uint64_t)(i % 3 == 0) << 41 | (uint64_t)(i % 4 != 0) << 42;
}

static int64_t is_deliverable(uint64_t i)
{
    return i % 4 != 0 && i % 3 != 0 && i < 31;
}

static void fill(uint8_t *xics, uint64_t rows)
{
    uint8_t value[8];
    fill_old(xics, XICS_BYTES);
    need(rk_xics_len() == XICS_BYTES && rk_xics_setup(xics, XICS_BYTES) == 0, "an XICS was not set up");
    for (uint64_t i = 0; i < rows; i++) {
        put64(value, UINT64_C(31) << 56 | (i + 1) << 32 | i << 24 | i << 16);
        need(rk_xics_add_server(xics, XICS_BYTES, server_number(i)) == 0, "a server was refused");
        need(rk_xics_set_server(xics, XICS_BYTES, server_number(i), value, 8) == 0, "a server's word was refused");
    }
    for (uint64_t i = 0; i < rows; i++) {
        put64(value, source_word(i, rows));
        need(rk_xics_add_source(xics, XICS_BYTES, source_number(i), server_number(0)) == 0, "a source was refused");
        need(rk_xics_set_source(xics, XICS_BYTES, source_number(i), value, 8) == 0, "a source's word was refused");
    }
}

void make_xics(void)
{
    fill(full_xics, XICS_ROWS);
    fill(roomy_xics, XICS_ROWS - 1);
}

/* Makes the call on both, and both leave the bytes; gives the answer, which is the same. */
static int64_t both(const uint8_t *xics, size_t len, uint64_t source)
{
    uint8_t before[XICS_BYTES];
    memcpy(before, xics, XICS_BYTES);
    int64_t answer = rk_xics_deliverable(xics, len, source);
    int64_t other = plain_xics_deliverable(xics, len, source);
    compared++;
    if (answer == other && memcmp(before, xics, XICS_BYTES) == 0)
        return answer;
    fprintf(stderr, "bench: the two differ: deliverable: the library answers %lld, plain C %lld\n", (long long)answer, (long long)other);
    exit(1);
}

static void check_answers(const uint8_t *xics, uint64_t rows)
{
    for (uint64_t i = 0; i < rows; i++)
        need(both(xics, XICS_BYTES, source_number(i)) == is_deliverable(i), "a source of which both answer wrong");
    need(both(xics, XICS_BYTES, source_number(rows)) == -RK_ENOENT, "a source that is not there");
    need(both(xics, XICS_BYTES, source_number(0) + (1 << 20)) == -RK_ENOENT, "a number that no source can have");
    need(both(xics, XICS_BYTES, UINT64_MAX) == -RK_ENOENT, "a number that no source can have");
    need(both(xics, XICS_BYTES - 1, source_number(0)) == -RK_EFAULT, "a short XICS");
    need(both(xics, 0, source_number(0)) == -RK_EFAULT, "an XICS without a byte");
}

#define SERVER_AT(i) (AT_SERVERS + (i) * XICS_ROW_BYTES)
#define SOURCE_AT(i) (AT_SOURCES + (i) * XICS_ROW_BYTES)

/* one rule of §14.12 broken, by a word of the bytes */
static const struct {
    const char *what;
    size_t at;
    uint64_t word;
} damages[] = {
    {"65 servers", AT_SERVER_COUNT, 65},
    {"65 sources", AT_SOURCE_COUNT, 65},
    {"a server's number of 33 bits", SERVER_AT(0), UINT64_C(1) << 32},
    {"a server's number twice", SERVER_AT(0), UINT64_C(2654435761)},
    {"a pending priority without a source", SERVER_AT(0) + 8, UINT64_C(0x1F000000FF040000)},
    {"a source at pending priority 255", SERVER_AT(0) + 8, UINT64_C(0x1F000001FFFF0000)},
    {"an unused bit", SERVER_AT(0) + 8, UINT64_C(0x1F000000FFFF8000)},
    {"a source's number of 21 bits", SOURCE_AT(0), 1 << 20},
    {"a source's number twice", SOURCE_AT(0), 994009},
    {"a source's word with bit 43", SOURCE_AT(0) + 8, UINT64_C(1) << 43 | 2654435761},
    {"a destination with no server", SOURCE_AT(0) + 8, 5},
};

static void check_damages(const uint8_t *from)
{
    uint8_t xics[XICS_BYTES];
    for (size_t i = 0; i < sizeof damages / sizeof damages[0]; i++) {
        memcpy(xics, from, XICS_BYTES);
        put64(xics + damages[i].at, damages[i].word);
        need(both(xics, XICS_BYTES, source_number(1)) == -RK_EINVAL, damages[i].what);
    }
}

/* Every byte changed by itself, asked of the source whose row comes first and of the last. */
static void sweep(const uint8_t *from, uint64_t rows, uint8_t change)
{
    uint8_t xics[XICS_BYTES];
    unsigned long sound = 0;
    memcpy(xics, from, XICS_BYTES);
    for (size_t i = 0; i < XICS_BYTES; i++) {
        xics[i] ^= change;
        sound += both(xics, XICS_BYTES, source_number(0)) != -RK_EINVAL;
        both(xics, XICS_BYTES, source_number(rows - 1));
        xics[i] ^= change;
    }
    need(sound > 0 && sound < XICS_BYTES, "a sweep over an XICS shows nothing");
}

unsigned long check_xics(void)
{
    for (unsigned change = 1; change <= 0x80; change *= 2) {
        sweep(full_xics, XICS_ROWS, (uint8_t)change);
        sweep(roomy_xics, XICS_ROWS - 1, (uint8_t)change);
    }
    check_damages(full_xics);
    check_damages(roomy_xics);
    check_answers(full_xics, XICS_ROWS);
    check_answers(roomy_xics, XICS_ROWS - 1);
    return compared;
}
