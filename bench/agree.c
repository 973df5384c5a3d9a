#include "agree.h"

#include <stdio.h>
#include <stdlib.h>
#include <string.h>

#include "guests.h"
#include "plain.h"
#include "ritikancha.h"

enum kind { LINE, LOOKUP, SAVE, RESTORE, EXPLAIN };

/* one call: its numbers, and how much longer than they are the state and the memory are said to be */
struct call {
    enum kind kind;
    uint64_t a, b, c;
    int state_more, memory_more;
};

/* what one of the two is lent */
struct side {
    uint8_t state[STATE_BYTES];
    uint8_t *memory;
    size_t memory_len;
};

static struct side library, plain;
static unsigned long compared;

static int64_t call_library(struct side *s, const struct call *q)
{
    size_t state_len = STATE_BYTES + (size_t)q->state_more;
    size_t memory_len = s->memory_len + (size_t)q->memory_more;
    switch (q->kind) {
    case LINE:
        return rk_irq_line(s->state, state_len, q->a, q->b, q->c);
    case LOOKUP:
        return rk_its_lookup(s->state, state_len, q->a, q->b);
    case SAVE:
        return rk_its_save(s->state, state_len, s->memory, memory_len);
    case RESTORE:
        return rk_its_restore(s->state, state_len, s->memory, memory_len);
    default:
        return rk_its_explain(s->state, state_len, s->memory, memory_len);
    }
}

static int64_t call_plain(struct side *s, const struct call *q)
{
    size_t state_len = STATE_BYTES + (size_t)q->state_more;
    size_t memory_len = s->memory_len + (size_t)q->memory_more;
    switch (q->kind) {
    case LINE:
        return plain_irq_line(s->state, state_len, q->a, q->b, q->c);
    case LOOKUP:
        return plain_lookup(s->state, state_len, q->a, q->b);
    case SAVE:
        return plain_save(s->state, state_len, s->memory, memory_len);
    case RESTORE:
        return plain_restore(s->state, state_len, s->memory, memory_len);
    default:
        return plain_explain(s->state, state_len, s->memory, memory_len);
    }
}

/* Makes one call on both; gives the answer, which is the same. */
static int64_t both(const struct call *q, const char *what)
{
    int64_t answer = call_library(&library, q);
    int64_t other = call_plain(&plain, q);
    bool same = answer == other && memcmp(library.state, plain.state, STATE_BYTES) == 0;
    if (q->kind == SAVE || q->kind == RESTORE || q->kind == EXPLAIN)
        same = same && memcmp(library.memory, plain.memory, library.memory_len) == 0;
    compared++;
    if (same)
        return answer;
    fprintf(stderr, "bench: the two differ: %s: the library answers %lld, plain C %lld\n", what, (long long)answer, (long long)other);
    exit(1);
}

/* The same, where the answer is known from docs/DEFINITION.md. */
static void both_answer(int64_t due, const struct call *q, const char *what)
{
    int64_t answer = both(q, what);
    if (answer == due)
        return;
    fprintf(stderr, "bench: %s: both answer %lld where %lld is due\n", what, (long long)answer, (long long)due);
    exit(1);
}

static void lend_memory(struct side *s, const struct guest *g)
{
    free(s->memory);
    s->memory = malloc(g->memory_len);
    need(s->memory != NULL, "no memory");
    memcpy(s->memory, g->memory, g->memory_len);
    s->memory_len = g->memory_len;
}

static void lend_state(const uint8_t *state)
{
    memcpy(library.state, state, STATE_BYTES);
    memcpy(plain.state, state, STATE_BYTES);
}

static void lend(const struct guest *g)
{
    lend_state(g->state);
    lend_memory(&library, g);
    lend_memory(&plain, g);
}

/* ---- the calls that are timed */

static void check_lookups(const struct guest *g)
{
    const uint8_t *map = g->state + AT_MAPPING;
    size_t n = (size_t)get64(map + AT_EVENT_COUNT);
    for (size_t i = 0; i < n; i++) {
        const uint8_t *row = event_row(map, i);
        struct call q = {.kind = LOOKUP, .a = get16(row), .b = get16(row + 2)};
        need(both(&q, "lookup of a mapped event") >= 8192, "a mapped event is not found");
    }
}

/* Each save is onto old bytes; each restore is into a state whose mapping is empty, with old bytes in the place of its rows. */
static void check_tables(const struct guest *g)
{
    static const struct call save = {.kind = SAVE}, restore = {.kind = RESTORE}, explain = {.kind = EXPLAIN};
    uint8_t emptied[STATE_BYTES];
    lend(g);
    both_answer(0, &save, "save");
    both_answer(0, &explain, "explain");
    memcpy(emptied, g->state, STATE_BYTES);
    fill_old(emptied + AT_MAPPING, MAPPING_BYTES);
    memset(emptied + AT_MAPPING, 0, AT_DEVICES);
    lend_state(emptied);
    both_answer(0, &restore, "restore");
    check_lookups(g);
}

/* INTID 40 is bit 8 of the first shared bank: its latch, level and trigger as the bits of `bits`. */
static void lend_bank(const struct guest *g, unsigned bits)
{
    uint8_t state[STATE_BYTES];
    memcpy(state, g->state, STATE_BYTES);
    put32(state + AT_BANKS, (bits & 1) << 8);
    put32(state + AT_BANKS + 4, (bits >> 1 & 1) << 8);
    put32(state + AT_BANKS + 8, (bits >> 2 & 1) << 8);
    lend_state(state);
}

/* INTIDs on both sides of 1,020, with the trigger bit of each interrupt of their bank set: up to 1,019 a rise is latched, from there on no
 * byte changes. */
static void check_last_lines(void)
{
    uint8_t state[STATE_BYTES];
    memcpy(state, guests[FULL].state, STATE_BYTES);
    put32(state + AT_LAST_BANK + 8, 0x0fffffff);
    for (uint64_t intid = 1016; intid < 1024; intid++) {
        const struct call up = {.kind = LINE, .b = intid, .c = 1}, down = {.kind = LINE, .b = intid, .c = 0};
        lend_state(state);
        both_answer(0, &up, "line up near INTID 1,020");
        need((memcmp(library.state, state, STATE_BYTES) == 0) == (intid > 1019), "another INTID than 1,020 is the first that is none");
        both_answer(0, &down, "line down near INTID 1,020");
    }
}

static void check_lines(const struct guest *g)
{
    static const struct call up = {.kind = LINE, .b = 40, .c = 1}, down = {.kind = LINE, .b = 40, .c = 0};
    for (unsigned bits = 0; bits < 8; bits++) {
        lend_bank(g, bits);
        both_answer(0, &up, "line up");
        lend_bank(g, bits);
        both_answer(0, &down, "line down");
    }
}

/* ---- refused calls */

static const struct refused {
    const char *what;
    int guest;
    int64_t due;
    struct call call;
} refused[] = {
    {"state of a wrong length", SOME, -14, {.kind = LOOKUP, .a = 8, .state_more = -1}},
    {"line before INIT", FRESH, -6, {.kind = LINE, .b = 40, .c = 1}},
    {"line of an unknown VCPU", SOME, -22, {.kind = LINE, .a = 4, .b = 40, .c = 1}},
    {"line of INTID 1,024", FULL, -22, {.kind = LINE, .b = 1024, .c = 1}},
    {"line to level 2", SOME, -22, {.kind = LINE, .b = 40, .c = 2}},
    {"line of an SGI", SOME, 0, {.kind = LINE, .b = 15, .c = 1}},
    {"line of a VCPU's own", SOME, 0, {.kind = LINE, .a = 3, .b = 16, .c = 1}},
    {"line up above the interrupt count", SOME, 0, {.kind = LINE, .b = 256, .c = 1}},
    {"line down above the interrupt count", SOME, 0, {.kind = LINE, .b = 256, .c = 0}},
    {"line of the last interrupt", FULL, 0, {.kind = LINE, .b = 1019, .c = 1}},
    {"line of INTID 1,020", FULL, 0, {.kind = LINE, .b = 1020, .c = 1}},
    {"line of INTID 1,020 of an unknown VCPU", FULL, -22, {.kind = LINE, .a = 64, .b = 1020, .c = 1}},
    {"line of INTID 1,023 to level 2", FULL, -22, {.kind = LINE, .b = 1023, .c = 2}},
    {"line of INTID 1,023 before INIT", READY, -6, {.kind = LINE, .b = 1023, .c = 1}},
    {"lookup before ITS INIT", SMALL, -6, {.kind = LOOKUP, .a = 8}},
    {"lookup of no device", SOME, -2, {.kind = LOOKUP, .a = 9}},
    {"lookup of no event", SOME, -2, {.kind = LOOKUP, .a = 8, .b = 10}},
    {"lookup far out of range", SOME, -2, {.kind = LOOKUP, .a = UINT64_C(1) << 48 | 8}},
    {"save to memory of a wrong length", SOME, -14, {.kind = SAVE, .memory_more = -8}},
    {"save before ITS INIT", SMALL, -6, {.kind = SAVE}},
    {"restore from memory of a wrong length", SOME, -14, {.kind = RESTORE, .memory_more = -8}},
    {"restore before ITS INIT", SMALL, -6, {.kind = RESTORE}},
    {"explain of a state of a wrong length", SOME, -14, {.kind = EXPLAIN, .state_more = -1}},
    {"explain of memory of a wrong length", SOME, -14, {.kind = EXPLAIN, .memory_more = -8}},
    {"explain before ITS INIT", SMALL, -6, {.kind = EXPLAIN}},
    {"explain before ITS INIT of memory of a wrong length", SMALL, -14, {.kind = EXPLAIN, .memory_more = -8}},
};

static void check_refused(void)
{
    for (size_t i = 0; i < sizeof refused / sizeof refused[0]; i++) {
        lend(&guests[refused[i].guest]);
        both_answer(refused[i].due, &refused[i].call, refused[i].what);
    }
}

static void check_running(void)
{
    static const struct call save = {.kind = SAVE}, restore = {.kind = RESTORE}, explain = {.kind = EXPLAIN};
    static const struct call explain_short = {.kind = EXPLAIN, .memory_more = -8};
    lend(&guests[SOME]);
    need(rk_vcpus_start(library.state, STATE_BYTES) == 0, "a guest could not be started");
    memcpy(plain.state, library.state, STATE_BYTES);
    both_answer(-16, &save, "save while running");
    both_answer(-16, &restore, "restore while running");
    both_answer(-16, &explain, "explain while running");
    both_answer(-14, &explain_short, "explain while running of memory of a wrong length");
}

/* ---- damaged states */

#define DEVICE(i) (AT_MAPPING + AT_DEVICES + (i) * DEVICE_BYTES)
#define COLLECTION(i) (AT_MAPPING + AT_COLLECTIONS + (i) * COLLECTION_BYTES)
#define EVENT(i) (AT_MAPPING + AT_EVENTS + (i) * EVENT_BYTES)
#define REGION(i) (AT_REGIONS + (i) * REGION_BYTES)
#define VCPU(i) (AT_VCPUS + (i) * VCPU_BYTES)
#define BANK(i) (AT_BANKS + (i) * BANK_BYTES)

/* `bytes` bytes of the state replaced; beyond the eighth they are 0 */
struct edit {
    size_t at;
    unsigned bytes;
    uint64_t value;
};

#define EVENTS_LEFT(n) {AT_MAPPING + AT_EVENT_COUNT, 8, n}

/* A guest with one rule broken and no other: where the bytes of one rule are another's too, further edits mend that one. */
static const struct damage {
    const char *what;
    int guest;
    struct edit edits[4];
} damages[] = {
    {"width 35", FULL, {{AT_WIDTH, 8, 35}}},
    {"width 53", FULL, {{AT_WIDTH, 8, 53}}},
    {"memory that starts off a page", FULL, {{AT_START, 8, MEMORY_START - 8}}},
    {"memory that ends off a page", FULL, {{AT_LENGTH, 8, 0x100008}}},
    {"memory of 2 GiB", FULL, {{AT_LENGTH, 8, UINT64_C(1) << 31}}},
    {"memory that ends above 2^64", FULL, {{AT_START, 8, UINT64_C(0xfffffffffffff000)}}},
    {"a mark of 2", FULL, {{AT_INIT, 8, 2}}},
    {"running of 2", FULL, {{AT_RUNNING, 8, 2}}},
    {"ITS INIT without INIT", FULL, {{AT_INIT, 8, 0}}},
    {"32 interrupts", FULL, {{AT_IRQS, 8, 32}}},
    {"80 interrupts", FULL, {{AT_IRQS, 8, 80}}},
    {"1,056 interrupts", FULL, {{AT_IRQS, 8, 1056}}},
    {"1,024 interrupts that nobody set", FULL, {{AT_IRQS_SET, 8, 0}}},
    {"STATUSR of five bits", FULL, {{AT_STATUS, 8, 16}}},
    {"a distributor off its boundary", FULL, {{AT_DISTRIBUTOR + 8, 8, 0x08001000}}},
    {"a distributor in a region", FULL, {{AT_DISTRIBUTOR + 8, 8, 0x10010000}}},
    {"a distributor above 2^p", FULL, {{AT_DISTRIBUTOR + 8, 8, UINT64_C(1) << 40}}},
    {"a base that is not set and not 0", FULL, {{AT_DISTRIBUTOR, 8, 0}}},
    {"INIT without a distributor", FULL, {{AT_DISTRIBUTOR, 16, 0}}},
    {"single run and regions", FULL, {{AT_SINGLE, 8, 1}}},
    {"33 regions", FULL, {{AT_REGION_COUNT, 8, 33}}},
    {"regions for too few", FULL, {{AT_REGION_COUNT, 8, 31}}},
    {"a region of none", FULL, {{REGION(3) + 8, 8, 0}, {REGION(31) + 8, 8, 100}}},
    {"a region of 4,096", FULL, {{REGION(31) + 8, 8, 4096}}},
    {"a region that ends above 2^64", FULL, {{REGION(3), 8, UINT64_C(0xffffffffffff0000)}}},
    {"65 VCPUs", FULL, {{AT_VCPU_COUNT, 8, 65}, {REGION(31) + 8, 8, 100}, {VCPU(64), 4, 0x999}, {VCPU(64) + 12, 4, 0xffff}}},
    {"INIT without a VCPU", SMALL, {{AT_VCPU_COUNT, 8, 0}}},
    {"a single run that is whole in another frame", SOME, {{AT_SINGLE + 8, 8, 0x08060000}}},
    {"one affinity twice", FULL, {{VCPU(63), 4, 0x30e}}},
    {"an SGI that is level", FULL, {{VCPU(63) + 12, 2, 0x7fff}}},
    {"an SGI's level", FULL, {{VCPU(63) + 8, 2, 0x8000}}},
    {"a redistributor's STATUSR", FULL, {{VCPU(63) + 16, 4, 16}}},
    {"a latch of INTID 1,020", FULL, {{AT_LAST_BANK, 4, 0x10000000}}},
    {"a level of INTID 1,021", FULL, {{AT_LAST_BANK + 4, 4, 0x20000000}}},
    {"a trigger of INTID 1,023", FULL, {{AT_LAST_BANK + 8, 4, 0x80000000}}},
    {"a VCPU's latch before INIT", READY, {{VCPU(0) + 4, 4, 1}}},
    {"a VCPU's level before INIT", READY, {{VCPU(0) + 8, 4, 0x10000}}},
    {"a VCPU's edge before INIT", READY, {{VCPU(0) + 12, 4, 0x8000ffff}}},
    {"a redistributor's STATUSR before INIT", READY, {{VCPU(0) + 16, 4, 1}}},
    {"a shared latch before INIT", READY, {{BANK(0), 4, 1}}},
    {"a shared level before INIT", READY, {{BANK(6) + 4, 4, 0x80000000}}},
    {"a shared edge before INIT", READY, {{BANK(6) + 8, 4, 0x80000000}}},
    {"STATUSR before INIT", READY, {{AT_STATUS, 8, 1}}},
    {"ITS INIT without its base", FULL, {{AT_ITS, 16, 0}}},
    {"a table off a page", FULL, {{AT_COLLECTION_TABLE + 8, 8, MEMORY_START + 0x8010}}},
    {"a table of 129 pages", FULL, {{AT_COLLECTION_TABLE + 8, 8, MEMORY_START + 0x8000}, {AT_COLLECTION_TABLE + 16, 8, 129}}},
    {"a table of no pages", FULL, {{AT_COLLECTION_TABLE + 16, 8, 0}}},
    {"tables that overlap", FULL, {{AT_COLLECTION_TABLE + 8, 8, MEMORY_START}}},
    {"one table not placed", FULL, {{AT_COLLECTION_TABLE, 24, 0}}},
    {"a mapping and no table", FULL, {{AT_DEVICE_TABLE, 48, 0}}},
    {"33 devices", FULL, {{AT_MAPPING + AT_DEVICE_COUNT, 8, 33}}},
    {"a device above the table", FULL, {{DEVICE(31), 8, 512}, EVENTS_LEFT(992)}},
    {"one device twice", FULL, {{DEVICE(31), 8, 458}, EVENTS_LEFT(992)}},
    {"17 bits", FULL, {{DEVICE(31) + 16, 8, 17}, {AT_LENGTH, 8, UINT64_C(1) << 30}}},
    {"0 bits", FULL, {{DEVICE(31) + 16, 8, 0}, EVENTS_LEFT(992)}},
    {"an ITT off its boundary", FULL, {{DEVICE(31) + 8, 8, MEMORY_START + 0x8008}}},
    {"an ITT outside memory", FULL, {{DEVICE(31) + 8, 8, MEMORY_START + 0x100000}}},
    {"an ITT over another", FULL, {{DEVICE(31) + 8, 8, MEMORY_START + 0x2000}}},
    {"17 collections", FULL, {{AT_MAPPING + AT_COLLECTION_COUNT, 8, 17}}},
    {"a collection of no VCPU", FULL, {{COLLECTION(15) + 2, 2, 64}}},
    {"one collection twice", FULL, {{COLLECTION(15), 2, 42}, EVENTS_LEFT(0)}},
    {"1,025 events", FULL, {EVENTS_LEFT(1025)}},
    {"an event of no device", FULL, {{EVENT(1023), 2, 474}}},
    {"an event above 2^bits", FULL, {{EVENT(1023) + 2, 2, 32}}},
    {"one event twice", FULL, {{EVENT(1023) + 2, 2, 30}}},
    {"an LPI below 8,192", FULL, {{EVENT(1023) + 4, 2, 8191}}},
    {"an event of no collection", FULL, {{EVENT(1023) + 6, 2, 46}}},
};

static void put_edit(uint8_t *state, const struct edit *e)
{
    for (unsigned i = 0; i < e->bytes; i++)
        state[e->at + i] = i < 8 ? (uint8_t)(e->value >> 8 * i) : 0;
}

static void check_damages(void)
{
    static const struct call up = {.kind = LINE, .b = 40, .c = 1}, lookup = {.kind = LOOKUP, .a = 8}, explain = {.kind = EXPLAIN};
    uint8_t state[STATE_BYTES];
    for (size_t i = 0; i < sizeof damages / sizeof damages[0]; i++) {
        memcpy(state, guests[damages[i].guest].state, STATE_BYTES);
        put_edit(state, &damages[i].edits[0]);
        put_edit(state, &damages[i].edits[1]);
        put_edit(state, &damages[i].edits[2]);
        put_edit(state, &damages[i].edits[3]);
        lend_state(state);
        both_answer(-22, &up, damages[i].what);
        both_answer(-22, &lookup, damages[i].what);
        both_answer(-22, &explain, damages[i].what);
    }
}

/* Of counts that nobody set 64 and 256 are sound, and those next to them are not. */
static void check_unset(void)
{
    static const struct call up = {.kind = LINE, .b = 40, .c = 1};
    static const uint64_t counts[] = {64, 96, 224, 256, 288};
    uint8_t state[STATE_BYTES];
    memcpy(state, guests[SMALL].state, STATE_BYTES);
    put64(state + AT_IRQS_SET, 0);
    for (size_t i = 0; i < sizeof counts / sizeof counts[0]; i++) {
        put64(state + AT_IRQS, counts[i]);
        lend_state(state);
        both_answer(counts[i] == 64 || counts[i] == 256 ? 0 : -22, &up, "a count that nobody set");
    }
}

/* Every byte of a state, changed by itself; gives how often the state was still sound. */
static unsigned long sweep_state(const struct guest *g, uint8_t change)
{
    static const struct call up = {.kind = LINE, .b = 40, .c = 1};
    unsigned long sound = 0;
    lend_state(g->state);
    for (size_t i = 0; i < STATE_BYTES; i++) {
        uint8_t was = g->state[i];
        library.state[i] = plain.state[i] = was ^ change;
        if (both(&up, "a state with one byte changed") != -22) {
            sound++;
            lend_state(g->state);
        }
        library.state[i] = plain.state[i] = was;
    }
    return sound;
}

static void check_sweeps(const struct guest *g)
{
    unsigned long sound = sweep_state(g, 0x01) + sweep_state(g, 0x80);
    need(sound > 0 && sound < 2 * STATE_BYTES, "a sweep over a state shows nothing");
}

/* ---- damaged tables */

/* words of a table: `count` of them, entry by entry, each `step` more than the one before */
struct words {
    size_t at, count;
    uint64_t word, step;
};

#define V (UINT64_C(1) << 63)
#define ITT(i) (UINT64_C(0x40100000) + (i) * UINT64_C(0x10000))
#define DEVICE_WORD(next, itt, bits) (V | UINT64_C(next) << 49 | (itt) >> 8 << 5 | ((bits)-1))
#define EVENT_WORD(next, lpi, icid) (UINT64_C(next) << 48 | UINT64_C(lpi) << 16 | (icid))
#define DEVICES_AT(i) ((i) * (size_t)8)
#define COLLECTIONS_AT(i) (0x80000 + (i) * (size_t)8)
#define ITT_AT(i) (0x100000 + (i) * (size_t)8)

/* the code of a fault (§13.6), by the fault's name in the header */
#define CODE(fault, table, device, entry) ((int64_t)(fault) << 40 | (int64_t)(table) << 32 | (int64_t)(device) << 16 | (entry))
#define IN_COLLECTIONS(fault, entry) CODE(RK_FAULT_##fault, RK_TABLE_COLLECTIONS, 0, entry)
#define IN_DEVICES(fault, entry) CODE(RK_FAULT_##fault, RK_TABLE_DEVICES, 0, entry)
#define IN_ITT(fault, device, entry) CODE(RK_FAULT_##fault, RK_TABLE_ITT, device, entry)

/* what the tables of guest b hold beside zeros, the answer to a restore of it and the code of its first fault: first samples of
 * docs/DEFINITION.md, part 12, then each fault, then two faults of which one comes first */
static const struct tables {
    const char *what;
    int64_t due, code;
    struct words words[4];
} tables[] = {
    {"all-zero tables", 0, 0, {{0, 0, 0, 0}}},
    {"devices 0 and 16,383", 0, 0,
     {{DEVICES_AT(0), 1, DEVICE_WORD(16383, ITT(0), 5), 0}, {DEVICES_AT(16383), 1, DEVICE_WORD(0, ITT(1), 5), 0}}},
    {"devices 0 and 20,000", 0, 0,
     {{DEVICES_AT(0), 1, DEVICE_WORD(16383, ITT(0), 5), 0}, {DEVICES_AT(20000), 1, DEVICE_WORD(0, ITT(1), 5), 0}}},
    {"next 16,382 onto a blank", -22, IN_DEVICES(NEXT, 0),
     {{DEVICES_AT(0), 1, DEVICE_WORD(16382, ITT(0), 5), 0}, {DEVICES_AT(16383), 1, DEVICE_WORD(0, ITT(1), 5), 0}}},
    {"next 16,383 and nothing valid behind", -22, IN_DEVICES(NEXT, 0), {{DEVICES_AT(0), 1, DEVICE_WORD(16383, ITT(0), 5), 0}}},
    {"next out of the table", -22, IN_DEVICES(NEXT, 65530), {{DEVICES_AT(65530), 1, DEVICE_WORD(6, ITT(0), 5), 0}}},
    {"the first device far up", 0, 0, {{DEVICES_AT(65535), 1, DEVICE_WORD(0, ITT(0), 5), 0}}},
    {"bits 3, event 5, next 3", -22, IN_ITT(NEXT, 0, 5),
     {{COLLECTIONS_AT(0), 1, V, 0}, {DEVICES_AT(0), 1, DEVICE_WORD(0, ITT(0), 3), 0}, {ITT_AT(5), 1, EVENT_WORD(3, 8192, 0), 0}}},
    {"one of each", 0, 0,
     {{COLLECTIONS_AT(0), 1, V, 0}, {DEVICES_AT(0), 1, DEVICE_WORD(0, ITT(0), 3), 0}, {ITT_AT(5), 1, EVENT_WORD(0, 8192, 0), 0}}},
    {"16 collections", 0, 0, {{COLLECTIONS_AT(0), 16, V | 15, (uint64_t)-1}}},
    {"17 collections", -12, IN_COLLECTIONS(17TH, 16), {{COLLECTIONS_AT(0), 17, V, 1}}},
    {"17th collection of no VCPU", -22, IN_COLLECTIONS(PE, 16),
     {{COLLECTIONS_AT(0), 16, V, 1}, {COLLECTIONS_AT(16), 1, V | 4 << 16 | 16, 0}}},
    {"pe of 36 bits", -22, IN_COLLECTIONS(PE, 0), {{COLLECTIONS_AT(0), 1, V | UINT64_C(1) << 51, 0}}},
    {"bits [62:52] of a collection", 0, 0, {{COLLECTIONS_AT(0), 1, V | UINT64_C(0x7ff) << 52, 0}}},
    {"an ICID twice", -22, IN_COLLECTIONS(REPEAT, 1), {{COLLECTIONS_AT(0), 2, V, 1 << 16}}},
    {"17 bits of events", -22, IN_DEVICES(SIZE, 0), {{DEVICES_AT(0), 1, DEVICE_WORD(0, ITT(0), 17), 0}}},
    {"34 devices", -12, IN_DEVICES(33RD, 32), {{DEVICES_AT(0), 34, DEVICE_WORD(1, ITT(0), 5), 1 << 5}}},
    {"33rd device with a bad next", -22, IN_DEVICES(NEXT, 32), {{DEVICES_AT(0), 33, DEVICE_WORD(1, ITT(0), 5), 1 << 5}}},
    {"an ITT that leaves memory", -14, IN_DEVICES(OUTSIDE, 0), {{DEVICES_AT(0), 1, DEVICE_WORD(0, ITT(15), 14), 0}}},
    {"an ITT over the device table", -22, IN_DEVICES(OVERLAP, 0), {{DEVICES_AT(0), 1, DEVICE_WORD(0, UINT64_C(0x4007ff00), 5), 0}}},
    {"two devices with one ITT", -22, IN_DEVICES(OVERLAP, 1),
     {{DEVICES_AT(0), 1, DEVICE_WORD(1, ITT(0), 5), 0}, {DEVICES_AT(1), 1, DEVICE_WORD(0, ITT(0), 5), 0}}},
    {"an LPI below 8,192", -22, IN_ITT(LPI, 0, 0),
     {{COLLECTIONS_AT(0), 1, V, 0}, {DEVICES_AT(0), 1, DEVICE_WORD(0, ITT(0), 5), 0}, {ITT_AT(0), 1, EVENT_WORD(0, 8191, 0), 0}}},
    {"an LPI above 65,535", -22, IN_ITT(LPI, 0, 0),
     {{COLLECTIONS_AT(0), 1, V, 0}, {DEVICES_AT(0), 1, DEVICE_WORD(0, ITT(0), 5), 0}, {ITT_AT(0), 1, EVENT_WORD(0, 73728, 0), 0}}},
    {"an event of no collection", -22, IN_ITT(ICID, 0, 0),
     {{COLLECTIONS_AT(0), 1, V, 0}, {DEVICES_AT(0), 1, DEVICE_WORD(0, ITT(0), 5), 0}, {ITT_AT(0), 1, EVENT_WORD(0, 8192, 1), 0}}},
    {"events 0 and 65,535", 0, 0,
     {{COLLECTIONS_AT(0), 1, V, 0}, {DEVICES_AT(0), 1, DEVICE_WORD(0, ITT(0), 16), 0}, {ITT_AT(0), 1, EVENT_WORD(65535, 8192, 0), 0},
      {ITT_AT(65535), 1, EVENT_WORD(0, 8193, 0), 0}}},
    {"event 0, next 65,535 onto a blank", -22, IN_ITT(NEXT, 0, 0),
     {{COLLECTIONS_AT(0), 1, V, 0}, {DEVICES_AT(0), 1, DEVICE_WORD(0, ITT(0), 16), 0}, {ITT_AT(0), 1, EVENT_WORD(65535, 8192, 0), 0}}},
    {"event 0, next 16,383 onto a blank", -22, IN_ITT(NEXT, 0, 0),
     {{COLLECTIONS_AT(0), 1, V, 0}, {DEVICES_AT(0), 1, DEVICE_WORD(0, ITT(0), 16), 0}, {ITT_AT(0), 1, EVENT_WORD(16383, 8192, 0), 0},
      {ITT_AT(16384), 1, EVENT_WORD(0, 8193, 0), 0}}},
    {"1,026 events", -12, IN_ITT(1025TH, 0, 1024),
     {{COLLECTIONS_AT(0), 1, V, 0}, {DEVICES_AT(0), 1, DEVICE_WORD(0, ITT(0), 11), 0}, {ITT_AT(0), 1026, EVENT_WORD(1, 8192, 0), 0}}},
    {"1,025th event with a bad next", -22, IN_ITT(NEXT, 0, 1024),
     {{COLLECTIONS_AT(0), 1, V, 0}, {DEVICES_AT(0), 1, DEVICE_WORD(0, ITT(0), 11), 0}, {ITT_AT(0), 1025, EVENT_WORD(1, 8192, 0), 0}}},
    {"a collection's pe before its ICID", -22, IN_COLLECTIONS(PE, 1),
     {{COLLECTIONS_AT(0), 1, V, 0}, {COLLECTIONS_AT(1), 1, V | 4 << 16, 0}}},
    {"an ICID again as the 17th", -22, IN_COLLECTIONS(REPEAT, 16), {{COLLECTIONS_AT(0), 16, V, 1}, {COLLECTIONS_AT(16), 1, V | 3, 0}}},
    {"a collection before a device", -22, IN_COLLECTIONS(PE, 0),
     {{COLLECTIONS_AT(0), 1, V | 4 << 16, 0}, {DEVICES_AT(0), 1, DEVICE_WORD(0, ITT(0), 17), 0}}},
    {"a device's next before its bits", -22, IN_DEVICES(NEXT, 7), {{DEVICES_AT(7), 1, DEVICE_WORD(1, ITT(0), 17), 0}}},
    {"a device's bits before its ITT's place", -22, IN_DEVICES(SIZE, 7), {{DEVICES_AT(7), 1, DEVICE_WORD(0, UINT64_C(0), 17), 0}}},
    {"the 33rd with an ITT outside memory", -12, IN_DEVICES(33RD, 32),
     {{DEVICES_AT(0), 32, DEVICE_WORD(1, ITT(0), 5), 1 << 5}, {DEVICES_AT(32), 1, DEVICE_WORD(0, UINT64_C(0), 5), 0}}},
    {"an ITT over a table and out of memory", -14, IN_DEVICES(OUTSIDE, 0),
     {{DEVICES_AT(0), 1, DEVICE_WORD(0, UINT64_C(0x3fffff00), 6), 0}}},
    {"a device's event before the following device", -22, IN_ITT(LPI, 1, 2),
     {{DEVICES_AT(1), 1, DEVICE_WORD(1, ITT(0), 5), 0}, {DEVICES_AT(2), 1, DEVICE_WORD(0, ITT(1), 17), 0},
      {ITT_AT(2), 1, EVENT_WORD(0, 1, 0), 0}}},
    {"a device's overlap before its events", -22, IN_DEVICES(OVERLAP, 1),
     {{DEVICES_AT(0), 1, DEVICE_WORD(1, ITT(1), 5), 0}, {DEVICES_AT(1), 1, DEVICE_WORD(0, ITT(0), 14), 0},
      {ITT_AT(2), 1, EVENT_WORD(0, 1, 0), 0}}},
    {"an event's LPI before its next", -22, IN_ITT(LPI, 0, 4),
     {{COLLECTIONS_AT(0), 1, V, 0}, {DEVICES_AT(0), 1, DEVICE_WORD(0, ITT(0), 5), 0}, {ITT_AT(4), 1, EVENT_WORD(9, 8191, 0), 0}}},
    {"an event's next before its ICID", -22, IN_ITT(NEXT, 0, 4),
     {{COLLECTIONS_AT(0), 1, V, 0}, {DEVICES_AT(0), 1, DEVICE_WORD(0, ITT(0), 5), 0}, {ITT_AT(4), 1, EVENT_WORD(9, 8192, 1), 0}}},
    {"the 1,025th event of no collection", -22, IN_ITT(ICID, 0, 1024),
     {{COLLECTIONS_AT(0), 1, V, 0}, {DEVICES_AT(0), 1, DEVICE_WORD(0, ITT(0), 11), 0}, {ITT_AT(0), 1024, EVENT_WORD(1, 8192, 0), 0},
      {ITT_AT(1024), 1, EVENT_WORD(0, 8192, 1), 0}}},
    {"the last event of the last device", -22, IN_ITT(ICID, 65535, 65535),
     {{DEVICES_AT(65535), 1, DEVICE_WORD(0, ITT(0), 16), 0}, {ITT_AT(65535), 1, EVENT_WORD(0, 8192, 0), 0}}},
};

static void put_words(uint8_t *memory, const struct words *w)
{
    for (size_t i = 0; i < w->count; i++)
        put64(memory + w->at + i * ENTRY_BYTES, w->word + i * w->step);
}

static void lend_tables(const struct tables *t)
{
    lend_state(guests[BLANK].state);
    memset(library.memory, 0, library.memory_len);
    put_words(library.memory, &t->words[0]);
    put_words(library.memory, &t->words[1]);
    put_words(library.memory, &t->words[2]);
    put_words(library.memory, &t->words[3]);
    memcpy(plain.memory, library.memory, library.memory_len);
}

/* What a restore accepts is then saved over old bytes. */
static void check_restores(void)
{
    static const struct call restore = {.kind = RESTORE}, save = {.kind = SAVE}, explain = {.kind = EXPLAIN};
    lend(&guests[BLANK]);
    for (size_t i = 0; i < sizeof tables / sizeof tables[0]; i++) {
        lend_tables(&tables[i]);
        both_answer(tables[i].code, &explain, tables[i].what);
        both_answer(tables[i].due, &restore, tables[i].what);
        fill_old(library.memory, library.memory_len);
        fill_old(plain.memory, plain.memory_len);
        both_answer(0, &save, tables[i].what);
    }
}

/* Every byte of guest a's saved tables, changed by itself. */
static void sweep_tables(uint8_t change)
{
    static const struct call save = {.kind = SAVE}, restore = {.kind = RESTORE}, explain = {.kind = EXPLAIN};
    unsigned long described = 0;
    size_t used = 0x2000 + 3 * 0x100;
    lend(&guests[SOME]);
    both_answer(0, &save, "save");
    for (size_t i = 0; i < used; i++) {
        library.memory[i] = plain.memory[i] = library.memory[i] ^ change;
        int64_t code = both(&explain, "tables with one byte changed");
        int64_t answer = both(&restore, "tables with one byte changed");
        need(code >= 0 && (code == 0) == (answer == 0), "explain and restore differ on whether tables are described");
        described += answer == 0;
        library.memory[i] = plain.memory[i] = library.memory[i] ^ change;
        lend_state(guests[SOME].state);
    }
    need(described > 0 && described < used, "a sweep over tables shows nothing");
}

unsigned long check_agreement(void)
{
    check_tables(&guests[SOME]);
    check_tables(&guests[BLANK]);
    check_tables(&guests[WIDE]);
    check_tables(&guests[FULL]);
    check_lines(&guests[SMALL]);
    check_lines(&guests[SOME]);
    check_lines(&guests[FULL]);
    check_last_lines();
    check_refused();
    check_running();
    check_damages();
    check_unset();
    check_sweeps(&guests[FRESH]);
    check_sweeps(&guests[READY]);
    check_sweeps(&guests[SOME]);
    check_sweeps(&guests[FULL]);
    check_restores();
    sweep_tables(0x01);
    sweep_tables(0x80);
    return compared;
}
