#include "scenarios.h"

#include <stdlib.h>
#include <string.h>

#include "plain.h"
#include "ritikancha.h"
#include "xics.h"

/* ---- the calls, over and over; a timed call that is refused ends the bench */

static void timed(int holds)
{
    need(holds, "a timed call was refused");
}

static void library_save(struct scenario *s, uint64_t times)
{
    for (uint64_t i = 0; i < times; i++)
        timed(rk_its_save(s->state, STATE_BYTES, s->memory, s->memory_len) == 0);
}

static void plain_saves(struct scenario *s, uint64_t times)
{
    for (uint64_t i = 0; i < times; i++)
        timed(plain_save(s->state, STATE_BYTES, s->memory, s->memory_len) == 0);
}

static void library_restore(struct scenario *s, uint64_t times)
{
    for (uint64_t i = 0; i < times; i++)
        timed(rk_its_restore(s->state, STATE_BYTES, s->memory, s->memory_len) == 0);
}

static void plain_restores(struct scenario *s, uint64_t times)
{
    for (uint64_t i = 0; i < times; i++)
        timed(plain_restore(s->state, STATE_BYTES, s->memory, s->memory_len) == 0);
}

static void library_explain(struct scenario *s, uint64_t times)
{
    for (uint64_t i = 0; i < times; i++)
        timed(rk_its_explain(s->state, STATE_BYTES, s->memory, s->memory_len) == 0);
}

static void plain_explains(struct scenario *s, uint64_t times)
{
    for (uint64_t i = 0; i < times; i++)
        timed(plain_explain(s->state, STATE_BYTES, s->memory, s->memory_len) == 0);
}

/* The events in turn, so that no one place among them is timed alone. */
static const uint8_t *next_event(struct scenario *s)
{
    const uint8_t *map = s->state + AT_MAPPING;
    s->event += EVENT_BYTES;
    if (s->event == event_row(map, (size_t)get64(map + AT_EVENT_COUNT)))
        s->event = event_row(map, 0);
    return s->event;
}

static void library_lookup(struct scenario *s, uint64_t times)
{
    for (uint64_t i = 0; i < times; i++) {
        const uint8_t *row = next_event(s);
        timed(rk_its_lookup(s->state, STATE_BYTES, get16(row), get16(row + 2)) > 0);
    }
}

static void plain_lookups(struct scenario *s, uint64_t times)
{
    for (uint64_t i = 0; i < times; i++) {
        const uint8_t *row = next_event(s);
        timed(plain_lookup(s->state, STATE_BYTES, get16(row), get16(row + 2)) > 0);
    }
}

/* up and down in turn */
static void library_line(struct scenario *s, uint64_t times)
{
    for (uint64_t i = 0; i < times; i++)
        timed(rk_irq_line(s->state, STATE_BYTES, 0, 40, i & 1) == 0);
}

static void plain_line(struct scenario *s, uint64_t times)
{
    for (uint64_t i = 0; i < times; i++)
        timed(plain_irq_line(s->state, STATE_BYTES, 0, 40, i & 1) == 0);
}

/* the sources in turn */
static void library_deliverable(struct scenario *s, uint64_t times)
{
    for (uint64_t i = 0; i < times; i++)
        timed(rk_xics_deliverable(s->state, XICS_BYTES, source_number(i % XICS_ROWS)) >= 0);
}

static void plain_deliverable(struct scenario *s, uint64_t times)
{
    for (uint64_t i = 0; i < times; i++)
        timed(plain_xics_deliverable(s->state, XICS_BYTES, source_number(i % XICS_ROWS)) >= 0);
}

static void touch_bytes(struct scenario *s, uint64_t times)
{
    for (uint64_t i = 0; i < times; i++)
        touch(s->runs, s->run_count);
}

struct scenario scenarios[SCENARIOS] = {
    [SAVE_SOME] = {.call = "save", .guest = SOME, .target = 1.5, .run = {touch_bytes, plain_saves, library_save}},
    [SAVE_BLANK] = {.call = "save", .guest = BLANK, .target = 1.5, .run = {touch_bytes, plain_saves, library_save}},
    [SAVE_WIDE] = {.call = "save", .guest = WIDE, .target = 1.5, .run = {touch_bytes, plain_saves, library_save}},
    [RESTORE_SOME] = {.call = "restore", .guest = SOME, .target = 3, .run = {touch_bytes, plain_restores, library_restore}},
    [RESTORE_BLANK] = {.call = "restore", .guest = BLANK, .target = 2, .run = {touch_bytes, plain_restores, library_restore}},
    [RESTORE_WIDE] = {.call = "restore", .guest = WIDE, .target = 3, .run = {touch_bytes, plain_restores, library_restore}},
    [EXPLAIN_SOME] = {.call = "explain", .guest = SOME, .run = {touch_bytes, plain_explains, library_explain}},
    [EXPLAIN_BLANK] = {.call = "explain", .guest = BLANK, .run = {touch_bytes, plain_explains, library_explain}},
    [EXPLAIN_WIDE] = {.call = "explain", .guest = WIDE, .run = {touch_bytes, plain_explains, library_explain}},
    [LOOKUP_SOME] = {.call = "lookup", .guest = SOME, .run = {touch_bytes, plain_lookups, library_lookup}},
    [LOOKUP_WIDE] = {.call = "lookup", .guest = WIDE, .run = {touch_bytes, plain_lookups, library_lookup}},
    [LINE_SMALL] = {.call = "irq_line", .guest = SMALL, .run = {touch_bytes, plain_line, library_line}},
    [LINE_SOME] = {.call = "irq_line", .guest = SOME, .run = {touch_bytes, plain_line, library_line}},
    [LINE_FULL] = {.call = "irq_line", .guest = FULL, .run = {touch_bytes, plain_line, library_line}},
    [DELIVERABLE_FULL] = {.call = "deliverable", .guest = FULL, .run = {touch_bytes, plain_deliverable, library_deliverable}},
};

/* ---- the bytes that a call must touch */

/* both tables, 32 ITTs and 1,024 events, the parts of the state twice: less than this */
#define MAX_RUNS 1200

static uint8_t copied[1 << 20];

static void add_run(struct scenario *s, uint8_t *to, const uint8_t *from, size_t len)
{
    if (len == 0)
        return;
    need(s->run_count < MAX_RUNS && len <= (from != NULL ? sizeof copied : s->memory_len), "too many bytes to touch");
    s->runs[s->run_count++] = (struct run){to, from, len};
    s->bytes += len;
}

static void read_run(struct scenario *s, const uint8_t *from, size_t len)
{
    add_run(s, copied, from, len);
}

/* the index in memory of a table whose row or place in the state has its start 8 bytes on */
static size_t table_at(const struct scenario *s, const uint8_t *place)
{
    return (size_t)(get64(place + 8) - get64(s->state + AT_START));
}

/* The test of the state reads every part of it that is in use; after INIT, which all these guests are past, none of the banks but the one
 * from INTID 992 on. */
static void runs_of_state(struct scenario *s)
{
    const uint8_t *map = s->state + AT_MAPPING;
    read_run(s, s->state + AT_LAST_BANK, get64(s->state + AT_IRQS) == 1024 ? BANK_BYTES : 0);
    read_run(s, s->state, AT_REGIONS);
    read_run(s, s->state + AT_REGIONS, (size_t)get64(s->state + AT_REGION_COUNT) * REGION_BYTES);
    read_run(s, s->state + AT_VCPUS, (size_t)get64(s->state + AT_VCPU_COUNT) * VCPU_BYTES);
    read_run(s, map, AT_DEVICES + (size_t)get64(map + AT_DEVICE_COUNT) * DEVICE_BYTES);
    read_run(s, collection_row(map, 0), (size_t)get64(map + AT_COLLECTION_COUNT) * COLLECTION_BYTES);
    read_run(s, event_row(map, 0), (size_t)get64(map + AT_EVENT_COUNT) * EVENT_BYTES);
}

/* A save writes each table whole. */
static void runs_of_save(struct scenario *s)
{
    const uint8_t *map = s->state + AT_MAPPING;
    const uint8_t *devices = s->state + AT_DEVICE_TABLE, *collections = s->state + AT_COLLECTION_TABLE;
    size_t n = (size_t)get64(map + AT_DEVICE_COUNT);
    add_run(s, s->memory + table_at(s, devices), NULL, (size_t)get64(devices + 16) * PAGE_BYTES);
    add_run(s, s->memory + table_at(s, collections), NULL, (size_t)get64(collections + 16) * PAGE_BYTES);
    for (size_t i = 0; i < n; i++)
        add_run(s, s->memory + table_at(s, device_row(map, i)), NULL, (size_t)ENTRY_BYTES << get64(device_row(map, i) + 16));
}

/* A restore reads a table's first entries up to the first that is there, then that of each following ID; the guests have no gap
 * that the largest distance does not reach over, and each ITT's first event is 0. */
static void runs_of_devices(struct scenario *s)
{
    const uint8_t *map = s->state + AT_MAPPING, *place = s->state + AT_DEVICE_TABLE;
    const uint8_t *table = s->memory + table_at(s, place);
    size_t n = (size_t)get64(map + AT_DEVICE_COUNT);
    read_run(s, table, n == 0 ? (size_t)get64(place + 16) * PAGE_BYTES : (size_t)get64(device_row(map, 0)) * ENTRY_BYTES);
    for (size_t i = 0; i < n; i++)
        read_run(s, table + get64(device_row(map, i)) * ENTRY_BYTES, ENTRY_BYTES);
}

static const uint8_t *itt_of(const struct scenario *s, uint64_t device)
{
    const uint8_t *row = device_row(s->state + AT_MAPPING, 0);
    while (get64(row) != device)
        row += DEVICE_BYTES;
    return s->memory + table_at(s, row);
}

static void runs_of_events(struct scenario *s)
{
    const uint8_t *map = s->state + AT_MAPPING;
    size_t n = (size_t)get64(map + AT_EVENT_COUNT);
    for (size_t i = 0; i < n; i++) {
        const uint8_t *row = event_row(map, i);
        read_run(s, itt_of(s, get16(row)) + get16(row + 2) * ENTRY_BYTES, ENTRY_BYTES);
    }
}

/* What a restore and an explain read of the tables. */
static void runs_of_tables(struct scenario *s)
{
    const uint8_t *collections = s->state + AT_COLLECTION_TABLE;
    size_t n = (size_t)get64(s->state + AT_MAPPING + AT_COLLECTION_COUNT);
    read_run(s, s->memory + table_at(s, collections), (n + 1) * ENTRY_BYTES);
    runs_of_devices(s);
    runs_of_events(s);
}

/* The rows that a restore writes. */
static void runs_of_rows(struct scenario *s)
{
    const uint8_t *map = s->state + AT_MAPPING;
    size_t devices = (size_t)get64(map + AT_DEVICE_COUNT), events = (size_t)get64(map + AT_EVENT_COUNT);
    size_t n = (size_t)get64(map + AT_COLLECTION_COUNT);
    read_run(s, map, AT_DEVICES + devices * DEVICE_BYTES);
    read_run(s, collection_row(map, 0), n * COLLECTION_BYTES);
    read_run(s, event_row(map, 0), events * EVENT_BYTES);
}

/* Each has bytes of its own: a save that is timed writes nothing that a restore reads. */
static void lend_bytes(struct scenario *s)
{
    const struct guest *g = &guests[s->guest];
    s->memory = malloc(g->memory_len);
    s->runs = malloc(MAX_RUNS * sizeof s->runs[0]);
    need(s->memory != NULL && s->runs != NULL, "no memory");
    memcpy(s->state, g->state, STATE_BYTES);
    memcpy(s->memory, g->memory, g->memory_len);
    s->memory_len = g->memory_len;
    s->event = event_row(s->state + AT_MAPPING, 0);
}

/* An XICS that is full is read to its last byte. */
static void lend_xics(struct scenario *s)
{
    s->runs = malloc(MAX_RUNS * sizeof s->runs[0]);
    need(s->runs != NULL, "no memory");
    memcpy(s->state, full_xics, XICS_BYTES);
    read_run(s, s->state, XICS_BYTES);
}

static void make_scenario(struct scenario *s)
{
    bool restores = s->run[LIBRARY] == library_restore;
    bool reads = restores || s->run[LIBRARY] == library_explain;
    lend_bytes(s);
    if (reads)
        library_save(s, 1);
    runs_of_state(s);
    if (s->run[LIBRARY] == library_save)
        runs_of_save(s);
    if (reads)
        runs_of_tables(s);
    if (restores)
        runs_of_rows(s);
    if (s->run[LIBRARY] == library_line)
        read_run(s, s->state + AT_BANKS, BANK_BYTES);
}

void make_scenarios(void)
{
    for (int i = 0; i < DELIVERABLE_FULL; i++)
        make_scenario(&scenarios[i]);
    lend_xics(&scenarios[DELIVERABLE_FULL]);
}

/* A restore of what was saved gives the mapping that stood, and save, explain and lookup change no state: only lines do. */
void check_scenarios(void)
{
    for (int i = 0; i < LINE_SMALL; i++)
        need(memcmp(scenarios[i].state, guests[scenarios[i].guest].state, STATE_BYTES) == 0, "a timed call left another state");
    need(memcmp(scenarios[DELIVERABLE_FULL].state, full_xics, XICS_BYTES) == 0, "a timed call left another XICS");
}
