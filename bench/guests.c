#include "guests.h"

#include <stdio.h>
#include <stdlib.h>

#include "ritikancha.h"

struct guest guests[GUESTS];

/* how one guest's ITS is filled: `devices` x `events`, the IDs each `step` apart */
struct filling {
    uint64_t device_pages, collection_pages;
    uint64_t collections, devices, events, bits;
    uint64_t device_step, event_step;
    uint64_t first_itt;
};

void need(int holds, const char *what)
{
    if (holds)
        return;
    fprintf(stderr, "bench: %s\n", what);
    exit(1);
}

static void accepted(int64_t answer)
{
    need(answer == 0, "a guest could not be set up");
}

void fill_old(uint8_t *bytes, size_t len)
{
    uint32_t x = 1;
    for (size_t i = 0; i < len; i++) {
        x = x * UINT32_C(1664525) + UINT32_C(1013904223);
        bytes[i] = (uint8_t)(x >> 24);
    }
}

static void set8(struct guest *g, uint64_t attribute, uint64_t number)
{
    uint8_t value[8];
    put64(value, number);
    accepted(rk_vgic_set(g->state, STATE_BYTES, 0, attribute, value, sizeof value));
}

/* 16 to a cluster, as affinities often go */
static void add_vcpus(struct guest *g, uint32_t count)
{
    for (uint32_t i = 0; i < count; i++)
        accepted(rk_vcpu_add(g->state, STATE_BYTES, i / 16 << 8 | i % 16));
}

/* regions of two, one behind the other */
static void add_regions(struct guest *g, uint64_t count)
{
    for (uint64_t i = 0; i < count; i++)
        set8(g, 5, UINT64_C(2) << 52 | (UINT64_C(0x10000000) + i * 0x40000) | i);
}

static void add_collections(struct guest *g, uint64_t count, uint64_t vcpus)
{
    for (uint64_t i = 0; i < count; i++)
        accepted(rk_its_map_collection(g->state, STATE_BYTES, 3 * i, i % vcpus));
}

/* No event names the last collection, so that it can be taken out. */
static void add_events(struct guest *g, const struct filling *f, uint64_t device, uint64_t lpi)
{
    for (uint64_t i = 0; i < f->events; i++)
        accepted(rk_its_map_event(g->state, STATE_BYTES, device, i * f->event_step, lpi + i, 3 * (i % (f->collections - 1))));
}

static void add_devices(struct guest *g, const struct filling *f)
{
    for (uint64_t i = 0; i < f->devices; i++) {
        uint64_t id = 8 + i * f->device_step;
        uint64_t itt = MEMORY_START + f->first_itt + (i << (f->bits + 3));
        accepted(rk_its_map_device(g->state, STATE_BYTES, id, itt, f->bits));
        add_events(g, f, id, 8192 + i * f->events);
    }
}

/* The device table is at the start of memory, the collection table behind it. */
static void fill_its(struct guest *g, const struct filling *f, uint64_t vcpus)
{
    uint8_t base[8];
    uint64_t collection_start = MEMORY_START + f->device_pages * PAGE_BYTES;
    put64(base, UINT64_C(0x08080000));
    accepted(rk_its_set(g->state, STATE_BYTES, 0, 4, base, sizeof base));
    accepted(rk_its_set(g->state, STATE_BYTES, 4, 0, base, 0));
    accepted(rk_its_place(g->state, STATE_BYTES, MEMORY_START, f->device_pages, collection_start, f->collection_pages));
    add_collections(g, f->collections, vcpus);
    add_devices(g, f);
}

/* A guest with a distributor, before its redistributors and INIT. What lies past its rows in the state is old bytes too. */
static struct guest *begin(int index, const char *name, size_t memory_len, uint32_t vcpus)
{
    struct guest *g = &guests[index];
    g->name = name;
    g->memory_len = memory_len;
    g->memory = malloc(memory_len);
    need(g->memory != NULL, "no memory");
    fill_old(g->memory, memory_len);
    fill_old(g->state, STATE_BYTES);
    accepted(rk_setup(g->state, STATE_BYTES, 40, MEMORY_START, memory_len));
    add_vcpus(g, vcpus);
    set8(g, 2, UINT64_C(0x08000000));
    return g;
}

static void init(struct guest *g)
{
    uint8_t nothing[1] = {0};
    accepted(rk_vgic_set(g->state, STATE_BYTES, 4, 0, nothing, 0));
}

static void set_count(struct guest *g, uint32_t irqs)
{
    uint8_t count[4];
    put32(count, irqs);
    accepted(rk_vgic_set(g->state, STATE_BYTES, 3, 0, count, sizeof count));
}

/* with 256 interrupts and the redistributors as one run, before INIT */
static struct guest *begin_single(int index, const char *name, size_t memory_len, uint32_t vcpus)
{
    struct guest *g = begin(index, name, memory_len, vcpus);
    set_count(g, 256);
    set8(g, 3, UINT64_C(0x080a0000));
    return g;
}

static struct guest *make_single(int index, const char *name, size_t memory_len, uint32_t vcpus)
{
    struct guest *g = begin_single(index, name, memory_len, vcpus);
    init(g);
    return g;
}

/* every limit reached: 64 VCPUs, 32 regions, 1,024 interrupts, 16 collections, 32 devices, 1,024 events */
static void make_full(void)
{
    static const struct filling filling = {
        .device_pages = 1, .collection_pages = 1, .collections = 16, .devices = 32, .events = 32, .bits = 5, .device_step = 15,
        .event_step = 1, .first_itt = 0x2000,
    };
    struct guest *g = begin(FULL, "full", 1 << 20, 64);
    add_regions(g, 32);
    set_count(g, 1024);
    init(g);
    fill_its(g, &filling, 64);
}

void make_guests(void)
{
    static const struct filling some = {
        .device_pages = 1, .collection_pages = 1, .collections = 4, .devices = 3, .events = 10, .bits = 5, .device_step = 100,
        .event_step = 1, .first_itt = 0x2000,
    };
    static const struct filling blank = {.device_pages = 128, .collection_pages = 128};
    static const struct filling wide = {
        .device_pages = 128, .collection_pages = 128, .collections = 16, .devices = 32, .events = 32, .bits = 16, .device_step = 2000,
        .event_step = 2017, .first_itt = 1 << 20,
    };
    begin(FRESH, "fresh", 1 << 20, 1);
    begin_single(READY, "ready", 1 << 20, 1);
    make_single(SMALL, "small", 1 << 20, 1);
    fill_its(make_single(SOME, "a", 1 << 16, 4), &some, 4);
    fill_its(make_single(BLANK, "b", 1 << 21, 4), &blank, 4);
    fill_its(make_single(WIDE, "c", 17 << 20, 4), &wide, 4);
    make_full();
}
