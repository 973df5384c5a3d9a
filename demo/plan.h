/* The guest of the demo: its memory, VCPUs, frames, devices and events. */
#ifndef PLAN_H
#define PLAN_H

#include <stddef.h>
#include <stdint.h>

#define WIDTH 40
#define MEMORY_START UINT64_C(0x40000000)
#define MEMORY_LEN (1u << 20)

enum { VCPUS = 4, REGIONS = 2, COLLECTIONS = 3, DEVICES = 3, EVENTS_EACH = 10, EVENTS = DEVICES * EVENTS_EACH };

/* Interrupts that the guest uses beside its events. */
enum { TIMER = 27, KEYBOARD = 40, DISK = 70, NETWORK = 71, SENSOR = 287, IRQ_COUNT = 288 };

/* The device table is the first page of memory, the collection table the second; the ITTs follow. */
#define DEVICE_TABLE MEMORY_START
#define COLLECTION_TABLE (MEMORY_START + 0x1000)
#define TABLE_LEN 0x1000u

/* What group 0 and group 3 say of a box: a new box is set up with what an old one hands out. */
struct layout {
    uint64_t distributor;
    uint64_t regions[REGIONS];
    uint64_t its;
    uint32_t irq_count;
};

struct collection {
    uint64_t icid;
    uint64_t pe;
};

struct device {
    uint64_t id;
    uint64_t itt;
    uint64_t bits;
};

struct event {
    uint64_t device;
    uint64_t event;
    uint64_t lpi;
    struct collection collection;
};

/* A run of memory: the bytes before it, and its length. */
struct area {
    size_t at;
    size_t len;
};

enum { AREAS = 2 + DEVICES };

extern const uint32_t affinities[VCPUS];
extern const struct layout planned_layout;
extern const struct collection collections[COLLECTIONS];
extern const struct device devices[DEVICES];

/* Event number n of the plan, n from 0 to EVENTS - 1. */
struct event event_at(unsigned n);

/* The bytes of memory that a save writes, area n from 0 to AREAS - 1: the device table, the collection table, each device's ITT. */
struct area saved_area(unsigned n);

#endif
