/* The state's bytes and areas of addresses, for the plain C calls. The layout is that of crates/layout and crates/maplayout. */
#ifndef PLAIN_STATE_H
#define PLAIN_STATE_H

#include <stdbool.h>
#include <stddef.h>
#include <stdint.h>
#include <string.h>

#define STATE_BYTES 11400

/* words of 8 bytes */
#define AT_WIDTH 0
#define AT_START 8
#define AT_LENGTH 16
#define AT_INIT 24
#define AT_RUNNING 32
#define AT_IRQS 40
#define AT_IRQS_SET 48
#define AT_STATUS 56
#define AT_ITS_INIT 64
#define AT_DISTRIBUTOR 72
#define AT_SINGLE 88
#define AT_ITS 104
#define AT_DEVICE_TABLE 120
#define AT_COLLECTION_TABLE 144
#define AT_REGION_COUNT 168
#define AT_VCPU_COUNT 176

/* rows */
#define AT_REGIONS 184
#define REGION_BYTES 16
#define MAX_REGIONS 32
#define AT_VCPUS 696
#define VCPU_BYTES 20
#define MAX_VCPUS 64
#define AT_BANKS 1976
#define BANK_BYTES 12
#define AT_LAST_BANK (AT_BANKS + 30 * BANK_BYTES) /* from INTID 992 on; there with 1,024 interrupts */

/* the mapping; offsets from its own first byte, since a restore builds one apart from the state */
#define AT_MAPPING 2352
#define MAPPING_BYTES 9048
#define AT_DEVICE_COUNT 0
#define AT_COLLECTION_COUNT 8
#define AT_EVENT_COUNT 16
#define AT_DEVICES 24
#define DEVICE_BYTES 24
#define MAX_DEVICES 32
#define AT_COLLECTIONS 792
#define COLLECTION_BYTES 4
#define MAX_COLLECTIONS 16
#define AT_EVENTS 856
#define EVENT_BYTES 8
#define MAX_EVENTS 1024

#define PAGE_BYTES 4096
#define ENTRY_BYTES 8
#define MAX_BITS 16

#if __BYTE_ORDER__ != __ORDER_LITTLE_ENDIAN__
#error "the state is little endian, and these loads and stores copy words as they stand"
#endif

/* By memcpy, so that no alignment is assumed; gcc makes one load or store of each. */
static inline uint64_t get16(const uint8_t *p)
{
    uint16_t v;
    memcpy(&v, p, sizeof v);
    return v;
}

static inline uint64_t get32(const uint8_t *p)
{
    uint32_t v;
    memcpy(&v, p, sizeof v);
    return v;
}

static inline uint64_t get64(const uint8_t *p)
{
    uint64_t v;
    memcpy(&v, p, sizeof v);
    return v;
}

static inline void put16(uint8_t *p, uint64_t number)
{
    uint16_t v = (uint16_t)number;
    memcpy(p, &v, sizeof v);
}

static inline void put32(uint8_t *p, uint64_t number)
{
    uint32_t v = (uint32_t)number;
    memcpy(p, &v, sizeof v);
}

static inline void put64(uint8_t *p, uint64_t v)
{
    memcpy(p, &v, sizeof v);
}

static inline const uint8_t *device_row(const uint8_t *map, size_t i)
{
    return map + AT_DEVICES + i * DEVICE_BYTES;
}

static inline const uint8_t *collection_row(const uint8_t *map, size_t i)
{
    return map + AT_COLLECTIONS + i * COLLECTION_BYTES;
}

static inline const uint8_t *event_row(const uint8_t *map, size_t i)
{
    return map + AT_EVENTS + i * EVENT_BYTES;
}

/* events rise by device, then by event */
static inline uint64_t event_key(const uint8_t *row)
{
    return get16(row) << 16 | get16(row + 2);
}

/* the index of an ICID's collection, or the number of collections */
static inline size_t find_collection(const uint8_t *map, uint64_t icid)
{
    size_t n = (size_t)get64(map + AT_COLLECTION_COUNT);
    size_t i = 0;
    while (i < n && get16(collection_row(map, i)) != icid)
        i++;
    return i;
}

/* the areas that stand: frames, or the two tables and the ITTs; the single run and regions are never both there */
#define MAX_AREAS 34

struct areas {
    size_t count;
    struct {
        uint64_t start, end;
    } rows[MAX_AREAS];
};

/* start + size <= limit, where the sum may be above 2^64 */
static inline bool ends_by(uint64_t start, uint64_t size, uint64_t limit)
{
    return start <= limit && size <= limit - start;
}

/* whether an area is wholly inside the guest's memory */
static inline bool in_memory(const uint8_t *state, uint64_t start, uint64_t size)
{
    uint64_t from = get64(state + AT_START);
    return from <= start && ends_by(start - from, size, get64(state + AT_LENGTH));
}

/* Adds an area, known to end by 2^52, unless it shares a byte with one that stands. */
static inline bool add_area(struct areas *a, uint64_t start, uint64_t size)
{
    uint64_t end = start + size;
    for (size_t i = 0; i < a->count; i++)
        if (start < a->rows[i].end && a->rows[i].start < end)
            return false;
    a->rows[a->count].start = start;
    a->rows[a->count].end = end;
    a->count++;
    return true;
}

static inline bool add_table(struct areas *a, const uint8_t *table)
{
    return add_area(a, get64(table + 8), get64(table + 16) * PAGE_BYTES);
}

/* whether bytes of the right length break no rule (§1.8) */
bool plain_sound(const uint8_t *state);

#endif
