#include "plain.h"

#include <string.h>

#include "plain_state.h"
#include "ritikancha.h" /* the numbers of errnos, faults and tables alone */

/* 0, or the refusal of a state that every call makes first */
static int64_t state_fault(const uint8_t *state, size_t state_len)
{
    if (state_len != STATE_BYTES)
        return -RK_EFAULT;
    return plain_sound(state) ? 0 : -RK_EINVAL;
}

static bool its_ready(const uint8_t *state)
{
    return get64(state + AT_ITS_INIT) == 1 && get64(state + AT_DEVICE_TABLE) == 1;
}

/* ---- one bank call */

/* the bank's three words: a VCPU's own, a shared one, or null at or above the interrupt count and from INTID 1,020 on */
static uint8_t *bank_of(uint8_t *state, uint64_t vcpu, uint64_t intid)
{
    if (intid < 32)
        return state + AT_VCPUS + vcpu * VCPU_BYTES + 4;
    if (intid >= get64(state + AT_IRQS) || intid > 1019)
        return NULL;
    return state + AT_BANKS + (intid / 32 - 1) * BANK_BYTES;
}

static void set_line(uint8_t *bank, uint64_t bit, uint64_t level)
{
    uint64_t was = get32(bank + 4);
    if (level == 1 && (get32(bank + 8) & bit) != 0 && (was & bit) == 0)
        put32(bank, get32(bank) | bit);
    put32(bank + 4, level == 1 ? was | bit : was & ~bit);
}

int64_t plain_irq_line(uint8_t *state, size_t state_len, uint64_t vcpu, uint64_t intid, uint64_t level)
{
    int64_t fault = state_fault(state, state_len);
    if (fault != 0)
        return fault;
    if (get64(state + AT_INIT) != 1)
        return -RK_ENXIO;
    if (vcpu >= get64(state + AT_VCPU_COUNT) || intid > 1023 || level > 1)
        return -RK_EINVAL;
    if (intid < 16)
        return 0; /* SGIs ignore line changes */
    uint8_t *bank = bank_of(state, vcpu, intid);
    if (bank != NULL)
        set_line(bank, UINT64_C(1) << intid % 32, level);
    return 0;
}

/* ---- lookup */

/* the index of the first event whose key is not below key, or the number of events */
static size_t seek_event(const uint8_t *map, uint64_t key)
{
    size_t low = 0;
    size_t high = (size_t)get64(map + AT_EVENT_COUNT);
    while (low < high) {
        size_t middle = low + (high - low) / 2;
        if (event_key(event_row(map, middle)) < key)
            low = middle + 1;
        else
            high = middle;
    }
    return low;
}

int64_t plain_lookup(const uint8_t *state, size_t state_len, uint64_t device, uint64_t event)
{
    int64_t fault = state_fault(state, state_len);
    if (fault != 0)
        return fault;
    if (!its_ready(state))
        return -RK_ENXIO;
    const uint8_t *map = state + AT_MAPPING;
    if (device > 65535 || event > 65535)
        return -RK_ENOENT;
    uint64_t key = device << 16 | event;
    size_t i = seek_event(map, key);
    if (i == get64(map + AT_EVENT_COUNT) || event_key(event_row(map, i)) != key)
        return -RK_ENOENT;
    size_t c = find_collection(map, get16(event_row(map, i) + 6));
    return (int64_t)(get16(event_row(map, i) + 4) + 65536 * get16(collection_row(map, c) + 2));
}

/* ---- tables in memory */

#define DEVICE_CAP UINT64_C(0x3fff)
#define VALID (UINT64_C(1) << 63)

/* 0, or the refusal of save, restore and explain before any table is touched */
static int64_t tables_fault(const uint8_t *state, size_t state_len, size_t memory_len)
{
    int64_t fault = state_fault(state, state_len);
    if (fault != 0)
        return fault;
    if (memory_len != get64(state + AT_LENGTH))
        return -RK_EFAULT;
    if (!its_ready(state))
        return -RK_ENXIO;
    return get64(state + AT_RUNNING) == 1 ? -RK_EBUSY : 0;
}

/* where an address lies in the lent memory; it is known to be inside */
static size_t memory_index(const uint8_t *state, uint64_t address)
{
    return (size_t)(address - get64(state + AT_START));
}

/* the bytes of a table's pages; `table` is its place in the state */
static size_t table_bytes(const uint8_t *table)
{
    return (size_t)get64(table + 16) * PAGE_BYTES;
}

/* ---- save: each table is cleared whole, then its rows are written over it */

static void save_collections(const uint8_t *map, uint8_t *table)
{
    size_t n = (size_t)get64(map + AT_COLLECTION_COUNT);
    for (size_t i = 0; i < n; i++) {
        const uint8_t *row = collection_row(map, i);
        put64(table + i * ENTRY_BYTES, VALID | get16(row + 2) << 16 | get16(row));
    }
}

static void save_devices(const uint8_t *map, uint8_t *table)
{
    size_t n = (size_t)get64(map + AT_DEVICE_COUNT);
    for (size_t i = 0; i < n; i++) {
        const uint8_t *row = device_row(map, i);
        bool last = i + 1 == n;
        uint64_t distance = last ? 0 : get64(row + DEVICE_BYTES) - get64(row);
        uint64_t next = distance < DEVICE_CAP ? distance : DEVICE_CAP;
        uint64_t word = VALID | next << 49 | get64(row + 8) >> 8 << 5 | (get64(row + 16) - 1);
        put64(table + get64(row) * ENTRY_BYTES, word);
    }
}

/* Writes the events of one device, whose rows start at index i, and gives the index after them. */
static size_t save_events(const uint8_t *map, uint64_t device, size_t i, uint8_t *table)
{
    size_t n = (size_t)get64(map + AT_EVENT_COUNT);
    for (; i < n && get16(event_row(map, i)) == device; i++) {
        const uint8_t *row = event_row(map, i);
        bool last = i + 1 == n || get16(row + EVENT_BYTES) != device;
        uint64_t next = last ? 0 : get16(row + EVENT_BYTES + 2) - get16(row + 2);
        put64(table + get16(row + 2) * ENTRY_BYTES, next << 48 | get16(row + 4) << 16 | get16(row + 6));
    }
    return i;
}

static void save_itts(const uint8_t *state, uint8_t *memory)
{
    const uint8_t *map = state + AT_MAPPING;
    size_t n = (size_t)get64(map + AT_DEVICE_COUNT);
    size_t event = 0;
    for (size_t i = 0; i < n; i++) {
        const uint8_t *row = device_row(map, i);
        uint8_t *table = memory + memory_index(state, get64(row + 8));
        memset(table, 0, (size_t)ENTRY_BYTES << get64(row + 16));
        event = save_events(map, get64(row), event, table);
    }
}

int64_t plain_save(const uint8_t *state, size_t state_len, uint8_t *memory, size_t memory_len)
{
    int64_t fault = tables_fault(state, state_len, memory_len);
    if (fault != 0)
        return fault;
    const uint8_t *map = state + AT_MAPPING;
    uint8_t *devices = memory + memory_index(state, get64(state + AT_DEVICE_TABLE + 8));
    uint8_t *collections = memory + memory_index(state, get64(state + AT_COLLECTION_TABLE + 8));
    memset(devices, 0, table_bytes(state + AT_DEVICE_TABLE));
    save_devices(map, devices);
    memset(collections, 0, table_bytes(state + AT_COLLECTION_TABLE));
    save_collections(map, collections);
    save_itts(state, memory);
    return 0;
}

/* ---- restore and explain: one reading of the tables */

/* A device table or an ITT: an entry is there if it has a bit of `valid`; its next is the field of `mask` at `shift`. */
struct chain {
    const uint8_t *table;
    size_t entries;
    uint64_t valid, mask;
    unsigned shift;
    bool capped;
};

enum step { LAST, ONWARD, BROKEN };

static uint64_t entry_at(const struct chain *c, size_t i)
{
    return get64(c->table + i * ENTRY_BYTES);
}

/* the first entry that is there from i on, or the number of entries */
static size_t first_from(const struct chain *c, size_t i)
{
    const uint8_t *table = c->table;
    size_t n = c->entries;
    uint64_t valid = c->valid;
    while (i < n && (get64(table + i * ENTRY_BYTES) & valid) == 0)
        i++;
    return i;
}

/* Where the entry at *i leads. At a device table's cap the following ID may lie further on than the landing. */
static enum step follow(const struct chain *c, size_t *i)
{
    uint64_t next = entry_at(c, *i) >> c->shift & c->mask;
    if (next == 0)
        return LAST;
    if (next >= c->entries - *i)
        return BROKEN;
    *i += (size_t)next;
    if (c->capped && next == DEVICE_CAP)
        *i = first_from(c, *i);
    return *i < c->entries && (entry_at(c, *i) & c->valid) != 0 ? ONWARD : BROKEN;
}

/* What has been read so far. The state stays until all is read, since a refusal must leave it; the rows are laid out as there, and those
 * past the counts are never read. */
struct reading {
    const uint8_t *state, *memory;
    struct areas tables;
    uint8_t map[MAPPING_BYTES];
};

/* A fault and its place as one number (§13.6). Tests answer a fault, readers its code, and both 0 where there is none. */
static int64_t code_of(int64_t fault, int64_t table, uint64_t device, size_t entry)
{
    return fault << 40 | table << 32 | (int64_t)device << 16 | (int64_t)entry;
}

/* Puts a collection in its place by rising ICID. */
static void insert_collection(uint8_t *map, uint64_t icid, uint64_t pe)
{
    size_t i = (size_t)get64(map + AT_COLLECTION_COUNT);
    put64(map + AT_COLLECTION_COUNT, i + 1);
    for (; i > 0 && get16(collection_row(map, i - 1)) > icid; i--)
        memcpy(map + AT_COLLECTIONS + i * COLLECTION_BYTES, collection_row(map, i - 1), COLLECTION_BYTES);
    put16(map + AT_COLLECTIONS + i * COLLECTION_BYTES, icid);
    put16(map + AT_COLLECTIONS + i * COLLECTION_BYTES + 2, pe);
}

static int64_t read_collection(struct reading *r, uint64_t word)
{
    uint64_t pe = word >> 16 & UINT64_C(0xfffffffff);
    uint64_t icid = word & 0xffff;
    size_t n = (size_t)get64(r->map + AT_COLLECTION_COUNT);
    if (pe >= get64(r->state + AT_VCPU_COUNT))
        return RK_FAULT_PE;
    if (find_collection(r->map, icid) < n)
        return RK_FAULT_REPEAT;
    if (n == MAX_COLLECTIONS)
        return RK_FAULT_17TH;
    insert_collection(r->map, icid, pe);
    return 0;
}

/* up to the first entry with V clear */
static int64_t read_collections(struct reading *r)
{
    const uint8_t *place = r->state + AT_COLLECTION_TABLE;
    const uint8_t *table = r->memory + memory_index(r->state, get64(place + 8));
    size_t n = table_bytes(place) / ENTRY_BYTES;
    for (size_t i = 0; i < n && (get64(table + i * ENTRY_BYTES) & VALID) != 0; i++) {
        int64_t fault = read_collection(r, get64(table + i * ENTRY_BYTES));
        if (fault != 0)
            return code_of(fault, RK_TABLE_COLLECTIONS, 0, i);
    }
    return 0;
}

/* An event's LPI is judged before its next. */
static int64_t read_event(struct reading *r, uint64_t device, uint64_t event, uint64_t word, bool broken)
{
    uint64_t lpi = word >> 16 & UINT64_C(0xffffffff);
    uint64_t icid = word & 0xffff;
    size_t n = (size_t)get64(r->map + AT_EVENT_COUNT);
    if (lpi < 8192 || lpi > 65535)
        return RK_FAULT_LPI;
    if (broken)
        return RK_FAULT_NEXT;
    if (find_collection(r->map, icid) == get64(r->map + AT_COLLECTION_COUNT))
        return RK_FAULT_ICID;
    if (n == MAX_EVENTS)
        return RK_FAULT_1025TH;
    uint8_t *row = r->map + AT_EVENTS + n * EVENT_BYTES;
    put16(row, device);
    put16(row + 2, event);
    put16(row + 4, lpi);
    put16(row + 6, icid);
    put64(r->map + AT_EVENT_COUNT, n + 1);
    return 0;
}

static int64_t read_events(struct reading *r, uint64_t device, const struct chain *c)
{
    enum step step = ONWARD;
    size_t i = first_from(c, 0);
    if (i == c->entries)
        return 0;
    while (step == ONWARD) {
        size_t at = i;
        step = follow(c, &i);
        int64_t fault = read_event(r, device, at, entry_at(c, at), step == BROKEN);
        if (fault != 0)
            return code_of(fault, RK_TABLE_ITT, device, at);
    }
    return 0;
}

/* A device as its entry has it. */
struct device {
    uint64_t id, itt, bits;
};

static void append_device(uint8_t *map, const struct device *d)
{
    size_t n = (size_t)get64(map + AT_DEVICE_COUNT);
    uint8_t *row = map + AT_DEVICES + n * DEVICE_BYTES;
    put64(row, d->id);
    put64(row + 8, d->itt);
    put64(row + 16, d->bits);
    put64(map + AT_DEVICE_COUNT, n + 1);
}

/* A device's next is judged before all else. */
static int64_t read_device(struct reading *r, const struct device *d, bool broken)
{
    uint64_t size = UINT64_C(8) << d->bits;
    if (broken)
        return RK_FAULT_NEXT;
    if (d->bits > MAX_BITS)
        return RK_FAULT_SIZE;
    if (get64(r->map + AT_DEVICE_COUNT) == MAX_DEVICES)
        return RK_FAULT_33RD;
    if (!in_memory(r->state, d->itt, size))
        return RK_FAULT_OUTSIDE;
    if (!add_area(&r->tables, d->itt, size))
        return RK_FAULT_OVERLAP;
    append_device(r->map, d);
    return 0;
}

/* a device and then its events */
static int64_t read_with_events(struct reading *r, uint64_t id, uint64_t word, bool broken)
{
    struct device d = {.id = id, .itt = (word >> 5 & UINT64_C(0xfffffffffff)) << 8, .bits = (word & 0x1f) + 1};
    int64_t fault = read_device(r, &d, broken);
    if (fault != 0)
        return code_of(fault, RK_TABLE_DEVICES, 0, (size_t)id);
    struct chain events = {
        .table = r->memory + memory_index(r->state, d.itt),
        .entries = (size_t)1 << d.bits,
        .valid = UINT64_C(0xffffffff) << 16,
        .mask = UINT64_C(0xffff),
        .shift = 48,
        .capped = false,
    };
    return read_events(r, id, &events);
}

static int64_t read_devices(struct reading *r)
{
    struct chain devices = {
        .table = r->memory + memory_index(r->state, get64(r->state + AT_DEVICE_TABLE + 8)),
        .entries = table_bytes(r->state + AT_DEVICE_TABLE) / ENTRY_BYTES,
        .valid = VALID,
        .mask = DEVICE_CAP,
        .shift = 49,
        .capped = true,
    };
    enum step step = ONWARD;
    size_t i = first_from(&devices, 0);
    if (i == devices.entries)
        return 0;
    while (step == ONWARD) {
        size_t at = i;
        step = follow(&devices, &i);
        int64_t code = read_with_events(r, at, entry_at(&devices, at), step == BROKEN);
        if (code != 0)
            return code;
    }
    return 0;
}

static int64_t read_tables(struct reading *r, const uint8_t *state, const uint8_t *memory)
{
    r->state = state;
    r->memory = memory;
    r->tables.count = 0;
    memset(r->map, 0, AT_DEVICES);
    add_table(&r->tables, state + AT_DEVICE_TABLE);
    add_table(&r->tables, state + AT_COLLECTION_TABLE);
    int64_t code = read_collections(r);
    return code != 0 ? code : read_devices(r);
}

/* The counts and the rows in use, over the state's; bytes past them stay. */
static void store_mapping(uint8_t *map, const uint8_t *read)
{
    memcpy(map, read, AT_DEVICES);
    memcpy(map + AT_DEVICES, read + AT_DEVICES, (size_t)get64(read + AT_DEVICE_COUNT) * DEVICE_BYTES);
    memcpy(map + AT_COLLECTIONS, read + AT_COLLECTIONS, (size_t)get64(read + AT_COLLECTION_COUNT) * COLLECTION_BYTES);
    memcpy(map + AT_EVENTS, read + AT_EVENTS, (size_t)get64(read + AT_EVENT_COUNT) * EVENT_BYTES);
}

/* what a restore answers to a fault; to none, 0 */
static int64_t refusal_of(int64_t fault)
{
    switch (fault) {
    case 0:
        return 0;
    case RK_FAULT_17TH:
    case RK_FAULT_33RD:
    case RK_FAULT_1025TH:
        return -RK_ENOMEM;
    case RK_FAULT_OUTSIDE:
        return -RK_EFAULT;
    default:
        return -RK_EINVAL;
    }
}

int64_t plain_restore(uint8_t *state, size_t state_len, const uint8_t *memory, size_t memory_len)
{
    struct reading r;
    int64_t refusal = tables_fault(state, state_len, memory_len);
    if (refusal != 0)
        return refusal;
    int64_t code = read_tables(&r, state, memory);
    if (code == 0)
        store_mapping(state + AT_MAPPING, r.map);
    return refusal_of(RK_FAULT_OF(code));
}

int64_t plain_explain(const uint8_t *state, size_t state_len, const uint8_t *memory, size_t memory_len)
{
    struct reading r;
    int64_t refusal = tables_fault(state, state_len, memory_len);
    return refusal != 0 ? refusal : read_tables(&r, state, memory);
}
