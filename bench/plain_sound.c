/* The test that every call makes first. Each rule reads the lent bytes in place; a number is tested before it is used as a count, a
 * shift or a part of a sum. */
#include "plain_state.h"

static bool memory_ok(const uint8_t *s)
{
    uint64_t width = get64(s + AT_WIDTH);
    uint64_t start = get64(s + AT_START);
    uint64_t length = get64(s + AT_LENGTH);
    if (width < 36 || width > 52 || start % PAGE_BYTES != 0 || length % PAGE_BYTES != 0)
        return false;
    if (length < PAGE_BYTES || length > UINT64_C(1) << 30)
        return false;
    return ends_by(start, length, UINT64_C(1) << width);
}

static bool control_ok(const uint8_t *s)
{
    uint64_t init = get64(s + AT_INIT);
    uint64_t irqs = get64(s + AT_IRQS);
    uint64_t irqs_set = get64(s + AT_IRQS_SET);
    if (init > 1 || get64(s + AT_RUNNING) > init || get64(s + AT_ITS_INIT) > init || get64(s + AT_STATUS) > 15)
        return false;
    if (irqs < 64 || irqs > 1024 || irqs % 32 != 0)
        return false;
    return irqs_set == 1 || (irqs_set == 0 && (irqs == 64 || irqs == 256));
}

static bool counts_ok(const uint8_t *s)
{
    const uint8_t *map = s + AT_MAPPING;
    if (get64(s + AT_REGION_COUNT) > MAX_REGIONS || get64(s + AT_VCPU_COUNT) > MAX_VCPUS)
        return false;
    return get64(map + AT_DEVICE_COUNT) <= MAX_DEVICES && get64(map + AT_COLLECTION_COUNT) <= MAX_COLLECTIONS &&
           get64(map + AT_EVENT_COUNT) <= MAX_EVENTS;
}

/* A base that is set, or an all-zero one; what stands before it in the list is apart from it. */
static bool frame_ok(const uint8_t *s, size_t at, uint64_t size, struct areas *frames)
{
    uint64_t set = get64(s + at);
    uint64_t base = get64(s + at + 8);
    if (set == 0)
        return base == 0;
    if (set != 1 || base % 65536 != 0 || !ends_by(base, size, UINT64_C(1) << get64(s + AT_WIDTH)))
        return false;
    return add_area(frames, base, size);
}

/* The regions' counts summed, or 0 where one of them breaks a rule: a count is 1 or more, so that no good sum is 0. */
static uint64_t regions_total(const uint8_t *s, size_t n, struct areas *frames)
{
    uint64_t limit = UINT64_C(1) << get64(s + AT_WIDTH);
    uint64_t total = 0;
    for (size_t i = 0; i < n; i++) {
        const uint8_t *row = s + AT_REGIONS + i * REGION_BYTES;
        uint64_t base = get64(row);
        uint64_t count = get64(row + 8);
        if (base % 65536 != 0 || count < 1 || count > 4095 || !ends_by(base, count * 131072, limit))
            return 0;
        if (!add_area(frames, base, count * 131072))
            return 0;
        total += count;
    }
    return total;
}

/* Frames, and what INIT needs of them. */
static bool frames_ok(const uint8_t *s)
{
    uint64_t init = get64(s + AT_INIT);
    uint64_t vcpus = get64(s + AT_VCPU_COUNT);
    uint64_t single = get64(s + AT_SINGLE);
    size_t regions = (size_t)get64(s + AT_REGION_COUNT);
    struct areas frames;
    frames.count = 0;
    if (single != 0 && regions != 0)
        return false;
    if (!frame_ok(s, AT_DISTRIBUTOR, 65536, &frames) || !frame_ok(s, AT_ITS, 131072, &frames))
        return false;
    if (!frame_ok(s, AT_SINGLE, init == 1 ? 131072 * vcpus : 131072, &frames))
        return false;
    uint64_t total = regions_total(s, regions, &frames);
    if (regions != 0 && total == 0)
        return false;
    return init == 0 || (vcpus != 0 && get64(s + AT_DISTRIBUTOR) == 1 && (single == 1 || total >= vcpus));
}

static bool affinity_taken(const uint8_t *s, size_t n, uint64_t affinity)
{
    for (size_t i = 0; i < n; i++)
        if (get32(s + AT_VCPUS + i * VCPU_BYTES) == affinity)
            return true;
    return false;
}

/* SGIs are edge with level 0, STATUSR has four bits, no two VCPUs have one affinity. */
static bool vcpus_ok(const uint8_t *s)
{
    size_t n = (size_t)get64(s + AT_VCPU_COUNT);
    for (size_t i = 0; i < n; i++) {
        const uint8_t *row = s + AT_VCPUS + i * VCPU_BYTES;
        if (get16(row + 8) != 0 || get16(row + 12) != 0xffff || get32(row + 16) > 15)
            return false;
        if (affinity_taken(s, i, get32(row)))
            return false;
    }
    return true;
}

/* INTIDs 1,020 to 1,023 have no bits (§1.15). */
static bool last_bank_ok(const uint8_t *s)
{
    const uint8_t *bank = s + AT_LAST_BANK;
    return get64(s + AT_IRQS) != 1024 || (get32(bank) | get32(bank + 4) | get32(bank + 8)) < UINT64_C(1) << 28;
}

/* Before INIT every bank is fresh and every STATUSR 0 (§1.16). A VCPU's trigger and STATUSR are read as one word. */
static bool early_ok(const uint8_t *s)
{
    const uint8_t *vcpus = s + AT_VCPUS, *banks = s + AT_BANKS;
    size_t vcpu_bytes = (size_t)get64(s + AT_VCPU_COUNT) * VCPU_BYTES;
    size_t bank_bytes = (size_t)(get64(s + AT_IRQS) / 32 - 1) * BANK_BYTES;
    uint64_t used = get64(s + AT_STATUS);
    for (size_t i = 0; i < vcpu_bytes; i += VCPU_BYTES)
        used |= get64(vcpus + i + 4) | (get64(vcpus + i + 12) ^ 0xffff);
    for (size_t i = 0; i < bank_bytes; i += BANK_BYTES)
        used |= get64(banks + i) | get32(banks + i + 8);
    return used == 0;
}

static bool banks_ok(const uint8_t *s)
{
    return last_bank_ok(s) && (get64(s + AT_INIT) == 1 || early_ok(s));
}

static bool table_ok(const uint8_t *s, const uint8_t *table)
{
    uint64_t start = get64(table + 8);
    uint64_t pages = get64(table + 16);
    if (get64(table) == 0)
        return start == 0 && pages == 0;
    return get64(table) == 1 && start % PAGE_BYTES == 0 && pages >= 1 && pages <= 128 && in_memory(s, start, pages * PAGE_BYTES);
}

/* ITS INIT needs the ITS base; the tables are placed together, after it, apart from each other. */
static bool tables_ok(const uint8_t *s, struct areas *tables)
{
    uint64_t its_init = get64(s + AT_ITS_INIT);
    uint64_t placed = get64(s + AT_DEVICE_TABLE);
    if (its_init > get64(s + AT_ITS) || placed > its_init || placed != get64(s + AT_COLLECTION_TABLE))
        return false;
    if (!table_ok(s, s + AT_DEVICE_TABLE) || !table_ok(s, s + AT_COLLECTION_TABLE))
        return false;
    return add_table(tables, s + AT_DEVICE_TABLE) && add_table(tables, s + AT_COLLECTION_TABLE);
}

static bool collections_ok(const uint8_t *s, const uint8_t *map)
{
    size_t n = (size_t)get64(map + AT_COLLECTION_COUNT);
    uint64_t vcpus = get64(s + AT_VCPU_COUNT);
    for (size_t i = 0; i < n; i++) {
        const uint8_t *row = collection_row(map, i);
        if (get16(row + 2) >= vcpus || (i > 0 && get16(row - COLLECTION_BYTES) >= get16(row)))
            return false;
    }
    return true;
}

static bool devices_ok(const uint8_t *s, const uint8_t *map, struct areas *tables)
{
    size_t n = (size_t)get64(map + AT_DEVICE_COUNT);
    uint64_t entries = get64(s + AT_DEVICE_TABLE + 16) * (PAGE_BYTES / ENTRY_BYTES);
    for (size_t i = 0; i < n; i++) {
        const uint8_t *row = device_row(map, i);
        uint64_t itt = get64(row + 8);
        uint64_t bits = get64(row + 16);
        if (get64(row) >= entries || (i > 0 && get64(row - DEVICE_BYTES) >= get64(row)))
            return false;
        if (bits < 1 || bits > MAX_BITS || itt % 256 != 0 || !in_memory(s, itt, UINT64_C(8) << bits))
            return false;
        if (!add_area(tables, itt, UINT64_C(8) << bits))
            return false;
    }
    return true;
}

/* the first device from i on whose ID is not below id, or the number of devices */
static size_t seek_device(const uint8_t *map, size_t i, uint64_t id)
{
    size_t n = (size_t)get64(map + AT_DEVICE_COUNT);
    while (i < n && get64(device_row(map, i)) < id)
        i++;
    return i;
}

/* Events and devices both rise, so one pass over the two finds each event's device. */
static bool events_ok(const uint8_t *map)
{
    size_t n = (size_t)get64(map + AT_EVENT_COUNT);
    size_t devices = (size_t)get64(map + AT_DEVICE_COUNT);
    size_t collections = (size_t)get64(map + AT_COLLECTION_COUNT);
    size_t d = 0;
    for (size_t i = 0; i < n; i++) {
        const uint8_t *row = event_row(map, i);
        if (i > 0 && event_key(row - EVENT_BYTES) >= event_key(row))
            return false;
        d = seek_device(map, d, get16(row));
        if (d == devices || get64(device_row(map, d)) != get16(row))
            return false;
        if (get16(row + 2) >> get64(device_row(map, d) + 16) != 0 || get16(row + 4) < 8192)
            return false;
        if (find_collection(map, get16(row + 6)) == collections)
            return false;
    }
    return true;
}

/* no mapping where no tables are placed */
static bool mapping_ok(const uint8_t *s, struct areas *tables)
{
    const uint8_t *map = s + AT_MAPPING;
    if (get64(s + AT_DEVICE_TABLE) == 0)
        return get64(map + AT_DEVICE_COUNT) == 0 && get64(map + AT_COLLECTION_COUNT) == 0 && get64(map + AT_EVENT_COUNT) == 0;
    return collections_ok(s, map) && devices_ok(s, map, tables) && events_ok(map);
}

bool plain_sound(const uint8_t *s)
{
    struct areas tables;
    tables.count = 0;
    if (!counts_ok(s) || !memory_ok(s) || !control_ok(s) || !frames_ok(s) || !vcpus_ok(s) || !banks_ok(s))
        return false;
    return tables_ok(s, &tables) && mapping_ok(s, &tables);
}
