#include "plan.h"

const uint32_t affinities[VCPUS] = {0x000, 0x001, 0x100, 0x101};

/* Regions: one redistributor at 0x08080000, then four at 0x080A0000. The word is count [63:52], base [51:16], index [11:0]. */
const struct layout planned_layout = {
    .distributor = 0x08000000,
    .regions = {UINT64_C(0x0010000008080000), UINT64_C(0x00400000080A0001)},
    .its = 0x08120000,
    .irq_count = IRQ_COUNT,
};

const struct collection collections[COLLECTIONS] = {{7, 1}, {2, 3}, {900, 0}};

/* IDs far apart and not rising, so that save has to sort them and to jump. */
const struct device devices[DEVICES] = {
    {300, MEMORY_START + 0x2000, 5},
    {4, MEMORY_START + 0x2100, 6},
    {41, MEMORY_START + 0x3000, 12},
};

struct event event_at(unsigned n)
{
    unsigned owner = n / EVENTS_EACH;
    unsigned turn = n % EVENTS_EACH;
    struct event event = {
        .device = devices[owner].id,
        .event = 3 * turn + owner,
        .lpi = 8192 + 1000 * owner + turn,
        .collection = collections[(owner + turn) % COLLECTIONS],
    };
    return event;
}

struct area saved_area(unsigned n)
{
    static const uint64_t tables[] = {DEVICE_TABLE, COLLECTION_TABLE};
    if (n < 2)
        return (struct area){.at = tables[n] - MEMORY_START, .len = TABLE_LEN};
    const struct device *device = &devices[n - 2];
    return (struct area){.at = device->itt - MEMORY_START, .len = (size_t)8 << device->bits};
}
