#include "box.h"

#include "facts.h"
#include "numbers.h"
#include "ritikancha.h"

#include <stdlib.h>
#include <string.h>

/* The attribute groups and the registers that the demo uses. */
enum { ADDRESSES = 0, DISTRIBUTOR = 1, COUNT = 3, CONTROL = 4, REDISTRIBUTOR = 5, LEVELS = 7 };
enum { BASE_DISTRIBUTOR = 2, BASE_ITS = 4, REGION = 5, INIT = 0 };
enum { STATUSR = 0x0010, LATCH = 0x200, REDIST_LATCH = 0x10200 };
enum { SHARED_BANKS = IRQ_COUNT / 32 };

/* The guest's data, all over its memory: no byte of it is 0, so a zero that a save writes outside the tables is seen. */
enum { DATA = 0xA7 };

/* A bank's or frame's attribute: the VCPU's affinity in bits 63:32 and the rest below. */
static uint64_t of_vcpu(unsigned vcpu, uint64_t rest)
{
    return (uint64_t)affinities[vcpu] << 32 | rest;
}

static void vgic_set(struct box *box, uint64_t group, uint64_t attribute, size_t width, uint64_t number)
{
    uint8_t value[8];
    put_number(value, width, number);
    answers(rk_vgic_set(box->state, box->state_len, group, attribute, value, width), 0, "an attribute is set");
}

static uint64_t vgic_get(const struct box *box, uint64_t group, uint64_t attribute, size_t width, uint64_t lent)
{
    uint8_t value[8];
    put_number(value, width, lent);
    answers(rk_vgic_get(box->state, box->state_len, group, attribute, value, width), 0, "an attribute is read");
    return number_of(value, width);
}

static void its_set(struct box *box, uint64_t group, uint64_t attribute, size_t width, uint64_t number)
{
    uint8_t value[8];
    put_number(value, width, number);
    answers(rk_its_set(box->state, box->state_len, group, attribute, value, width), 0, "an ITS attribute is set");
}

static uint64_t its_get(const struct box *box, uint64_t group, uint64_t attribute, size_t width)
{
    uint8_t value[8] = {0};
    answers(rk_its_get(box->state, box->state_len, group, attribute, value, width), 0, "an ITS attribute is read");
    return number_of(value, width);
}

struct box open_box(void)
{
    struct box box = {.state_len = (size_t)rk_state_len()};
    box.state = malloc(box.state_len);
    box.memory = malloc(MEMORY_LEN);
    if (box.state == NULL || box.memory == NULL)
        abort();
    memset(box.memory, DATA, MEMORY_LEN);
    return box;
}

void close_box(struct box *box)
{
    free(box->state);
    free(box->memory);
}

static void add_vcpus(struct box *box)
{
    for (unsigned vcpu = 0; vcpu < VCPUS; vcpu++)
        answers(rk_vcpu_add(box->state, box->state_len, affinities[vcpu]), 0, "a VCPU is added");
}

static void place_frames(struct box *box, const struct layout *layout)
{
    vgic_set(box, ADDRESSES, BASE_DISTRIBUTOR, 8, layout->distributor);
    for (unsigned index = 0; index < REGIONS; index++)
        vgic_set(box, ADDRESSES, REGION, 8, layout->regions[index]);
    its_set(box, ADDRESSES, BASE_ITS, 8, layout->its);
}

void set_up(struct box *box, const struct layout *layout)
{
    answers(rk_setup(box->state, box->state_len, WIDTH, MEMORY_START, MEMORY_LEN), 0, "a box is set up");
    add_vcpus(box);
    vgic_set(box, COUNT, 0, 4, layout->irq_count);
    place_frames(box, layout);
    vgic_set(box, CONTROL, INIT, 0, 0);
    its_set(box, CONTROL, INIT, 0, 0);
    answers(rk_its_place(box->state, box->state_len, DEVICE_TABLE, 1, COLLECTION_TABLE, 1), 0, "the tables are placed");
}

static void map_collections(struct box *box)
{
    for (unsigned i = 0; i < COLLECTIONS; i++)
        answers(rk_its_map_collection(box->state, box->state_len, collections[i].icid, collections[i].pe), 0,
                "a collection is mapped");
}

static void map_devices(struct box *box)
{
    for (unsigned i = 0; i < DEVICES; i++)
        answers(rk_its_map_device(box->state, box->state_len, devices[i].id, devices[i].itt, devices[i].bits), 0,
                "a device is mapped");
}

void map_all(struct box *box)
{
    map_collections(box);
    map_devices(box);
    for (unsigned n = 0; n < EVENTS; n++) {
        struct event event = event_at(n);
        answers(rk_its_map_event(box->state, box->state_len, event.device, event.event, event.lpi, event.collection.icid), 0,
                "an event is mapped");
    }
}

/* Which word of a box's list of banks holds the interrupt. */
static unsigned bank_of(unsigned vcpu, unsigned intid)
{
    return intid < 32 ? vcpu : VCPUS + intid / 32;
}

void write_trigger(struct box *box, unsigned vcpu, unsigned intid, uint32_t word)
{
    answers(rk_irq_trigger(box->state, box->state_len, vcpu, intid, word), 0, "a trigger word is written");
    box->triggers[bank_of(vcpu, intid)] = word;
}

void write_status(struct box *box, unsigned frame, uint32_t word)
{
    if (frame < VCPUS)
        vgic_set(box, REDISTRIBUTOR, of_vcpu(frame, STATUSR), 4, word);
    else
        vgic_set(box, DISTRIBUTOR, STATUSR, 4, word);
}

struct layout read_layout(const struct box *box)
{
    struct layout layout = {.distributor = vgic_get(box, ADDRESSES, BASE_DISTRIBUTOR, 8, 0)};
    for (unsigned index = 0; index < REGIONS; index++)
        layout.regions[index] = vgic_get(box, ADDRESSES, REGION, 8, index);
    layout.its = its_get(box, ADDRESSES, BASE_ITS, 8);
    layout.irq_count = (uint32_t)vgic_get(box, COUNT, 0, 4, 0);
    return layout;
}

static void read_private_banks(const struct box *box, struct registers *to)
{
    for (unsigned vcpu = 0; vcpu < VCPUS; vcpu++) {
        to->latch[vcpu] = (uint32_t)vgic_get(box, REDISTRIBUTOR, of_vcpu(vcpu, REDIST_LATCH), 4, 0);
        to->level[vcpu] = (uint32_t)vgic_get(box, LEVELS, of_vcpu(vcpu, 0), 4, 0);
        to->status[vcpu] = (uint32_t)vgic_get(box, REDISTRIBUTOR, of_vcpu(vcpu, STATUSR), 4, 0);
        to->trigger[vcpu] = box->triggers[vcpu];
    }
}

struct registers read_registers(const struct box *box)
{
    struct registers registers = {{0}, {0}, {0}, {0}};
    read_private_banks(box, &registers);
    for (unsigned bank = 1; bank < SHARED_BANKS; bank++) {
        registers.latch[VCPUS + bank] = (uint32_t)vgic_get(box, DISTRIBUTOR, LATCH + 4 * bank, 4, 0);
        registers.level[VCPUS + bank] = (uint32_t)vgic_get(box, LEVELS, 32 * bank, 4, 0);
        registers.trigger[VCPUS + bank] = box->triggers[VCPUS + bank];
    }
    registers.status[VCPUS] = (uint32_t)vgic_get(box, DISTRIBUTOR, STATUSR, 4, 0);
    return registers;
}

static void write_private_banks(struct box *box, const struct registers *from)
{
    for (unsigned vcpu = 0; vcpu < VCPUS; vcpu++) {
        write_trigger(box, vcpu, 0, from->trigger[vcpu]);
        vgic_set(box, LEVELS, of_vcpu(vcpu, 0), 4, from->level[vcpu]);
        vgic_set(box, REDISTRIBUTOR, of_vcpu(vcpu, REDIST_LATCH), 4, from->latch[vcpu]);
        write_status(box, vcpu, from->status[vcpu]);
    }
}

void write_registers(struct box *box, const struct registers *registers)
{
    write_private_banks(box, registers);
    for (unsigned bank = 1; bank < SHARED_BANKS; bank++) {
        write_trigger(box, 0, 32 * bank, registers->trigger[VCPUS + bank]);
        vgic_set(box, LEVELS, 32 * bank, 4, registers->level[VCPUS + bank]);
        vgic_set(box, DISTRIBUTOR, LATCH + 4 * bank, 4, registers->latch[VCPUS + bank]);
    }
    write_status(box, VCPUS, registers->status[VCPUS]);
}

static bool is_saved(size_t at)
{
    bool saved = false;
    for (unsigned n = 0; n < AREAS; n++) {
        struct area area = saved_area(n);
        saved = saved || (at >= area.at && at < area.at + area.len);
    }
    return saved;
}

bool data_stands(const struct box *box)
{
    for (size_t at = 0; at < MEMORY_LEN; at++) {
        if (!is_saved(at) && box->memory[at] != DATA)
            return false;
    }
    return true;
}

int64_t start(struct box *box)
{
    return rk_vcpus_start(box->state, box->state_len);
}

int64_t stop(struct box *box)
{
    return rk_vcpus_stop(box->state, box->state_len);
}

int64_t line(struct box *box, unsigned vcpu, unsigned intid, unsigned level)
{
    return rk_irq_line(box->state, box->state_len, vcpu, intid, level);
}

int64_t set_pending(struct box *box, unsigned vcpu, unsigned intid)
{
    return rk_irq_set_pending(box->state, box->state_len, vcpu, intid);
}

int64_t pending(const struct box *box, unsigned vcpu, unsigned intid)
{
    return rk_irq_pending(box->state, box->state_len, vcpu, intid);
}

int64_t frame_of(const struct box *box, unsigned vcpu)
{
    return rk_redist_base(box->state, box->state_len, vcpu);
}

int64_t lookup(const struct box *box, const struct event *event)
{
    return rk_its_lookup(box->state, box->state_len, event->device, event->event);
}

int64_t save(struct box *box)
{
    return rk_its_save(box->state, box->state_len, box->memory, MEMORY_LEN);
}

int64_t restore(struct box *box)
{
    return rk_its_restore(box->state, box->state_len, box->memory, MEMORY_LEN);
}

int64_t explain(const struct box *box)
{
    return rk_its_explain(box->state, box->state_len, box->memory, MEMORY_LEN);
}
