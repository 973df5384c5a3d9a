/* A guest moves from one box to another: what a technician does with the library, every step of it checked.
 *
 * The old box is set up, maps three devices with thirty events, runs and is stopped. Its mapping is saved into its memory; memory,
 * registers and a checksum of the saved bytes are carried to a new box, which compares the checksum and restores the mapping. Then one link
 * in the carried memory is damaged, and the new box refuses it, says why and keeps what it had. At last come damages that a restore does
 * not find and the checksum does.
 *
 * What is expected stands here by hand: what the plan mapped, and the bytes of one table entry, by the published layout.
 */
#include "box.h"
#include "damage.h"
#include "facts.h"
#include "ritikancha.h"
#include "why.h"

#include <inttypes.h>
#include <stdio.h>
#include <stdlib.h>
#include <string.h>

/* Interrupts whose pending state must come over, and why each is pending or not. */
struct watched {
    const char *what;
    unsigned vcpu;
    unsigned intid;
    int64_t pending;
};

static const struct watched watched[] = {
    {"timer, edge, fired", 1, TIMER, 1},
    {"timer of another VCPU", 2, TIMER, 0},
    {"keyboard, edge, set by the guest", 0, KEYBOARD, 1},
    {"disk, level, line up", 0, DISK, 1},
    {"network, level, line fell", 0, NETWORK, 0},
    {"sensor, edge, line up and fallen", 0, SENSOR, 1},
};

enum { WATCHED = sizeof watched / sizeof watched[0] };

static uint32_t bit(unsigned intid)
{
    return UINT32_C(1) << (intid % 32);
}

/* What the guest and its devices do while it runs. */
static void run_guest(struct box *box)
{
    for (unsigned vcpu = 0; vcpu < VCPUS; vcpu++)
        write_trigger(box, vcpu, TIMER, bit(TIMER));
    write_trigger(box, 0, KEYBOARD, bit(KEYBOARD));
    write_trigger(box, 0, SENSOR, bit(SENSOR));
    answers(start(box), 0, "the guest runs");
    answers(line(box, 1, TIMER, 1), 0, "the timer fires");
    answers(set_pending(box, 0, KEYBOARD), 0, "the keyboard is set pending");
    answers(line(box, 0, DISK, 1), 0, "the disk's line rises");
    answers(line(box, 0, NETWORK, 1), 0, "the network's line rises");
    answers(line(box, 0, NETWORK, 0), 0, "the network's line falls");
    answers(line(box, 0, SENSOR, 1), 0, "the sensor's line rises");
    answers(line(box, 0, SENSOR, 0), 0, "the sensor's line falls");
    answers(save(box), -RK_EBUSY, "no save while the guest runs");
    answers(stop(box), 0, "the guest stops");
}

static void make_old_box(struct box *box)
{
    set_up(box, &planned_layout);
    map_all(box);
    for (unsigned frame = 0; frame <= VCPUS; frame++)
        write_status(box, frame, frame + 1);
    run_guest(box);
    answers(save(box), 0, "the mapping is saved");
    box->checksum = saved_checksum(box);
    fact(data_stands(box), "save leaves the guest's data");
    printf("old box: %d VCPUs, %d interrupts, %d devices, %d collections, %d events; stopped and saved, checksum %08" PRIx32 "\n",
           VCPUS, IRQ_COUNT, DEVICES, COLLECTIONS, EVENTS, box->checksum);
}

static unsigned looked_up(const struct box *box, int64_t (*want)(const struct event *), const char *what)
{
    unsigned good = 0;
    for (unsigned n = 0; n < EVENTS; n++) {
        struct event event = event_at(n);
        good += answers(lookup(box, &event), want(&event), what);
    }
    return good;
}

static int64_t mapped(const struct event *event)
{
    return (int64_t)(event->lpi + 65536 * event->collection.pe);
}

static int64_t missing(const struct event *event)
{
    (void)event;
    return -RK_ENOENT;
}

/* Beside what the plan fixes (VCPUs, memory, the tables' places) the new box gets only what came out of the old one: layout, registers,
 * memory and the checksum of the saved bytes. */
static void carry(const struct box *old, struct box *new)
{
    struct layout layout = read_layout(old);
    struct registers registers = read_registers(old);
    fact(layout.distributor == planned_layout.distributor && layout.its == planned_layout.its, "the bases are as set");
    fact(memcmp(layout.regions, planned_layout.regions, sizeof layout.regions) == 0, "the regions are as set");
    set_up(new, &layout);
    write_registers(new, &registers);
    memcpy(new->memory, old->memory, MEMORY_LEN);
    new->checksum = old->checksum;
    fact(saved_checksum(new) == new->checksum, "the saved bytes came over as they were");
    looked_up(new, missing, "nothing is mapped before the restore");
    answers(restore(new), 0, "the mapping is restored");
    fact(memcmp(new->memory, old->memory, MEMORY_LEN) == 0, "restore leaves memory alone");
}

static bool print_event(const struct box *old, const struct box *new, const struct event *event)
{
    int64_t was = lookup(old, event);
    int64_t is = lookup(new, event);
    bool same = was == mapped(event) && is == was;
    printf("%6" PRIu64 " %5" PRIu64 " %5" PRIu64 " | %7" PRId64 " %8" PRId64 " | %7" PRId64 " %8" PRId64 " %s\n", event->device,
           event->event, event->collection.icid, was % 65536, was / 65536, is % 65536, is / 65536, same ? "moved" : "LOST");
    return same;
}

static void print_events(const struct box *old, const struct box *new)
{
    unsigned moved = 0;
    printf("%6s %5s %5s | %7s %8s | %7s %8s\n", "device", "event", "ICID", "old LPI", "old VCPU", "new LPI", "new VCPU");
    for (unsigned n = 0; n < EVENTS; n++) {
        struct event event = event_at(n);
        moved += fact(print_event(old, new, &event), "an event is the same on both boxes, and as it was mapped");
    }
    printf("%u of %d interrupts moved\n", moved, EVENTS);
    fact(moved == EVENTS, "every event moved");
}

/* Every interrupt of every VCPU, not only the watched ones. */
static unsigned compare_pending(const struct box *old, const struct box *new)
{
    unsigned count = 0;
    for (unsigned n = 0; n < VCPUS * IRQ_COUNT; n++) {
        int64_t was = pending(old, n / IRQ_COUNT, n % IRQ_COUNT);
        int64_t is = pending(new, n / IRQ_COUNT, n % IRQ_COUNT);
        fact(was >= 0 && was == is, "an interrupt is pending on both boxes or on neither");
        /* a shared interrupt counts once, by VCPU 0 */
        count += was == 1 && is == 1 && (n % IRQ_COUNT < 32 || n < IRQ_COUNT);
    }
    return count;
}

static void print_pending(const struct box *old, const struct box *new)
{
    unsigned want = 0;
    printf("%5s %4s  old new\n", "INTID", "VCPU");
    for (unsigned n = 0; n < WATCHED; n++) {
        const struct watched *irq = &watched[n];
        int64_t was = pending(old, irq->vcpu, irq->intid);
        int64_t is = pending(new, irq->vcpu, irq->intid);
        printf("%5u %4u %4" PRId64 " %3" PRId64 "  %s\n", irq->intid, irq->vcpu, was, is, irq->what);
        fact(was == irq->pending && is == irq->pending, irq->what);
        want += irq->pending == 1;
    }
    unsigned count = compare_pending(old, new);
    fact(count == want, "the watched interrupts alone are pending");
    printf("%u of %u pending interrupts moved\n", count, want);
}

/* A level interrupt must have come over as its line and not as a latch: else it would stick when the line falls. */
static void lower_lines(struct box *new)
{
    answers(line(new, 0, DISK, 0), 0, "the disk's line falls on the new box");
    answers(pending(new, 0, DISK), 0, "a level interrupt goes with its line");
    answers(line(new, 1, TIMER, 0), 0, "the timer's line falls on the new box");
    answers(pending(new, 1, TIMER), 1, "an edge interrupt stays until it is taken");
}

/* VCPU 0 fills the region of one; the others follow in the region of four. */
static void compare_frames(const struct box *old, const struct box *new)
{
    static const int64_t frames[VCPUS] = {0x08080000, 0x080A0000, 0x080C0000, 0x080E0000};
    struct registers registers = read_registers(new);
    for (unsigned vcpu = 0; vcpu < VCPUS; vcpu++) {
        fact(frame_of(old, vcpu) == frames[vcpu] && frame_of(new, vcpu) == frames[vcpu], "a redistributor frame came over");
        fact(registers.status[vcpu] == vcpu + 1, "a redistributor's STATUSR came over");
    }
    fact(registers.status[VCPUS] == VCPUS + 1, "the distributor's STATUSR came over");
}

/* The entry of the first event of the first device that save wrote, little endian. */
static uint8_t *first_link(const struct box *box)
{
    return box->memory + (devices[0].itt - MEMORY_START) + 8 * event_at(0).event;
}

/* A next of 3 leads from event 0 to event 3; 2 would lead to a blank entry. */
static void damage_link(struct box *new)
{
    struct event event = event_at(0);
    uint8_t entry[8] = {(uint8_t)event.collection.icid, (uint8_t)(event.collection.icid >> 8), 0x00, 0x20, 0, 0, 3, 0};
    uint8_t *link = first_link(new);
    fact(memcmp(link, entry, 8) == 0, "the entry is ICID, LPI 8,192 and next 3");
    link[6] = 2;
}

static void refuse_damage(struct box *new)
{
    uint8_t *before = malloc(new->state_len);
    if (before == NULL)
        abort();
    memcpy(before, new->state, new->state_len);
    damage_link(new);
    int64_t answer = restore(new);
    answers(answer, -RK_EINVAL, "a damaged link is refused");
    fact(memcmp(before, new->state, new->state_len) == 0, "the refusal leaves every byte of the state");
    unsigned kept = looked_up(new, mapped, "an event is still mapped after the refusal");
    printf("one link damaged (next 3 made 2): restore answers %" PRId64 ", %u of %d interrupts still mapped\n", answer, kept, EVENTS);
    explain_link(new, answer);
    explain_refusals(new);
    first_link(new)[6] = 3;
    answers(explain(new), 0, "with the link mended the bytes describe a mapping");
    answers(restore(new), 0, "the mended link is accepted: it was the damage that was refused");
    free(before);
}

int main(void)
{
    if (!fact(rk_state_len() > 0, "a state has a length"))
        return close_facts("migrate");
    check_checksum();
    struct box old = open_box();
    struct box new = open_box();
    make_old_box(&old);
    carry(&old, &new);
    print_events(&old, &new);
    print_pending(&old, &new);
    lower_lines(&new);
    compare_frames(&old, &new);
    refuse_damage(&new);
    lose_first_device(&old, &new);
    flip_every_bit(&old, &new);
    close_box(&old);
    close_box(&new);
    return close_facts("migrate");
}
