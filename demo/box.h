/* One box: a guest's state and memory, and what a hypervisor does with them through the library. */
#ifndef BOX_H
#define BOX_H

#include "plan.h"

#include <stdbool.h>
#include <stddef.h>
#include <stdint.h>

struct box {
    uint8_t *state;
    size_t state_len;
    uint8_t *memory;
    /* Of the bytes that the save wrote, as the old box took it. */
    uint32_t checksum;
    /* The trigger words as the guest wrote them: no attribute hands them out, so the hypervisor, which passes each write on, keeps them.
     * First the VCPUs' own, then the shared ones. */
    uint32_t triggers[VCPUS + IRQ_COUNT / 32];
};

/* The words of a stopped box that its memory does not hold. A bank is 32 interrupts: first the VCPUs' own, then the shared ones. */
struct registers {
    uint32_t latch[VCPUS + IRQ_COUNT / 32];
    uint32_t level[VCPUS + IRQ_COUNT / 32];
    uint32_t trigger[VCPUS + IRQ_COUNT / 32];
    uint32_t status[VCPUS + 1];
};

/* A box with room for a state, its memory filled with the guest's data. */
struct box open_box(void);
void close_box(struct box *box);

/* From nothing to an initialised VGIC and ITS with placed tables. */
void set_up(struct box *box, const struct layout *layout);

/* The guest's driver: collections, devices, events. */
void map_all(struct box *box);

/* The guest writes the trigger word of the bank that holds intid. */
void write_trigger(struct box *box, unsigned vcpu, unsigned intid, uint32_t word);

/* STATUSR of a VCPU's redistributor, or of the distributor where frame is VCPUS. */
void write_status(struct box *box, unsigned frame, uint32_t word);

/* Bases, regions and interrupt count, by groups 0 and 3. */
struct layout read_layout(const struct box *box);

/* Latch, level, trigger and STATUSR words, by groups 1, 5 and 7. */
struct registers read_registers(const struct box *box);
void write_registers(struct box *box, const struct registers *registers);

/* Whether no byte of memory but those of the two tables and the ITTs is another than the guest's data. */
bool data_stands(const struct box *box);

int64_t start(struct box *box);
int64_t stop(struct box *box);
int64_t line(struct box *box, unsigned vcpu, unsigned intid, unsigned level);
int64_t set_pending(struct box *box, unsigned vcpu, unsigned intid);
int64_t pending(const struct box *box, unsigned vcpu, unsigned intid);
int64_t frame_of(const struct box *box, unsigned vcpu);
int64_t lookup(const struct box *box, const struct event *event);
int64_t save(struct box *box);
int64_t restore(struct box *box);
int64_t explain(const struct box *box);

#endif
