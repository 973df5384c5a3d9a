#define _GNU_SOURCE
#include "stack.h"

#include <string.h>
#include <sys/mman.h>
#include <ucontext.h>

#include "guests.h"
#include "plain.h"
#include "ritikancha.h"
#include "xics.h"

#define STACK_BYTES ((size_t)1 << 20)
#define GUARD_BYTES 4096

/* what a call is lent */
static uint8_t state[STATE_BYTES];
static uint8_t *memory;
static size_t memory_len;
static uint8_t value[8];
static uint8_t xics[XICS_BYTES];

/* the lent value, holding a number */
static uint8_t *holding(uint64_t number)
{
    put64(value, number);
    return value;
}

/* ---- every call. Where one has several ways through, each is here: what one guest refuses, another accepts. */

#define STATE state, STATE_BYTES
#define XICS xics, XICS_BYTES

static int64_t nothing(void) { return 0; }
static int64_t state_len(void) { return rk_state_len(); }
static int64_t setup(void) { return rk_setup(STATE, 40, MEMORY_START, 1 << 20); }
static int64_t vcpu_add(void) { return rk_vcpu_add(STATE, 0x777); }
static int64_t start(void) { return rk_vcpus_start(STATE); }
static int64_t stop(void) { return rk_vcpus_stop(STATE); }
static int64_t set_base(void) { return rk_vgic_set(STATE, 0, 3, holding(0x080a0000), 8); }
static int64_t set_region(void) { return rk_vgic_set(STATE, 0, 5, holding(UINT64_C(1) << 52 | 0x20000000), 8); }
static int64_t set_latch(void) { return rk_vgic_set(STATE, 1, 0x204, holding(1), 4); }
static int64_t set_count(void) { return rk_vgic_set(STATE, 3, 0, holding(64), 4); }
static int64_t set_init(void) { return rk_vgic_set(STATE, 4, 0, value, 0); }
static int64_t set_own(void) { return rk_vgic_set(STATE, 5, 0x10200, holding(1), 4); }
static int64_t set_level(void) { return rk_vgic_set(STATE, 7, 32, holding(1), 4); }
static int64_t get_base(void) { return rk_vgic_get(STATE, 0, 2, holding(0), 8); }
static int64_t get_region(void) { return rk_vgic_get(STATE, 0, 5, holding(0), 8); }
static int64_t get_latch(void) { return rk_vgic_get(STATE, 1, 0x204, value, 4); }
static int64_t get_own(void) { return rk_vgic_get(STATE, 5, 0x10200, value, 4); }
static int64_t get_level(void) { return rk_vgic_get(STATE, 7, 32, value, 4); }
static int64_t its_base(void) { return rk_its_set(STATE, 0, 4, holding(0x08080000), 8); }
static int64_t its_init(void) { return rk_its_set(STATE, 4, 0, value, 0); }
static int64_t its_reset(void) { return rk_its_set(STATE, 4, 4, value, 0); }
static int64_t its_get(void) { return rk_its_get(STATE, 0, 4, value, 8); }
static int64_t redist_base(void) { return rk_redist_base(STATE, 0); }
static int64_t pending(void) { return rk_irq_pending(STATE, 0, 40); }
static int64_t set_pending(void) { return rk_irq_set_pending(STATE, 0, 40); }
static int64_t clear_pending(void) { return rk_irq_clear_pending(STATE, 0, 40); }
static int64_t activate(void) { return rk_irq_activate(STATE, 0, 20); }
static int64_t line(void) { return rk_irq_line(STATE, 0, 40, 1); }
static int64_t trigger(void) { return rk_irq_trigger(STATE, 0, 40, 1); }
static int64_t place(void) { return rk_its_place(STATE, MEMORY_START, 1, MEMORY_START + 0x1000, 1); }
static int64_t map_device(void) { return rk_its_map_device(STATE, 9, MEMORY_START + 0x8000, 5); }
static int64_t unmap_device(void) { return rk_its_unmap_device(STATE, 8); }
static int64_t map_collection(void) { return rk_its_map_collection(STATE, 1, 0); }
static int64_t map_again(void) { return rk_its_map_collection(STATE, 0, 0); }
static int64_t unmap_named(void) { return rk_its_unmap_collection(STATE, 0); }
static int64_t unmap_unnamed(void) { return rk_its_unmap_collection(STATE, 45); }
static int64_t map_again_event(void) { return rk_its_map_event(STATE, 8, 0, 8192, 0); }
static int64_t map_event(void) { return rk_its_map_event(STATE, 8, 20, 8192, 0); }
static int64_t discard(void) { return rk_its_discard(STATE, 8, 0); }
static int64_t move(void) { return rk_its_move(STATE, 8, 0, 3); }
static int64_t lookup(void) { return rk_its_lookup(STATE, 8, 0); }
static int64_t save(void) { return rk_its_save(STATE, memory, memory_len); }
static int64_t restore(void) { return rk_its_restore(STATE, memory, memory_len); }
static int64_t explain(void) { return rk_its_explain(STATE, memory, memory_len); }
static int64_t xics_len(void) { return rk_xics_len(); }
static int64_t xics_setup(void) { return rk_xics_setup(XICS); }
static int64_t add_server(void) { return rk_xics_add_server(XICS, server_number(63)); }
static int64_t add_source(void) { return rk_xics_add_source(XICS, source_number(63), server_number(62)); }
static int64_t set_source(void) { return rk_xics_set_source(XICS, source_number(62), holding(server_number(62)), 8); }
static int64_t set_server(void) { return rk_xics_set_server(XICS, server_number(62), holding(UINT64_C(0xffff0000)), 8); }
static int64_t get_source(void) { return rk_xics_get_source(XICS, source_number(62), value, 8); }
static int64_t get_server(void) { return rk_xics_get_server(XICS, server_number(62), value, 8); }
static int64_t deliverable(void) { return rk_xics_deliverable(XICS, source_number(62)); }
static int64_t plain_deliverables(void) { return plain_xics_deliverable(XICS, source_number(62)); }
static int64_t plain_lines(void) { return plain_irq_line(STATE, 0, 40, 1); }
static int64_t plain_looks(void) { return plain_lookup(STATE, 8, 0); }
static int64_t plain_saves(void) { return plain_save(STATE, memory, memory_len); }
static int64_t plain_restores(void) { return plain_restore(STATE, memory, memory_len); }
static int64_t plain_explains(void) { return plain_explain(STATE, memory, memory_len); }

/* The lowest bit of device 8's next is another, and leads from the guests' first device to a blank entry. */
static int64_t explain_fault(void)
{
    memory[8 * ENTRY_BYTES + 6] ^= 2;
    int64_t answer = explain();
    memory[8 * ENTRY_BYTES + 6] ^= 2;
    return answer;
}

struct way {
    const char *call;
    int64_t (*make)(void);
};

/* rows of one call stand together */
static const struct way library_ways[] = {
    {"rk_state_len", state_len},
    {"rk_setup", setup},
    {"rk_vcpu_add", vcpu_add},
    {"rk_vcpus_start", start},
    {"rk_vcpus_stop", stop},
    {"rk_vgic_set", set_base}, {"rk_vgic_set", set_region}, {"rk_vgic_set", set_latch}, {"rk_vgic_set", set_count},
    {"rk_vgic_set", set_init}, {"rk_vgic_set", set_own}, {"rk_vgic_set", set_level},
    {"rk_vgic_get", get_base}, {"rk_vgic_get", get_region}, {"rk_vgic_get", get_latch}, {"rk_vgic_get", get_own},
    {"rk_vgic_get", get_level},
    {"rk_its_set", its_base}, {"rk_its_set", its_init}, {"rk_its_set", its_reset},
    {"rk_its_get", its_get},
    {"rk_redist_base", redist_base},
    {"rk_irq_pending", pending},
    {"rk_irq_set_pending", set_pending},
    {"rk_irq_clear_pending", clear_pending},
    {"rk_irq_activate", activate},
    {"rk_irq_line", line},
    {"rk_irq_trigger", trigger},
    {"rk_its_place", place},
    {"rk_its_map_device", map_device},
    {"rk_its_unmap_device", unmap_device},
    {"rk_its_map_collection", map_collection}, {"rk_its_map_collection", map_again},
    {"rk_its_unmap_collection", unmap_named}, {"rk_its_unmap_collection", unmap_unnamed},
    {"rk_its_map_event", map_event}, {"rk_its_map_event", map_again_event},
    {"rk_its_discard", discard},
    {"rk_its_move", move},
    {"rk_its_lookup", lookup},
    {"rk_its_save", save},
    {"rk_its_restore", restore},
    {"rk_its_explain", explain}, {"rk_its_explain", explain_fault},
    {"rk_xics_len", xics_len},
    {"rk_xics_setup", xics_setup},
    {"rk_xics_add_server", add_server},
    {"rk_xics_add_source", add_source},
    {"rk_xics_set_source", set_source},
    {"rk_xics_set_server", set_server},
    {"rk_xics_get_source", get_source},
    {"rk_xics_get_server", get_server},
    {"rk_xics_deliverable", deliverable},
};

static const struct way plain_ways[] = {
    {"plain_irq_line", plain_lines},
    {"plain_lookup", plain_looks},
    {"plain_save", plain_saves},
    {"plain_restore", plain_restores},
    {"plain_explain", plain_explains},
    {"plain_xics_deliverable", plain_deliverables},
};

/* ---- the painted stack */

static uint8_t *stack;
static ucontext_t here, there;
static int64_t (*made)(void);

static void trampoline(void)
{
    (void)made();
}

static void map_stack(void)
{
    if (stack != NULL)
        return;
    uint8_t *pages = mmap(NULL, GUARD_BYTES + STACK_BYTES, PROT_NONE, MAP_PRIVATE | MAP_ANONYMOUS, -1, 0);
    need(pages != MAP_FAILED, "no stack");
    need(mprotect(pages + GUARD_BYTES, STACK_BYTES, PROT_READ | PROT_WRITE) == 0, "no stack");
    stack = pages + GUARD_BYTES;
}

/* How far down from the stack's top a byte changed. */
static size_t painted_depth(int64_t (*make)(void), int paint)
{
    size_t unchanged = 0;
    memset(stack, paint, STACK_BYTES);
    need(getcontext(&there) == 0, "no context");
    there.uc_stack.ss_sp = stack;
    there.uc_stack.ss_size = STACK_BYTES;
    there.uc_link = &here;
    made = make;
    makecontext(&there, trampoline, 0);
    need(swapcontext(&here, &there) == 0, "no context");
    while (unchanged < STACK_BYTES && stack[unchanged] == paint)
        unchanged++;
    return STACK_BYTES - unchanged;
}

static size_t larger(size_t a, size_t b)
{
    return a > b ? a : b;
}

/* Twice, in two colours: a byte that a call leaves in the one colour shows in the other. */
static size_t depth_on(int64_t (*make)(void), const struct guest *g)
{
    size_t deepest = 0;
    for (int colour = 0; colour < 2; colour++) {
        memcpy(state, g->state, STATE_BYTES);
        memcpy(xics, roomy_xics, XICS_BYTES);
        memory = g->memory;
        memory_len = g->memory_len;
        deepest = larger(deepest, painted_depth(make, colour == 0 ? 0xa5 : 0x5a));
    }
    return deepest;
}

/* over all guests, less what changing stacks itself takes */
static size_t depth_of(int64_t (*make)(void))
{
    size_t deepest = 0;
    size_t empty = depth_on(nothing, &guests[FRESH]);
    for (int i = 0; i < GUESTS; i++)
        deepest = larger(deepest, depth_on(make, &guests[i]));
    return deepest > empty ? deepest - empty : 0;
}

/* A restore goes all its way where the tables were saved. */
static void save_all(void)
{
    for (int i = SOME; i < GUESTS; i++)
        need(rk_its_save(guests[i].state, STATE_BYTES, guests[i].memory, guests[i].memory_len) == 0, "a guest could not be saved");
}

/* of the calls whose names begin so, or of all where `call` is null */
static struct depth deepest_of(const struct way *ways, size_t count, const char *call)
{
    struct depth most = {"none", 0};
    map_stack();
    save_all();
    for (size_t i = 0; i < count; i++) {
        if (call != NULL && strncmp(call, ways[i].call, strlen(call)) != 0)
            continue;
        size_t bytes = depth_of(ways[i].make);
        if (bytes > most.bytes)
            most = (struct depth){ways[i].call, bytes};
    }
    return most;
}

static size_t names_in(const struct way *ways, size_t count)
{
    size_t names = 0;
    for (size_t i = 0; i < count; i++)
        names += i == 0 || strcmp(ways[i].call, ways[i - 1].call) != 0;
    return names;
}

enum { LIBRARY_WAYS = sizeof library_ways / sizeof library_ways[0], PLAIN_WAYS = sizeof plain_ways / sizeof plain_ways[0] };

struct depth library_depth(void)
{
    need(names_in(library_ways, LIBRARY_WAYS) == 37, "not every call is made on a painted stack");
    return deepest_of(library_ways, LIBRARY_WAYS, NULL);
}

struct depth plain_depth(void)
{
    return deepest_of(plain_ways, PLAIN_WAYS, NULL);
}

size_t library_depth_of(const char *call)
{
    return deepest_of(library_ways, LIBRARY_WAYS, call).bytes;
}

size_t plain_depth_of(const char *call)
{
    return deepest_of(plain_ways, PLAIN_WAYS, call).bytes;
}
