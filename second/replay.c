/* Makes the calls of a trace again, on whatever archive this is linked to, and compares what each one leaves.
 *
 *     replay TRACE [NAME]
 *
 * `second trace FILE` writes a trace; src/trace.rs tells its bytes. Of each call are compared: the answer and the lent bytes with what the
 * model expects, the state or the XICS with the checksum of the one that the library left when the trace was written, and margins around
 * these and the lent bytes, which nobody may write. The last line is 'NAME: N passed, M failed', one count for each call and one each for
 * the lengths of a state and of an XICS (docs/DEFINITION.md, §1.2, §14.2); the exit status is 0 only if all passed and the trace was whole.
 */
#include "ritikancha.h"

#include <inttypes.h>
#include <stdbool.h>
#include <stdio.h>
#include <stdlib.h>
#include <string.h>

enum { MARGIN = 64, MARGIN_BYTE = 0xa5, SMALL = 64, MEMORIES = 2, NUMBERS = 4, PRINTED = 10 };

static const char *name = "replay";
static uint64_t passed;
static uint64_t failed;

static int close_count(void)
{
    printf("%s: %" PRIu64 " passed, %" PRIu64 " failed\n", name, passed, failed);
    return failed == 0 && passed > 0 ? 0 : 1;
}

/* A trace that cannot be read is a failure: the calls that it should have held were not made. */
static _Noreturn void broken(const char *what)
{
    printf("the trace is broken: %s\n", what);
    failed++;
    exit(close_count());
}

static void *must_have(void *pointer)
{
    if (pointer == NULL)
        broken("no room for it");
    return pointer;
}

/* ---- reading the trace ---- */

static const uint8_t *at;
static const uint8_t *end;

static const uint8_t *bytes_of(size_t count)
{
    const uint8_t *start = at;
    if ((size_t)(end - at) < count)
        broken("it ends too early");
    at += count;
    return start;
}

static uint8_t byte(void)
{
    return *bytes_of(1);
}

static uint64_t number(void)
{
    uint64_t result = 0;
    for (unsigned shift = 0; shift < 64; shift += 7) {
        uint8_t next = byte();
        result |= (uint64_t)(next & 0x7f) << shift;
        if (next < 0x80)
            return result;
    }
    broken("a number is too long");
}

/* Written out, so that the compiler makes one load of it: a state has 1,425 words, and every call has its checksum. */
static uint64_t word_at(const uint8_t *b)
{
    return (uint64_t)b[0] | (uint64_t)b[1] << 8 | (uint64_t)b[2] << 16 | (uint64_t)b[3] << 24 | (uint64_t)b[4] << 32 |
           (uint64_t)b[5] << 40 | (uint64_t)b[6] << 48 | (uint64_t)b[7] << 56;
}

/* ---- lent areas ---- */

/* Bytes with a margin on both sides. */
struct area {
    uint8_t *room;
    size_t len;
};

static uint8_t *content(const struct area *area)
{
    return area->room + MARGIN;
}

/* Cuts the area or fills it with zeros to the length, and sets the margins. */
static void resize(struct area *area, size_t len)
{
    uint8_t *room = must_have(realloc(area->room, len + 2 * MARGIN));
    area->room = room;
    if (len > area->len)
        memset(content(area) + area->len, 0, len - area->len);
    area->len = len;
    memset(room, MARGIN_BYTE, MARGIN);
    memset(room + MARGIN + len, MARGIN_BYTE, MARGIN);
}

static bool margins_stand(const struct area *area)
{
    uint8_t margin[MARGIN];
    memset(margin, MARGIN_BYTE, MARGIN);
    return memcmp(area->room, margin, MARGIN) == 0 && memcmp(content(area) + area->len, margin, MARGIN) == 0;
}

/* Makes the changes that stand next in the trace. */
static void change(struct area *area)
{
    size_t place = 0;
    for (uint64_t runs = number(); runs > 0; runs--) {
        uint64_t skipped = number();
        uint64_t coded = number();
        uint64_t len = coded / 2;
        if (skipped > area->len - place || len > area->len - place - skipped)
            broken("a run leaves its area");
        place += skipped;
        if (coded % 2 == 1)
            memset(content(area) + place, byte(), len);
        else
            memcpy(content(area) + place, bytes_of(len), len);
        place += len;
    }
}

/* What the generator of the second program (splitmix64) fills, one byte from each number. */
static void generate(struct area *area, uint64_t inside)
{
    for (size_t i = 0; i < area->len; i++) {
        inside += UINT64_C(0x9e3779b97f4a7c15);
        uint64_t z = inside;
        z = (z ^ (z >> 30)) * UINT64_C(0xbf58476d1ce4e5b9);
        z = (z ^ (z >> 27)) * UINT64_C(0x94d049bb133111eb);
        content(area)[i] = (uint8_t)(z ^ (z >> 31));
    }
}

static uint64_t mixed(uint64_t sum, uint64_t word)
{
    sum = (sum ^ word) * UINT64_C(0x9e3779b97f4a7c15);
    return sum ^ (sum >> 32);
}

/* Over words of 8 bytes, the last one filled with zeros. */
static uint64_t checksum(const struct area *area)
{
    uint8_t last[8] = {0};
    size_t whole = area->len / 8 * 8;
    uint64_t sum = area->len;
    for (size_t i = 0; i < whole; i += 8)
        sum = mixed(sum, word_at(content(area) + i));
    if (whole == area->len)
        return sum;
    memcpy(last, content(area) + whole, area->len - whole);
    return mixed(sum, word_at(last));
}

/* ---- calls ---- */

/* The state, or the XICS where the call takes one. */
static struct area state;
static struct area memories[MEMORIES];
static struct area value;

/* The calls in the order of the trace's list, and how many numbers each has. */
static const struct {
    const char *name;
    unsigned numbers;
} calls[] = {
    {"rk_setup", 3},                  {"rk_vcpu_add", 1},               {"rk_vcpus_start", 0},
    {"rk_vcpus_stop", 0},             {"rk_vgic_set", 2},               {"rk_its_set", 2},
    {"rk_vgic_get", 2},               {"rk_its_get", 2},                {"rk_redist_base", 1},
    {"rk_irq_pending", 2},            {"rk_irq_set_pending", 2},        {"rk_irq_clear_pending", 2},
    {"rk_irq_activate", 2},           {"rk_irq_line", 3},               {"rk_irq_trigger", 3},
    {"rk_its_place", 4},              {"rk_its_map_device", 3},         {"rk_its_unmap_device", 1},
    {"rk_its_map_collection", 2},     {"rk_its_unmap_collection", 1},   {"rk_its_map_event", 4},
    {"rk_its_discard", 2},            {"rk_its_move", 3},               {"rk_its_lookup", 2},
    {"rk_its_save", 0},               {"rk_its_restore", 0},            {"rk_its_explain", 0},
    {"rk_xics_setup", 0},             {"rk_xics_add_server", 1},        {"rk_xics_add_source", 2},
    {"rk_xics_set_source", 1},        {"rk_xics_set_server", 1},        {"rk_xics_get_source", 1},
    {"rk_xics_get_server", 1},        {"rk_xics_deliverable", 1},
};

enum { KINDS = sizeof calls / sizeof calls[0], FIRST_ITS = 15, FIRST_XICS = 27 };

static int64_t vgic_call(unsigned kind, const uint64_t *n, struct area *lent)
{
    uint8_t *s = content(&state);
    size_t len = state.len;
    switch (kind) {
    case 0: return rk_setup(s, len, n[0], n[1], n[2]);
    case 1: return rk_vcpu_add(s, len, (uint32_t)n[0]);
    case 2: return rk_vcpus_start(s, len);
    case 3: return rk_vcpus_stop(s, len);
    case 4: return rk_vgic_set(s, len, n[0], n[1], content(lent), lent->len);
    case 5: return rk_its_set(s, len, n[0], n[1], content(lent), lent->len);
    case 6: return rk_vgic_get(s, len, n[0], n[1], content(lent), lent->len);
    case 7: return rk_its_get(s, len, n[0], n[1], content(lent), lent->len);
    case 8: return rk_redist_base(s, len, n[0]);
    case 9: return rk_irq_pending(s, len, n[0], n[1]);
    case 10: return rk_irq_set_pending(s, len, n[0], n[1]);
    case 11: return rk_irq_clear_pending(s, len, n[0], n[1]);
    case 12: return rk_irq_activate(s, len, n[0], n[1]);
    case 13: return rk_irq_line(s, len, n[0], n[1], n[2]);
    default: return rk_irq_trigger(s, len, n[0], n[1], (uint32_t)n[2]);
    }
}

static int64_t its_call(unsigned kind, const uint64_t *n, struct area *lent)
{
    uint8_t *s = content(&state);
    size_t len = state.len;
    switch (kind) {
    case 15: return rk_its_place(s, len, n[0], n[1], n[2], n[3]);
    case 16: return rk_its_map_device(s, len, n[0], n[1], n[2]);
    case 17: return rk_its_unmap_device(s, len, n[0]);
    case 18: return rk_its_map_collection(s, len, n[0], n[1]);
    case 19: return rk_its_unmap_collection(s, len, n[0]);
    case 20: return rk_its_map_event(s, len, n[0], n[1], n[2], n[3]);
    case 21: return rk_its_discard(s, len, n[0], n[1]);
    case 22: return rk_its_move(s, len, n[0], n[1], n[2]);
    case 23: return rk_its_lookup(s, len, n[0], n[1]);
    case 24: return rk_its_save(s, len, content(lent), lent->len);
    case 25: return rk_its_restore(s, len, content(lent), lent->len);
    default: return rk_its_explain(s, len, content(lent), lent->len);
    }
}

static int64_t xics_call(unsigned kind, const uint64_t *n, struct area *lent)
{
    uint8_t *x = content(&state);
    size_t len = state.len;
    switch (kind) {
    case 27: return rk_xics_setup(x, len);
    case 28: return rk_xics_add_server(x, len, n[0]);
    case 29: return rk_xics_add_source(x, len, n[0], n[1]);
    case 30: return rk_xics_set_source(x, len, n[0], content(lent), lent->len);
    case 31: return rk_xics_set_server(x, len, n[0], content(lent), lent->len);
    case 32: return rk_xics_get_source(x, len, n[0], content(lent), lent->len);
    case 33: return rk_xics_get_server(x, len, n[0], content(lent), lent->len);
    default: return rk_xics_deliverable(x, len, n[0]);
    }
}

static int64_t any_call(unsigned kind, const uint64_t *n, struct area *lent)
{
    if (kind < FIRST_ITS)
        return vgic_call(kind, n, lent);
    return kind < FIRST_XICS ? its_call(kind, n, lent) : xics_call(kind, n, lent);
}

/* ---- records ---- */

/* The lent bytes that stand next in the trace. */
static struct area *read_lent(void)
{
    uint64_t len = number();
    if (len <= SMALL) {
        resize(&value, len);
        memcpy(content(&value), bytes_of(len), len);
        return &value;
    }
    uint8_t slot = byte();
    if (slot >= MEMORIES)
        broken("a memory that is not there");
    resize(&memories[slot], len);
    change(&memories[slot]);
    return &memories[slot];
}

static int64_t read_answer(void)
{
    uint64_t coded = number();
    uint64_t half = coded / 2;
    return coded % 2 == 0 ? (int64_t)half : -(int64_t)half - 1;
}

static void differs(unsigned kind, const char *what, int64_t answer, int64_t want)
{
    failed++;
    if (failed <= PRINTED)
        printf("difference: call %" PRIu64 ", %s: %s (answered %" PRId64 ", expected %" PRId64 ")\n", passed + failed - 1,
               calls[kind].name, what, answer, want);
}

/* Compares what the call left with what stands next in the trace; `wanted` begins as the lent bytes before the call. */
static void compare(unsigned kind, int64_t answer, struct area *lent, struct area *wanted)
{
    int64_t want = read_answer();
    change(wanted);
    uint64_t sum = word_at(bytes_of(8));
    if (answer != want)
        differs(kind, "another answer", answer, want);
    else if (memcmp(content(lent), content(wanted), wanted->len) != 0)
        differs(kind, "other lent bytes", answer, want);
    else if (checksum(&state) != sum)
        differs(kind, kind < FIRST_XICS ? "another state" : "another XICS", answer, want);
    else if (!margins_stand(&state) || !margins_stand(lent))
        differs(kind, "bytes next to the lent ones were written", answer, want);
    else
        passed++;
}

static void make_call(void)
{
    static struct area wanted;
    uint64_t numbers[NUMBERS] = {0};
    unsigned kind = byte();
    if (kind >= KINDS)
        broken("a call that is not there");
    for (unsigned i = 0; i < calls[kind].numbers; i++)
        numbers[i] = number();
    struct area *lent = read_lent();
    resize(&wanted, lent->len);
    memcpy(content(&wanted), content(lent), lent->len);
    compare(kind, any_call(kind, numbers, lent), lent, &wanted);
}

static void read_state(void)
{
    resize(&state, number());
    change(&state);
}

static void read_generated(void)
{
    uint64_t inside = word_at(bytes_of(8));
    resize(&memories[0], number());
    generate(&memories[0], inside);
}

static void read_end(uint64_t before)
{
    if (number() != passed + failed - before)
        broken("its calls are not as many as it says");
    if (at != end)
        broken("something follows its end");
}

/* Reads records up to the end; the two lengths are the first comparisons. */
static void replay(void)
{
    uint64_t before = passed + failed;
    for (;;) {
        switch (byte()) {
        case 'S': read_state(); break;
        case 'G': read_generated(); break;
        case 'C': make_call(); break;
        case 'E': read_end(before); return;
        default: broken("a record that is not there");
        }
    }
}

static void check_length(const char *what, int64_t answer)
{
    uint64_t len = number();
    if (answer >= 0 && (uint64_t)answer == len) {
        passed++;
        return;
    }
    failed++;
    printf("difference: %s has %" PRId64 " bytes, expected %" PRIu64 "\n", what, answer, len);
}

static void read_file(const char *path)
{
    FILE *file = fopen(path, "rb");
    if (file == NULL || fseek(file, 0, SEEK_END) != 0)
        broken("it cannot be opened");
    long len = ftell(file);
    rewind(file);
    if (len < 0)
        broken("it has no length");
    uint8_t *bytes = must_have(malloc((size_t)len + 1));
    if (fread(bytes, 1, (size_t)len, file) != (size_t)len)
        broken("it cannot be read");
    fclose(file);
    at = bytes;
    end = bytes + len;
}

int main(int argc, char **argv)
{
    if (argc != 2 && argc != 3) {
        fprintf(stderr, "usage: replay TRACE [NAME]\n");
        return 2;
    }
    if (argc == 3)
        name = argv[2];
    read_file(argv[1]);
    if (memcmp(bytes_of(8), "RKTRACE2", 8) != 0)
        broken("it is no trace");
    check_length("a state", rk_state_len());
    check_length("an XICS", rk_xics_len());
    replay();
    return close_count();
}
