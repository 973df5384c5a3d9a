#include "damage.h"

#include "facts.h"
#include "ritikancha.h"
#include "words.h"

#include <inttypes.h>
#include <stdio.h>
#include <stdlib.h>
#include <string.h>

/* What eight shifts make of each low byte of a CRC: the polynomial of IEEE 802.3, lowest bit first. */
static void fill_shifted(uint32_t shifted[256])
{
    for (uint32_t byte = 0; byte < 256; byte++) {
        uint32_t crc = byte;
        for (unsigned shift = 0; shift < 8; shift++)
            crc = crc >> 1 ^ ((crc & 1) != 0 ? UINT32_C(0xEDB88320) : 0);
        shifted[byte] = crc;
    }
}

/* The CRC goes on from one area to the next, so that the areas count as one run of bytes. */
static uint32_t crc_on(uint32_t crc, const uint8_t *bytes, size_t len)
{
    uint32_t shifted[256];
    fill_shifted(shifted);
    crc = ~crc;
    for (size_t i = 0; i < len; i++)
        crc = crc >> 8 ^ shifted[(crc ^ bytes[i]) & 0xFF];
    return ~crc;
}

void check_checksum(void)
{
    static const uint8_t digits[] = {'1', '2', '3', '4', '5', '6', '7', '8', '9'};
    fact(crc_on(crc_on(0, digits, 4), digits + 4, 5) == UINT32_C(0xCBF43926), "the digits 1 to 9 have the CRC-32 that is known of them");
}

uint32_t saved_checksum(const struct box *box)
{
    uint32_t crc = 0;
    for (unsigned n = 0; n < AREAS; n++) {
        struct area area = saved_area(n);
        crc = crc_on(crc, box->memory + area.at, area.len);
    }
    return crc;
}

/* How many of the plan's events the two boxes answer differently. */
static unsigned lookups_apart(const struct box *old, const struct box *new)
{
    unsigned apart = 0;
    for (unsigned n = 0; n < EVENTS; n++) {
        struct event event = event_at(n);
        apart += lookup(old, &event) != lookup(new, &event);
    }
    return apart;
}

/* The device of the lowest ID: the first valid entry of the device table. */
static const struct device *first_device(void)
{
    const struct device *first = &devices[0];
    for (unsigned i = 1; i < DEVICES; i++) {
        if (devices[i].id < first->id)
            first = &devices[i];
    }
    return first;
}

static unsigned count_lost(const struct box *old, const struct box *new, uint64_t device)
{
    unsigned lost = 0;
    for (unsigned n = 0; n < EVENTS; n++) {
        struct event event = event_at(n);
        bool of_device = event.device == device;
        int64_t want = of_device ? -RK_ENOENT : lookup(old, &event);
        lost += answers(lookup(new, &event), want, "the events of the lost device are lost, and no others") && of_device;
    }
    return lost;
}

/* V is the top bit of a device's entry. Without it the entry is blank, and the search for the first device goes on to the next valid
 * entry: the bytes describe a guest that never had the device. At a later device the next before it would land on a blank entry. */
void lose_first_device(const struct box *old, struct box *new)
{
    uint64_t id = first_device()->id;
    uint8_t *top = new->memory + (DEVICE_TABLE - MEMORY_START) + 8 * id + 7;
    fact((*top & 0x80) != 0, "the first device's entry is valid");
    *top ^= 0x80;
    uint32_t damaged = saved_checksum(new);
    fact(damaged != new->checksum, "the checksum shows that a device's V was cleared");
    int64_t answer = restore(new);
    answers(answer, 0, "a table without its first device is accepted");
    unsigned lost = count_lost(old, new, id);
    fact(lost == EVENTS_EACH, "every event of the first device is lost");
    printf("V of device %" PRIu64 " cleared: restore answers %" PRId64 ", %u of %d events lost; the checksum is %08" PRIx32
           " and should be %08" PRIx32 "\n",
           id, answer, lost, EVENTS, damaged, new->checksum);
    *top ^= 0x80;
    fact(saved_checksum(new) == new->checksum, "the mended bytes have the checksum again");
    answers(restore(new), 0, "the mended table is accepted");
    fact(lookups_apart(old, new) == 0, "the lost events are mapped again");
}

/* What came of the flips. */
struct counts {
    unsigned entries;
    unsigned flips;
    unsigned refused;
    unsigned kept; /* refusals that left every byte of the state */
    unsigned unchanged;
    unsigned another;
    unsigned by_lookups; /* other mappings that the lookups show */
    unsigned by_checksum;
    unsigned explained;            /* flips of which explain says what restore does */
    unsigned named[FAULT_NUMBERS]; /* refusals by the fault that explain names */
    unsigned at_flip;              /* of those the ones that name the flipped entry itself */
};

struct trial {
    const struct box *old;
    struct box *new;
    uint8_t *state;   /* the new box's before each flip */
    uint8_t *scratch; /* memory to save into */
    int64_t place;    /* the flipped entry's, as a code has it */
    struct counts counts;
};

/* Whether the new box holds the mapping that the old one saved. What a save writes is published and one mapping has one form in it:
 * collections by rising ICID, zeros where nothing stands. How a state's bytes hold a mapping is the library's own, so the saves are
 * compared and not the states. The two tables come first: where they are the same, so are the places of the ITTs that were written. */
static bool same_mapping(const struct trial *trial)
{
    struct box again = *trial->new;
    again.memory = trial->scratch;
    answers(save(&again), 0, "what a restore accepted can be saved");
    for (unsigned n = 0; n < AREAS; n++) {
        struct area area = saved_area(n);
        if (memcmp(again.memory + area.at, trial->old->memory + area.at, area.len) != 0)
            return false;
    }
    return true;
}

/* Explain says before the restore what the restore then answers: 0, or a code whose fault has the restore's number. */
static void judge_explained(struct trial *trial, int64_t code, int64_t answer)
{
    struct counts *counts = &trial->counts;
    if (code == 0) {
        counts->explained += answer == 0;
    } else if (is_code(code)) {
        counts->explained += answer == answer_of(RK_FAULT_OF(code));
        counts->named[RK_FAULT_OF(code)]++;
        counts->at_flip += code % (INT64_C(1) << 40) == trial->place;
    }
}

static void judge_flip(struct trial *trial)
{
    struct counts *counts = &trial->counts;
    counts->flips++;
    counts->by_checksum += saved_checksum(trial->new) != trial->new->checksum;
    int64_t code = explain(trial->new);
    fact(memcmp(trial->new->state, trial->state, trial->new->state_len) == 0, "explain leaves every byte of the state");
    int64_t answer = restore(trial->new);
    judge_explained(trial, code, answer);
    if (answer < 0) {
        counts->refused++;
        counts->kept += memcmp(trial->new->state, trial->state, trial->new->state_len) == 0;
    } else if (same_mapping(trial)) {
        counts->unchanged++;
        fact(lookups_apart(trial->old, trial->new) == 0, "the same mapping answers the same");
    } else {
        counts->another++;
        counts->by_lookups += lookups_apart(trial->old, trial->new) > 0;
    }
}

/* Each flip starts from the mapping as it was moved. */
static void flip_entry(struct trial *trial, uint8_t *entry)
{
    trial->counts.entries++;
    for (unsigned bit = 0; bit < 64; bit++) {
        uint8_t mask = (uint8_t)(1u << bit % 8);
        entry[bit / 8] ^= mask;
        judge_flip(trial);
        entry[bit / 8] ^= mask;
        memcpy(trial->new->state, trial->state, trial->new->state_len);
    }
}

/* The first entry of a saved area, as a code has it: the table, and the device of an ITT. */
static int64_t first_place(unsigned n)
{
    if (n < 2)
        return (int64_t)(n == 0 ? RK_TABLE_DEVICES : RK_TABLE_COLLECTIONS) << 32;
    return (int64_t)RK_TABLE_ITT << 32 | (int64_t)devices[n - 2].id << 16;
}

/* A save leaves zeros where nothing stands, so every other entry is valid. */
static void flip_entries(struct trial *trial)
{
    static const uint8_t nothing[8];
    for (unsigned n = 0; n < AREAS; n++) {
        struct area area = saved_area(n);
        for (size_t at = 0; at < area.len; at += 8) {
            uint8_t *entry = trial->new->memory + area.at + at;
            trial->place = first_place(n) + (int64_t)(at / 8);
            if (memcmp(entry, nothing, 8) != 0)
                flip_entry(trial, entry);
        }
    }
}

/* The numbers are counted by hand, from the published layout and the plan: 4 VCPUs, each collection's ICID two bits or more from every
 * other's, nothing but the guest's data around the tables, and no event or device where a next with one bit flipped leads.
 *   33 change nothing: bits 62:52 of 3 collections.
 *   463 give another mapping: 6 the VCPU of a collection (the 2 low bits of each pe); 1 loses the first device (V); 5 change the length of
 *   an ITT, which still holds its events and meets no other table (6 bits made 5 or 8, 12 made 11, 10 or 16); 450 change an LPI (bits 0
 *   to 12, 14 and 15 of each of the 30); 1 loses an event (bit 13 of LPI 8,192, which leaves 0, at the first event of its device).
 *   458 of those are seen by the lookups: all but the 5 lengths.
 *   All others are refused, among them every flip of an ITT's address: it leads out of memory, into data or into another table. */
static void check_counts(const struct counts *counts)
{
    fact(counts->entries == DEVICES + COLLECTIONS + EVENTS, "one valid entry for each device, collection and event");
    fact(counts->flips == 64 * counts->entries, "every bit of them was flipped");
    fact(counts->refused + counts->unchanged + counts->another == counts->flips, "every flip is of one of the three kinds");
    fact(counts->kept == counts->refused, "every refusal leaves every byte of the state");
    fact(counts->by_checksum == counts->flips, "the checksum shows every flip");
    fact(counts->unchanged == 33, "33 flips change nothing");
    fact(counts->another == 463, "463 flips give another mapping");
    fact(counts->by_lookups == 458, "the lookups show 458 of them");
    fact(counts->refused == 1808, "1,808 flips are refused");
}

/* Counted by hand as above, and in the order of the tests: at a device's entry next, size, outside, overlap; at an event's LPI, next, ICID.
 *   102 pe: the 34 high bits of each pe.
 *   527 next: 42 nexts of devices; 2 at the device before the one whose V was cleared; 3 at an event that a shortened ITT cuts off from
 *   the following one (6 bits made 2, 12 made 4, 5 made 1); 480 nexts of events: a 3 or a 0 with one bit flipped is not divisible by 3,
 *   as all distances between events of one device are.
 *   3 size: bit 4 of each device's bits.
 *   96 outside: the 32 high bits of each ITT's address, since memory is 1 MiB.
 *   17 overlap: 13 of the 36 low bits of addresses. Device 4's ITT (0x2100, 512 bytes) goes over device 300's, 3 times into device 41's and
 *   over the device table; device 41's (0x3000, 32 KiB) over device 4's and over the collection table; device 300's (0x2000, 256 bytes)
 *   twice into device 4's, 3 times into device 41's and over the device table. And 4 lengths: device 4's 6 bits made 14; device 300's 5
 *   made 6, 7 and 13.
 *   532 LPI: 23 the other low bits of addresses, by which the first entry that is not blank is the guest's data, all of it 0xA7, an LPI
 *   above 65,535; 480 the 16 high bits of each LPI; 29 bit 13 of an LPI, which leaves 1 or more.
 *   531 ICID: 480 of events; 48 of collections and 3 collections whose V was cleared, each of which some event names.
 * Not at the flipped entry are 84 of these: the 2 and 3 of next; 5 overlaps, all those of device 4 but the one with the device table, met
 * at the later device; 23 of LPI; 51 of ICID. */
static void check_named(const struct counts *counts)
{
    static const unsigned named[FAULT_NUMBERS] = {
        [RK_FAULT_PE] = 102,     [RK_FAULT_NEXT] = 527, [RK_FAULT_SIZE] = 3,   [RK_FAULT_OUTSIDE] = 96,
        [RK_FAULT_OVERLAP] = 17, [RK_FAULT_LPI] = 532,  [RK_FAULT_ICID] = 531,
    };
    fact(counts->explained == counts->flips, "explain agrees with restore at every flip");
    for (unsigned fault = 1; fault < FAULT_NUMBERS; fault++)
        answers(counts->named[fault], named[fault], fault_name(fault));
    fact(counts->at_flip == 1724, "1,724 flips are named at the flipped entry itself");
}

static void print_named(const struct counts *counts)
{
    printf("the first fault of the %u that are refused, as explain names it:", counts->refused);
    for (unsigned fault = 1; fault < FAULT_NUMBERS; fault++)
        printf("%s %s %u", fault == 1 ? "" : ",", fault_name(fault), counts->named[fault]);
    printf("; %u of them at the flipped entry itself\n", counts->at_flip);
}

void flip_every_bit(const struct box *old, struct box *new)
{
    struct trial trial = {.old = old, .new = new, .state = malloc(new->state_len), .scratch = malloc(MEMORY_LEN)};
    const struct counts *counts = &trial.counts;
    if (trial.state == NULL || trial.scratch == NULL)
        abort();
    memcpy(trial.state, new->state, new->state_len);
    flip_entries(&trial);
    check_counts(counts);
    check_named(counts);
    printf("%u bits of %u saved entries flipped one by one: %u refused, %u changed nothing, %u gave another mapping "
           "(the %d lookups show %u of them); the checksum shows %u of %u\n",
           counts->flips, counts->entries, counts->refused, counts->unchanged, counts->another, EVENTS, counts->by_lookups,
           counts->by_checksum, counts->flips);
    print_named(counts);
    fact(memcmp(new->memory, old->memory, MEMORY_LEN) == 0, "every flip was taken back");
    free(trial.state);
    free(trial.scratch);
}
