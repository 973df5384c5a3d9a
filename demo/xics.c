/* The words of an XICS move from one POWER box to another, every step of it checked (docs/DEFINITION.md, part 14).
 *
 * The old box registers servers and sources and sets their words. Then every word is read, and numbers and words are put one behind the
 * other into plain bytes, as into a file: that is all that goes to the new box. There the same is registered and the words are set, and
 * every source is asked on both boxes whether it is deliverable. At last comes what is refused.
 *
 * What is expected stands here by hand: words and answers, by the paragraphs that are named.
 */
#include "xics.h"

#include "facts.h"
#include "numbers.h"
#include "ritikancha.h"

#include <inttypes.h>
#include <stdio.h>
#include <stdlib.h>
#include <string.h>

/* §14.6: current priority [63:56], source number [55:32], IPI priority [31:24], pending priority [23:16], and 16 bits that are not kept. */
static const struct server {
    uint64_t number;
    uint64_t set;
    uint64_t word;
    const char *what;
} servers[] = {
    {0, 0xFF000000FFFF1234, 0xFF000000FFFF0000, "lets all through but priority 255"},
    {8, 0x05001000FF040000, 0x05001000FF040000, "at priority 5; source 4,096 pends at 4"},
    {16, 0x0000000203030000, 0x0000000203030000, "lets nothing through; an IPI pends at 3"},
    {4294967295, 0x00000000FFFF0000, 0x00000000FFFF0000, "as it was registered"},
};

/* §14.5: pending 42, masked 41, level 40, priority [39:32], destination [31:0]. §14.11: whether it is deliverable. */
static const struct source {
    uint64_t number;
    uint64_t server; /* which it is registered with */
    uint64_t word;
    int64_t deliverable;
    const char *why;
} sources[] = {
    {17, 0, 0x000004FE00000000, 1, "254 is below 255"},
    {18, 0, 0x000004FF00000000, 0, "255 is below nothing"},
    {4096, 8, 0x0000040400000008, 1, "4 is below 5"},
    {4097, 8, 0x0000040500000008, 0, "5 is not below 5"},
    {4098, 8, 0x0000060400000008, 0, "masked"},
    {4099, 8, 0x0000010400000008, 0, "not pending"},
    {4100, 8, 0x0000050000000008, 1, "level makes no difference"},
    {8, 8, 0x0000040600000000, 1, "goes to server 0 now, no longer to 8"},
    {1048575, 0, 0x0000040000000010, 0, "0 is not below 0"},
    {0, 4294967295, 0x000002FFFFFFFFFF, 0, "as it was registered: masked, at 255"},
};

enum { SERVERS = sizeof servers / sizeof servers[0], SOURCES = sizeof sources / sizeof sources[0] };

/* The file: the number of servers and of sources, then a row for each, its number and its word. 8 bytes to a number. */
enum { HEAD = 16, ROW = 16, FILE_LEN = HEAD + ROW * (SERVERS + SOURCES) };

struct xics open_xics(void)
{
    struct xics xics = {.len = (size_t)rk_xics_len()};
    xics.bytes = malloc(xics.len);
    if (xics.bytes == NULL)
        abort();
    memset(xics.bytes, GARBAGE, xics.len);
    return xics;
}

void close_xics(struct xics *xics)
{
    free(xics->bytes);
}

void set_up(struct xics *xics)
{
    answers(rk_xics_setup(xics->bytes, xics->len), 0, "an XICS is set up");
}

static uint64_t server_word(const struct xics *xics, uint64_t number)
{
    uint8_t value[8] = {0};
    answers(rk_xics_get_server(xics->bytes, xics->len, number, value, sizeof value), 0, "a server's word is read");
    return number_of(value, sizeof value);
}

static uint64_t source_word(const struct xics *xics, uint64_t number)
{
    uint8_t value[8] = {0};
    answers(rk_xics_get_source(xics->bytes, xics->len, number, value, sizeof value), 0, "a source's word is read");
    return number_of(value, sizeof value);
}

static void set_server_word(struct xics *xics, uint64_t number, uint64_t word)
{
    uint8_t value[8];
    put_number(value, sizeof value, word);
    answers(rk_xics_set_server(xics->bytes, xics->len, number, value, sizeof value), 0, "a server's word is set");
}

static void set_source_word(struct xics *xics, uint64_t number, uint64_t word)
{
    uint8_t value[8];
    put_number(value, sizeof value, word);
    answers(rk_xics_set_source(xics->bytes, xics->len, number, value, sizeof value), 0, "a source's word is set");
}

static int64_t deliverable(const struct xics *xics, uint64_t source)
{
    return rk_xics_deliverable(xics->bytes, xics->len, source);
}

/* §14.7, §14.8: the words that registering gives. */
static void register_all(struct xics *xics)
{
    for (unsigned i = 0; i < SERVERS; i++)
        answers(rk_xics_add_server(xics->bytes, xics->len, servers[i].number), 0, "a server is registered");
    for (unsigned i = 0; i < SOURCES; i++)
        answers(rk_xics_add_source(xics->bytes, xics->len, sources[i].number, sources[i].server), 0, "a source is registered");
    for (unsigned i = 0; i < SERVERS; i++)
        fact(server_word(xics, servers[i].number) == 0x00000000FFFF0000, "a new server has nothing pending");
    for (unsigned i = 0; i < SOURCES; i++) {
        fact(source_word(xics, sources[i].number) == 0x000002FF00000000 + sources[i].server, "a new source is masked, at priority 255");
        answers(deliverable(xics, sources[i].number), 0, "a new source is not deliverable");
    }
}

static void make_old_box(struct xics *old)
{
    answers(deliverable(old, 17), -RK_EINVAL, "garbage is no XICS");
    set_up(old);
    register_all(old);
    for (unsigned i = 0; i < SERVERS; i++)
        set_server_word(old, servers[i].number, servers[i].set);
    for (unsigned i = 0; i < SOURCES; i++)
        set_source_word(old, sources[i].number, sources[i].word);
}

/* Reads every word. No call lists the numbers: a hypervisor knows what it registered. */
static void save(const struct xics *xics, uint8_t file[FILE_LEN])
{
    uint8_t *row = file + HEAD;
    put_number(file, 8, SERVERS);
    put_number(file + 8, 8, SOURCES);
    for (unsigned i = 0; i < SERVERS; i++, row += ROW) {
        put_number(row, 8, servers[i].number);
        put_number(row + 8, 8, server_word(xics, servers[i].number));
    }
    for (unsigned i = 0; i < SOURCES; i++, row += ROW) {
        put_number(row, 8, sources[i].number);
        put_number(row + 8, 8, source_word(xics, sources[i].number));
    }
}

static void check_file(const uint8_t file[FILE_LEN])
{
    const uint8_t *row = file + HEAD;
    for (unsigned i = 0; i < SERVERS; i++, row += ROW)
        fact(number_of(row + 8, 8) == servers[i].word, "a server's word came back, bits 15:0 being 0");
    for (unsigned i = 0; i < SOURCES; i++, row += ROW)
        fact(number_of(row + 8, 8) == sources[i].word, "a source's word came back as it was set");
}

/* The new box gets the file alone. Servers come first, since a source is registered with one, here with its destination. */
static void load(struct xics *xics, const uint8_t file[FILE_LEN])
{
    uint64_t server_count = number_of(file, 8);
    uint64_t source_count = number_of(file + 8, 8);
    const uint8_t *server_rows = file + HEAD;
    const uint8_t *source_rows = server_rows + ROW * server_count;
    for (const uint8_t *row = server_rows; row < source_rows; row += ROW) {
        answers(rk_xics_add_server(xics->bytes, xics->len, number_of(row, 8)), 0, "a server is registered on the new box");
        answers(rk_xics_set_server(xics->bytes, xics->len, number_of(row, 8), row + 8, 8), 0, "its word is set");
    }
    for (const uint8_t *row = source_rows; row < source_rows + ROW * source_count; row += ROW) {
        uint64_t server = RK_XICS_DESTINATION_OF(number_of(row + 8, 8));
        answers(rk_xics_add_source(xics->bytes, xics->len, number_of(row, 8), server), 0, "a source is registered on the new box");
        answers(rk_xics_set_source(xics->bytes, xics->len, number_of(row, 8), row + 8, 8), 0, "its word is set");
    }
}

static void carry(const struct xics *old, struct xics *new)
{
    uint8_t file[FILE_LEN];
    uint8_t again[FILE_LEN];
    save(old, file);
    check_file(file);
    answers(deliverable(new, 17), -RK_EINVAL, "garbage is no XICS on the new box either");
    set_up(new);
    answers(deliverable(new, 17), -RK_ENOENT, "nothing is registered before the file is read");
    load(new, file);
    save(new, again);
    fact(memcmp(file, again, FILE_LEN) == 0, "every word is on the new box as it was on the old one");
    printf("%d servers and %d sources carried in %d bytes\n", SERVERS, SOURCES, FILE_LEN);
}

static void print_servers(const struct xics *xics)
{
    printf("%10s  current source pending IPI\n", "server");
    for (unsigned i = 0; i < SERVERS; i++) {
        uint64_t word = server_word(xics, servers[i].number);
        printf("%10" PRIu64 " %8" PRIu64 " %6" PRIu64 " %7" PRIu64 " %3" PRIu64 "  %s\n", servers[i].number, RK_XICS_CURRENT_OF(word),
               RK_XICS_SOURCE_OF(word), RK_XICS_PENDING_PRIORITY_OF(word), RK_XICS_IPI_PRIORITY_OF(word), servers[i].what);
    }
}

/* Asks both boxes of every source. */
static void print_sources(const struct xics *old, const struct xics *new)
{
    unsigned same = 0;
    printf("%10s %10s priority level masked pending | old new\n", "source", "server");
    for (unsigned i = 0; i < SOURCES; i++) {
        uint64_t word = source_word(new, sources[i].number);
        int64_t was = deliverable(old, sources[i].number);
        int64_t is = deliverable(new, sources[i].number);
        printf("%10" PRIu64 " %10" PRIu64 " %8" PRIu64 " %5" PRIu64 " %6" PRIu64 " %7" PRIu64 " | %3" PRId64 " %3" PRId64 "  %s\n",
               sources[i].number, RK_XICS_DESTINATION_OF(word), RK_XICS_PRIORITY_OF(word), RK_XICS_LEVEL_OF(word),
               RK_XICS_MASKED_OF(word), RK_XICS_PENDING_OF(word), was, is, sources[i].why);
        same += fact(was == sources[i].deliverable && is == was, "a source is deliverable on both boxes or on neither, as expected");
    }
    printf("%u of %d sources answer on the new box what they answered on the old one\n", same, SOURCES);
}

/* The word of the server decides as it stands now, on its own box alone: source 4,097 has priority 5. */
static void lower_priority(const struct xics *old, struct xics *new)
{
    set_server_word(new, 8, 0x06001000FF040000);
    answers(deliverable(new, 4097), 1, "5 is below 6");
    answers(deliverable(old, 4097), 0, "the old box is untouched");
    printf("server 8 goes to priority 6 on the new box: source 4097 is deliverable there\n");
    set_server_word(new, 8, 0x05001000FF040000);
}

int main(void)
{
    if (!fact(rk_xics_len() > 0, "an XICS has a length"))
        return close_facts("xics");
    struct xics old = open_xics();
    struct xics new = open_xics();
    make_old_box(&old);
    carry(&old, &new);
    print_servers(&new);
    print_sources(&old, &new);
    lower_priority(&old, &new);
    refuse_all(&new);
    close_xics(&old);
    close_xics(&new);
    return close_facts("xics");
}
