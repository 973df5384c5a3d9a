/* What the calls on an XICS refuse: each number and why, by the lists of docs/DEFINITION.md, §14.3 and §14.7 to §14.11. */
#include "facts.h"
#include "numbers.h"
#include "ritikancha.h"
#include "xics.h"

#include <inttypes.h>
#include <stdio.h>
#include <string.h>

enum { FULL = 64 };

#define TWO_20 (UINT64_C(1) << 20)
#define TWO_32 (UINT64_C(1) << 32)

/* A call that is refused: it is lent a value of 8 bytes that holds this word. */
struct refusal {
    const char *what;
    int64_t (*make)(const struct xics *xics, uint8_t *value);
    uint64_t word;
    int64_t answer;
    const char *why;
};

/* The calls on an XICS as short as they can be. */
#define XICS xics->bytes, xics->len
#define CALL(name, body)                                            \
    static int64_t name(const struct xics *xics, uint8_t *value)    \
    {                                                               \
        (void)value;                                                \
        return body;                                                \
    }

CALL(server_again, rk_xics_add_server(XICS, 8))
CALL(server_too_high, rk_xics_add_server(XICS, TWO_32))
CALL(source_again, rk_xics_add_source(XICS, 4096, 9))
CALL(source_too_high, rk_xics_add_source(XICS, TWO_20, 8))
CALL(source_of_no_number, rk_xics_add_source(XICS, 5, TWO_32))
CALL(source_of_no_server, rk_xics_add_source(XICS, 5, 9))
CALL(set_source, rk_xics_set_source(XICS, 4096, value, 8))
CALL(set_no_source, rk_xics_set_source(XICS, 5, value, 8))
CALL(set_narrow, rk_xics_set_source(XICS, 5, value, 4))
CALL(set_server, rk_xics_set_server(XICS, 8, value, 8))
CALL(set_no_server, rk_xics_set_server(XICS, 9, value, 8))
CALL(get_no_source, rk_xics_get_source(XICS, TWO_20, value, 8))
CALL(get_no_server, rk_xics_get_server(XICS, 9, value, 8))
CALL(get_narrow, rk_xics_get_server(XICS, 8, value, 7))
CALL(ask_no_source, rk_xics_deliverable(XICS, 5))
CALL(ask_short, rk_xics_deliverable(xics->bytes, xics->len - 1, 4096))
CALL(setup_short, rk_xics_setup(xics->bytes, xics->len - 1))
CALL(server_65, rk_xics_add_server(XICS, 64))
CALL(source_65, rk_xics_add_source(XICS, 64, 8))
CALL(source_65_of_no_server, rk_xics_add_source(XICS, 64, 64))

/* On the XICS of the example, which has servers 0, 8 and 16 and source 4,096, but no server 9 and no source 5. */
static const struct refusal refusals[] = {
    {"server 8 a second time", server_again, 0, -RK_EEXIST, "it is registered"},
    {"server 2^32", server_too_high, 0, -RK_EINVAL, "a server's number has 32 bits"},
    {"source 4096 a second time, with server 9", source_again, 0, -RK_EEXIST, "it is registered; that comes before its server"},
    {"source 2^20", source_too_high, 0, -RK_EINVAL, "a source's number has 20 bits"},
    {"source 5 with server 2^32", source_of_no_number, 0, -RK_EINVAL, "no server can have that number"},
    {"source 5 with server 9", source_of_no_server, 0, -RK_ENOENT, "server 9 is not registered"},
    {"source 4096 sent to server 9", set_source, 0x0000040400000009, -RK_EINVAL, "the destination has no server"},
    {"source 4096 sent to server 9 and masked", set_source, 0x000002FF00000009, -RK_EINVAL, "a masked source needs a server too"},
    {"source 4096 with bit 43", set_source, 0x00000C0400000008, -RK_EINVAL, "a source's word ends at bit 42"},
    {"the word of source 5", set_no_source, 0x0000040400000008, -RK_ENOENT, "source 5 is not registered"},
    {"4 bytes for the word of source 5", set_narrow, 0, -RK_EFAULT, "a word has 8 bytes; that comes first"},
    {"server 8 with source 0 at priority 4", set_server, 0x05000000FF040000, -RK_EINVAL, "a priority pends, but no source"},
    {"server 8 with source 4096 at priority 255", set_server, 0x05001000FFFF0000, -RK_EINVAL, "a source pends, but at no priority"},
    {"the word of server 9", set_no_server, 0x00000000FFFF0000, -RK_ENOENT, "server 9 is not registered"},
    {"reading source 2^20", get_no_source, 0, -RK_ENOENT, "no such source"},
    {"reading server 9", get_no_server, 0, -RK_ENOENT, "no such server"},
    {"reading server 8 into 7 bytes", get_narrow, 0, -RK_EFAULT, "a word has 8 bytes"},
    {"asking of source 5", ask_no_source, 0, -RK_ENOENT, "no such source"},
    {"an XICS that lacks a byte", ask_short, 0, -RK_EFAULT, "an XICS has one length"},
    {"set-up of an XICS that lacks a byte", setup_short, 0, -RK_EFAULT, "an XICS has one length"},
};

/* On a full one, with servers and sources 0 to 63. */
static const struct refusal full_refusals[] = {
    {"a 65th server", server_65, 0, -RK_ENOMEM, "there is room for 64"},
    {"a 65th source", source_65, 0, -RK_ENOMEM, "there is room for 64"},
    {"a 65th source, with server 64", source_65_of_no_server, 0, -RK_ENOENT, "no such server; that comes before the room"},
    {"server 8 of the full XICS again", server_again, 0, -RK_EEXIST, "it is registered; that comes before the room"},
};

static const struct refusal garbage_refusals[] = {
    {"a word in bytes that were never set up", set_source, 0x0000040400000008, -RK_EINVAL, "they break a rule"},
    {"4 bytes, and never set up", set_narrow, 0, -RK_EINVAL, "the XICS is tested before the value"},
};

static void refuse(const struct xics *xics, const struct refusal *refusal)
{
    struct xics before = open_xics();
    uint8_t value[8];
    uint8_t lent[8];
    memcpy(before.bytes, xics->bytes, xics->len);
    put_number(value, sizeof value, refusal->word);
    memcpy(lent, value, sizeof lent);
    int64_t answer = refusal->make(xics, value);
    answers(answer, refusal->answer, refusal->what);
    fact(memcmp(before.bytes, xics->bytes, xics->len) == 0, "a refusal leaves every byte of the XICS");
    fact(memcmp(lent, value, sizeof lent) == 0, "a refusal leaves the value");
    printf("%-42s %3" PRId64 ": %s\n", refusal->what, answer, refusal->why);
    close_xics(&before);
}

static void refuse_each(const struct xics *xics, const struct refusal *list, size_t count)
{
    for (size_t i = 0; i < count; i++)
        refuse(xics, &list[i]);
}

#define REFUSE_EACH(xics, list) refuse_each(xics, list, sizeof(list) / sizeof(list)[0])

static void fill(struct xics *xics)
{
    set_up(xics);
    for (uint64_t number = 0; number < FULL; number++) {
        answers(rk_xics_add_server(xics->bytes, xics->len, number), 0, "one of 64 servers");
        answers(rk_xics_add_source(xics->bytes, xics->len, number, number), 0, "one of 64 sources");
    }
}

void refuse_all(const struct xics *xics)
{
    struct xics other = open_xics();
    REFUSE_EACH(xics, refusals);
    REFUSE_EACH(&other, garbage_refusals);
    fill(&other);
    REFUSE_EACH(&other, full_refusals);
    close_xics(&other);
}
