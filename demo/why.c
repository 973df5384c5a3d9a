#include "why.h"

#include "facts.h"
#include "ritikancha.h"
#include "words.h"

#include <inttypes.h>
#include <stdio.h>
#include <stdlib.h>
#include <string.h>

/* Worked out by hand. Device 300 is read last, after devices 4 and 41, which are whole. The damage is in the first entry of its ITT, that
 * of event 0: the LPI is the one that was saved, and next, made 2, leads to entry 2, which is blank, since the device's events are 0, 3, 6
 * and so on. So: fault 04 (next), table 03 (an ITT), device 012C (300), entry 0000. */
#define DAMAGED_LINK INT64_C(0x0403012C0000)

/* A box of its own with the same bytes. */
static struct box copy_box(const struct box *box)
{
    struct box copy = open_box();
    memcpy(copy.state, box->state, box->state_len);
    memcpy(copy.memory, box->memory, MEMORY_LEN);
    return copy;
}

static bool same_bytes(const struct box *a, const struct box *b)
{
    return memcmp(a->state, b->state, a->state_len) == 0 && memcmp(a->memory, b->memory, MEMORY_LEN) == 0;
}

void explain_link(const struct box *box, int64_t refusal)
{
    struct box before = copy_box(box);
    int64_t code = explain(box);
    answers(code, DAMAGED_LINK, "the damaged link is named");
    fact(same_bytes(&before, box), "explain leaves every byte of state and memory");
    answers(refusal, answer_of(RK_FAULT_OF(code)), "restore answers what belongs to the fault");
    printf("why: ");
    print_code(code);
    printf("; the code is 0x%012" PRIx64 "\n", (uint64_t)code);
    close_box(&before);
}

static void leave(struct box *box)
{
    (void)box;
}

static void run(struct box *box)
{
    answers(start(box), 0, "the copy runs");
}

static void make_fresh(struct box *box)
{
    answers(rk_setup(box->state, box->state_len, WIDTH, MEMORY_START, MEMORY_LEN), 0, "the copy is set up anew");
}

static void wipe(struct box *box)
{
    memset(box->state, 0, box->state_len);
}

/* What is made of a good box, how many bytes of it are not lent, and the answer. */
static const struct refusal {
    const char *what;
    void (*make)(struct box *box);
    size_t less_state;
    size_t less_memory;
    int64_t answer;
} refusals[] = {
    {"a page of the memory is missing", leave, 0, 4096, -RK_EFAULT},
    {"a guest that was set up and no more", make_fresh, 0, 0, -RK_ENXIO},
    {"a guest that runs", run, 0, 0, -RK_EBUSY},
    {"a state of zeros", wipe, 0, 0, -RK_EINVAL},
    {"a byte of the state is missing", leave, 1, 0, -RK_EFAULT},
};

enum { REFUSALS = sizeof refusals / sizeof refusals[0] };

/* The memory is damaged on purpose: these answers are given before a table is read, so that the damage is not what is named. */
static const char *explain_refusal(const struct box *box, const struct refusal *refusal)
{
    struct box copy = copy_box(box);
    refusal->make(&copy);
    struct box before = copy_box(&copy);
    size_t state_len = copy.state_len - refusal->less_state;
    size_t memory_len = MEMORY_LEN - refusal->less_memory;
    int64_t answer = rk_its_explain(copy.state, state_len, copy.memory, memory_len);
    const char *words = refusal_words(answer, state_len);
    answers(answer, refusal->answer, refusal->what);
    answers(rk_its_restore(copy.state, state_len, copy.memory, memory_len), answer, "restore is refused with the same number");
    fact(same_bytes(&before, &copy), "neither call changes a byte");
    printf("%-36s explain answers %3" PRId64 ": %s\n", refusal->what, answer, words);
    close_box(&before);
    close_box(&copy);
    return words;
}

void explain_refusals(const struct box *box)
{
    const char *words[REFUSALS];
    for (unsigned n = 0; n < REFUSALS; n++) {
        words[n] = explain_refusal(box, &refusals[n]);
        for (unsigned other = 0; other < n; other++)
            fact(strcmp(words[n], words[other]) != 0, "two reasons are told apart in words");
    }
}
