#define _POSIX_C_SOURCE 200809L
#include "timing.h"

#include <stdlib.h>
#include <string.h>
#include <time.h>

/* A measurement lasts at least this long. It is cut into batches of about a millisecond and counts as its shortest one: whatever else the
 * machine does can only make a batch longer. */
#define LEAST_NS 50e6
#define BATCH_NS 1e6
#define TRIES 5

double times[SCENARIOS][DOERS][ROUNDS];

static uint64_t batches[SCENARIOS][DOERS];

static double now_ns(void)
{
    struct timespec t;
    need(clock_gettime(CLOCK_MONOTONIC, &t) == 0, "no clock");
    return (double)t.tv_sec * 1e9 + (double)t.tv_nsec;
}

static double time_batch(struct scenario *s, enum doer who, uint64_t calls)
{
    double from = now_ns();
    s->run[who](s, calls);
    return now_ns() - from;
}

static double shortest_of(struct scenario *s, enum doer who, uint64_t calls)
{
    double shortest = time_batch(s, who, calls);
    for (int i = 1; i < TRIES; i++) {
        double spent = time_batch(s, who, calls);
        shortest = spent < shortest ? spent : shortest;
    }
    return shortest;
}

/* how many calls take about a millisecond */
static uint64_t calls_for(struct scenario *s, enum doer who)
{
    uint64_t calls = 1;
    while (shortest_of(s, who, calls) < BATCH_NS)
        calls *= 2;
    return calls;
}

static double time_one(struct scenario *s, enum doer who, uint64_t calls)
{
    double from = now_ns();
    double shortest = time_batch(s, who, calls);
    while (now_ns() - from < LEAST_NS) {
        double spent = time_batch(s, who, calls);
        shortest = spent < shortest ? spent : shortest;
    }
    return shortest / (double)calls;
}

/* The three that are compared come one right after the other, so that a busy machine hits all alike. */
static void measure_scenario(int which, int round)
{
    struct scenario *s = &scenarios[which];
    for (int who = 0; who < DOERS; who++) {
        if (batches[which][who] == 0)
            batches[which][who] = calls_for(s, who);
        times[which][who][round] = time_one(s, who, batches[which][who]);
    }
}

static void measure_round(int round)
{
    for (int i = 0; i < SCENARIOS; i++)
        measure_scenario(i, round);
}

void measure(void)
{
    for (int round = 0; round < ROUNDS; round++)
        measure_round(round);
}

static int compare(const void *a, const void *b)
{
    double x = *(const double *)a, y = *(const double *)b;
    return (x > y) - (x < y);
}

double median(const double rounds[ROUNDS])
{
    double sorted[ROUNDS];
    memcpy(sorted, rounds, sizeof sorted);
    qsort(sorted, ROUNDS, sizeof sorted[0], compare);
    return sorted[ROUNDS / 2];
}

double median_ratio(const double above[ROUNDS], const double below[ROUNDS])
{
    double ratios[ROUNDS];
    for (int i = 0; i < ROUNDS; i++)
        ratios[i] = above[i] / below[i];
    return median(ratios);
}
