#ifndef TIMING_H
#define TIMING_H

#include "scenarios.h"

#define ROUNDS 9

/* nanoseconds for one call, in each round */
extern double times[SCENARIOS][DOERS][ROUNDS];

void measure(void);

/* the middle one of a set of rounds, and of their quotients round by round */
double median(const double rounds[ROUNDS]);
double median_ratio(const double above[ROUNDS], const double below[ROUNDS]);

#endif
