/* Facts that the programs of the demo check: each is counted, and one that does not hold is printed. */
#ifndef FACTS_H
#define FACTS_H

#include <stdbool.h>
#include <stdint.h>

/* Counts the fact and hands it on. */
bool fact(bool holds, const char *what);

/* The fact that a call answered this number. */
bool answers(int64_t answer, int64_t want, const char *what);

/* Prints the last line of a program, 'NAME: N passed, M failed', and gives the exit status. */
int close_facts(const char *name);

#endif
