/* What rk_its_explain answers, in words. */
#ifndef WORDS_H
#define WORDS_H

#include <stdbool.h>
#include <stddef.h>
#include <stdint.h>

/* One more than the highest number of a fault. */
enum { FAULT_NUMBERS = 12 };

/* A negative answer: why no table was read. A wrong length of the state and one of the memory have one number, so that the length that was
 * lent decides between them. */
const char *refusal_words(int64_t answer, size_t state_len);

/* The name of a fault, 1 to 11. */
const char *fault_name(int64_t fault);

/* What rk_its_restore answers where it meets this fault first. */
int64_t answer_of(int64_t fault);

/* Whether a code has one of the faults, in a table that can have it, and no bit that means nothing. */
bool is_code(int64_t code);

/* Prints a code's table, entry and fault, without a newline. */
void print_code(int64_t code);

#endif
