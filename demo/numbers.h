/* Numbers in lent bytes, little endian. */
#ifndef NUMBERS_H
#define NUMBERS_H

#include <stddef.h>
#include <stdint.h>

void put_number(uint8_t *bytes, size_t width, uint64_t number);
uint64_t number_of(const uint8_t *bytes, size_t width);

#endif
