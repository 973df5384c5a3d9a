/* Five calls of include/ritikancha.h in plain C: the same state bytes, the same rules, the same order of refusals. This is what the
 * library's time is compared with. */
#ifndef PLAIN_H
#define PLAIN_H

#include <stddef.h>
#include <stdint.h>

int64_t plain_irq_line(uint8_t *state, size_t state_len, uint64_t vcpu, uint64_t intid, uint64_t level);
int64_t plain_lookup(const uint8_t *state, size_t state_len, uint64_t device, uint64_t event);
int64_t plain_save(const uint8_t *state, size_t state_len, uint8_t *memory, size_t memory_len);
int64_t plain_restore(uint8_t *state, size_t state_len, const uint8_t *memory, size_t memory_len);
int64_t plain_explain(const uint8_t *state, size_t state_len, const uint8_t *memory, size_t memory_len);

#endif
