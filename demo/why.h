/* Why a restore is refused, by rk_its_explain: a fault in the tables, or something that has to do with no table. */
#ifndef WHY_H
#define WHY_H

#include "box.h"

#include <stdint.h>

/* Explains the one damaged link of the demo; `refusal` is what the restore answered. */
void explain_link(const struct box *box, int64_t refusal);

/* What a caller takes for damaged tables and is none: a memory of a wrong length, a guest that runs or is not ready, no state. */
void explain_refusals(const struct box *box);

#endif
