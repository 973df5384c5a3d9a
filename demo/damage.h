/* What a restore does not find. The published tables have no checksum: a restore refuses bytes that describe no mapping, but bytes that
 * were damaged and describe another mapping it takes. So a hypervisor carries a checksum of the saved bytes beside them and compares it
 * before it restores; and after the move it compares the lookups of both boxes. */
#ifndef DAMAGE_H
#define DAMAGE_H

#include "box.h"

#include <stdint.h>

/* CRC-32 of the bytes that a save writes. Where the ITTs lie is the plan's; a hypervisor passes on the commands that say it. */
uint32_t saved_checksum(const struct box *box);

/* The checksum itself, on bytes whose CRC-32 is published. */
void check_checksum(void);

/* Both damage the memory of the new box, which holds the old one's mapping, and leave it mended. The second also holds rk_its_explain
 * against rk_its_restore, flip by flip. */
void lose_first_device(const struct box *old, struct box *new);
void flip_every_bit(const struct box *old, struct box *new);

#endif
