/* Ritikancha: a guest's virtual interrupt controller, kept in bytes that the caller lends: its GICv3 and ITS, or the words of its XICS.
 *
 * A § is a paragraph of docs/DEFINITION.md, which says the same at more length.
 *
 * TWO KINDS OF LENT STATE. A state (§1.1, §1.2) is one guest with one GICv3 and one ITS, on an Arm box. An XICS (§14.1, §14.2) is the
 * registered sources and servers of one guest, with a word for each, on a POWER box. Neither knows of the other: no call takes both, their
 * lengths are two numbers, and the calls on an XICS are the nine whose names begin with rk_xics_, at the end. What is said below of a state
 * under THE STATE, LENT BYTES and NULL holds of an XICS too, with rk_xics_len for rk_state_len.
 *
 * ANSWERS (§2.1 to §2.4). Every call answers an int64_t: 0 or more where it is done, a negated RK_E.. number where it is refused. A call
 * that is done answers 0 unless its comment says that it answers a number. A refused call changes no byte: not of the state or the XICS,
 * not of the lent value, not of the lent memory.
 *
 * ORDER OF REFUSALS (§2.5). Each call lists its refusals in the order in which they are tested; the first that applies is the answer.
 * Every call that takes a state, but for rk_setup, begins with these two (§1.3), before even an unknown name is seen; they are not
 * repeated below:
 *   -RK_EFAULT  state_len is not rk_state_len()
 *   -RK_EINVAL  the state's bytes break a rule (§1.8); the bytes that rk_setup and the calls after it leave never do. Bytes that were never
 *               set up, all zero for example, do break one
 * A call that takes an XICS begins with two tests of the same kind (§14.3).
 *
 * THE STATE (§1.2, §1.7). A caller may copy a state, keep several, and lend a copy: it is plain bytes, with no pointer in them. Its layout and
 * its length may change with the version of the library, so ask rk_state_len, and carry a guest from one version to another by the
 * calls, not by its bytes. Bytes behind the rows in use are not state: no call reads them, and none writes them but to add a row there, so
 * that two equal guests may differ under memcmp.
 *
 * LENT BYTES. Each lent area is a pointer and its length in bytes. Any address will do: no area, be it state, value or memory, need be
 * aligned. No two areas that are lent to one call may overlap. A pointer to const is only read through. The library allocates nothing, blocks
 * nowhere, keeps no pointer and has no memory of its own: calls on different states do not meet, and two calls on one state must
 * not run at once unless both only read it. Nobody else may write a lent area while a call runs, nor read one that the call writes:
 * devices that write guest memory must be still during rk_its_save, rk_its_restore and rk_its_explain.
 *
 * NULL. No pointer may be null, not even with length 0, where nothing is read or written through it: point to any byte. A null pointer, or
 * a length that the area does not have, is the caller's fault, and no call can find it.
 *
 * VALUES AND MEMORY (§2.8, §2.10, §6.1). Numbers in lent values are little endian. Byte i of lent guest memory is the guest's address
 * start + i, with the start that rk_setup was told. Numbers are compared whole, all 64 bits of them, and sums of them never wrap. A frame
 * may lie over guest memory: frames are compared with frames, tables with tables (§3.4).
 *
 * STACK. Measured on x86-64, not proved: a mapping command, rk_its_place and RESET take up to 96 KiB of stack, other calls that write the
 * state 40, rk_its_lookup 29, calls that read the state 16, rk_its_restore 12 and rk_its_explain no more than that, rk_setup 10,
 * rk_its_save and the calls on an XICS less than 1.
 *
 * LIMITS (§1.6). 64 VCPUs and 32 redistributor regions; 16 collections, 32 devices, 1,024 events over all devices. Not here: §1.1. Of an
 * XICS: 64 servers and 64 sources (§14.1).
 */
#ifndef RITIKANCHA_H
#define RITIKANCHA_H

#include <stddef.h>
#include <stdint.h>

#ifdef __cplusplus
extern "C" {
#endif

/* §2.2 */
#define RK_ENOENT 2  /* something named is not there */
#define RK_ENXIO 6   /* a group, attribute or offset that is not known; a guest that is not ready */
#define RK_E2BIG 7   /* a frame's end is above 2^p */
#define RK_ENOMEM 12 /* one over a limit */
#define RK_EFAULT 14 /* a lent state, XICS, value or memory of another length; an area that is not inside memory as a whole */
#define RK_EBUSY 16  /* the guest runs, or it is fixed already */
#define RK_EEXIST 17 /* set, mapped or registered before */
#define RK_ENODEV 19 /* VGIC INIT without a VCPU; in the ITS's group 0 an attribute that is not 4 */
#define RK_EINVAL 22 /* all other faults */

/* ---- The guest ---- */

/* Answers the length of a guest's state in bytes: the same number at every call (§1.2). */
int64_t rk_state_len(void);

/* Makes a fresh guest (§1.4, §1.5): 64 interrupts, no VCPU, frame or mapping, nothing running. What the state's bytes held before does not
 * matter. width is the address width p; start and length give the one run of guest memory.
 *   -RK_EFAULT  state_len is not rk_state_len()
 *   -RK_EINVAL  width not 36 to 52; start or length not a multiple of 4,096; length below 4,096 or above 2^30; start + length above 2^width
 */
int64_t rk_setup(uint8_t *state, size_t state_len, uint64_t width, uint64_t start, uint64_t length);

/* Adds a VCPU (§3.1). VCPUs are numbered from 0 in the order of adding. None can be removed.
 *   -RK_EBUSY   after VGIC INIT
 *   -RK_EINVAL  a VCPU has this affinity (with 64 VCPUs too)
 *   -RK_ENOMEM  a 65th VCPU
 */
int64_t rk_vcpu_add(uint8_t *state, size_t state_len, uint32_t affinity);

/* Sets the guest's one "running" mark (§3.2). Where it is set already: 0.
 *   -RK_ENXIO   before VGIC INIT
 */
int64_t rk_vcpus_start(uint8_t *state, size_t state_len);

/* Clears the "running" mark (§3.2). Where it is clear already: 0.
 *   -RK_ENXIO   before VGIC INIT
 */
int64_t rk_vcpus_stop(uint8_t *state, size_t state_len);

/* ---- Attributes ---- */

/* Sets an attribute of the VGIC (§2.6, §2.7); the value is only read. The state changes only as the attribute's line says.
 *
 * For every group, in this order:
 *   -RK_ENXIO   unknown group, attribute or, in groups 1 and 5, offset
 *   -RK_EFAULT  value_len is not the group's width
 *   -RK_ENXIO   groups 1, 5 and 7 before VGIC INIT
 *   -RK_EBUSY   groups 1 and 5 while running
 * and then the group's own, in the order written:
 *
 * Group 0 (§3.3 to §3.6), 8 bytes. Attribute 2: base of the distributor, 64 KiB. Attribute 3: base of the single redistributor run, which
 * has 128 KiB until VGIC INIT; in INIT's own test, and from then on, 128 KiB for each VCPU. A base that is set stays.
 *   -RK_EINVAL  attribute 3 while regions stand
 *   -RK_EEXIST  already set
 *   -RK_EINVAL  base not a multiple of 65,536
 *   -RK_E2BIG   the frame ends above 2^p (an end at 2^p is allowed)
 *   -RK_EINVAL  it overlaps a standing frame
 * Attribute 5 (§3.7, §3.8): adds a redistributor region of count x 128 KiB, after INIT too. In the word stand index [11:0], flags [15:12],
 * base [51:16], count [63:52].
 *   -RK_EINVAL  the single run stands
 *   -RK_EINVAL  a flag is set
 *   -RK_EINVAL  the count is 0
 *   -RK_EINVAL  the index is not the number of regions so far
 *   -RK_ENOMEM  a 33rd region
 *   -RK_E2BIG   the region ends above 2^p
 *   -RK_EINVAL  it overlaps a standing frame
 *
 * Group 1 (§4.10, §4.11), 4 bytes: a register of the distributor, by the offset in attribute bits 31:0; bits 63:32 are dropped.
 *   0x0010            STATUSR: the low 4 bits are stored, the others dropped (§4.14)
 *   0x204 to 0x27C    by 4: the latch word of INTIDs 32n to 32n + 31 at 0x200 + 4n, all 32 bits (§4.13); of 0x27C the low 28 (§4.17)
 *   0x200, 0x280 to 0x2FC  by 4: the write is ignored
 *
 * Group 3, attribute 0 (§3.14), 4 bytes: the interrupt count, 64 until it is set. The shared banks of the new count are fresh. A guest that
 * was kept from when a fresh one had 256, and never set its count, has 256 still; it can be set like a fresh guest's (§1.17).
 *   -RK_EINVAL  not one of 64, 96, 128, .., 1,024
 *   -RK_EBUSY   set before (to the count that stood too), or after VGIC INIT
 *
 * Group 4, attribute 0 (§2.9, §3.11), no value (value_len 0): VGIC INIT. Done before: 0, while running too.
 *   -RK_ENODEV  no VCPU
 *   -RK_ENXIO   no distributor; neither a single run nor a region; region counts that sum to less than the VCPUs; the single run with
 *               128 KiB for each VCPU ends above 2^p or overlaps another frame
 * What is missing can be set after a refusal, and INIT asked again. A single run that is too large cannot be mended: neither a base nor a
 * VCPU is ever taken back, so that a new rk_setup is the way on.
 *
 * Group 5 (§4.10, §4.12), 4 bytes: a register of one redistributor, whose affinity is attribute bits 63:32, by the offset in bits 31:0.
 *   0x0010   STATUSR of that redistributor, as in group 1
 *   0x10200  the latch word of the VCPU's INTIDs 0 to 31, all 32 bits
 *   0x10280  the write is ignored
 *   -RK_EINVAL  no VCPU has the affinity
 *
 * Group 7 (§4.15), 4 bytes: the level word of 32 interrupts; it is stored and no rise is looked for. The attribute is vINTID [9:0],
 * info [31:10], affinity [63:32]; every attribute is a known one. The levels of INTIDs 0 to 15 (SGIs) stay 0.
 *   -RK_EINVAL  info not 0, or vINTID not divisible by 32
 *   -RK_EINVAL  vINTID 0 and no VCPU has the affinity (which is not looked at for any other vINTID)
 *
 * In groups 1 and 7, INTIDs at or above the interrupt count ignore writes: 0 (§4.9). So do INTIDs 1,020 to 1,023 (§4.17).
 */
int64_t rk_vgic_set(uint8_t *state, size_t state_len, uint64_t group, uint64_t attribute, const uint8_t *value, size_t value_len);

/* Sets an attribute of the ITS (§2.6, §2.7, §2.9); the value is only read.
 *
 *   -RK_ENODEV  group 0, an attribute that is not 4
 *   -RK_ENXIO   a group that is neither 0 nor 4; group 4, an attribute that is not 0, 1, 2 or 4
 *   -RK_EFAULT  group 0, value_len is not 8; group 4, value_len is not 0; group 4, attributes 1 (save) and 2 (restore) always: this
 *               call lends no memory, rk_its_save and rk_its_restore do
 * and then, in the order written:
 *
 * Group 0, attribute 4 (§3.5), 8 bytes: base of the ITS frame, 128 KiB.
 *   -RK_EEXIST  already set
 *   -RK_EINVAL  base not a multiple of 65,536
 *   -RK_E2BIG   the frame ends above 2^p
 *   -RK_EINVAL  it overlaps a standing frame
 *
 * Group 4, attribute 0 (§5.2), no value: ITS INIT. Done before: 0, while running too.
 *   -RK_ENXIO   VGIC INIT is not done, or the ITS has no base
 *
 * Group 4, attribute 4 (§5.14), no value: RESET. Nothing is mapped any more and no table is placed; ITS INIT still stands, and guest memory
 * is not touched.
 *   -RK_ENXIO   before ITS INIT (the tables need not be placed)
 *   -RK_EBUSY   running
 */
int64_t rk_its_set(uint8_t *state, size_t state_len, uint64_t group, uint64_t attribute, const uint8_t *value, size_t value_len);

/* Gets an attribute of the VGIC (§2.6 to §2.9): success answers 0 and overwrites the whole value. The state is only read.
 *
 * For every group, in this order:
 *   -RK_ENXIO   unknown group, attribute or, in groups 1 and 5, offset; group 4, whatever the attribute and the width
 *   -RK_EFAULT  value_len is not the group's width
 *   -RK_ENXIO   groups 1, 5 and 7 before VGIC INIT
 *   -RK_EBUSY   groups 1 and 5 while running
 * and then the group's own, in the order written:
 *
 * Group 0 (§3.9, §3.10), 8 bytes. Attribute 2: base of the distributor.
 *   -RK_ENOENT  not set
 * Attribute 3: base of the single redistributor run.
 *   -RK_EINVAL  regions stand
 *   -RK_ENOENT  not set
 * Attribute 5: the word of the region whose index is in bits [11:0] of the lent value; its other bits are not read. The word has
 * flags 0.
 *   -RK_EINVAL  the single run stands
 *   -RK_ENOENT  no such region
 *
 * Group 1 (§4.11), 4 bytes: 0x0010 STATUSR; 0x204 to 0x27C, by 4, the latch words; 0x200 and 0x280 to 0x2FC, by 4, read 0. Offset as in
 * rk_vgic_set.
 *
 * Group 3, attribute 0 (§3.15), 4 bytes: the interrupt count, at any time.
 *
 * Group 5 (§4.12), 4 bytes: 0x0010 STATUSR, 0x10200 the latch word, 0x10280 reads 0. Affinity and offset as in rk_vgic_set.
 *   -RK_EINVAL  no VCPU has the affinity
 *
 * Group 7 (§4.15), 4 bytes: the level word. Attribute as in rk_vgic_set.
 *   -RK_EINVAL  info not 0, or vINTID not divisible by 32
 *   -RK_EINVAL  vINTID 0 and no VCPU has the affinity
 *
 * In groups 1 and 7, what is at or above the interrupt count reads 0, and so do bits 31:28 of the words of INTIDs 992 on (§4.17): 0x27C of
 * group 1, vINTID 992 of group 7. No attribute hands out trigger words: a caller that moves a guest keeps what the guest wrote.
 */
int64_t rk_vgic_get(const uint8_t *state, size_t state_len, uint64_t group, uint64_t attribute, uint8_t *value, size_t value_len);

/* Gets an attribute of the ITS (§2.6 to §2.9): success answers 0 and overwrites the whole value. The state is only read. Group 0,
 * attribute 4, 8 bytes (§3.9, base of the ITS frame) is the only one.
 *   -RK_ENODEV  group 0, an attribute that is not 4
 *   -RK_ENXIO   any other group; group 4 too, whatever the attribute and the width
 *   -RK_EFAULT  value_len is not 8
 *   -RK_ENOENT  not set
 */
int64_t rk_its_get(const uint8_t *state, size_t state_len, uint64_t group, uint64_t attribute, uint8_t *value, size_t value_len);

/* Answers the address of a VCPU's redistributor frame (§3.12, §3.13). VCPUs fill the regions by index, each as many as its count, 131,072
 * bytes apart; the single run is one region. The state is only read.
 *   -RK_ENXIO   before VGIC INIT
 *   -RK_EINVAL  vcpu not below the number of VCPUs
 */
int64_t rk_redist_base(const uint8_t *state, size_t state_len, uint64_t vcpu);

/* ---- Interrupts ----
 *
 * Each of these calls names a VCPU and an INTID (§4.1, §4.2, §4.8). INTIDs 0 to 31 are the VCPU's own, and no call on them changes what is
 * answered of another VCPU (§4.16); from 32 on they are shared, and which VCPU is named has no effect, though it must be there. INTIDs
 * from the interrupt count to 1,023 are no fault (§4.9): pending 0, and writes are ignored. INTIDs 1,020 to 1,023 are special numbers of
 * GICv3 and no interrupts (§4.17): with a count of 1,024 too they are pending 0, and a set, clear, activate or line of one is 0 and
 * stores nothing. SGIs (INTIDs 0 to 15) stay edge, with level 0 (§4.3). All of these calls work while running.
 */

/* Answers 1 if the interrupt is pending and 0 if not (§4.4): an edge interrupt by its latch, a level interrupt by its latch or its line.
 * The state is only read.
 *   -RK_ENXIO   before VGIC INIT
 *   -RK_EINVAL  vcpu not below the number of VCPUs, or intid above 1,023
 */
int64_t rk_irq_pending(const uint8_t *state, size_t state_len, uint64_t vcpu, uint64_t intid);

/* The guest sets the interrupt pending (§4.5): raises its latch.
 *   -RK_ENXIO   before VGIC INIT
 *   -RK_EINVAL  vcpu not below the number of VCPUs, or intid above 1,023
 */
int64_t rk_irq_set_pending(uint8_t *state, size_t state_len, uint64_t vcpu, uint64_t intid);

/* The guest clears the interrupt's pending state (§4.5): lowers its latch. A level interrupt whose line is up stays pending.
 *   -RK_ENXIO   before VGIC INIT
 *   -RK_EINVAL  vcpu not below the number of VCPUs, or intid above 1,023
 */
int64_t rk_irq_clear_pending(uint8_t *state, size_t state_len, uint64_t vcpu, uint64_t intid);

/* The interrupt is activated (§4.5): lowers its latch. A level interrupt whose line is up stays pending.
 *   -RK_ENXIO   before VGIC INIT
 *   -RK_EINVAL  vcpu not below the number of VCPUs, or intid above 1,023
 */
int64_t rk_irq_activate(uint8_t *state, size_t state_len, uint64_t vcpu, uint64_t intid);

/* A device's line goes to level 0 or 1 (§4.6): the level is stored, and where that is a rise of an edge interrupt its latch goes up with
 * it. SGIs ignore it.
 *   -RK_ENXIO   before VGIC INIT
 *   -RK_EINVAL  vcpu not below the number of VCPUs, intid above 1,023, or level above 1 (for SGIs too)
 */
int64_t rk_irq_line(uint8_t *state, size_t state_len, uint64_t vcpu, uint64_t intid, uint64_t level);

/* The guest writes the trigger word of the bank that intid is in (§4.7): bit set is edge, bit clear level. Latches and levels stay, and
 * so do the bits of SGIs. Of the bank from INTID 992 on the low 28 bits are stored, also where intid is 1,020 to 1,023 (§4.17).
 *   -RK_ENXIO   before VGIC INIT
 *   -RK_EINVAL  vcpu not below the number of VCPUs, or intid above 1,023
 */
int64_t rk_irq_trigger(uint8_t *state, size_t state_len, uint64_t vcpu, uint64_t intid, uint32_t word);

/* ---- The ITS mapping ----
 *
 * Collections, devices and events (§5.1). None of these calls touches guest memory, and all of them work while running (§5.3).
 */

/* Places the device table and the collection table in guest memory (§5.4), each by its start and its pages of 4 KiB. Placing again while
 * the mapping is empty replaces both places. A table has 512 entries to the page.
 *   -RK_ENXIO   before ITS INIT
 *   -RK_EBUSY   the mapping is not empty; a collection alone makes it so
 *   -RK_EINVAL  of either table: start not divisible by 4,096, or pages not 1 to 128
 *   -RK_EFAULT  either table not wholly inside memory
 *   -RK_EINVAL  the two overlap
 */
int64_t rk_its_place(uint8_t *state, size_t state_len, uint64_t device_start, uint64_t device_pages, uint64_t collection_start,
                     uint64_t collection_pages);

/* Maps a device (§5.5, §5.6) with its ITT (interrupt translation table) of 2^bits entries, 8 bytes each.
 *   -RK_ENXIO   before ITS INIT, or the tables are not placed
 *   -RK_EINVAL  device not below the number of the device table's entries
 *   -RK_EINVAL  bits not 1 to 16
 *   -RK_EINVAL  itt not divisible by 256
 *   -RK_EEXIST  the device is mapped
 *   -RK_ENOMEM  a 33rd device
 *   -RK_EFAULT  the ITT's 8 x 2^bits bytes not wholly inside memory
 *   -RK_EINVAL  they overlap one of the two tables or another device's ITT
 */
int64_t rk_its_map_device(uint8_t *state, size_t state_len, uint64_t device, uint64_t itt, uint64_t bits);

/* Removes a device and its events (§5.7).
 *   -RK_ENXIO   before ITS INIT, or the tables are not placed
 *   -RK_ENOENT  not mapped; a number that no device can have too
 */
int64_t rk_its_unmap_device(uint8_t *state, size_t state_len, uint64_t device);

/* Maps a collection to a VCPU (§5.8; pe is the VCPU's number). One that is mapped takes the new pe.
 *   -RK_ENXIO   before ITS INIT, or the tables are not placed
 *   -RK_EINVAL  icid above 65,535, or pe not below the number of VCPUs
 *   -RK_ENOMEM  a 17th collection
 */
int64_t rk_its_map_collection(uint8_t *state, size_t state_len, uint64_t icid, uint64_t pe);

/* Removes a collection (§5.9).
 *   -RK_ENXIO   before ITS INIT, or the tables are not placed
 *   -RK_ENOENT  not there; an icid above 65,535 too
 *   -RK_EINVAL  an event names it
 */
int64_t rk_its_unmap_collection(uint8_t *state, size_t state_len, uint64_t icid);

/* Maps an event of a device to an LPI and a collection (§5.10). Several events may have one LPI.
 *   -RK_ENXIO   before ITS INIT, or the tables are not placed
 *   -RK_ENOENT  no such device
 *   -RK_EINVAL  event not below 2^bits of the device
 *   -RK_EINVAL  lpi not 8,192 to 65,535
 *   -RK_ENOENT  no such collection; an icid above 65,535 too
 *   -RK_EEXIST  the event is mapped
 *   -RK_ENOMEM  a 1,025th event
 */
int64_t rk_its_map_event(uint8_t *state, size_t state_len, uint64_t device, uint64_t event, uint64_t lpi, uint64_t icid);

/* Removes an event (§5.11).
 *   -RK_ENXIO   before ITS INIT, or the tables are not placed
 *   -RK_ENOENT  no such device or event; an event not below 2^bits too
 */
int64_t rk_its_discard(uint8_t *state, size_t state_len, uint64_t device, uint64_t event);

/* Moves an event to another collection (§5.12). To the one that it has: 0.
 *   -RK_ENXIO   before ITS INIT, or the tables are not placed
 *   -RK_ENOENT  no such device, event or collection
 */
int64_t rk_its_move(uint8_t *state, size_t state_len, uint64_t device, uint64_t event, uint64_t icid);

/* Answers lpi + 65,536 x pe of an event (§5.13): its LPI and the VCPU of its collection. The state is only read.
 *   -RK_ENXIO   before ITS INIT, or the tables are not placed
 *   -RK_ENOENT  no such device or event
 */
int64_t rk_its_lookup(const uint8_t *state, size_t state_len, uint64_t device, uint64_t event);

/* ---- Save and restore ----
 *
 * Table entries are 8 bytes, little endian, in the layout of KVM's ITS table ABI, revision 0 (§6.1 to §6.5):
 *   device      V [63], next [62:49], bits 51 to 8 of the ITT's address [48:5], bits - 1 [4:0]; blank if V is clear
 *   collection  V [63], ICID [15:0], pe [51:16], zero [62:52]; blank if V is clear
 *   event       ICID [15:0], LPI [47:16], next [63:48]; blank if the LPI is 0
 * An entry that is not blank is valid. A device's entry stands at its ID, an event's at its number in the device's ITT. next is how far the
 * following ID is away, 0 where none follows (§7.2); in the device table it is cut to 16,383. Collections follow each other from entry 0.
 *
 * A RESTORE FINDS NONSENSE, NOT DAMAGE (§9.8). The format has no checksum. Bytes that were changed on the way are refused where they no longer
 * describe a mapping; where they still describe one, another one, that is restored and the answer is 0. A first device whose V bit was
 * cleared, a next that became 0, a memory of zeros: devices are gone and no call says so. Carry a checksum of the saved bytes beside them and
 * compare it before the restore, and compare lookups after it.
 */

/* Writes the mapping into the lent guest memory (§7.1 to §7.6): every byte of the two tables and of the ITTs of mapped devices, and nothing
 * else of it. Collections stand in rising ICID; every entry that holds nothing becomes 8 zero bytes. The state is only read. Past the three
 * tests below it is never refused.
 *   -RK_EFAULT  memory_len is not the length that rk_setup was told
 *   -RK_ENXIO   before ITS INIT, or the tables are not placed
 *   -RK_EBUSY   running
 */
int64_t rk_its_save(const uint8_t *state, size_t state_len, uint8_t *memory, size_t memory_len);

/* Replaces the mapping by the one that the tables in the lent guest memory describe (§8.1 to §8.8, §9.1 to §9.3), and leaves everything
 * else. The memory is only read; a refusal leaves the old mapping. What stands in an entry that a next jumps over, behind the last entry
 * of a table, in bits [62:52] of a collection or beside the mark of a blank entry makes no difference (§8.8).
 *   -RK_EFAULT  memory_len is not the length that rk_setup was told
 *   -RK_ENXIO   before ITS INIT, or the tables are not placed
 *   -RK_EBUSY   running
 * and then, for tables that describe no mapping, the first fault that is met; rk_its_explain names it and its place. Collection entries
 * rising, up to the first that is not valid (§9.4):
 *   -RK_EINVAL  pe not below the number of VCPUs, or an ICID a second time
 *   -RK_ENOMEM  a 17th collection
 * Then device entries rising, from the first valid one on by each one's next, and right after each device its events (§9.5, §9.6):
 *   -RK_EINVAL  next leads past the table or, below 16,383, to a blank entry, or at 16,383 nothing valid stands from its landing on
 *   -RK_EINVAL  bits above 16
 *   -RK_ENOMEM  a 33rd device
 *   -RK_EFAULT  its ITT not wholly inside memory
 *   -RK_EINVAL  its ITT overlaps one of the two tables or the ITT of a device read before
 * The device's events rising, by their next too (§9.7):
 *   -RK_EINVAL  LPI below 8,192 or above 65,535
 *   -RK_EINVAL  next leads past the ITT or to a blank entry
 *   -RK_EINVAL  no collection with this ICID was read
 *   -RK_ENOMEM  a 1,025th event
 */
int64_t rk_its_restore(uint8_t *state, size_t state_len, const uint8_t *memory, size_t memory_len);

/* ---- Why a restore is refused ----
 *
 * The answer of rk_its_restore is one number, and several faults share one. rk_its_explain tells them apart: a refusal of the call itself is
 * negative, a fault of the tables is a code above 0.
 */

/* The faults, by their numbers in a code (§13.4). Beside each stands what rk_its_restore answers where this fault is the first. */
#define RK_FAULT_PE 1      /* -RK_EINVAL  a collection's pe is not below the number of VCPUs */
#define RK_FAULT_REPEAT 2  /* -RK_EINVAL  a collection's ICID stands in an entry before it too */
#define RK_FAULT_17TH 3    /* -RK_ENOMEM  a 17th collection */
#define RK_FAULT_NEXT 4    /* -RK_EINVAL  a next leads past its table or to nothing valid; of a device or of an event, as the table says */
#define RK_FAULT_SIZE 5    /* -RK_EINVAL  a device's bits are above 16 */
#define RK_FAULT_33RD 6    /* -RK_ENOMEM  a 33rd device */
#define RK_FAULT_OUTSIDE 7 /* -RK_EFAULT  a device's ITT is not wholly inside memory */
#define RK_FAULT_OVERLAP 8 /* -RK_EINVAL  a device's ITT overlaps one of the two tables or the ITT of a device before it */
#define RK_FAULT_LPI 9     /* -RK_EINVAL  an event's LPI is below 8,192 or above 65,535 */
#define RK_FAULT_ICID 10   /* -RK_EINVAL  no collection has an event's ICID */
#define RK_FAULT_1025TH 11 /* -RK_ENOMEM  a 1,025th event */

/* The tables (§13.5). */
#define RK_TABLE_COLLECTIONS 1 /* the collection table: entries count from 0 */
#define RK_TABLE_DEVICES 2     /* the device table: an entry's index is its device's ID */
#define RK_TABLE_ITT 3         /* the ITT of a device: an entry's index is its event's ID */

/* A code taken apart (§13.6). From the lowest bit up: entry [15:0], device [31:16], table [39:32], fault [47:40]. Each is an int64_t, as a
 * code is. The device is the one whose ITT it is, and 0 in the other two tables. Of an answer that is 0 or negative they say nothing. */
#define RK_FAULT_OF(code) (((code) >> 40) & 0xFF)
#define RK_TABLE_OF(code) (((code) >> 32) & 0xFF)
#define RK_DEVICE_OF(code) (((code) >> 16) & 0xFFFF)
#define RK_ENTRY_OF(code) ((code) & 0xFFFF)

/* Answers 0 if the tables in the lent guest memory describe a mapping, so that rk_its_restore would take it, and otherwise the code of the
 * first fault that rk_its_restore would meet (§13.1, §13.3, §13.10). State and memory are only read. What is mapped in the state
 * makes no difference as long as the state is sound.
 *
 * A negative answer is rk_its_restore's own and is given before any byte of memory is read (§13.2): it says nothing about the tables.
 *   -RK_EFAULT  memory_len is not the length that rk_setup was told. A wrong state_len is -RK_EFAULT too, as for every call: compare it
 *               with rk_state_len() to know which of the two lengths it was. An ITT outside memory is never this, but RK_FAULT_OUTSIDE
 *   -RK_ENXIO   before ITS INIT, or the tables are not placed: the guest is not ready, and there is no table to judge yet
 *   -RK_EBUSY   running: stop the guest and ask again
 * -RK_EINVAL is a state that was never set up or was damaged, as for every call, and here nothing else: what rk_its_restore refuses with
 * it because of the tables is a code.
 *
 * The place is the entry that has the fault (§13.5): the later of two collections with one ICID, the later of two devices whose ITTs
 * overlap, the entry that holds a next and not the one where it lands. Which entries are read and when a fault is there: §13.7, §13.8. The
 * first is that of the entry that is read first, and at one entry the order is that of rk_its_restore's list (§13.9).
 */
int64_t rk_its_explain(const uint8_t *state, size_t state_len, const uint8_t *memory, size_t memory_len);

/* ---- XICS words, for POWER boxes ----
 *
 * An XICS holds the interrupt sources and the servers of one guest that are registered (§14.1): at most 64 of each, each with a number and a
 * word of 64 bits. A source's number is below 2^20, a server's below 2^32; 0 is a number too. Each kind has its own 64 places and its own
 * numbers: a source and a server may have the same number. Nothing unregisters; rk_xics_setup begins anew. No call lists what is
 * registered, and none delivers an interrupt: a caller keeps the numbers that it registered, and to move a guest it reads every word,
 * registers the same numbers on the other box, servers first, and sets the words there (demo/xics.c).
 *
 * Every call that takes an XICS, but for rk_xics_setup, begins with these two (§14.3); they are not repeated below:
 *   -RK_EFAULT  xics_len is not rk_xics_len()
 *   -RK_EINVAL  the XICS's bytes break a rule (§14.12); the bytes that rk_xics_setup and the calls after it leave never do. Bytes that are
 *               all zero break none: they are an XICS with nothing registered
 *
 * A word is lent and handed back as a value of 8 bytes, little endian (§2.8):
 *   source  destination [31:0], which is a server's number; priority [39:32]; level 40; masked 41; pending 42; all above is 0 (§14.5)
 *   server  current priority [63:56]; source number [55:32]; IPI priority [31:24]; pending priority [23:16]; not used [15:0] (§14.6)
 * Of priorities 0 is the highest and 255 the lowest.
 */

/* A word taken apart, the word being a uint64_t; so is each part. First of a source (§14.5), then of a server (§14.6). */
#define RK_XICS_DESTINATION_OF(word) ((word) & 0xFFFFFFFF)
#define RK_XICS_PRIORITY_OF(word) (((word) >> 32) & 0xFF)
#define RK_XICS_LEVEL_OF(word) (((word) >> 40) & 1)
#define RK_XICS_MASKED_OF(word) (((word) >> 41) & 1)
#define RK_XICS_PENDING_OF(word) (((word) >> 42) & 1)
#define RK_XICS_PENDING_PRIORITY_OF(word) (((word) >> 16) & 0xFF)
#define RK_XICS_IPI_PRIORITY_OF(word) (((word) >> 24) & 0xFF)
#define RK_XICS_SOURCE_OF(word) (((word) >> 32) & 0xFFFFFF)
#define RK_XICS_CURRENT_OF(word) (((word) >> 56) & 0xFF)

/* Answers the length of an XICS in bytes: the same number at every call (§14.2). */
int64_t rk_xics_len(void);

/* Makes an XICS with no source and no server (§14.4). What its bytes held before does not matter.
 *   -RK_EFAULT  xics_len is not rk_xics_len()
 */
int64_t rk_xics_setup(uint8_t *xics, size_t xics_len);

/* Registers a server (§14.7). Its word is 0x00000000FFFF0000: no interrupt and no IPI pending, both priorities being 255, and current
 * priority 0, so that nothing is deliverable to it until its word is set.
 *   -RK_EINVAL  server is 2^32 or more
 *   -RK_EEXIST  the server is registered (with 64 servers too)
 *   -RK_ENOMEM  a 65th server
 */
int64_t rk_xics_add_server(uint8_t *xics, size_t xics_len, uint64_t server);

/* Registers a source with a server as its destination (§14.8). Its word is 0x000002FF00000000 + server: masked, priority 255.
 *   -RK_EINVAL  source is 2^20 or more, or server is 2^32 or more
 *   -RK_EEXIST  the source is registered, whatever the server is
 *   -RK_ENOENT  the server is not registered (with 64 sources too)
 *   -RK_ENOMEM  a 65th source
 */
int64_t rk_xics_add_source(uint8_t *xics, size_t xics_len, uint64_t source, uint64_t server);

/* Sets the word of the source with this number (§14.9); the value is only read. The word is the value as it is, level and pending too; a
 * source's destination may become any server that is registered.
 *   -RK_EFAULT  value_len is not 8
 *   -RK_ENOENT  no such source; a number that no source can have too
 *   -RK_EINVAL  a bit above 42 is set, or the destination is no registered server, masked or not and at every priority
 */
int64_t rk_xics_set_source(uint8_t *xics, size_t xics_len, uint64_t number, const uint8_t *value, size_t value_len);

/* Sets the word of the server with this number (§14.10); the value is only read. The word is the value with bits [15:0] made 0: whatever
 * stands there is no fault and does not come back. A source number other than 0 need be neither registered nor below 2^20.
 *   -RK_EFAULT  value_len is not 8
 *   -RK_ENOENT  no such server; a number that no server can have too
 *   -RK_EINVAL  the source number is 0 and the pending priority is not 255, or the pending priority is 255 and the source number is not 0
 */
int64_t rk_xics_set_server(uint8_t *xics, size_t xics_len, uint64_t number, const uint8_t *value, size_t value_len);

/* Fills the value with the word of the source with this number (§14.11); success answers 0. The XICS is only read.
 *   -RK_EFAULT  value_len is not 8
 *   -RK_ENOENT  no such source; a number that no source can have too
 */
int64_t rk_xics_get_source(const uint8_t *xics, size_t xics_len, uint64_t number, uint8_t *value, size_t value_len);

/* Fills the value with the word of the server with this number (§14.11); success answers 0. The XICS is only read.
 *   -RK_EFAULT  value_len is not 8
 *   -RK_ENOENT  no such server; a number that no server can have too
 */
int64_t rk_xics_get_server(const uint8_t *xics, size_t xics_len, uint64_t number, uint8_t *value, size_t value_len);

/* Answers 1 if the source is deliverable and 0 if not (§14.11, §14.16): it is if its word has pending 1 and masked 0, and its priority is
 * smaller than the current priority that its destination's server has at this call. Equal is not smaller: priority 255 never is, and to a
 * server whose current priority is 0 nothing is deliverable. No other field matters: not the level, not what the server has pending. The
 * XICS is only read.
 *   -RK_ENOENT  no such source; a number that no source can have too
 */
int64_t rk_xics_deliverable(const uint8_t *xics, size_t xics_len, uint64_t source);

#ifdef __cplusplus
}
#endif

#endif
