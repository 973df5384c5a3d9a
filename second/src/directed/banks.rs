//! Part 4: banks, interrupt calls and registers. Of INTIDs 1,020 to 1,023 and their bank `special` tells.

use super::case::{Case, VGIC};
use super::special::{whole_bank, whole_interrupt};

pub const CASES: &[(&str, fn(&mut Case))] = &[
    ("§4.3 fresh banks are all 0", fresh),
    ("§4.4 a level interrupt is pending by latch or level", level_pending),
    ("§4.4, §4.5 clear and activate do not lower a level that is held", level_held),
    ("§4.4 an edge interrupt is pending by its latch alone", edge_pending),
    ("§4.6 a rise of an edge interrupt sets its latch", edge_rise),
    ("§4.6 a level that stays 1 is no rise", no_second_rise),
    ("§4.5 set, clear and activate change the named latch alone", named_latch),
    ("§4.5 activate clears the latch as clear does", activation),
    ("§4.2, §2.11 which bit of which bank an INTID is", bank_of),
    ("§4.1, §4.7 a trigger call stores the word of its bank alone", trigger_word),
    ("§4.7 a trigger call changes no latch and no level", trigger_alone),
    ("§4.3 fresh interrupts from 16 on are level", fresh_level),
    ("§4.6, §4.3 SGIs ignore their line", sgi_line),
    ("§4.5 SGIs take set, clear and activate", sgi_latch),
    ("§4.7, §4.3 a trigger call by an SGI stores the other bits of the bank", sgi_trigger),
    ("§4.8 a bad VCPU is -22 for every INTID", bad_vcpu),
    ("§4.8 an INTID above 1,023 is -22", bad_intid),
    ("§4.8 a line's level above 1 is -22, of SGIs and past the count too", bad_level),
    ("§4.8, §4.2 which VCPU is named matters below INTID 32 alone", vcpu_matters),
    ("§4.11, §4.13 latch words are stored whole", latch_words),
    ("§4.11, §4.12 words that read 0 and ignore writes", zero_words),
    ("§4.11, §1.1 every offset of group 1", distributor_offsets),
    ("§4.11, §2.6 group 1 drops attribute bits 63:32", distributor_high_bits),
    ("§4.12, §1.1 every offset of group 5", redistributor_offsets),
    ("§4.12 group 5 names the VCPU by its affinity", redistributor_affinity),
    ("§4.12, §4.13 the latch word of a VCPU has the bits of SGIs too", redistributor_latch),
    ("§4.14 each STATUSR keeps four bits", status),
    ("§4.10 running is -16 in groups 1 and 5, get and set", running),
    ("§4.15 group 7 stores the level word and looks for no rise", level_words),
    ("§4.6, §4.15 a rise is from the stored level, group 7's too", rise_from_stored),
    ("§4.15, §4.3 group 7 leaves the levels of SGIs 0", level_sgis),
    ("§4.15, §12.11 group 7: bad info or vINTID is -22", level_faults),
    ("§4.15 group 7 reads the affinity for vINTID 0 alone", level_affinity),
    ("§4.15, §2.5 group 7 and the interrupt calls work while running", level_running),
    ("§4.9 past the count all reads 0 and ignores writes", absent_banks),
    ("§1.5, §4.2 a fresh guest has one shared bank, INTIDs 32 to 63", default_bank),
    ("§1.5, §4.9 from INTID 64 on a fresh guest has none, by every way", default_count),
    ("§1.5, §4.8 of INTIDs that a fresh guest has not the refusals are those of any", default_refusals),
    ("§4.9, §3.14 a count that is set to 64 ends at INTID 63", smallest_count),
    ("§4.9, §3.14 a count that is set to 256 ends at INTID 255", larger_count),
    ("§4.16 the bank of one VCPU is not another's", isolation),
    ("§4.11, §4.12 the latch word is the latch, not pending", latch_is_not_pending),
];

const ONES: u32 = u32::MAX;

fn fresh(c: &mut Case) {
    c.put(3, 0, 1024, 0);
    c.ready(2);
    all_zero(c);
}

/// Nothing is pending, and all words read 0, in a guest with two VCPUs and 1,024 interrupts.
pub fn all_zero(c: &mut Case) {
    for vcpu in 0..2 {
        for intid in 0..1024 {
            c.pending(vcpu, intid, 0);
        }
        c.word(5, (vcpu << 32) + 0x10200, 0);
        c.word(5, (vcpu << 32) + 0x10, 0);
        c.word(7, vcpu << 32, 0);
    }
    for bank in 1..32 {
        c.word(1, 0x200 + 4 * bank, 0);
        c.word(7, 32 * bank, 0);
    }
    c.word(1, 0x10, 0);
}

fn level_pending(c: &mut Case) {
    c.put(3, 0, 256, 0);
    c.ready(1);
    for intid in [16, 31, 32, 100, 255] {
        c.line(0, intid, 1, 0);
        c.pending(0, intid, 1);
        c.line(0, intid, 0, 0);
        c.pending(0, intid, 0);
        c.raise(0, intid, 0);
        c.pending(0, intid, 1);
        c.line(0, intid, 1, 0);
        c.line(0, intid, 0, 0);
        c.pending(0, intid, 1);
        c.clear(0, intid, 0);
        c.pending(0, intid, 0);
    }
}

fn level_held(c: &mut Case) {
    c.ready(1);
    c.raise(0, 40, 0);
    c.line(0, 40, 1, 0);
    c.clear(0, 40, 0);
    c.pending(0, 40, 1);
    c.activate(0, 40, 0);
    c.pending(0, 40, 1);
    c.line(0, 40, 0, 0);
    c.pending(0, 40, 0);
    // A guest set while the line is held is latched all the same.
    c.line(0, 40, 1, 0);
    c.raise(0, 40, 0);
    c.word(1, 0x204, 1 << 8);
    c.line(0, 40, 0, 0);
    c.pending(0, 40, 1);
}

fn edge_pending(c: &mut Case) {
    c.ready(1);
    c.trigger(0, 40, 1 << 8, 0);
    c.line(0, 40, 1, 0);
    c.pending(0, 40, 1);
    c.clear(0, 40, 0);
    c.pending(0, 40, 0);
    c.word(7, 32, 1 << 8);
    c.raise(0, 40, 0);
    c.pending(0, 40, 1);
    c.activate(0, 40, 0);
    c.pending(0, 40, 0);
}

fn edge_rise(c: &mut Case) {
    c.put(3, 0, 256, 0);
    c.ready(1);
    c.trigger(0, 16, 1 << 20, 0);
    c.trigger(0, 64, 1, 0);
    for intid in [20, 64] {
        c.line(0, intid, 1, 0);
        c.line(0, intid, 0, 0);
        c.pending(0, intid, 1);
        c.activate(0, intid, 0);
        c.pending(0, intid, 0);
        c.line(0, intid, 1, 0);
        c.pending(0, intid, 1);
    }
    c.word(1, 0x208, 1);
    c.word(5, 0x10200, 1 << 20);
}

fn no_second_rise(c: &mut Case) {
    c.ready(1);
    c.trigger(0, 40, ONES, 0);
    c.line(0, 40, 1, 0);
    c.clear(0, 40, 0);
    c.line(0, 40, 1, 0);
    c.pending(0, 40, 0);
    c.line(0, 40, 0, 0);
    c.pending(0, 40, 0);
    c.line(0, 40, 0, 0);
    c.pending(0, 40, 0);
    c.line(0, 40, 1, 0);
    c.pending(0, 40, 1);
}

fn named_latch(c: &mut Case) {
    c.put(3, 0, 256, 0);
    c.ready(2);
    c.raise(0, 70, 0);
    c.raise(0, 72, 0);
    c.word(1, 0x208, 1 << 6 | 1 << 8);
    c.raise(0, 71, 0);
    c.word(1, 0x208, 7 << 6);
    c.clear(0, 71, 0);
    c.word(1, 0x208, 1 << 6 | 1 << 8);
    c.activate(0, 70, 0);
    c.word(1, 0x208, 1 << 8);
    c.word(1, 0x204, 0);
    c.word(1, 0x20c, 0);
    c.word(7, 64, 0);
}

fn activation(c: &mut Case) {
    c.ready(1);
    for intid in [3, 20, 50] {
        c.raise(0, intid, 0);
        c.pending(0, intid, 1);
        c.activate(0, intid, 0);
        c.pending(0, intid, 0);
    }
}

fn bank_of(c: &mut Case) {
    c.put(3, 0, 1024, 0);
    c.ready(2);
    for intid in [32, 33, 63, 64, 95, 96, 511, 512, 991, 992, 1019] {
        let word = 0x200 + 4 * (intid / 32);
        c.raise(1, intid, 0);
        c.word(1, word, 1 << (intid % 32));
        c.clear(0, intid, 0);
        c.word(1, word, 0);
    }
    for intid in [0, 15, 16, 31] {
        c.raise(1, intid, 0);
        c.word(5, (1 << 32) + 0x10200, 1 << intid);
        c.word(5, 0x10200, 0);
        c.clear(1, intid, 0);
    }
}

/// Reads a bank's trigger word by what it does: with all levels up and no latch, level interrupts alone are pending.
fn held_trigger(c: &mut Case, bank: u64, want: u32) {
    c.put(1, 0x200 + 4 * bank, 0, 0);
    c.put(7, 32 * bank, ONES, 0);
    for n in 0..32 {
        c.pending(0, 32 * bank + n, 1 - (want >> n & 1) as i64);
    }
}

fn trigger_word(c: &mut Case) {
    c.put(3, 0, 256, 0);
    c.ready(1);
    c.trigger(0, 35, 0x8000_0001, 0);
    c.trigger(0, 64, 0x0f0f_0f0f, 0);
    c.trigger(0, 127, 0xffff_0000, 0);
    held_trigger(c, 1, 0x8000_0001);
    held_trigger(c, 2, 0x0f0f_0f0f);
    held_trigger(c, 3, 0xffff_0000);
    held_trigger(c, 4, 0);
    c.trigger(0, 95, 0x1234_5678, 0);
    held_trigger(c, 2, 0x1234_5678);
    held_trigger(c, 1, 0x8000_0001);
}

fn trigger_alone(c: &mut Case) {
    c.ready(1);
    c.put(1, 0x204, 0x00ff_00ff, 0);
    c.put(7, 32, 0x0000_ffff, 0);
    for word in [ONES, 0, 0x5555_5555] {
        c.trigger(0, 40, word, 0);
        c.word(1, 0x204, 0x00ff_00ff);
        c.word(7, 32, 0x0000_ffff);
    }
    // INTID 40 is level 1 without a latch: hidden while edge, back when level again.
    c.trigger(0, 40, ONES, 0);
    c.pending(0, 40, 0);
    c.trigger(0, 40, 0, 0);
    c.pending(0, 40, 1);
    c.line(0, 40, 0, 0);
    c.pending(0, 40, 0);
}

fn fresh_level(c: &mut Case) {
    c.put(3, 0, 1024, 0);
    c.ready(1);
    all_level(c);
}

/// Every interrupt from 16 on, with 1,024 of them, is pending as long as its line is up.
pub fn all_level(c: &mut Case) {
    for intid in 16..1020 {
        c.line(0, intid, 1, 0);
        c.pending(0, intid, 1);
        c.line(0, intid, 0, 0);
        c.pending(0, intid, 0);
    }
}

fn sgi_line(c: &mut Case) {
    c.ready(1);
    for intid in 0..16 {
        c.line(0, intid, 1, 0);
        c.pending(0, intid, 0);
        c.line(0, intid, 0, 0);
        c.line(0, intid, 1, 0);
    }
    c.word(7, 0, 0);
    c.word(5, 0x10200, 0);
    c.line(0, 16, 1, 0);
    c.word(7, 0, 1 << 16);
}

fn sgi_latch(c: &mut Case) {
    c.ready(1);
    for intid in 0..16 {
        c.raise(0, intid, 0);
        c.pending(0, intid, 1);
        c.word(5, 0x10200, 1 << intid);
        c.clear(0, intid, 0);
        c.pending(0, intid, 0);
        c.raise(0, intid, 0);
        c.activate(0, intid, 0);
        c.pending(0, intid, 0);
    }
}

fn sgi_trigger(c: &mut Case) {
    c.ready(1);
    c.trigger(0, 3, 0xffff_0000, 0);
    c.line(0, 20, 1, 0);
    c.line(0, 20, 0, 0);
    c.pending(0, 20, 1);
    c.trigger(0, 0, 0, 0);
    c.clear(0, 20, 0);
    c.line(0, 20, 1, 0);
    c.pending(0, 20, 1);
    c.line(0, 20, 0, 0);
    c.pending(0, 20, 0);
    // SGIs have stayed edge with level 0.
    c.raise(0, 3, 0);
    c.pending(0, 3, 1);
    c.clear(0, 3, 0);
    c.line(0, 3, 1, 0);
    c.pending(0, 3, 0);
}

/// Each of the six calls.
pub fn all_irq_calls(c: &mut Case, vcpu: u64, intid: u64, want: i64) {
    c.pending(vcpu, intid, want);
    c.raise(vcpu, intid, want);
    c.clear(vcpu, intid, want);
    c.activate(vcpu, intid, want);
    c.line(vcpu, intid, 1, want);
    c.line(vcpu, intid, 0, want);
    c.trigger(vcpu, intid, ONES, want);
}

fn bad_vcpu(c: &mut Case) {
    c.put(3, 0, 256, 0);
    c.ready(2);
    for vcpu in [2, 3, 64, 256, 1 << 32, (1 << 32) + 1, 1 << 63, u64::MAX] {
        for intid in [0, 15, 16, 31, 32, 63, 64, 255, 256, 1023, 1024] {
            all_irq_calls(c, vcpu, intid, -22);
        }
    }
}

fn bad_intid(c: &mut Case) {
    c.put(3, 0, 256, 0);
    c.ready(2);
    for intid in [1024, 1025, 8192, 1 << 16, (1 << 16) + 40, 1 << 32, (1 << 32) + 40, 1 << 63, u64::MAX] {
        all_irq_calls(c, 0, intid, -22);
        all_irq_calls(c, 1, intid, -22);
    }
    all_irq_calls(c, 1, 1023, 0);
    c.word(1, 0x204, 0);
}

fn bad_level(c: &mut Case) {
    c.put(3, 0, 256, 0);
    c.ready(1);
    for level in [2, 3, 255, 256, 1 << 32, (1 << 32) + 1, 1 << 63, u64::MAX] {
        for intid in [0, 15, 16, 40, 63, 64, 255, 256, 1023] {
            c.line(0, intid, level, -22);
        }
    }
    c.word(7, 32, 0);
    c.word(7, 0, 0);
}

fn vcpu_matters(c: &mut Case) {
    c.ready(3);
    c.raise(0, 40, 0);
    c.pending(1, 40, 1);
    c.clear(2, 40, 0);
    c.pending(0, 40, 0);
    c.line(1, 41, 1, 0);
    c.pending(2, 41, 1);
    c.trigger(2, 41, ONES, 0);
    c.pending(0, 41, 0);
    c.raise(1, 20, 0);
    c.pending(0, 20, 0);
    c.pending(1, 20, 1);
    c.pending(2, 20, 0);
}

fn latch_words(c: &mut Case) {
    c.put(3, 0, 256, 0);
    c.ready(1);
    c.put(1, 0x204, 0xdead_beef, 0);
    c.put(1, 0x208, 0x1234_5678, 0);
    c.word(1, 0x204, 0xdead_beef);
    c.word(1, 0x208, 0x1234_5678);
    c.pending(0, 32, 1);
    c.pending(0, 36, 0);
    c.pending(0, 63, 1);
    c.pending(0, 64, 0);
    c.pending(0, 67, 1);
    c.put(1, 0x204, 0, 0);
    c.word(1, 0x204, 0);
    c.pending(0, 32, 0);
    c.word(1, 0x208, 0x1234_5678);
    c.word(7, 32, 0);
}

fn zero_words(c: &mut Case) {
    c.put(3, 0, 1024, 0);
    c.ready(1);
    for bank in 1..32 {
        c.put(1, 0x200 + 4 * bank, ONES - bank as u32, 0);
    }
    c.put(5, 0x10200, ONES, 0);
    c.word(1, 0x200, 0);
    c.put(1, 0x200, 0x1111_1111, 0);
    c.word(1, 0x200, 0);
    for bank in 0..32 {
        c.put(1, 0x280 + 4 * bank, ONES, 0);
        c.word(1, 0x280 + 4 * bank, 0);
    }
    for bank in 1..31 {
        c.word(1, 0x200 + 4 * bank, ONES - bank as u32);
    }
    c.word(1, 0x27c, 0x0fff_ffe0);
    c.word(5, 0x10200, ONES);
    c.put(5, 0x10280, ONES, 0);
    c.word(5, 0x10280, 0);
    c.word(5, 0x10200, ONES);
}

fn distributor_offsets(c: &mut Case) {
    c.put(3, 0, 256, 0);
    c.ready(1);
    for offset in (0..0x400).chain(0x1_0000..0x1_0020).chain(0x1_01f0..0x1_0300) {
        let known = offset == 0x10 || (offset % 4 == 0 && (0x200..0x300).contains(&offset));
        c.put(1, offset, 0, if known { 0 } else { -6 });
        c.get(VGIC, 1, offset, &[0; 4], if known { 0 } else { -6 }, &[0; 4]);
    }
    for offset in [0x8000_0010, 0xffff_ffff, 0x8000_0204, 0x1204] {
        c.put(1, offset, 0, -6);
    }
}

fn distributor_high_bits(c: &mut Case) {
    c.ready(1);
    for high in [1 << 32, 1 << 40, 1 << 63, 0xffff_ffff << 32] {
        c.put(1, high + 0x204, 0x55, 0);
        c.word(1, 0x204, 0x55);
        c.put(1, 0x204, 0xaa, 0);
        c.word(1, high + 0x204, 0xaa);
        c.word(1, high + 0x10, 0);
        c.put(1, high + 0x14, 0, -6);
    }
}

fn redistributor_offsets(c: &mut Case) {
    c.ready(1);
    for offset in (0..0x400).chain(0x1_0000..0x1_0020).chain(0x1_01f0..0x1_0300) {
        let want = if [0x10, 0x10200, 0x10280].contains(&offset) { 0 } else { -6 };
        c.put(5, offset, 0, want);
        c.get(VGIC, 5, offset, &[0; 4], want, &[0; 4]);
    }
    c.put(5, 0x8001_0200, 0, -6);
}

fn redistributor_affinity(c: &mut Case) {
    c.add(0x0102_0304, 0);
    c.add(7, 0);
    c.base(2, 0x0800_0000, 0);
    c.base(3, 0x080a_0000, 0);
    c.init(0);
    c.put(5, 0x0102_0304_0001_0200, 0x11, 0);
    c.put(5, 0x0000_0007_0001_0200, 0x22, 0);
    c.word(5, 0x0102_0304_0001_0200, 0x11);
    c.word(5, 0x0000_0007_0001_0200, 0x22);
    c.pending(0, 4, 1);
    c.pending(1, 5, 1);
    for affinity in [0, 1, 6, 8, 0x0102_0305, 0x0302_0104, 0xffff_ffff] {
        for offset in [0x10, 0x10200, 0x10280] {
            c.put(5, affinity << 32 | offset, 0, -22);
            c.no_get(VGIC, 5, affinity << 32 | offset, 4, -22);
        }
        c.put(5, affinity << 32 | 0x14, 0, -6);
    }
}

fn redistributor_latch(c: &mut Case) {
    c.ready(1);
    c.put(5, 0x10200, 0x8001_8001, 0);
    c.word(5, 0x10200, 0x8001_8001);
    c.pending(0, 0, 1);
    c.pending(0, 15, 1);
    c.pending(0, 16, 1);
    c.pending(0, 31, 1);
    c.pending(0, 1, 0);
    c.clear(0, 15, 0);
    c.word(5, 0x10200, 0x8001_0001);
    c.put(5, 0x10200, 0, 0);
    c.pending(0, 0, 0);
}

fn status(c: &mut Case) {
    c.ready(2);
    c.put(1, 0x10, ONES, 0);
    c.word(1, 0x10, 0xf);
    c.word(5, 0x10, 0);
    c.put(5, 0x10, 0x1234_5675, 0);
    c.put(5, (1 << 32) + 0x10, 0xffff_fff8, 0);
    c.word(5, 0x10, 5);
    c.word(5, (1 << 32) + 0x10, 8);
    c.word(1, 0x10, 0xf);
    // A clear bit clears, a set bit sets.
    c.put(1, 0x10, 2, 0);
    c.word(1, 0x10, 2);
    c.put(1, 0x10, 0x10, 0);
    c.word(1, 0x10, 0);
    c.word(5, 0x10, 5);
}

fn running(c: &mut Case) {
    c.ready(1);
    c.put(1, 0x204, 5, 0);
    c.start(0);
    for (group, attribute) in
        [(1, 0x10), (1, 0x200), (1, 0x204), (1, 0x27c), (1, 0x280), (5, 0x10), (5, 0x10200), (5, 0x10280)]
    {
        c.put(group, attribute, 7, -16);
        c.no_get(VGIC, group, attribute, 4, -16);
    }
    c.put(1, 0x0c, 7, -6);
    c.stop(0);
    c.word(1, 0x204, 5);
}

fn level_words(c: &mut Case) {
    c.put(3, 0, 256, 0);
    c.ready(1);
    c.trigger(0, 40, 0x0000_ffff, 0);
    c.put(7, 32, 0x00ff_00ff, 0);
    c.word(7, 32, 0x00ff_00ff);
    c.word(1, 0x204, 0);
    c.pending(0, 32, 0);
    c.pending(0, 48, 1);
    c.pending(0, 55, 1);
    c.pending(0, 56, 0);
    c.put(7, 32, 0, 0);
    c.pending(0, 48, 0);
    c.word(1, 0x204, 0);
    c.word(7, 64, 0);
}

fn rise_from_stored(c: &mut Case) {
    c.put(3, 0, 256, 0);
    c.ready(1);
    c.trigger(0, 40, ONES, 0);
    c.put(7, 32, 1 << 8, 0);
    // The level stands at 1 already: no rise.
    c.line(0, 40, 1, 0);
    c.pending(0, 40, 0);
    c.put(7, 32, 0, 0);
    c.line(0, 40, 1, 0);
    c.pending(0, 40, 1);
    c.clear(0, 40, 0);
    c.line(0, 40, 0, 0);
    c.line(0, 40, 1, 0);
    c.pending(0, 40, 1);
    // A level interrupt that becomes edge keeps its level: again no rise.
    c.line(0, 70, 1, 0);
    c.trigger(0, 70, ONES, 0);
    c.line(0, 70, 1, 0);
    c.pending(0, 70, 0);
}

fn level_sgis(c: &mut Case) {
    c.ready(2);
    c.put(7, 1 << 32, ONES, 0);
    c.word(7, 1 << 32, 0xffff_0000);
    c.word(7, 0, 0);
    for intid in 0..16 {
        c.pending(1, intid, 0);
    }
    c.pending(1, 16, 1);
    c.pending(0, 16, 0);
    c.put(7, 1 << 32, 0x0000_ffff, 0);
    c.word(7, 1 << 32, 0);
}

fn level_faults(c: &mut Case) {
    c.put(3, 0, 256, 0);
    c.ready(1);
    for vintid in [1, 8, 16, 31, 33, 48, 1008, 1023] {
        c.put(7, vintid, 0, -22);
        c.no_get(VGIC, 7, vintid, 4, -22);
    }
    for bit in 10..32 {
        c.put(7, 1 << bit | 32, 0, -22);
        c.no_get(VGIC, 7, 1 << bit, 4, -22);
    }
    for bank in 0..32 {
        c.put(7, 32 * bank, 0, 0);
    }
}

fn level_affinity(c: &mut Case) {
    c.add(5, 0);
    c.base(2, 0x0800_0000, 0);
    c.base(3, 0x080a_0000, 0);
    c.init(0);
    c.put(7, 0, ONES, -22);
    c.no_get(VGIC, 7, 0, 4, -22);
    c.no_get(VGIC, 7, 0x8000_0005 << 32, 4, -22);
    c.put(7, 5 << 32, 0x0f00_0000, 0);
    c.word(7, 5 << 32, 0x0f00_0000);
    c.put(7, (9 << 32) + 32, 0xf0, 0);
    c.word(7, (8 << 32) + 32, 0xf0);
    c.word(7, 32, 0xf0);
    c.word(7, (5 << 32) + 32, 0xf0);
    c.put(7, (9 << 32) + 16, 0, -22);
}

fn level_running(c: &mut Case) {
    c.ready(1);
    c.start(0);
    c.put(7, 32, 1 << 8, 0);
    c.word(7, 32, 1 << 8);
    c.pending(0, 40, 1);
    c.raise(0, 41, 0);
    c.pending(0, 41, 1);
    c.clear(0, 41, 0);
    c.raise(0, 41, 0);
    c.activate(0, 41, 0);
    c.line(0, 42, 1, 0);
    c.trigger(0, 42, ONES, 0);
    c.pending(0, 42, 0);
    c.put(7, 16, 0, -22);
}

fn absent_banks(c: &mut Case) {
    c.put(3, 0, 96, 0);
    c.ready(1);
    for intid in [96, 97, 127, 128, 255, 1023] {
        c.raise(0, intid, 0);
        c.pending(0, intid, 0);
        c.line(0, intid, 1, 0);
        c.pending(0, intid, 0);
        c.trigger(0, intid, ONES, 0);
        c.clear(0, intid, 0);
        c.activate(0, intid, 0);
    }
    for bank in 3..32 {
        c.put(1, 0x200 + 4 * bank, ONES, 0);
        c.word(1, 0x200 + 4 * bank, 0);
        c.put(7, 32 * bank, ONES, 0);
        c.word(7, 32 * bank, 0);
        c.pending(0, 32 * bank, 0);
    }
    c.put(1, 0x208, ONES, 0);
    c.word(1, 0x208, ONES);
    c.put(7, 64, ONES, 0);
    c.word(7, 64, ONES);
    c.clear(0, 95, 0);
    c.pending(0, 95, 1);
}

/// From this bank on there is none: whatever is called, no byte of the state changes, and all reads 0.
pub fn no_banks_from(c: &mut Case, first: u64) {
    c.idle(|c| {
        for bank in first..32 {
            for (group, attribute) in [(1, 0x200 + 4 * bank), (7, 32 * bank)] {
                c.put(group, attribute, ONES, 0);
                c.word(group, attribute, 0);
            }
            for intid in [32 * bank, 32 * bank + 1, 32 * bank + 31] {
                c.trigger(0, intid, ONES, 0);
                c.line(0, intid, 1, 0);
                c.raise(0, intid, 0);
                c.pending(0, intid, 0);
                c.clear(0, intid, 0);
                c.activate(0, intid, 0);
                c.line(0, intid, 0, 0);
                c.trigger(0, intid, 0, 0);
                c.pending(0, intid, 0);
            }
        }
    });
}

fn default_bank(c: &mut Case) {
    c.ready(1);
    c.word(1, 0x204, 0);
    c.word(7, 32, 0);
    whole_bank(c, 1);
    (32..64).for_each(|intid| whole_interrupt(c, intid));
}

/// The last of `count` interrupts and the bank that it is in are there, and no bank behind it is.
pub fn ends_at(c: &mut Case, count: u64) {
    let bank = count / 32 - 1;
    whole_bank(c, bank);
    c.put(1, 0x200 + 4 * bank, ONES, 0);
    c.put(7, 32 * bank, 0x5555_5555, 0);
    c.trigger(0, count - 1, 0x3333_3333, 0);
    no_banks_from(c, bank + 1);
    c.word(1, 0x200 + 4 * bank, ONES);
    c.word(7, 32 * bank, 0x5555_5555);
    c.clear(0, count, 0);
    c.pending(0, count - 1, 1);
    c.clear(0, count - 1, 0);
    c.pending(0, count - 1, 0);
}

fn default_count(c: &mut Case) {
    c.ready(2);
    ends_at(c, 64);
    c.start(0);
    c.idle(|c| {
        all_irq_calls(c, 1, 64, 0);
        all_irq_calls(c, 1, 255, 0);
        c.put(7, 64, ONES, 0);
        c.word(7, 64, 0);
        c.put(1, 0x208, ONES, -16);
    });
}

fn default_refusals(c: &mut Case) {
    c.ready(1);
    for intid in [63, 64, 95, 255, 256, 1023] {
        all_irq_calls(c, 1, intid, -22);
        c.line(0, intid, 2, -22);
        c.line(0, intid, u64::MAX, -22);
    }
    for vintid in [65, 80, 95, 97, 255] {
        c.put(7, vintid, ONES, -22);
    }
    c.put(7, 1 << 10 | 64, ONES, -22);
    c.put(1, 0x209, ONES, -6);
    c.set(VGIC, 1, 0x208, &[0; 8], -14);
    c.set(VGIC, 7, 64, &[0; 8], -14);
}

fn smallest_count(c: &mut Case) {
    c.put(3, 0, 64, 0);
    c.ready(1);
    ends_at(c, 64);
}

fn larger_count(c: &mut Case) {
    c.put(3, 0, 256, 0);
    c.ready(1);
    (1..8).for_each(|bank| whole_bank(c, bank));
    ends_at(c, 256);
}

fn isolation(c: &mut Case) {
    c.ready(3);
    c.put(5, 0x10200, 0x1010_1010, 0);
    c.put(7, 2 << 32, 0x0f0f_0000, 0);
    for intid in 0..32 {
        all_irq_calls(c, 1, intid, 0);
        c.raise(1, intid, 0);
    }
    c.put(5, (1 << 32) + 0x10200, ONES, 0);
    c.put(7, 1 << 32, ONES, 0);
    c.put(5, (1 << 32) + 0x10, 9, 0);
    c.word(5, 0x10200, 0x1010_1010);
    c.word(7, 0, 0);
    c.word(5, (2 << 32) + 0x10200, 0);
    c.word(7, 2 << 32, 0x0f0f_0000);
    c.word(5, 0x10, 0);
    c.word(1, 0x204, 0);
    // VCPU 1's trigger write did not reach VCPU 0: its INTID 21 is level still.
    c.line(0, 21, 1, 0);
    c.pending(0, 21, 1);
    c.line(0, 21, 0, 0);
    c.word(5, 0x10200, 0x1010_1010);
}

fn latch_is_not_pending(c: &mut Case) {
    c.ready(1);
    c.line(0, 40, 1, 0);
    c.word(1, 0x204, 0);
    c.line(0, 20, 1, 0);
    c.word(5, 0x10200, 0);
    c.put(1, 0x204, 0, 0);
    c.line(0, 40, 0, 0);
    c.pending(0, 40, 0);
}
