//! §4.17: INTIDs 1,020 to 1,023 are no interrupts, and the bank from INTID 992 on has 28. §1.16: until INIT every bank
//! is fresh and every STATUSR 0.

use super::banks::{all_irq_calls, all_level, all_zero};
use super::case::{Case, VGIC};
use std::ops::RangeInclusive;

pub const CASES: &[(&str, fn(&mut Case))] = &[
    ("§4.17, §3.14 a count of 1,024 is a good one", good_count),
    ("§4.17, §4.4 pending of the four is 0, whatever their bank holds", pending),
    ("§4.17, §4.5 set, clear and activate of the four change nothing", latches),
    ("§4.17, §4.6 line of the four changes nothing", lines),
    ("§4.17, §4.6 a rise of the four latches nothing, after a trigger word of ones too", rises),
    ("§4.17, §4.8 the four are alike whichever VCPU is named", vcpus),
    ("§4.17, §4.13 the latch word at 0x27C keeps 28 bits", latch_word),
    ("§4.17, §4.15 the level word at vINTID 992 keeps 28 bits", level_word),
    ("§4.17, §4.7 the last bank's trigger keeps 28 bits, whichever of its INTIDs is named", trigger_word),
    ("§4.17, §4.7 a trigger call that names one of the four changes no latch and no level", trigger_alone),
    ("§4.17, §4.2 the last bank's other 28 are interrupts like all", interrupts),
    ("§4.17, §4.2 each other bank has 32 interrupts", other_banks),
    ("§4.17, §4.9 with any other count the last bank has 32 interrupts", other_counts),
    ("§4.17, §4.8 a bad VCPU or level is -22 of the four too, and so is INTID 1,024", refusals),
    ("§4.17, §4.8 before INIT the four are -6, and so are the words of their bank", before_init),
    ("§4.17, §4.10, §4.15 the four and the words of their bank while running", running),
    ("§4.17, §4.15 the four are no vINTIDs of a bank", vintids),
    ("§10.10, §4.17 after calls of every kind the four read 0", after_all),
    ("§1.16, §4.8, §4.10, §4.15 before INIT no call changes a bank or a STATUSR", early),
    ("§1.16, §3.1, §3.14 VCPUs and a count bring fresh banks, whatever stood in their place", fresh_again),
];

const ONES: u32 = u32::MAX;
const FOUR: RangeInclusive<u64> = 1020..=1023;
/// The last bank's latch word in group 1 and its level word in group 7.
const LATCH: u64 = 0x27c;
const LEVEL: u64 = 992;

/// Words that are written, and what the last bank keeps of them.
const KEPT: [(u32, u32); 11] = [
    (ONES, 0x0fff_ffff),
    (0, 0),
    (1 << 27, 1 << 27),
    (1 << 28, 0),
    (1 << 29, 0),
    (1 << 30, 0),
    (1 << 31, 0),
    (0xf000_0000, 0),
    (0xf800_0001, 0x0800_0001),
    (0x5555_5555, 0x0555_5555),
    (0xaaaa_aaaa, 0x0aaa_aaaa),
];

/// Latch, level and trigger as they are written to the last bank.
const STORED: [[u32; 3]; 6] =
    [[0, 0, 0], [ONES, ONES, ONES], [ONES, 0, 0], [0, ONES, 0], [0, 0, ONES], [0x1234_5678, 0x8765_4321, 0xf0f0_f0f0]];

/// A guest past INIT with 1,024 interrupts.
fn ready(c: &mut Case, vcpus: u32) {
    c.put(3, 0, 1024, 0);
    c.ready(vcpus);
}

fn store(c: &mut Case, [latch, level, trigger]: [u32; 3]) {
    c.put(1, LATCH, latch, 0);
    c.put(7, LEVEL, level, 0);
    c.trigger(0, 992, trigger, 0);
}

/// Makes the calls of each of the four on each of those banks; nothing may change.
fn idle_on_each(c: &mut Case, calls: fn(&mut Case, u64)) {
    ready(c, 1);
    for words in STORED {
        store(c, words);
        for intid in FOUR {
            c.idle(|c| calls(c, intid));
        }
    }
}

fn good_count(c: &mut Case) {
    c.put(3, 0, 1024, 0);
    c.word(3, 0, 1024);
    c.put(3, 0, 1024, -16);
    c.ready(1);
    c.word(3, 0, 1024);
    c.raise(0, 1019, 0);
    c.pending(0, 1019, 1);
    c.word(1, LATCH, 0x0800_0000);
}

fn pending(c: &mut Case) {
    idle_on_each(c, |c, intid| c.pending(0, intid, 0));
}

fn latches(c: &mut Case) {
    idle_on_each(c, |c, intid| {
        c.raise(0, intid, 0);
        c.pending(0, intid, 0);
    });
    c.word(1, LATCH, 0x0234_5678);
    c.setup(40, 0x4000_0000, 0x10_0000, 0);
    idle_on_each(c, |c, intid| c.clear(0, intid, 0));
    c.word(1, LATCH, 0x0234_5678);
    c.setup(40, 0x4000_0000, 0x10_0000, 0);
    idle_on_each(c, |c, intid| c.activate(0, intid, 0));
    c.word(1, LATCH, 0x0234_5678);
}

fn lines(c: &mut Case) {
    idle_on_each(c, |c, intid| {
        c.line(0, intid, 1, 0);
        c.pending(0, intid, 0);
    });
    c.word(7, LEVEL, 0x0765_4321);
    c.setup(40, 0x4000_0000, 0x10_0000, 0);
    idle_on_each(c, |c, intid| c.line(0, intid, 0, 0));
    c.word(7, LEVEL, 0x0765_4321);
}

fn rises(c: &mut Case) {
    ready(c, 1);
    for named in [992, 1019, 1020, 1023] {
        c.trigger(0, named, ONES, 0);
        for intid in FOUR {
            c.line(0, intid, 0, 0);
            c.line(0, intid, 1, 0);
            c.pending(0, intid, 0);
            c.word(1, LATCH, 0);
            c.word(7, LEVEL, 0);
            c.line(0, intid, 0, 0);
        }
        // Of the same word the INTID below them has its bit.
        c.line(0, 1019, 1, 0);
        c.word(1, LATCH, 0x0800_0000);
        c.line(0, 1019, 0, 0);
        c.pending(0, 1019, 1);
        c.clear(0, 1019, 0);
    }
}

fn vcpus(c: &mut Case) {
    ready(c, 3);
    store(c, [0x0fff_ffff; 3]);
    for vcpu in 0..3 {
        for intid in FOUR {
            c.idle(|c| {
                c.pending(vcpu, intid, 0);
                c.raise(vcpu, intid, 0);
                c.clear(vcpu, intid, 0);
                c.activate(vcpu, intid, 0);
                c.line(vcpu, intid, 1, 0);
                c.line(vcpu, intid, 0, 0);
                c.trigger(vcpu, intid, ONES, 0);
            });
        }
    }
}

/// A set of the word stores what is kept of it and nothing else: setting that afterwards changes no byte.
fn kept_word(c: &mut Case, group: u64, attribute: u64) {
    ready(c, 2);
    for (word, kept) in KEPT {
        c.put(group, attribute, word, 0);
        c.word(group, attribute, kept);
        c.idle(|c| c.put(group, attribute, kept, 0));
        for intid in 992..1020 {
            c.pending(0, intid, (kept >> (intid - 992) & 1) as i64);
        }
        for intid in FOUR {
            c.pending(1, intid, 0);
        }
    }
}

fn latch_word(c: &mut Case) {
    kept_word(c, 1, LATCH);
    c.put(1, LATCH, ONES, 0);
    c.word(1, 0xffff_ffff_0000_027c, 0x0fff_ffff);
    c.word(7, LEVEL, 0);
    c.word(1, 0x278, 0);
    c.put(1, 0x8000_0000_0000_027c, 0xf000_0001, 0);
    c.word(1, LATCH, 1);
}

fn level_word(c: &mut Case) {
    kept_word(c, 7, LEVEL);
    c.put(7, LEVEL, ONES, 0);
    c.word(7, (9 << 32) + LEVEL, 0x0fff_ffff);
    c.word(1, LATCH, 0);
    c.word(7, 960, 0);
    c.put(7, (0xffff_ffff << 32) + LEVEL, 0xf000_0001, 0);
    c.word(7, LEVEL, 1);
}

/// Reads the last bank's trigger by what it does: after a rise of each INTID the latches of those that are edge are up.
fn held_trigger(c: &mut Case, want: u32) {
    c.put(1, LATCH, 0, 0);
    for intid in 992..1024 {
        c.line(0, intid, 1, 0);
        c.line(0, intid, 0, 0);
    }
    c.word(1, LATCH, want);
}

fn trigger_word(c: &mut Case) {
    ready(c, 1);
    for named in [992, 1007, 1019, 1020, 1021, 1022, 1023] {
        for (word, kept) in KEPT {
            c.trigger(0, named, word, 0);
            held_trigger(c, kept);
            c.idle(|c| c.trigger(0, named, kept, 0));
        }
    }
}

fn trigger_alone(c: &mut Case) {
    ready(c, 1);
    store(c, [0xffff_00ff, 0x0f0f_0f0f, 0]);
    for named in FOUR {
        for word in [ONES, 0, 0xf000_0000] {
            c.trigger(0, named, word, 0);
            c.word(1, LATCH, 0x0fff_00ff);
            c.word(7, LEVEL, 0x0f0f_0f0f);
        }
    }
    c.word(1, 0x278, 0);
    c.word(7, 960, 0);
}

/// Each way that an interrupt of a shared bank has, from a fresh bank on and back to one.
pub fn whole_interrupt(c: &mut Case, intid: u64) {
    let (latch, level, mask) = (0x200 + 4 * (intid / 32), 32 * (intid / 32), 1 << (intid % 32));
    c.raise(0, intid, 0);
    c.word(1, latch, mask);
    c.pending(0, intid, 1);
    c.activate(0, intid, 0);
    c.line(0, intid, 1, 0);
    c.word(7, level, mask);
    c.pending(0, intid, 1);
    c.line(0, intid, 0, 0);
    c.pending(0, intid, 0);
    c.trigger(0, intid, mask, 0);
    c.line(0, intid, 1, 0);
    c.word(1, latch, mask);
    c.clear(0, intid, 0);
    c.pending(0, intid, 0);
    c.line(0, intid, 0, 0);
    c.trigger(0, intid, 0, 0);
}

fn interrupts(c: &mut Case) {
    ready(c, 1);
    for intid in 992..1020 {
        whole_interrupt(c, intid);
    }
}

/// The bank's words keep all 32 bits, and its last four are interrupts.
pub fn whole_bank(c: &mut Case, bank: u64) {
    for (group, attribute) in [(1, 0x200 + 4 * bank), (7, 32 * bank)] {
        c.put(group, attribute, ONES, 0);
        c.word(group, attribute, ONES);
        c.put(group, attribute, 0xf000_0000, 0);
        c.word(group, attribute, 0xf000_0000);
        c.put(group, attribute, 0, 0);
    }
    for intid in 32 * bank + 28..32 * bank + 32 {
        whole_interrupt(c, intid);
    }
}

fn other_banks(c: &mut Case) {
    ready(c, 1);
    for bank in 1..31 {
        whole_bank(c, bank);
    }
    c.put(5, 0x10200, ONES, 0);
    c.word(5, 0x10200, ONES);
    c.put(5, 0x10200, 0, 0);
    c.put(7, 0, ONES, 0);
    c.word(7, 0, 0xffff_0000);
    c.put(7, 0, 0, 0);
    c.trigger(0, 28, 0xf000_0000, 0);
    for intid in 28..32 {
        c.line(0, intid, 1, 0);
    }
    c.word(5, 0x10200, 0xf000_0000);
}

fn other_counts(c: &mut Case) {
    for count in [64, 96, 128, 256, 512, 960, 992] {
        c.setup(40, 0x4000_0000, 0x10_0000, 0);
        c.put(3, 0, count, 0);
        c.ready(1);
        whole_bank(c, count as u64 / 32 - 1);
        c.idle(|c| {
            c.put(1, LATCH, ONES, 0);
            c.word(1, LATCH, 0);
            c.put(7, LEVEL, ONES, 0);
            c.word(7, LEVEL, 0);
            for intid in 992..1024 {
                c.trigger(0, intid, ONES, 0);
                c.raise(0, intid, 0);
                c.line(0, intid, 1, 0);
                c.pending(0, intid, 0);
            }
        });
    }
}

fn refusals(c: &mut Case) {
    ready(c, 2);
    for intid in FOUR {
        for vcpu in [2, 64, 1 << 32, u64::MAX] {
            all_irq_calls(c, vcpu, intid, -22);
            c.line(vcpu, intid, 2, -22);
        }
        for level in [2, 3, 256, 1 << 32, (1 << 32) + 1, u64::MAX] {
            c.line(0, intid, level, -22);
            c.line(1, intid, level, -22);
        }
        // They are not taken for larger numbers with their low bits.
        all_irq_calls(c, 0, intid + 1024, -22);
        all_irq_calls(c, 0, intid + (1 << 32), -22);
    }
    for vcpu in 0..2 {
        all_irq_calls(c, vcpu, 1024, -22);
        all_irq_calls(c, vcpu, 1025, -22);
    }
    c.word(1, LATCH, 0);
    c.word(7, LEVEL, 0);
}

fn before_init(c: &mut Case) {
    c.put(3, 0, 1024, 0);
    c.adds(1);
    for intid in [1019, 1020, 1021, 1022, 1023, 1024] {
        all_irq_calls(c, 0, intid, -6);
        all_irq_calls(c, 1, intid, -6);
        c.line(0, intid, 2, -6);
    }
    for (group, attribute) in [(1, LATCH), (7, LEVEL)] {
        c.put(group, attribute, ONES, -6);
        c.no_get(VGIC, group, attribute, 4, -6);
    }
}

fn running(c: &mut Case) {
    ready(c, 1);
    c.put(1, LATCH, 0xf000_0003, 0);
    c.start(0);
    c.put(1, LATCH, ONES, -16);
    c.no_get(VGIC, 1, LATCH, 4, -16);
    c.put(7, LEVEL, 0xf000_0004, 0);
    c.word(7, LEVEL, 4);
    c.trigger(0, 1021, 0xf000_0008, 0);
    for intid in FOUR {
        c.idle(|c| {
            c.line(0, intid, 1, 0);
            c.raise(0, intid, 0);
            c.clear(0, intid, 0);
            c.activate(0, intid, 0);
            c.pending(0, intid, 0);
        });
    }
    c.line(0, 995, 1, 0);
    c.stop(0);
    c.word(1, LATCH, 0xb);
    c.word(7, LEVEL, 0xc);
}

fn vintids(c: &mut Case) {
    ready(c, 1);
    for vintid in [993, 1008, 1016, 1019, 1020, 1021, 1022, 1023] {
        c.put(7, vintid, ONES, -22);
        c.no_get(VGIC, 7, vintid, 4, -22);
    }
    c.word(7, LEVEL, 0);
}

/// All that can be asked of the four, where the last bank's words are these.
fn read_zero(c: &mut Case, latch: u32, level: u32) {
    for vcpu in 0..2 {
        for intid in FOUR {
            c.pending(vcpu, intid, 0);
        }
    }
    c.word(1, LATCH, latch);
    c.word(7, LEVEL, level);
}

fn after_all(c: &mut Case) {
    ready(c, 2);
    for intid in 0..1024 {
        all_irq_calls(c, intid % 2, intid, 0);
    }
    read_zero(c, 0x0fff_fffe, 0);
    for bank in 0..32 {
        c.put(1, 0x200 + 4 * bank, ONES, 0);
        c.put(1, 0x280 + 4 * bank, ONES, 0);
        c.put(7, 32 * bank, ONES, 0);
    }
    read_zero(c, 0x0fff_ffff, 0x0fff_ffff);
    c.start(0);
    c.trigger(1, 1023, 0, 0);
    c.put(3, 0, 1024, -16);
    c.add(7, -16);
    c.init(0);
    c.its_base(0x0a00_0000, 0);
    c.put(7, LEVEL, 0xf800_0000, 0);
    c.stop(0);
    c.activate(0, 1019, 0);
    read_zero(c, 0x07ff_ffff, 0x0800_0000);
    // What this guest leaves in the bytes is nothing to the next one.
    c.setup(40, 0x4000_0000, 0x10_0000, 0);
    ready(c, 2);
    read_zero(c, 0, 0);
}

/// Ones in each register that can be set.
fn put_ones(c: &mut Case, want: i64) {
    for vcpu in 0..2 {
        for offset in [0x10, 0x10200, 0x10280] {
            c.put(5, vcpu << 32 | offset, ONES, want);
        }
        c.put(7, vcpu << 32, ONES, want);
    }
    c.put(1, 0x10, ONES, want);
    for bank in 1..32 {
        c.put(1, 0x200 + 4 * bank, ONES, want);
        c.put(7, 32 * bank, ONES, want);
    }
}

fn early(c: &mut Case) {
    c.put(3, 0, 1024, 0);
    c.adds(2);
    c.base(2, 0x0800_0000, 0);
    c.base(3, 0x080a_0000, 0);
    c.idle(|c| {
        put_ones(c, -6);
        for intid in [0, 15, 16, 31, 32, 63, 255, 256, 991, 992, 1019, 1020, 1023] {
            all_irq_calls(c, 0, intid, -6);
            all_irq_calls(c, 1, intid, -6);
        }
    });
    c.init(0);
    all_zero(c);
    all_level(c);
}

fn fresh_again(c: &mut Case) {
    ready(c, 2);
    put_ones(c, 0);
    for vcpu in 0..2 {
        (0..32).for_each(|bank| c.trigger(vcpu, 32 * bank, ONES, 0));
    }
    c.setup(40, 0x4000_0000, 0x10_0000, 0);
    ready(c, 2);
    all_zero(c);
    all_level(c);
}
