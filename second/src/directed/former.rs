//! §1.17: a guest with 256 interrupts that were never set. No call makes one, so that in each case the state is edited,
//! before INIT or after it.

use super::banks::{ends_at, no_banks_from};
use super::case::{Case, ITS, VGIC};
use super::special::{whole_bank, whole_interrupt};

pub const CASES: &[(&str, fn(&mut Case))] = &[
    ("§1.17, §3.15 a count of 256 that was never set is read at any time", read),
    ("§1.17, §4.2, §4.9 its INTIDs up to 255 are interrupts, and from 256 on there is none", interrupts),
    ("§1.17, §1.16, §4.3 at INIT its seven shared banks are fresh", fresh_banks),
    ("§1.17, §3.14 before INIT it can set its count, to each that is taken, and once", sets_once),
    ("§1.17, §3.14, §4.3 the banks of the count that it sets are fresh, and there are no more", sets_banks),
    ("§1.17, §3.14 a refused set leaves its 256 and does not count as set", refused_sets),
    ("§1.17, §3.14 after INIT its count is fixed: -16", after_init),
    ("§1.17, §3.14 INIT and what is refused before it leave the count never set", refused_init),
    ("§1.17, §1.8 found after INIT with banks in use, it goes on as it is", in_use),
    ("§1.17, §3.1, §3.5, §3.8 VCPUs, frames and regions are as in any guest", frames),
    ("§1.17, §4.10, §4.14, §4.15 registers are as in any guest", registers),
    ("§1.17, §1.4, §1.5 set-up over it makes a fresh guest with 64 interrupts", set_up_over),
    ("§1.17, §2.4 a refused set-up leaves it with its 256", refused_set_up),
    ("§1.17, §3.14 a guest that sets 256 is none of this kind", set_is_set),
];

const ONES: u32 = u32::MAX;
const LENGTH: u64 = 0x10_0000;

/// A fresh guest whose count was put back to what it was once.
fn fresh(c: &mut Case) {
    c.setup(40, 0x4000_0000, LENGTH, 0);
    c.become_former();
}

/// The same past INIT.
fn ready(c: &mut Case, vcpus: u32) {
    fresh(c);
    c.ready(vcpus);
}

fn read(c: &mut Case) {
    fresh(c);
    c.word(3, 0, 256);
    c.adds(1);
    c.word(3, 0, 256);
    c.base(2, 0x0800_0000, 0);
    c.base(3, 0x080a_0000, 0);
    c.word(3, 0, 256);
    c.init(0);
    c.word(3, 0, 256);
    c.start(0);
    c.word(3, 0, 256);
    c.no_get(VGIC, 3, 0, 8, -14);
    c.no_get(VGIC, 3, 1, 4, -6);
    c.stop(0);
    c.word(3, 0, 256);
}

fn interrupts(c: &mut Case) {
    ready(c, 2);
    (32..256).for_each(|intid| whole_interrupt(c, intid));
    (1..8).for_each(|bank| whole_bank(c, bank));
    ends_at(c, 256);
    c.start(0);
    c.raise(1, 200, 0);
    c.pending(0, 200, 1);
    c.raise(1, 256, 0);
    c.pending(0, 256, 0);
}

fn fresh_banks(c: &mut Case) {
    ready(c, 2);
    for vcpu in 0..2 {
        (0..1024).for_each(|intid| c.pending(vcpu, intid, 0));
    }
    for bank in 1..32 {
        c.word(1, 0x200 + 4 * bank, 0);
        c.word(7, 32 * bank, 0);
    }
    for intid in 16..256 {
        c.line(0, intid, 1, 0);
        c.pending(0, intid, 1);
        c.line(0, intid, 0, 0);
        c.pending(0, intid, 0);
    }
}

fn sets_once(c: &mut Case) {
    for number in (64..=1024).step_by(32) {
        fresh(c);
        c.put(3, 0, number, 0);
        c.word(3, 0, number);
        for again in [64, 96, number, 256, 1024] {
            c.put(3, 0, again, -16);
        }
        c.put(3, 0, number + 1, -22);
        c.word(3, 0, number);
        c.ready(1);
        c.put(3, 0, number, -16);
        c.word(3, 0, number);
    }
}

fn sets_banks(c: &mut Case) {
    for number in [64, 96, 224, 256, 288, 992, 1024] {
        fresh(c);
        c.put(3, 0, number as u32, 0);
        c.ready(1);
        for bank in 1..32 {
            c.word(1, 0x200 + 4 * bank, 0);
            c.word(7, 32 * bank, 0);
        }
        (1..number.min(992) / 32).for_each(|bank| whole_bank(c, bank));
        no_banks_from(c, number / 32);
    }
}

fn refused_sets(c: &mut Case) {
    for number in [64, 96, 256, 1024] {
        fresh(c);
        c.idle(|c| {
            [0, 32, 63, 65, 255, 257, 1025, 1056, ONES].into_iter().for_each(|bad| c.put(3, 0, bad, -22));
            [0, 1, 3, 5, 8].into_iter().for_each(|width| c.set(VGIC, 3, 0, &vec![64; width], -14));
            [1, 256, 1 << 32, u64::MAX].into_iter().for_each(|attribute| c.put(3, attribute, 64, -6));
            c.set(ITS, 3, 0, &64u32.to_le_bytes(), -6);
        });
        c.word(3, 0, 256);
        c.put(3, 0, number, 0);
        c.put(3, 0, number, -16);
        c.word(3, 0, number);
    }
}

/// After INIT every set is refused, of the count that stands too.
fn no_count(c: &mut Case) {
    c.idle(|c| {
        [64, 96, 224, 256, 288, 1024].into_iter().for_each(|number| c.put(3, 0, number, -16));
        [0, 32, 65, 1056].into_iter().for_each(|number| c.put(3, 0, number, -22));
    });
    c.word(3, 0, 256);
}

fn after_init(c: &mut Case) {
    ready(c, 1);
    no_count(c);
    c.start(0);
    no_count(c);
    c.stop(0);
    c.init(0);
    no_count(c);
    ends_at(c, 256);
}

fn refused_init(c: &mut Case) {
    fresh(c);
    c.init(-19);
    c.adds(2);
    c.init(-6);
    c.base(2, 0x0800_0000, 0);
    c.init(-6);
    c.word(3, 0, 256);
    c.put(3, 0, 128, 0);
    c.base(3, 0x080a_0000, 0);
    c.init(0);
    c.word(3, 0, 128);
    ends_at(c, 128);
}

/// Words in the seven shared banks, other ones in each.
fn use_banks(c: &mut Case) {
    for bank in 1..8 {
        c.put(1, 0x200 + 4 * bank, 0x1111_1111 * bank as u32, 0);
        c.put(7, 32 * bank, 0x0f0f_0f0f << (bank % 4), 0);
        c.trigger(0, 32 * bank, 0xff00_ff00 >> bank, 0);
    }
}

/// What `use_banks` left: latches, levels and, by what is pending, triggers.
fn used_banks(c: &mut Case) {
    for bank in 1..8 {
        let (latch, level, trigger) = (0x1111_1111 * bank as u32, 0x0f0f_0f0f << (bank % 4), 0xff00_ff00u32 >> bank);
        c.word(1, 0x200 + 4 * bank, latch);
        c.word(7, 32 * bank, level);
        let pending = latch | level & !trigger;
        (0..32).for_each(|n| c.pending(0, 32 * bank + n, (pending >> n & 1) as i64));
    }
}

fn in_use(c: &mut Case) {
    c.put(3, 0, 256, 0);
    c.ready(2);
    c.put(1, 0x10, 5, 0);
    c.put(5, (1 << 32) + 0x10200, 0x8000_8001, 0);
    use_banks(c);
    c.become_former();
    c.word(3, 0, 256);
    used_banks(c);
    no_count(c);
    c.word(1, 0x10, 5);
    c.word(5, (1 << 32) + 0x10200, 0x8000_8001);
    no_banks_from(c, 8);
    used_banks(c);
    c.activate(0, 255, 0);
    c.clear(1, 224, 0);
    c.word(1, 0x21c, 0x7777_7776);
    // Of a guest with one shared bank that bank stays, and the six that come are fresh.
    c.setup(40, 0x4000_0000, LENGTH, 0);
    c.ready(1);
    c.put(1, 0x204, 0xdead_beef, 0);
    c.become_former();
    c.word(1, 0x204, 0xdead_beef);
    (2..8).for_each(|bank| whole_bank(c, bank));
    ends_at(c, 256);
}

fn frames(c: &mut Case) {
    fresh(c);
    c.adds(64);
    c.add(64, -12);
    c.add(0, -22);
    c.base(2, 0x0800_0000, 0);
    c.base(2, 0x0800_0000, -17);
    c.region(0, 0x0900_0000, 63, 0);
    c.base(3, 0x2000_0000, -22);
    c.init(-6);
    c.region(1, 0x0800_0000, 1, -22);
    c.region(1, 0x2000_0000, 1, 0);
    c.its_base(0x3000_0000, 0);
    c.init(0);
    c.redist(62, 0x0900_0000 + 62 * 0x2_0000);
    c.redist(63, 0x2000_0000);
    c.redist(64, -22);
    c.add(65, -16);
    c.held_base(ITS, 4, 0x3000_0000);
    c.word(3, 0, 256);
}

fn registers(c: &mut Case) {
    ready(c, 2);
    c.put(1, 0x10, ONES, 0);
    c.word(1, 0x10, 0xf);
    c.put(5, (1 << 32) + 0x10, 6, 0);
    c.word(5, (1 << 32) + 0x10, 6);
    c.put(5, 0x10200, 0x8001_8001, 0);
    c.word(5, 0x10200, 0x8001_8001);
    c.put(7, 1 << 32, ONES, 0);
    c.word(7, 1 << 32, 0xffff_0000);
    c.put(7, (9 << 32) + 224, 0xf0, 0);
    c.word(7, 224, 0xf0);
    c.put(7, 240, 0, -22);
    c.put(1, 0x21e, 0, -6);
    c.start(0);
    c.put(1, 0x21c, 1, -16);
    c.no_get(VGIC, 1, 0x21c, 4, -16);
    c.word(7, 224, 0xf0);
}

/// A guest as set-up leaves it: one shared bank, and a count that may be set.
fn is_fresh(c: &mut Case) {
    c.word(3, 0, 64);
    c.no_get(VGIC, 0, 2, 8, -2);
    c.init(-19);
    c.start(-6);
}

fn set_up_over(c: &mut Case) {
    fresh(c);
    c.setup(40, 0x4000_0000, LENGTH, 0);
    is_fresh(c);
    c.ready(1);
    ends_at(c, 64);
    // Over one past INIT whose banks are in use.
    ready(c, 2);
    use_banks(c);
    c.start(0);
    c.setup(41, 0x4000_0000, LENGTH, 0);
    is_fresh(c);
    c.put(3, 0, 256, 0);
    c.put(3, 0, 256, -16);
    c.ready(1);
    for bank in 1..8 {
        c.word(1, 0x200 + 4 * bank, 0);
        whole_bank(c, bank);
    }
}

fn refused_set_up(c: &mut Case) {
    ready(c, 2);
    use_banks(c);
    c.idle(|c| {
        c.setup(35, 0x4000_0000, LENGTH, -22);
        c.setup(40, 0x4000_0001, LENGTH, -22);
        c.setup(40, 0x4000_0000, 0, -22);
    });
    used_banks(c);
    no_count(c);
}

fn set_is_set(c: &mut Case) {
    c.put(3, 0, 256, 0);
    c.put(3, 0, 64, -16);
    c.put(3, 0, 256, -16);
    c.word(3, 0, 256);
    // The very same guest, but that its count was never set.
    c.become_former();
    c.word(3, 0, 256);
    c.put(3, 0, 64, 0);
    c.put(3, 0, 256, -16);
    c.word(3, 0, 64);
}
