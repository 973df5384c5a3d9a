//! Part 13: why a restore is refused; of the order of faults (§13.9) `order` has the cases. The codes are written out:
//! number of the fault, table, device, index (§13.6).
#![allow(clippy::unusual_byte_groupings)]

use super::case::Case;
use super::its::MEMORY;
use super::restore::{collection, device, event, image, placed_wide, COLLECTIONS, DEVICES, ITT, LENGTH, SAMPLE};
use crate::call::{restore_answer, Call};
use crate::report::{Kind, Report};
use crate::sides::{Library, Side};
use crate::state::layout;
use crate::trace;

pub const CASES: &[super::Row] = &[
    ("§13.1 explain only reads, whatever it answers", only_reads),
    ("§13.1 a mapping that stands plays no part", standing_mapping),
    ("§13.2, §9.1 before any table: length of memory -14, not ready -6, running -16, for any bytes", before_tables),
    ("§13.3, §13.10 what describes a mapping is 0", described),
    ("§13.3, §8.8, §9.8 damage that still describes a mapping is 0", still_described),
    ("§13.8, §13.4 pe: at or above the number of VCPUs, in all its bits", pe),
    ("§13.8, §13.5 repeat: at the later of two entries", repeat),
    ("§13.8, §13.5 17th: at entry 16, however many follow", seventeenth),
    ("§13.7 collections: behind the first blank nothing is read", collections_unread),
    ("§13.8, §13.5 next in the device table: at the entry that holds it", device_next),
    ("§13.8, §13.7, §8.5 next in the device table at and below 16,383", device_cap),
    ("§13.8 size: bits above 16", size),
    ("§13.8 33rd: 32 devices or more are before it", thirty_third),
    ("§13.8 ITT outside memory: one byte is enough", outside),
    ("§13.8, §6.2 ITT outside memory: all bits of its address count", high_itt),
    ("§13.8 overlap: with each of the two tables", overlap_tables),
    ("§13.8, §13.5 overlap: with a device before, at the later of the two", overlap_devices),
    ("§13.8, §6.4 LPI: below 8,192 or above 65,535, in all its bits", lpi),
    ("§13.8, §13.4 next in an ITT is the same fault, at the entry that holds it", event_next),
    ("§13.8, §9.6 next in an ITT: past the end or onto a blank, 16,383 and 65,535 too", long_event_next),
    ("§13.8 ICID: among the collections that are read", icid),
    ("§13.8 1,025th: in one ITT", thousandth),
    ("§13.8 1,025th: the events of all devices before count", thousandth_over_devices),
    ("§13.7 what a next jumps over is no fault", jumped_over),
    ("§13.7 what stands behind the last is no fault", behind_the_last),
    ("§13.7 entries below the first valid one, and behind an ITT, are none", first_valid),
    ("§13.7, §6.5 an entry that no mapping can have is valid, and is read", valid_nonsense),
    ("§13.6, §13.5 the highest device and the highest event", highest),
    ("§13.6 each part of a code: device and index apart", parts_of_a_code),
    ("§13.1, §8.1 memory, tables and VCPUs decide, and nothing else", what_decides),
    ("§13.12 the examples", examples),
];

pub type Entry = (u64, u64);

impl Case<'_> {
    /// Explain, then restore, on the same bytes. The first answer is written out, the second follows from it (§13.4).
    fn explain_in(&mut self, memory: &[u8], want: i64) {
        let restored = restore_answer(want).expect("an answer of part 13");
        self.lent(Call::Restore, memory, restored);
        let explained = self.explained.last().copied().unwrap_or_default();
        if explained != want {
            self.notes.push(format!("explained by {explained:#x}, expected {want:#x}"));
        }
    }

    pub fn explain(&mut self, entries: &[Entry], want: i64) {
        self.explain_in(&image(entries).bytes, want);
    }

    /// Without a restore: what stands goes on standing.
    fn explain_alone(&mut self, memory: &[u8], want: i64) {
        self.lent(Call::Explain, memory, want);
    }
}

/// Entry `n` of the collection table.
pub fn coll(n: u64, icid: u64, pe: u64) -> Entry {
    (COLLECTIONS + 8 * n, collection(icid, pe))
}

/// So many collections that no fault is at: ICIDs from 100 on.
pub fn colls(count: u64) -> Vec<Entry> {
    (0..count).map(|n| coll(n, 100 + n, n % 4)).collect()
}

/// The entry of a device, with bits as they are.
pub fn dev(id: u64, next: u64, itt: u64, bits: u64) -> Entry {
    (DEVICES + 8 * id, device(next, itt, bits - 1))
}

/// A device with an ITT of 32 entries of its own.
pub fn good(id: u64, next: u64) -> Entry {
    dev(id, next, ITT + 0x100 * id, 5)
}

/// So many devices, from ID 0 on, that no fault is at but for their number.
pub fn devs(count: u64) -> Vec<Entry> {
    (0..count).map(|id| good(id, (id + 1 < count) as u64)).collect()
}

/// `rows` with some more; where two are of one address the later one stands.
pub fn and(rows: &[Entry], more: &[Entry]) -> Vec<Entry> {
    [rows, more].concat()
}

fn only_reads(c: &mut Case) {
    c.its_placed(1);
    c.collection(7, 1, 0);
    c.device(0, ITT, 5, 0);
    c.event(0, 1, 8192, 7, 0);
    let answers: [(&[Entry], i64); 4] = [
        (&[], 0),
        (&SAMPLE, 0),
        (&[coll(0, 7, 4)], 0x01_01_0000_0000),
        (&[good(0, 0), (ITT, event(0, 1, 7))], 0x09_03_0000_0000),
    ];
    for (entries, want) in answers {
        c.explain_alone(&image(entries).bytes, want);
        c.lookup(0, 1, 8192 + 65_536);
        c.no_collection(7, -22);
    }
    c.explain_alone(&[], -14);
    c.start(0);
    c.explain_alone(&image(&SAMPLE).bytes, -16);
    c.lookup(0, 1, 8192 + 65_536);
}

/// Every limit is reached, and the ITTs of the image lie over those that stand.
fn standing_mapping(c: &mut Case) {
    c.its_placed(1);
    (0..16).for_each(|icid| c.collection(icid, 0, 0));
    for id in 0..32 {
        c.device(id, ITT + 0x100 * id, 5, 0);
        (0..32).for_each(|number| c.event(id, number, 8192, 5, 0));
    }
    let mut alone = |entries: &[Entry], want: i64| c.explain_alone(&image(entries).bytes, want);
    alone(&[], 0);
    alone(&SAMPLE, 0);
    alone(&colls(16), 0);
    alone(&[dev(40, 0, ITT + 0x80_00, 5)], 0);
    alone(&[dev(0, 0, ITT + 0x100, 6)], 0);
    alone(&and(&devs(32), &colls(16)), 0);
    alone(&[coll(0, 7, 1), dev(40, 0, ITT, 5), (ITT + 8 * 9, event(0, 8192, 7))], 0);
    // Collection 5 stands, but not in the bytes.
    alone(&[coll(0, 7, 1), dev(0, 0, ITT, 5), (ITT, event(0, 8192, 5))], 0x0a_03_0000_0000);
    alone(&devs(33), 0x06_02_0000_0020);
    c.lookup(31, 31, 8192);
}

fn before_tables(c: &mut Case) {
    let mut sample = image(&SAMPLE).bytes;
    let mut refused = |c: &mut Case, length: usize, want: i64| {
        sample.resize(length, 0);
        for memory in [vec![0; length], vec![0xff; length], sample.clone()] {
            c.lent(Call::Restore, &memory, want);
            c.explain_alone(&memory, want);
        }
    };
    refused(c, 0, -14);
    refused(c, LENGTH, -6);
    c.ready(4);
    refused(c, LENGTH - 1, -14);
    refused(c, LENGTH, -6);
    c.start(0);
    refused(c, LENGTH, -6);
    c.its_base(0x0900_0000, 0);
    c.its_init(0);
    refused(c, LENGTH + 1, -14);
    refused(c, LENGTH, -6);
    c.place(DEVICES, 1, COLLECTIONS, 1, 0);
    refused(c, LENGTH + 8, -14);
    refused(c, 2 * LENGTH, -14);
    refused(c, LENGTH, -16);
    c.stop(0);
    c.explain_alone(&vec![0xff; LENGTH], 0x01_01_0000_0000);
    c.explain_alone(&vec![0; LENGTH], 0);
    c.reset(0);
    refused(c, LENGTH, -6);
}

fn described(c: &mut Case) {
    c.its_placed(1);
    c.explain(&[], 0);
    c.explain(&SAMPLE, 0);
    c.explain(&and(&colls(16), &devs(32)), 0);
    c.explain(&[], 0);
    c.collection(7, 1, 0);
    for id in [5, 9] {
        c.device(50 * id, ITT + 0x100 * id, 5, 0);
        c.event(50 * id, 3, 8192, 7, 0);
        c.event(50 * id, 30, 65_535, 7, 0);
    }
    let saved = c.lent(Call::Save, &vec![0xff; LENGTH], 0);
    c.explain_in(&saved, 0);
    c.lookup(450, 30, 65_535 + 65_536);
}

fn still_described(c: &mut Case) {
    c.its_placed(1);
    let rows = [coll(0, 7, 1), good(0, 1), good(1, 0), (ITT, event(0, 8192, 7))];
    c.explain(&rows, 0);
    c.explain(&and(&rows, &[(DEVICES, good(0, 1).1 ^ 1 << 63)]), 0);
    c.explain(&and(&rows, &[good(0, 0)]), 0);
    c.explain(&and(&rows, &[(ITT, event(0, 0, 7))]), 0);
    c.explain(&and(&rows, &[(COLLECTIONS, collection(7, 1) | 0x7ff << 52)]), 0);
    c.explain(&and(&rows, &[(ITT + 0x100, event(77, 0, 9)), (DEVICES + 16, u64::MAX >> 1)]), 0);
}

fn pe(c: &mut Case) {
    c.its_placed(1);
    c.explain(&[coll(0, 7, 3)], 0);
    for pe in [4, 5, 65_536, 1 << 31, 1 << 32, 1 << 35 | 1, (1 << 36) - 1] {
        c.explain(&[coll(0, 7, pe)], 0x01_01_0000_0000);
    }
    c.explain(&[coll(0, 7, 3), coll(1, 8, 4)], 0x01_01_0000_0001);
    c.explain(&and(&colls(16), &[coll(15, 7, 4)]), 0x01_01_0000_000f);
    c.setup(40, MEMORY, LENGTH as u64, 0);
    c.ready(1);
    c.its_base(0x0900_0000, 0);
    c.its_init(0);
    c.place(DEVICES, 1, COLLECTIONS, 1, 0);
    c.explain(&[coll(0, 7, 0)], 0);
    c.explain(&[coll(0, 7, 0), coll(1, 8, 1)], 0x01_01_0000_0001);
}

fn repeat(c: &mut Case) {
    c.its_placed(1);
    c.explain(&[coll(0, 7, 1), coll(1, 7, 1)], 0x02_01_0000_0001);
    c.explain(&[coll(0, 7, 1), coll(1, 7, 2)], 0x02_01_0000_0001);
    c.explain(&[coll(0, 7, 1), coll(1, 8, 1), coll(2, 7, 1)], 0x02_01_0000_0002);
    c.explain(&[coll(0, 7, 1), coll(1, 8, 1), coll(2, 9, 1), coll(3, 8, 1)], 0x02_01_0000_0003);
    c.explain(&[coll(0, 7, 1), coll(1, 7, 1), coll(2, 7, 1)], 0x02_01_0000_0001);
    c.explain(&[coll(0, 0, 1), coll(1, 65_535, 1), coll(2, 0, 1)], 0x02_01_0000_0002);
    c.explain(&and(&colls(16), &[coll(15, 100, 0)]), 0x02_01_0000_000f);
    c.explain(&[coll(0, 7, 1), coll(1, 8, 1), coll(2, 9, 1)], 0);
}

fn seventeenth(c: &mut Case) {
    c.its_placed(1);
    c.explain(&colls(16), 0);
    for count in [17, 18, 40, 512] {
        c.explain(&colls(count), 0x03_01_0000_0010);
    }
}

fn collections_unread(c: &mut Case) {
    c.its_placed(1);
    c.explain(&[coll(1, 7, 4)], 0);
    c.explain(&[coll(0, 7, 1), coll(2, 8, 4), coll(3, 7, 1)], 0);
    c.explain(&[coll(0, 7, 1), coll(1, 8, 1), (COLLECTIONS + 16, collection(7, 4) ^ 1 << 63), coll(3, 7, 1)], 0);
    c.explain(&and(&colls(16), &[coll(17, 7, 0), coll(18, 100, 4)]), 0);
    // The last entry of the table, and none behind it.
    c.explain(&[coll(511, 7, 4)], 0);
    let named = [good(0, 0), (ITT, event(0, 8192, 8))];
    c.explain(&and(&named, &[coll(0, 7, 1), coll(2, 8, 1)]), 0x0a_03_0000_0000);
    c.explain(&and(&named, &[coll(0, 7, 1), coll(1, 8, 1)]), 0);
}

fn device_next(c: &mut Case) {
    c.its_placed(1);
    c.explain(&[good(0, 1), good(1, 0)], 0);
    c.explain(&[good(0, 511), good(511, 0)], 0);
    c.explain(&[good(0, 1)], 0x04_02_0000_0000);
    c.explain(&[good(0, 511)], 0x04_02_0000_0000);
    c.explain(&[good(0, 512)], 0x04_02_0000_0000);
    c.explain(&[good(5, 1)], 0x04_02_0000_0005);
    c.explain(&[good(3, 2), good(6, 0)], 0x04_02_0000_0003);
    c.explain(&[good(0, 5), good(5, 3), good(9, 0)], 0x04_02_0000_0005);
    c.explain(&[good(0, 5), good(5, 4), good(9, 300)], 0x04_02_0000_0009);
    c.explain(&[good(511, 1), coll(0, 7, 1)], 0x04_02_0000_01ff);
    for next in [1, 16_382, 16_383] {
        c.explain(&[good(0, 511), good(511, next), coll(0, 7, 1)], 0x04_02_0000_01ff);
    }
    c.explain(&[good(0, 5), (DEVICES + 40, good(5, 0).1 ^ 1 << 63)], 0x04_02_0000_0000);
}

fn device_cap(c: &mut Case) {
    placed_wide(c);
    let row = |id: u64, next: u64| (MEMORY + 0x2_0000 + 8 * id, device(next, ITT + 0x100 * (id % 8), 4));
    c.explain(&[row(0, 16_383), row(16_383, 0)], 0);
    c.explain(&[row(0, 16_383), row(20_001, 0)], 0);
    c.explain(&[row(0, 16_383), row(32_767, 0)], 0);
    c.explain(&[row(16_384, 16_383), row(32_767, 0)], 0);
    c.explain(&[row(0, 16_382), row(16_382, 0)], 0);
    // Below the cap nothing is searched.
    c.explain(&[row(0, 16_382), row(16_383, 0)], 0x04_02_0000_0000);
    c.explain(&[row(1, 16_382), row(16_384, 0)], 0x04_02_0000_0001);
    // At the cap nothing is there from the landing on.
    c.explain(&[row(0, 16_383)], 0x04_02_0000_0000);
    c.explain(&[row(0, 16_383), row(16_382, 0)], 0x04_02_0000_0000);
    c.explain(&[row(2, 16_383), row(16_384, 0)], 0x04_02_0000_0002);
    c.explain(&[row(16_385, 16_383), row(32_767, 0)], 0x04_02_0000_4001);
    c.explain(&[row(20_000, 16_383)], 0x04_02_0000_4e20);
    // The first valid entry from the landing on is read, and none behind it.
    c.explain(&[row(3, 16_383), row(20_001, 1)], 0x04_02_0000_4e21);
    c.explain(&[row(3, 16_383), row(20_001, 0), row(20_002, 5)], 0);
    c.explain(&[row(3, 16_383), row(16_386, 0), row(20_001, 1)], 0);
    c.explain(&[row(3, 16_383), row(16_385, 1), row(20_001, 5)], 0x04_02_0000_4e21);
}

fn size(c: &mut Case) {
    c.its_placed(1);
    let large = MEMORY + 0x8_0000;
    c.explain(&[dev(0, 0, large, 16)], 0);
    for bits in [17, 18, 24, 32] {
        c.explain(&[dev(0, 0, ITT, bits)], 0x05_02_0000_0000);
    }
    c.explain(&[good(0, 9), dev(9, 0, large, 17)], 0x05_02_0000_0009);
}

fn thirty_third(c: &mut Case) {
    c.its_placed(1);
    c.explain(&devs(32), 0);
    for count in [33, 34, 50] {
        c.explain(&devs(count), 0x06_02_0000_0020);
    }
    let apart = |count: u64| -> Vec<Entry> {
        let next = |n: u64| if n + 1 < count { 10 } else { 0 };
        (0..count).map(|n| dev(7 + 10 * n, next(n), ITT + 0x100 * n, 5)).collect()
    };
    c.explain(&apart(32), 0);
    c.explain(&apart(33), 0x06_02_0000_0147);
    // 33 valid entries of which 32 are read.
    c.explain(&and(&devs(33), &[good(9, 2)]), 0);
    c.explain(&and(&devs(33), &[good(31, 0)]), 0);
}

fn outside(c: &mut Case) {
    c.its_placed(1);
    let end = MEMORY + LENGTH as u64;
    for itt in [0, 0x100, MEMORY - 0x100, end, end + 0x1000, 0xf_ffff_ffff_ff00] {
        c.explain(&[dev(0, 0, itt, 5)], 0x07_02_0000_0000);
    }
    c.explain(&[dev(0, 0, end - 0x100, 5)], 0);
    c.explain(&[dev(0, 0, end - 0x100, 6)], 0x07_02_0000_0000);
    c.explain(&[dev(0, 0, end - 0x8_0000, 16)], 0);
    c.explain(&[dev(0, 0, end - 0x7_ff00, 16)], 0x07_02_0000_0000);
    c.explain(&[good(0, 3), dev(3, 0, end, 1)], 0x07_02_0000_0003);
    c.explain(&[dev(0, 3, end, 1), good(3, 0)], 0x07_02_0000_0000);
}

/// Memory ends at 2^52. Its bytes lie as elsewhere, so that entries are put where they always are.
fn high_itt(c: &mut Case) {
    let start = (1 << 52) - LENGTH as u64;
    let itt = start + 0x2000;
    c.setup(52, start, LENGTH as u64, 0);
    c.its_ready();
    c.place(start, 1, start + 0x1000, 1, 0);
    c.explain(&[coll(0, 7, 1), dev(0, 0, itt, 5), (ITT, event(0, 8192, 7))], 0);
    c.explain(&[coll(0, 7, 1), dev(0, 0, itt, 5), (ITT, event(0, 1, 7))], 0x09_03_0000_0000);
    for bit in [8, 20, 31, 32, 39, 40, 47, 51] {
        let want = if bit == 8 { 0 } else { 0x07_02_0000_0000 };
        c.explain(&[dev(0, 0, itt ^ 1 << bit, 5)], want);
    }
    c.explain(&[dev(0, 0, (1 << 52) - 0x100, 5)], 0);
    c.explain(&[dev(0, 0, (1 << 52) - 0x100, 6)], 0x07_02_0000_0000);
    c.explain(&[dev(0, 0, ITT, 5)], 0x07_02_0000_0000);
}

fn overlap_tables(c: &mut Case) {
    c.its_placed(1);
    for itt in [DEVICES, DEVICES + 0xf00, COLLECTIONS, COLLECTIONS + 0xf00] {
        for bits in [1, 5, 6] {
            c.explain(&[dev(6, 0, itt, bits)], 0x08_02_0000_0006);
        }
    }
    c.explain(&[dev(0, 0, DEVICES, 16)], 0x08_02_0000_0000);
    c.explain(&[dev(6, 0, ITT, 5)], 0);
    // Between the two tables: right behind the one, right before the other, and over each.
    c.reset(0);
    c.place(MEMORY, 1, MEMORY + 0x2000, 1, 0);
    c.explain(&[dev(6, 0, MEMORY + 0x1000, 9)], 0);
    c.explain(&[dev(6, 0, MEMORY + 0x1f00, 6)], 0x08_02_0000_0006);
    c.explain(&[dev(6, 0, MEMORY + 0xf00, 6)], 0x08_02_0000_0006);
    c.explain(&[dev(6, 0, MEMORY + 0x1000, 10)], 0x08_02_0000_0006);
}

fn overlap_devices(c: &mut Case) {
    c.its_placed(1);
    let mut two = |first: (u64, u64), second: (u64, u64), want: i64| {
        c.explain(&[dev(2, 3, first.0, first.1), dev(5, 0, second.0, second.1)], want);
    };
    two((ITT, 5), (ITT, 5), 0x08_02_0000_0005);
    two((ITT, 6), (ITT + 0x100, 5), 0x08_02_0000_0005);
    two((ITT + 0x100, 5), (ITT, 6), 0x08_02_0000_0005);
    two((ITT, 9), (ITT + 0x100, 1), 0x08_02_0000_0005);
    two((ITT + 0x100, 1), (ITT, 9), 0x08_02_0000_0005);
    two((ITT, 5), (ITT + 0x100, 5), 0);
    two((ITT + 0x100, 5), (ITT, 5), 0);
    // Not the one right before alone.
    let three = |third: u64| [dev(0, 1, ITT, 5), dev(1, 1, ITT + 0x100, 5), dev(2, 0, third, 5)];
    c.explain(&three(ITT), 0x08_02_0000_0002);
    c.explain(&three(ITT + 0x100), 0x08_02_0000_0002);
    c.explain(&three(ITT + 0x200), 0);
    c.explain(&and(&devs(32), &[dev(31, 0, ITT, 1)]), 0x08_02_0000_001f);
    // One that is not read is over nothing.
    c.explain(&[dev(0, 2, ITT, 5), dev(1, 1, ITT, 5), dev(2, 0, ITT + 0x100, 5)], 0);
    c.explain(&[dev(0, 0, ITT, 5), dev(1, 0, ITT, 5)], 0);
}

/// Collection 7, and the device with an ITT of 2^bits entries, in which the events stand by number.
pub fn events_of(id: u64, bits: u64, events: &[Entry]) -> Vec<Entry> {
    let rows: Vec<Entry> = events.iter().map(|(number, entry)| (ITT + 8 * number, *entry)).collect();
    and(&[coll(0, 7, 1), dev(id, 0, ITT, bits)], &rows)
}

fn lpi(c: &mut Case) {
    c.its_placed(1);
    for lpi in [8192, 65_535] {
        c.explain(&events_of(3, 3, &[(1, event(0, lpi, 7))]), 0);
    }
    for lpi in [1, 8191, 65_536, 65_537, 8192 | 1 << 16, 8192 | 1 << 24, 8192 | 1 << 31, 0xffff_ffff] {
        c.explain(&events_of(3, 3, &[(1, event(0, lpi, 7))]), 0x09_03_0003_0001);
    }
    c.explain(&events_of(0, 3, &[(0, event(7, 8192, 7)), (7, event(0, 8191, 7))]), 0x09_03_0000_0007);
}

fn event_next(c: &mut Case) {
    c.its_placed(1);
    let mut check = |events: &[Entry], want: i64| {
        let rows: Vec<Entry> = events.iter().map(|(number, next)| (*number, event(*next, 8192, 7))).collect();
        c.explain(&events_of(9, 3, &rows), want);
    };
    check(&[(0, 7), (7, 0)], 0);
    check(&[(5, 1)], 0x04_03_0009_0005);
    check(&[(5, 3)], 0x04_03_0009_0005);
    check(&[(7, 1)], 0x04_03_0009_0007);
    check(&[(2, 2), (5, 0)], 0x04_03_0009_0002);
    check(&[(0, 3), (3, 1), (5, 0)], 0x04_03_0009_0003);
    check(&[(0, 3), (3, 2), (5, 3)], 0x04_03_0009_0005);
    // The entry behind the ITT is valid, but not in it.
    check(&[(1, 7), (8, 0)], 0x04_03_0009_0001);
    check(&[(7, 65_535)], 0x04_03_0009_0007);
}

fn long_event_next(c: &mut Case) {
    c.its_placed(1);
    let itt = MEMORY + 0x8_0000;
    let mut check = |bits: u64, events: &[Entry], want: i64| {
        let rows: Vec<Entry> = events.iter().map(|(n, next)| (itt + 8 * n, event(*next, 8192, 7))).collect();
        c.explain(&and(&[coll(0, 7, 1), dev(2, 0, itt, bits)], &rows), want);
    };
    check(16, &[(0, 16_383), (16_383, 0)], 0);
    check(16, &[(0, 65_535), (65_535, 0)], 0);
    // No cap: from a blank landing nothing is searched.
    check(16, &[(0, 16_383), (16_384, 0)], 0x04_03_0002_0000);
    check(16, &[(5, 16_383), (65_535, 0)], 0x04_03_0002_0005);
    check(16, &[(0, 16_382), (16_383, 0)], 0x04_03_0002_0000);
    check(16, &[(0, 65_535), (65_534, 0)], 0x04_03_0002_0000);
    check(16, &[(1, 65_535)], 0x04_03_0002_0001);
    check(16, &[(0, 20_000), (20_000, 16_383)], 0x04_03_0002_4e20);
    check(15, &[(0, 65_535)], 0x04_03_0002_0000);
    check(15, &[(0, 32_767), (32_767, 1)], 0x04_03_0002_7fff);
}

fn icid(c: &mut Case) {
    c.its_placed(1);
    for icid in [0, 6, 8, 7 + 256, 7 + 32_768, 65_535] {
        c.explain(&events_of(3, 3, &[(0, event(0, 8192, icid))]), 0x0a_03_0003_0000);
    }
    c.explain(&events_of(3, 3, &[(0, event(4, 8192, 7)), (4, event(0, 8192, 8))]), 0x0a_03_0003_0004);
    let named = events_of(3, 3, &[(2, event(0, 8192, 115))]);
    c.explain(&and(&named, &colls(15)), 0x0a_03_0003_0002);
    c.explain(&and(&named, &colls(16)), 0);
    c.explain(&and(&named, &[(COLLECTIONS + 8, collection(115, 1) ^ 1 << 63)]), 0x0a_03_0003_0002);
    c.explain(&[dev(3, 0, ITT, 3), (ITT, event(0, 8192, 0))], 0x0a_03_0003_0000);
}

/// So many events in a row, from entry `from` of the ITT on.
fn row_of(itt: u64, from: u64, count: u64) -> Vec<Entry> {
    let next = |n: u64| (n + 1 < count) as u64;
    (0..count).map(|n| (itt + 8 * (from + n), event(next(n), 8192 + n, 7))).collect()
}

fn thousandth(c: &mut Case) {
    c.its_placed(1);
    let base = [coll(0, 7, 1), dev(3, 0, ITT, 12)];
    c.explain(&and(&base, &row_of(ITT, 0, 1024)), 0);
    for count in [1025, 1026, 2000] {
        c.explain(&and(&base, &row_of(ITT, 0, count)), 0x0b_03_0003_0400);
    }
    c.explain(&and(&base, &row_of(ITT, 1000, 1025)), 0x0b_03_0003_07e8);
    // 1,025 valid entries of which 1,024 are read.
    let jump = [(ITT, event(2, 8192, 7))];
    c.explain(&and(&and(&base, &row_of(ITT, 0, 1025)), &jump), 0);
    c.explain(&and(&and(&base, &row_of(ITT, 0, 1026)), &jump), 0x0b_03_0003_0401);
}

/// Devices 0, 5 and 6 with ITTs of 1,024 entries, each with so many events from entry 3 on.
pub fn three_with(counts: [u64; 3]) -> Vec<Entry> {
    let itts = [ITT, ITT + 0x2000, ITT + 0x4000];
    let mut rows = vec![coll(0, 7, 1), dev(0, 5, itts[0], 10), dev(5, 1, itts[1], 10), dev(6, 0, itts[2], 10)];
    rows.extend(itts.iter().zip(counts).flat_map(|(itt, count)| row_of(*itt, 3, count)));
    rows
}

fn thousandth_over_devices(c: &mut Case) {
    c.its_placed(1);
    c.explain(&three_with([512, 512, 0]), 0);
    c.explain(&three_with([1000, 0, 24]), 0);
    c.explain(&three_with([512, 511, 1]), 0);
    c.explain(&three_with([512, 512, 1]), 0x0b_03_0006_0003);
    c.explain(&three_with([1000, 0, 25]), 0x0b_03_0006_001b);
    c.explain(&three_with([1000, 25, 0]), 0x0b_03_0005_001b);
    c.explain(&three_with([1, 1020, 9]), 0x0b_03_0006_0006);
    c.explain(&three_with([1020, 1020, 1020]), 0x0b_03_0005_0007);
}

fn jumped_over(c: &mut Case) {
    c.its_placed(1);
    for junk in [u64::MAX, good(5, 1).1, dev(5, 0, 0, 5).1, dev(5, 0, ITT, 17).1, dev(5, 0, DEVICES, 5).1] {
        c.explain(&[good(0, 7), (DEVICES + 40, junk), good(7, 0)], 0);
        c.explain(&[good(0, 7), (DEVICES + 40, junk), good(7, 1)], 0x04_02_0000_0007);
        c.explain(&[good(0, 5), (DEVICES + 40, junk | 1 << 61), good(7, 0)], 0x04_02_0000_0005);
    }
    for junk in [u64::MAX, event(1, 8192, 7), event(0, 1, 7), event(0, 65_536, 7), event(0, 8192, 8)] {
        let rows = [(0, event(6, 8192, 7)), (3, junk), (6, event(0, 8192, 7))];
        c.explain(&events_of(4, 3, &rows), 0);
        c.explain(&events_of(4, 3, &[rows[0], rows[1], (6, event(0, 1, 7))]), 0x09_03_0004_0006);
    }
}

fn behind_the_last(c: &mut Case) {
    c.its_placed(1);
    for junk in [u64::MAX, good(5, 1).1, dev(5, 0, 0, 5).1, dev(5, 0, ITT, 17).1, dev(5, 0, DEVICES, 5).1] {
        c.explain(&[good(0, 2), good(2, 0), (DEVICES + 40, junk), (DEVICES + 8 * 511, junk)], 0);
    }
    for junk in [u64::MAX, event(1, 8192, 7), event(0, 1, 7), event(0, 65_536, 7), event(0, 8192, 8)] {
        let rows = [(0, event(2, 8192, 7)), (2, event(0, 8192, 7)), (3, junk), (7, junk)];
        c.explain(&events_of(4, 3, &rows), 0);
    }
    let many: Vec<Entry> = (3..40).map(|id| good(id, 1)).collect();
    c.explain(&and(&[good(0, 2), good(2, 0)], &many), 0);
}

fn first_valid(c: &mut Case) {
    c.its_placed(1);
    c.explain(&[(DEVICES, u64::MAX >> 1), good(511, 0)], 0);
    c.explain(&[(DEVICES, u64::MAX >> 1), good(300, 1)], 0x04_02_0000_012c);
    // A left-over entry below the others is the first.
    c.explain(&[good(1, 0), good(4, 1)], 0);
    c.explain(&[good(1, 2), good(4, 0)], 0x04_02_0000_0001);
    c.explain(&events_of(4, 3, &[(0, event(65_535, 0, 9)), (5, event(0, 1, 7))]), 0x09_03_0004_0005);
    c.explain(&events_of(4, 3, &[(1, event(0, 8192, 7)), (5, event(0, 1, 7))]), 0);
    for behind in [8, 9, 31] {
        c.explain(&events_of(4, 3, &[(behind, event(0, 1, 7))]), 0);
    }
    // The collection table lies behind the device table, but its first entry is none of it.
    c.explain(&[coll(0, 7, 1)], 0);
}

fn valid_nonsense(c: &mut Case) {
    c.its_placed(1);
    c.explain(&[dev(0, 1, 0, 5), (DEVICES + 8, u64::MAX)], 0x07_02_0000_0000);
    c.explain(&[good(0, 1), (DEVICES + 8, u64::MAX)], 0x04_02_0000_0001);
    c.explain(&[good(0, 1), (DEVICES + 8, u64::MAX >> 1)], 0x04_02_0000_0000);
    c.explain(&[dev(0, 2, ITT, 17), good(2, 0)], 0x05_02_0000_0000);
    c.explain(&events_of(4, 3, &[(0, event(1, 8192, 7)), (1, u64::MAX)]), 0x09_03_0004_0001);
    c.explain(&events_of(4, 3, &[(0, event(1, 8192, 7)), (1, 0xffff_0000_0000_ffff)]), 0x04_03_0004_0000);
    let ones = image(&[]).bytes.iter().map(|_| 0xff).collect::<Vec<u8>>();
    c.explain_in(&ones, 0x01_01_0000_0000);
}

/// 2 MiB: a device table of 65,536 entries, and behind the collection table room for an ITT of 16 bits.
fn placed_widest(c: &mut Case) -> impl Fn(&[Entry]) -> Vec<u8> {
    c.setup(40, MEMORY, 2 * LENGTH as u64, 0);
    c.its_ready();
    c.place(MEMORY, 128, MEMORY + 0x8_0000, 1, 0);
    |entries: &[Entry]| {
        let mut memory = image(&[]);
        memory.bytes.resize(2 * LENGTH, 0);
        memory.put(MEMORY + 0x8_0000, collection(7, 1));
        entries.iter().for_each(|(address, entry)| memory.put(*address, *entry));
        memory.bytes
    }
}

/// The ITT in `placed_widest`.
const WIDEST: u64 = MEMORY + 0x10_0000;

fn highest(c: &mut Case) {
    let memory = placed_widest(c);
    let last = WIDEST + 8 * 65_535;
    let mut check = |rows: &[Entry], want: i64| c.explain_in(&memory(rows), want);
    check(&[dev(65_535, 0, WIDEST, 16), (last, event(0, 8192, 7))], 0);
    check(&[dev(65_535, 1, WIDEST, 16)], 0x04_02_0000_ffff);
    check(&[dev(65_535, 0, WIDEST, 17)], 0x05_02_0000_ffff);
    check(&[dev(65_535, 0, 0, 16)], 0x07_02_0000_ffff);
    check(&[dev(65_535, 0, MEMORY, 16)], 0x08_02_0000_ffff);
    check(&[dev(65_535, 0, WIDEST, 16), (last, event(0, 1, 7))], 0x09_03_ffff_ffff);
    check(&[dev(65_535, 0, WIDEST, 16), (last, event(1, 8192, 7))], 0x04_03_ffff_ffff);
    check(&[dev(65_535, 0, WIDEST, 16), (last, event(0, 8192, 8))], 0x0a_03_ffff_ffff);
    let many = [vec![dev(65_535, 0, WIDEST, 16)], row_of(WIDEST, 64_511, 1025)].concat();
    check(&many, 0x0b_03_ffff_ffff);
}

fn parts_of_a_code(c: &mut Case) {
    let memory = placed_widest(c);
    for (id, number, place) in [
        (0, 1, 0x0000_0001),
        (1, 0, 0x0001_0000),
        (1, 65_535, 0x0001_ffff),
        (65_535, 1, 0xffff_0001),
        (0x1234, 0x8765, 0x1234_8765),
        (0x8000, 0x0100, 0x8000_0100),
    ] {
        let rows = |entry: u64| memory(&[dev(id, 0, WIDEST, 16), (WIDEST + 8 * number, entry)]);
        c.explain_in(&rows(event(0, 1, 7)), 0x09_03_0000_0000 | place);
        c.explain_in(&rows(event(65_535, 8192, 7)), 0x04_03_0000_0000 | place);
        c.explain_in(&rows(event(0, 8192, 8)), 0x0a_03_0000_0000 | place);
    }
    for (id, place) in [(1, 1), (255, 0xff), (256, 0x100), (0x1234, 0x1234), (0x8000, 0x8000)] {
        c.explain_in(&memory(&[dev(id, 0, 0, 5)]), 0x07_02_0000_0000 | place);
    }
}

fn what_decides(c: &mut Case) {
    c.its_placed(1);
    c.explain(&SAMPLE, 0);
    // Another p, other affinities and frames.
    c.setup(52, MEMORY, LENGTH as u64, 0);
    (6..10).rev().for_each(|affinity| c.add(affinity, 0));
    c.base(2, MEMORY, 0);
    c.region(0, 0x1000_0000, 9, 0);
    c.its_base(0x3000_0000, 0);
    c.init(0);
    c.its_init(0);
    c.place(DEVICES, 1, COLLECTIONS, 1, 0);
    c.explain(&SAMPLE, 0);
    // One VCPU fewer than the pe needs.
    c.setup(40, MEMORY, LENGTH as u64, 0);
    c.ready(1);
    c.its_base(0x0900_0000, 0);
    c.its_init(0);
    c.place(DEVICES, 1, COLLECTIONS, 1, 0);
    c.explain(&SAMPLE, 0x01_01_0000_0000);
    // The two tables in each other's place: the device's entry is read as a collection's, with a pe of 2,048.
    c.reset(0);
    c.place(COLLECTIONS, 1, DEVICES, 1, 0);
    c.explain(&SAMPLE, 0x01_01_0000_0000);
    // Another start of memory: the ITT does not lie in it.
    let start = MEMORY + 0x1000_0000;
    c.setup(40, start, LENGTH as u64, 0);
    c.its_ready();
    c.place(start, 1, start + 0x1000, 1, 0);
    c.explain(&SAMPLE, 0x07_02_0000_0000);
}

fn examples(c: &mut Case) {
    c.setup(40, MEMORY, 0x4000, 0);
    c.its_placed(1);
    let mut check = |more: &[Entry], want: i64| c.explain_in(&image(&and(&SAMPLE, more)).bytes[..0x4000], want);
    check(&[], 0);
    check(&[(DEVICES, 0x8006_0000_0800_0404)], 0x04_02_0000_0000);
    check(&[(ITT + 8, event(0, 8192, 8))], 0x0a_03_0000_0001);
}

/// The states of `states`: what is changed in a sound one, and its length.
fn bad_states(sound: &[u8]) -> [(&'static str, Vec<u8>, i64); 10] {
    let cut = |length: usize, bytes: &[u8]| {
        let mut bytes = bytes.to_vec();
        bytes.resize(length, 0);
        bytes
    };
    let put = |field: layout::Field, number: u64| {
        let mut bytes = sound.to_vec();
        field.put(&mut bytes, number);
        bytes
    };
    let length = sound.len();
    let unsound = put(layout::WIDTH, 0);
    [
        ("no state at all", vec![], -14),
        ("a state that is one byte short", cut(length - 1, sound), -14),
        ("a state that is one byte long", cut(length + 1, sound), -14),
        ("a state that is short and not sound", cut(length - 8, &unsound), -14),
        ("a width of 0", unsound, -22),
        ("running is 2", put(layout::RUNNING, 2), -22),
        ("96 interrupts that were never set", put(layout::IRQS, 96), -22),
        ("1,024 interrupts that were never set", put(layout::IRQS, 1024), -22),
        ("ITS INIT is 0 and the tables are placed", put(layout::ITS_INIT, 0), -22),
        ("1,025 events", put(layout::EVENTS.count, 1025), -22),
    ]
}

/// §13.2, §1.3: the tests of the state come first, whatever memory is lent. For the library alone: the model has no
/// bytes.
pub fn states(report: &mut Report) {
    let mut library = Library::new(&vec![0x5a; Library::len()]);
    let mut case = Case::new(&mut library);
    case.setup(40, MEMORY, 0x4000, 0);
    case.its_placed(1);
    for (what, bytes, want) in bad_states(library.state.content()) {
        for memory in [vec![0; 0x4000], vec![0xff; 0x4000], vec![], vec![0; 0x3fff]] {
            let title = format!("directed library: §13.2, §1.3 {what}, memory of {} bytes", memory.len());
            match refused(&bytes, memory, want) {
                None => report.pass(1),
                Some(note) => report.fail(Kind::DirectedLibrary, &title, &note),
            }
        }
    }
}

/// What is wrong with explain's answer on this state, if anything is.
fn refused(bytes: &[u8], mut memory: Vec<u8>, want: i64) -> Option<String> {
    trace::asked(bytes, &Call::Explain, &memory);
    trace::expected(want, &memory, bytes);
    let mut complaints = Vec::new();
    let answer = Library::new(bytes).call(&Call::Explain, &mut memory, &mut complaints);
    if answer != want {
        complaints.push(format!("answered {answer}, expected {want}"));
    }
    complaints.into_iter().next()
}
