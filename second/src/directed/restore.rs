//! Parts 8 and 9: what bytes describe, and restore.

use super::case::Case;
use super::its::MEMORY;
use super::save::Memory;
use crate::call::Call;

pub const CASES: &[(&str, fn(&mut Case))] = &[
    ("§9.1 restore: length of memory -14, then -6, then running -16", refusals),
    ("§12.10, §9.2 tables of zeros are the empty mapping", empty),
    ("§11.4, §9.2 the example", sample),
    ("§9.2 restore replaces the mapping; a refused one keeps it", replaces),
    ("§9.4, §9.3 collections: pe and repeat -22, a 17th -12, all before devices", collections),
    ("§8.2, §8.8, §6.3 collections: bits [62:52] are not read, nor what stands behind a blank", collections_unread),
    ("§8.2, §9.4 a collection table without a blank entry is refused", collections_full),
    ("§9.6 device next: past the table, onto a blank, to nothing", device_next),
    ("§9.6, §8.5, §12.8 device next at the cap: exact, searched on, and past the end", device_cap),
    ("§8.8 entries jumped over or behind the last are not read", unread),
    ("§8.3, §9.6 the first device is the lowest valid entry", first_device),
    ("§9.5, §8.7 device: next, bits, 33rd, not inside, overlap, in this order", device_order),
    ("§9.5 33 devices: -12, or -22 where the 33rd has a bad next", device_limit),
    ("§9.7, §8.7, §12.9 events: LPI, next, ICID", event_order),
    ("§9.6, §9.7 event next of 65,535: to event 65,535, onto a blank, past the end", widest_next),
    ("§9.6, §8.6 event next of 16,383: from a blank landing nothing is searched", no_search),
    ("§9.6 event next: valid entries behind the ITT are not in it", behind_the_itt),
    ("§9.6, §12.7 devices and events 20,000 apart: the cap is the device table's alone", devices_alone),
    ("§9.3 the events of a device come before the following device", event_before_device),
    ("§9.7 1,024 events come back, 1,025 are -12", event_limit),
    ("§6.3, §6.4 all bits of pe and LPI are compared", wide),
    ("§10.8, §8.4, §8.6 what was saved comes back, whatever stood elsewhere", round_trip),
    ("§10.8, §7.2, §8.6 events up to 65,535 apart come back, over entries that are not read", far_round_trip),
    ("§6.5, §9.6 an entry that no mapping can have is valid", valid_nonsense),
    ("§8.1 what bytes describe depends on memory, tables and VCPUs alone", nothing_else),
    ("§9.8 damage that still describes a mapping is restored", lost_quietly),
    ("§1.17, §10.8 save and restore of a guest whose count of 256 was never set: it is kept", former_count),
    ("§1.17, §8.1 a mapping comes back whatever the two counts are, and each guest keeps its own", former_and_fresh),
];

pub const LENGTH: usize = 0x10_0000;
pub const DEVICES: u64 = MEMORY;
pub const COLLECTIONS: u64 = MEMORY + 0x1000;
pub const ITT: u64 = MEMORY + 0x2000;

/// A device entry with V set: next, ITT address, bits - 1.
pub fn device(next: u64, itt: u64, size: u64) -> u64 {
    1 << 63 | next << 49 | itt >> 8 << 5 | size
}

pub fn collection(icid: u64, pe: u64) -> u64 {
    1 << 63 | pe << 16 | icid
}

pub fn event(next: u64, lpi: u64, icid: u64) -> u64 {
    next << 48 | lpi << 16 | icid
}

/// Zeroed memory with entries at their addresses.
pub fn image(entries: &[(u64, u64)]) -> Memory {
    let mut memory = Memory { bytes: vec![0; LENGTH], start: MEMORY };
    entries.iter().for_each(|(address, entry)| memory.put(*address, *entry));
    memory
}

impl Case<'_> {
    fn restore(&mut self, entries: &[(u64, u64)], want: i64) {
        self.lent(Call::Restore, &image(entries).bytes, want);
    }
}

fn refusals(c: &mut Case) {
    let no_restore = |c: &mut Case, length: usize, want: i64| {
        c.lent(Call::Restore, &vec![0; length], want);
    };
    no_restore(c, 0, -14);
    no_restore(c, LENGTH, -6);
    c.its_ready();
    no_restore(c, LENGTH - 1, -14);
    no_restore(c, LENGTH, -6);
    c.start(0);
    no_restore(c, LENGTH, -6);
    c.place(DEVICES, 1, COLLECTIONS, 1, 0);
    no_restore(c, LENGTH + 8, -14);
    no_restore(c, LENGTH, -16);
    c.stop(0);
    no_restore(c, LENGTH, 0);
}

fn empty(c: &mut Case) {
    c.its_placed(1);
    c.collection(7, 1, 0);
    c.device(0, ITT, 5, 0);
    c.event(0, 1, 8192, 7, 0);
    c.restore(&[], 0);
    c.lookup(0, 1, -2);
    c.no_device(0, -2);
    c.no_collection(7, -2);
    // The tables stay placed.
    c.device(0, ITT, 5, 0);
}

pub const SAMPLE: [(u64, u64); 3] =
    [(DEVICES, 0x8000_0000_0800_0404), (COLLECTIONS, 0x8000_0000_0001_0007), (ITT + 8, 0x0000_0000_2000_0007)];

fn sample(c: &mut Case) {
    c.its_placed(1);
    c.restore(&SAMPLE, 0);
    c.lookup(0, 1, 8192 + 65_536);
    c.lookup(0, 0, -2);
    c.lookup(1, 1, -2);
    c.device(0, ITT, 5, -17);
    c.no_collection(7, -22);
    c.event(0, 31, 8192, 7, 0);
    c.event(0, 32, 8192, 7, -22);
}

fn replaces(c: &mut Case) {
    c.its_placed(1);
    c.collection(9, 2, 0);
    c.device(0, ITT, 4, 0);
    c.device(9, ITT + 0x100, 4, 0);
    c.event(9, 1, 9000, 9, 0);
    c.restore(&[(COLLECTIONS, collection(7, 4))], -22);
    c.restore(&[(COLLECTIONS, collection(7, 1)), (DEVICES, device(1, ITT, 4))], -22);
    c.lookup(9, 1, 9000 + 2 * 65_536);
    c.restore(&SAMPLE, 0);
    c.lookup(9, 1, -2);
    c.no_device(9, -2);
    c.no_collection(9, -2);
    c.lookup(0, 1, 8192 + 65_536);
}

fn collections(c: &mut Case) {
    c.its_placed(1);
    let row = |n: u64, icid: u64, pe: u64| (COLLECTIONS + 8 * n, collection(icid, pe));
    c.restore(&[row(0, 7, 4)], -22);
    c.restore(&[row(0, 7, 3), row(1, 8, 4)], -22);
    c.restore(&[row(0, 7, 1), row(1, 8, 1), row(2, 7, 2)], -22);
    let mut rows: Vec<(u64, u64)> = (0..16).map(|n| row(n, 100 - n, n % 4)).collect();
    c.restore(&rows, 0);
    c.no_collection(85, 0);
    rows.push(row(16, 5, 0));
    c.restore(&rows, -12);
    rows[16] = row(16, 5, 4);
    c.restore(&rows, -22);
    rows[16] = row(16, 100, 0);
    c.restore(&rows, -22);
    // The device would be -14, but collections come first.
    c.restore(&[row(0, 7, 4), (DEVICES, device(0, 0, 4))], -22);
    rows[16] = row(16, 5, 0);
    rows.push((DEVICES, device(0, 0, 4)));
    c.restore(&rows, -12);
}

fn collections_unread(c: &mut Case) {
    c.its_placed(1);
    c.restore(&[(COLLECTIONS, collection(7, 1) | 0x7ff << 52)], 0);
    c.no_collection(7, 0);
    let after_clear = [(COLLECTIONS, collection(7, 1)), (COLLECTIONS + 16, collection(8, 99))];
    c.restore(&after_clear, 0);
    c.no_collection(8, -2);
    c.no_collection(7, 0);
    c.restore(&[(COLLECTIONS, collection(7, 1) ^ 1 << 63), (COLLECTIONS + 8, collection(8, 1))], 0);
    c.no_collection(7, -2);
    c.no_collection(8, -2);
}

fn collections_full(c: &mut Case) {
    c.its_placed(1);
    let rows: Vec<(u64, u64)> = (0..512).map(|n| (COLLECTIONS + 8 * n, collection(n, 0))).collect();
    c.restore(&rows, -12);
}

fn device_next(c: &mut Case) {
    c.its_placed(1);
    let row = |id: u64, next: u64| (DEVICES + 8 * id, device(next, ITT + 0x100 * (id % 8), 4));
    c.restore(&[row(0, 0)], 0);
    c.restore(&[row(0, 1)], -22);
    c.restore(&[row(0, 1), row(1, 0)], 0);
    c.restore(&[row(0, 1), row(2, 0)], -22);
    c.restore(&[row(0, 511), row(511, 0)], 0);
    c.restore(&[row(0, 512)], -22);
    c.restore(&[row(511, 0)], 0);
    c.restore(&[row(511, 1)], -22);
    c.restore(&[row(510, 1), row(511, 16_383)], -22);
    c.restore(&[row(0, 16_382)], -22);
    c.restore(&[row(0, 16_383)], -22);
    c.restore(&[row(0, 1), row(1, 1), row(2, 1)], -22);
}

/// A device table of 64 pages, 32,768 entries.
pub fn placed_wide(c: &mut Case) {
    c.setup(40, MEMORY, 0x10_0000, 0);
    c.its_ready();
    c.place(MEMORY + 0x2_0000, 64, MEMORY, 1, 0);
}

fn device_cap(c: &mut Case) {
    placed_wide(c);
    let row = |id: u64, next: u64| (MEMORY + 0x2_0000 + 8 * id, device(next, ITT + 0x100 * (id % 8), 4));
    c.restore(&[row(0, 16_382)], -22);
    c.restore(&[row(0, 16_382), row(16_383, 0)], -22);
    c.restore(&[row(0, 16_382), row(20_001, 0)], -22);
    c.restore(&[row(0, 16_382), row(16_382, 0)], 0);
    c.restore(&[row(0, 16_383), row(16_383, 0)], 0);
    c.restore(&[row(0, 16_383), row(20_001, 0)], 0);
    c.no_device(20_001, 0);
    // The landing itself is valid: it follows, and the one after it is not reached.
    c.restore(&[row(0, 16_383), row(16_383, 0), row(20_001, 0)], 0);
    c.no_device(20_001, -2);
    c.restore(&[row(0, 16_383)], -22);
    c.restore(&[row(0, 16_383), row(16_382, 0)], -22);
    c.restore(&[row(0, 16_383), row(32_767, 0)], 0);
    c.restore(&[row(0, 16_383), row(16_391, 16_383), row(32_774, 0)], -22);
    c.restore(&[row(0, 16_383), row(16_385, 16_382), row(32_767, 0)], 0);
    c.restore(&[row(0, 16_383), row(16_385, 16_381), row(32_767, 0)], -22);
    c.restore(&[row(16_384, 16_383), row(32_767, 0)], 0);
    c.restore(&[row(16_385, 16_383), row(32_767, 0)], -22);
    c.restore(&[row(3, 16_383), row(20_000, 1), row(20_001, 0)], 0);
}

fn unread(c: &mut Case) {
    c.its_placed(1);
    let row = |id: u64, next: u64| (DEVICES + 8 * id, device(next, ITT + 0x100 * (id % 8), 4));
    let junk = device(5, 0, 31);
    // Between 0 and 3 entry 1 is jumped over; after 3 nothing is read.
    c.restore(&[row(0, 3), (DEVICES + 8, junk), row(3, 0), (DEVICES + 40, junk)], 0);
    c.no_device(1, -2);
    c.no_device(5, -2);
    // Fields of blank entries are not read.
    c.restore(&[(DEVICES, junk ^ 1 << 63), row(1, 0)], 0);
    let blank_event = event(77, 0, 9);
    c.restore(&[row(0, 0), (ITT + 8, blank_event), (COLLECTIONS, collection(7, 1)), (ITT + 16, event(0, 8192, 7))], 0);
    c.lookup(0, 2, 8192 + 65_536);
    c.lookup(0, 1, -2);
    let rows = [row(0, 0), (COLLECTIONS, collection(7, 1)), (ITT, event(2, 8192, 7)), (ITT + 8, event(9, 5, 3))];
    c.restore(&[&rows[..], &[(ITT + 16, event(0, 8193, 7)), (ITT + 24, event(9, 5, 3))]].concat(), 0);
    c.lookup(0, 1, -2);
    c.lookup(0, 2, 8193 + 65_536);
}

fn first_device(c: &mut Case) {
    c.its_placed(1);
    let row = |id: u64, next: u64| (DEVICES + 8 * id, device(next, ITT + 0x100 * (id % 8), 4));
    // A stale entry below the first device is a device of its own: its next ends the table.
    c.restore(&[row(2, 0), row(5, 0)], 0);
    c.no_device(5, -2);
    c.no_device(2, 0);
    c.restore(&[row(2, 3), row(5, 0)], 0);
    c.no_device(5, 0);
    // Not as for collections: a blank first entry ends nothing.
    c.restore(&[row(511, 0)], 0);
    c.no_device(511, 0);
    // An entry with impossible fields is valid as a first one.
    c.restore(&[(DEVICES, device(2, ITT, 16)), row(2, 0)], -22);
}

fn device_order(c: &mut Case) {
    c.its_placed(1);
    for size in [16, 17, 31] {
        c.restore(&[(DEVICES, device(0, ITT, size))], -22);
    }
    c.restore(&[(DEVICES, device(0, MEMORY + 0x8_0000, 15))], 0);
    for itt in [0, MEMORY - 0x100, MEMORY + LENGTH as u64, 0xf_ffff_ffff_ff00] {
        c.restore(&[(DEVICES, device(0, itt, 4))], -14);
        c.restore(&[(DEVICES, device(1, itt, 4))], -22);
        c.restore(&[(DEVICES, device(0, itt, 16))], -22);
    }
    c.restore(&[(DEVICES, device(0, MEMORY + 0xf_ff00, 4))], 0);
    c.restore(&[(DEVICES, device(0, MEMORY + 0xf_ff00, 5))], -14);
    for itt in [DEVICES, DEVICES + 0xf00, COLLECTIONS, COLLECTIONS + 0xf00] {
        c.restore(&[(DEVICES, device(0, itt, 0))], -22);
    }
    c.restore(&[(DEVICES, device(1, ITT, 5)), (DEVICES + 8, device(0, ITT + 0x100, 4))], -22);
    c.restore(&[(DEVICES, device(1, ITT + 0x100, 4)), (DEVICES + 8, device(0, ITT, 5))], -22);
    c.restore(&[(DEVICES, device(1, ITT, 4)), (DEVICES + 8, device(0, ITT + 0x100, 5))], 0);
    // The old mapping does not count.
    c.restore(&[(DEVICES, device(0, ITT + 0x100, 4))], 0);
}

fn device_limit(c: &mut Case) {
    c.its_placed(1);
    let row = |id: u64, next: u64| (DEVICES + 8 * id, device(next, ITT + 0x100 * id, 4));
    let mut rows: Vec<(u64, u64)> = (0..32).map(|id| row(id, (id < 31) as u64)).collect();
    c.restore(&rows, 0);
    c.device(40, ITT + 0x100 * 40, 4, -12);
    rows[31] = row(31, 1);
    c.restore(&rows, -22);
    rows.push(row(32, 0));
    c.restore(&rows, -12);
    rows[32] = row(32, 1);
    c.restore(&rows, -22);
    rows[32] = (DEVICES + 8 * 32, device(0, 0, 16));
    c.restore(&rows, -22);
    rows[32] = (DEVICES + 8 * 32, device(0, 0, 4));
    c.restore(&rows, -12);
}

fn event_order(c: &mut Case) {
    c.its_placed(1);
    let base = [(DEVICES, device(0, ITT, 2)), (COLLECTIONS, collection(7, 1))];
    let mut check = |events: &[(u64, u64)], want: i64| {
        let rows: Vec<(u64, u64)> = events.iter().map(|(n, entry)| (ITT + 8 * n, *entry)).collect();
        c.restore(&[&base[..], &rows].concat(), want);
    };
    for lpi in [1, 8191, 65_536, 0xffff_ffff] {
        check(&[(1, event(0, lpi, 7))], -22);
    }
    check(&[(1, event(0, 8192, 7))], 0);
    check(&[(1, event(0, 65_535, 7))], 0);
    check(&[(0, event(0, 8192, 8))], -22);
    check(&[(5, event(3, 8192, 7))], -22);
    check(&[(5, event(2, 8192, 7)), (7, event(0, 8192, 7))], 0);
    check(&[(5, event(1, 8192, 7)), (7, event(0, 8192, 7))], -22);
    check(&[(7, event(1, 8192, 7))], -22);
    check(&[(0, event(65_535, 8192, 7))], -22);
    check(&[(0, event(7, 8192, 7)), (7, event(0, 8192, 7))], 0);
}

/// A large ITT that ends with memory.
const LAST: u64 = MEMORY + 0x8_0000;

impl Case<'_> {
    /// Device 0 has an ITT at `itt` with so many bits; its events are given by number and next.
    fn restore_events(&mut self, (itt, bits): (u64, u64), events: &[(u64, u64)], want: i64) {
        let base = [(DEVICES, device(0, itt, bits - 1)), (COLLECTIONS, collection(7, 1))];
        let rows: Vec<(u64, u64)> = events.iter().map(|(n, next)| (itt + 8 * n, event(*next, 8192, 7))).collect();
        self.restore(&[&base[..], &rows].concat(), want);
    }
}

fn widest_next(c: &mut Case) {
    c.its_placed(1);
    let mut check = |events: &[(u64, u64)], want: i64| c.restore_events((LAST, 16), events, want);
    check(&[(0, 65_535), (65_535, 0)], 0);
    check(&[(0, 65_534), (65_534, 0)], 0);
    check(&[(0, 65_534), (65_534, 1), (65_535, 0)], 0);
    check(&[(1, 65_534), (65_535, 0)], 0);
    // Entry 65,535 is blank.
    check(&[(0, 65_535)], -22);
    check(&[(0, 65_535), (65_534, 0)], -22);
    check(&[(0, 65_535), (1, 0)], -22);
    check(&[(1, 65_534)], -22);
    check(&[(0, 65_534)], -22);
    check(&[(0, 65_534), (65_535, 0)], -22);
    check(&[(1, 65_534), (65_534, 0)], -22);
    // From event 1 on it leaves the ITT.
    check(&[(1, 65_535), (65_535, 0)], -22);
    check(&[(2, 65_535), (65_535, 0)], -22);
    check(&[(65_535, 65_535)], -22);
    check(&[(0, 1), (1, 65_535), (65_535, 0)], -22);
    // In an ITT of 15 bits it always does.
    c.restore_events((LAST, 15), &[(0, 65_535), (32_767, 0)], -22);
    // Blank, with every other bit set.
    let rows = [(DEVICES, device(0, LAST, 15)), (COLLECTIONS, collection(7, 1)), (LAST, event(65_535, 8192, 7))];
    c.restore(&[&rows[..], &[(LAST + 8 * 65_535, event(65_535, 0, 65_535))]].concat(), -22);
    c.restore(&[&rows[..], &[(LAST + 8 * 65_535, event(0, 65_535, 7))]].concat(), 0);
    c.lookup(0, 0, 8192 + 65_536);
    c.lookup(0, 65_535, 65_535 + 65_536);
}

fn no_search(c: &mut Case) {
    c.its_placed(1);
    let mut check = |bits: u64, events: &[(u64, u64)], want: i64| c.restore_events((LAST, bits), events, want);
    for bits in [15, 16] {
        check(bits, &[(0, 16_383), (16_383, 0)], 0);
        check(bits, &[(3, 16_383), (16_386, 0)], 0);
        check(bits, &[(0, 16_383), (16_383, 16_383), (32_766, 0)], 0);
        check(bits, &[(0, 20_000), (20_000, 0)], 0);
        // The landing is blank, and a valid entry follows near it or far from it.
        for valid in [16_384, 16_385, 20_000, 32_766, 32_767] {
            check(bits, &[(0, 16_383), (valid, 0)], -22);
        }
        check(bits, &[(0, 16_383), (16_382, 0)], -22);
        check(bits, &[(3, 16_383), (16_387, 0)], -22);
        check(bits, &[(0, 16_383), (16_383, 16_383), (32_767, 0)], -22);
        check(bits, &[(0, 16_382), (16_383, 0)], -22);
        check(bits, &[(0, 16_384), (20_000, 0)], -22);
        check(bits, &[(0, 20_000), (20_001, 0)], -22);
        check(bits, &[(0, 16_383)], -22);
    }
    check(16, &[(0, 16_383), (65_535, 0)], -22);
    check(16, &[(49_152, 16_383), (65_535, 0)], 0);
    check(16, &[(49_153, 16_383), (65_535, 0)], -22);
    check(14, &[(0, 16_383), (16_383, 0)], 0);
    check(14, &[(0, 16_383)], -22);
    check(14, &[(1, 16_383), (16_383, 0)], -22);
}

fn behind_the_itt(c: &mut Case) {
    c.its_placed(1);
    for bits in [13, 14, 15, 16] {
        let (last, behind) = ((1 << bits) - 1, 1 << bits);
        let mut check = |events: &[(u64, u64)], want: i64| c.restore_events((ITT, bits), events, want);
        check(&[(0, last), (last, 0), (behind, 0)], 0);
        check(&[(0, last), (behind, 0)], -22);
        check(&[(1, last), (behind, 0)], -22);
        check(&[(1, last), (last, 0), (behind, 0)], -22);
        check(&[(last, 1), (behind, 0)], -22);
        check(&[(0, last), (last, 1), (behind, 0)], -22);
        check(&[(behind - 2, 65_535), (behind, 0)], -22);
        check(&[(behind - 2, 16_383), (behind, 0)], -22);
    }
    // The landing is behind the ITT, and valid itself.
    c.restore_events((ITT, 14), &[(1, 16_383), (16_384, 0)], -22);
    c.restore_events((ITT, 14), &[(0, 65_535), (65_535, 0)], -22);
    c.restore_events((ITT, 16), &[(1, 65_535), (65_536, 0)], -22);
}

/// The device table of `placed_wide`; device 0 with a next of 16,383, and a second one, each with 15 bits. Device 0 has
/// event 0, with the next that is given, and event 20,000.
fn devices_alone(c: &mut Case) {
    placed_wide(c);
    let (table, itts) = (MEMORY + 0x2_0000, [MEMORY + 0x8_0000, MEMORY + 0xc_0000]);
    let rows = |next: u64, second: u64| {
        [
            (MEMORY, collection(7, 1)),
            (table, device(16_383, itts[0], 14)),
            (table + 8 * second, device(0, itts[1], 14)),
            (itts[0], event(next, 8192, 7)),
            (itts[0] + 8 * 20_000, event(0, 8193, 7)),
            (itts[1] + 8 * 9, event(0, 8194, 7)),
        ]
    };
    for second in [16_383, 20_000, 32_767] {
        c.restore(&rows(20_000, second), 0);
        c.lookup(0, 0, 8192 + 65_536);
        c.lookup(0, 20_000, 8193 + 65_536);
        c.lookup(second, 9, 8194 + 65_536);
        c.restore(&rows(16_383, second), -22);
        c.lookup(second, 9, 8194 + 65_536);
    }
    // The devices' next leads to nothing.
    c.restore(&rows(20_000, 16_382), -22);
}

fn event_before_device(c: &mut Case) {
    c.its_placed(1);
    let rows = |lpi: u64, second: u64| {
        [(DEVICES, device(1, ITT, 4)), (DEVICES + 8, second), (COLLECTIONS, collection(7, 1)), (ITT, event(0, lpi, 7))]
    };
    // The second device lies outside memory: met after the first one's events.
    c.restore(&rows(8192, device(0, 0, 4)), -14);
    c.restore(&rows(1, device(0, 0, 4)), -22);
    c.restore(&rows(8192, device(0, ITT + 0x100, 4)), 0);
}

fn event_limit(c: &mut Case) {
    c.its_placed(1);
    let second = ITT + 0x2000;
    let mut rows =
        vec![(DEVICES, device(1, ITT, 9)), (DEVICES + 8, device(0, second, 9)), (COLLECTIONS, collection(7, 2))];
    rows.extend((0..1000).map(|n| (ITT + 8 * n, event((n < 999) as u64, 8192 + n, 7))));
    rows.extend((0..24).map(|n| (second + 8 * n, event((n < 23) as u64, 20_000 + n, 7))));
    c.restore(&rows, 0);
    c.lookup(0, 999, 8192 + 999 + 2 * 65_536);
    c.lookup(1, 23, 20_023 + 2 * 65_536);
    c.event(1, 30, 8192, 7, -12);
    rows.push((second + 8 * 23, event(1, 20_023, 7)));
    rows.push((second + 8 * 24, event(0, 20_024, 7)));
    c.restore(&rows, -12);
    rows.push((second + 8 * 24, event(0, 20_024, 8)));
    c.restore(&rows, -22);
    c.lookup(1, 23, 20_023 + 2 * 65_536);
}

fn wide(c: &mut Case) {
    c.its_placed(1);
    for bit in [2, 8, 16, 31, 32, 35] {
        c.restore(&[(COLLECTIONS, collection(7, 1 | 1 << bit))], -22);
    }
    let base = [(DEVICES, device(0, ITT, 4)), (COLLECTIONS, collection(7, 1))];
    for bit in [16, 17, 24, 31] {
        c.restore(&[&base[..], &[(ITT, event(0, 8192 | 1 << bit, 7))]].concat(), -22);
    }
}

fn round_trip(c: &mut Case) {
    placed_wide(c);
    c.collection(9, 3, 0);
    c.collection(7, 1, 0);
    for (id, itt) in [(3, ITT), (20_000, ITT + 0x100), (20_001, ITT + 0x200)] {
        c.device(id, itt, 5, 0);
    }
    c.event(3, 31, 9000, 9, 0);
    c.event(20_000, 0, 8192, 7, 0);
    c.event(20_000, 5, 8192, 9, 0);
    let saved = c.lent(Call::Save, &vec![0xff; LENGTH], 0);
    c.reset(0);
    c.place(MEMORY + 0x2_0000, 64, MEMORY, 1, 0);
    c.collection(1, 1, 0);
    c.device(1, MEMORY + 0x8_0000, 3, 0);
    c.lent(Call::Restore, &saved, 0);
    c.lookup(3, 31, 9000 + 3 * 65_536);
    c.lookup(20_000, 0, 8192 + 65_536);
    c.lookup(20_000, 5, 8192 + 3 * 65_536);
    c.no_device(1, -2);
    c.no_collection(1, -2);
    c.no_device(20_001, 0);
}

/// Events by number and next, saved and restored. What a next jumps over is spoilt on the way.
fn far_round_trip(c: &mut Case) {
    let far: [&[(u64, u64)]; 4] = [
        &[(0, 65_535), (65_535, 0)],
        &[(0, 16_383), (16_383, 20_000), (36_383, 29_152), (65_535, 0)],
        &[(1, 65_534), (65_535, 0)],
        &[(0, 1), (1, 65_533), (65_534, 0)],
    ];
    for rows in far {
        c.setup(40, MEMORY, LENGTH as u64, 0);
        c.its_placed(1);
        c.collection(7, 1, 0);
        c.device(0, LAST, 16, 0);
        rows.iter().for_each(|(number, _)| c.event(0, *number, 8192, 7, 0));
        let mut entries = vec![(DEVICES, device(0, LAST, 15)), (COLLECTIONS, collection(7, 1))];
        entries.extend(rows.iter().map(|(number, next)| (LAST + 8 * number, event(*next, 8192, 7))));
        let saved = image(&entries);
        c.save(&image(&[]), &saved);
        c.no_device(0, 0);
        for junk in [u64::MAX, event(1, 8193, 7)] {
            let jumped = rows.windows(2).flat_map(|pair| pair[0].0 + 1..pair[1].0);
            entries.extend(jumped.map(|number| (LAST + 8 * number, junk)));
            c.restore(&entries, 0);
            rows.iter().for_each(|(number, _)| c.lookup(0, *number, 8192 + 65_536));
            c.lookup(0, 2, -2);
            c.save(&image(&[]), &saved);
        }
    }
}

fn valid_nonsense(c: &mut Case) {
    c.its_placed(1);
    let outside = (DEVICES, device(1, 0, 4));
    // Where its next leads to a valid entry, the first one's ITT is the fault that is met; else the next is.
    c.restore(&[outside, (DEVICES + 8, u64::MAX)], -14);
    c.restore(&[outside, (DEVICES + 8, u64::MAX >> 1)], -22);
    c.restore(&[(DEVICES, device(1, ITT, 4)), (DEVICES + 8, device(0, ITT + 0x100, 31))], -22);
    // So in an ITT: an entry with LPI 1 is not blank, and is a fault unless it is jumped over.
    let base = [(DEVICES, device(0, ITT, 4)), (COLLECTIONS, collection(7, 1))];
    let events = |next: u64| [(ITT, event(next, 8192, 7)), (ITT + 8, event(0, 1, 7)), (ITT + 16, event(0, 9000, 7))];
    c.restore(&[&base[..], &events(1)].concat(), -22);
    c.restore(&[&base[..], &events(2)].concat(), 0);
    c.lookup(0, 1, -2);
    c.lookup(0, 2, 9000 + 65_536);
    c.restore(&[&base[..], &events(1)[1..]].concat(), -22);
}

fn nothing_else(c: &mut Case) {
    c.its_placed(1);
    c.restore(&SAMPLE, 0);
    c.lookup(0, 1, 8192 + 65_536);
    // Another p, other affinities, frames, interrupts and registers, and a mapping that stands.
    c.setup(52, MEMORY, LENGTH as u64, 0);
    c.put(3, 0, 1024, 0);
    (6..10).rev().for_each(|affinity| c.add(affinity, 0));
    c.base(2, MEMORY, 0);
    c.region(0, 0x1000_0000, 1, 0);
    c.region(1, 0x2000_0000, 9, 0);
    c.its_base(0x3000_0000, 0);
    c.init(0);
    c.its_init(0);
    c.raise(1, 40, 0);
    c.put(1, 0x10, 5, 0);
    c.place(DEVICES, 1, COLLECTIONS, 1, 0);
    c.collection(7, 3, 0);
    c.device(0, ITT + 0x1000, 9, 0);
    c.event(0, 1, 9000, 7, 0);
    c.restore(&SAMPLE, 0);
    c.lookup(0, 1, 8192 + 65_536);
    // One VCPU: no pe is 1.
    c.setup(40, MEMORY, LENGTH as u64, 0);
    c.ready(1);
    c.its_base(0x0900_0000, 0);
    c.its_init(0);
    c.place(DEVICES, 1, COLLECTIONS, 1, 0);
    c.restore(&SAMPLE, -22);
    // Tables in other places: nothing stands there.
    c.setup(40, MEMORY, LENGTH as u64, 0);
    c.its_ready();
    c.place(MEMORY + 0x8000, 1, MEMORY + 0x9000, 1, 0);
    c.restore(&SAMPLE, 0);
    c.lookup(0, 1, -2);
    // Another start of memory: the ITT does not lie in it.
    let start = MEMORY + 0x1000_0000;
    c.setup(40, start, LENGTH as u64, 0);
    c.its_ready();
    c.place(start, 1, start + 0x1000, 1, 0);
    c.restore(&SAMPLE, -14);
}

fn lost_quietly(c: &mut Case) {
    c.its_placed(1);
    let second = ITT + 0x100;
    let good = [
        (DEVICES, device(1, ITT, 4)),
        (DEVICES + 8, device(0, second, 4)),
        (COLLECTIONS, collection(7, 1)),
        (ITT, event(0, 8192, 7)),
        (second, event(0, 8193, 7)),
    ];
    let (both, neither) = ([8192 + 65_536, 8193 + 65_536], [-2, -2]);
    let mut check = |change: &[(u64, u64)], want: [i64; 2]| {
        c.restore(&[&good[..], change].concat(), 0);
        c.lookup(0, 0, want[0]);
        c.lookup(1, 0, want[1]);
    };
    check(&[], both);
    check(&[(DEVICES, device(1, ITT, 4) ^ 1 << 63)], [-2, both[1]]);
    check(&[(DEVICES, device(0, ITT, 4))], [both[0], -2]);
    check(&good.map(|(address, _)| (address, 0)), neither);
}

/// Saves a mapping of two events; what memory holds then.
fn map_and_save(c: &mut Case) -> Vec<u8> {
    c.collection(7, 1, 0);
    c.device(0, ITT, 5, 0);
    c.device(20, ITT + 0x1000, 5, 0);
    c.event(0, 1, 8192, 7, 0);
    c.event(20, 31, 65_535, 7, 0);
    c.lent(Call::Save, &Memory::filled(MEMORY, LENGTH).bytes, 0)
}

/// The mapping of `map_and_save` stands, and the count is this one.
fn came_back(c: &mut Case, count: u32) {
    c.lookup(0, 1, 8192 + 65_536);
    c.lookup(20, 31, 65_535 + 65_536);
    c.word(3, 0, count);
    c.put(3, 0, 96, -16);
    let last = count as u64 - 1;
    c.raise(0, last, 0);
    c.pending(0, last, 1);
    c.raise(0, last + 1, 0);
    c.pending(0, last + 1, 0);
}

fn former_count(c: &mut Case) {
    for late in [false, true] {
        c.setup(40, MEMORY, LENGTH as u64, 0);
        if !late {
            c.become_former();
        }
        c.its_placed(1);
        c.raise(0, 40, 0);
        if late {
            c.become_former();
        }
        let saved = map_and_save(c);
        c.reset(0);
        c.lent(Call::Restore, &saved, -6);
        c.place(DEVICES, 1, COLLECTIONS, 1, 0);
        c.restore(&[], 0);
        c.lookup(0, 1, -2);
        c.restore(&[(COLLECTIONS, collection(7, 4))], -22);
        c.lent(Call::Restore, &saved, 0);
        c.pending(0, 40, 1);
        came_back(c, 256);
        c.lent(Call::Save, &saved, 0);
        c.start(0);
        c.lent(Call::Restore, &saved, -16);
        c.word(3, 0, 256);
    }
}

fn former_and_fresh(c: &mut Case) {
    c.become_former();
    c.its_placed(1);
    let saved = map_and_save(c);
    c.setup(40, MEMORY, LENGTH as u64, 0);
    c.its_placed(1);
    c.lent(Call::Restore, &saved, 0);
    came_back(c, 64);
    let saved = c.lent(Call::Save, &saved, 0);
    c.setup(40, MEMORY, LENGTH as u64, 0);
    c.become_former();
    c.its_placed(1);
    c.lent(Call::Restore, &saved, 0);
    came_back(c, 256);
}
