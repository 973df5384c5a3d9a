//! §13.9: which of two faults is earlier, at one entry and at two. Codes as in `explain`.
#![allow(clippy::unusual_byte_groupings)]

use super::case::Case;
use super::explain::{and, coll, colls, dev, devs, events_of, good, three_with, Entry};
use super::its::MEMORY;
use super::restore::{event, COLLECTIONS, DEVICES, ITT};

pub const CASES: &[super::Row] = &[
    ("§13.9 at one collection: pe, repeat, 17th", order_at_a_collection),
    ("§13.9 between collections: rising", order_of_collections),
    ("§13.9 at one device: next, size, 33rd, outside, overlap", order_at_a_device),
    ("§13.9 at the 33rd device: next and size come before, the ITT's faults behind", order_at_the_33rd),
    ("§13.9 between devices: rising, whatever the faults are", order_of_devices),
    ("§13.9 at one event: LPI, next, ICID, 1,025th", order_at_an_event),
    ("§13.9 at the 1,025th event: LPI, next and ICID come before", order_at_the_1025th),
    ("§13.9 between events: rising, whatever the faults are", order_of_events),
    ("§13.9 collections come before devices and their events", collections_first),
    ("§13.9 a device, its events, the following device", events_between_devices),
];

fn order_at_a_collection(c: &mut Case) {
    c.its_placed(1);
    c.explain(&[coll(0, 7, 1), coll(1, 7, 4)], 0x01_01_0000_0001);
    let full = colls(16);
    c.explain(&and(&full, &[coll(16, 100, 0)]), 0x02_01_0000_0010);
    c.explain(&and(&full, &[coll(16, 7, 4)]), 0x01_01_0000_0010);
    c.explain(&and(&full, &[coll(16, 100, 4)]), 0x01_01_0000_0010);
}

fn order_of_collections(c: &mut Case) {
    c.its_placed(1);
    c.explain(&[coll(0, 7, 1), coll(1, 7, 1), coll(2, 8, 4)], 0x02_01_0000_0001);
    c.explain(&[coll(0, 7, 4), coll(1, 7, 1)], 0x01_01_0000_0000);
    c.explain(&[coll(0, 7, 1), coll(1, 8, 4), coll(2, 9, 4)], 0x01_01_0000_0001);
    c.explain(&and(&colls(17), &[coll(17, 7, 4)]), 0x03_01_0000_0010);
    c.explain(&and(&colls(17), &[coll(17, 100, 0)]), 0x03_01_0000_0010);
    c.explain(&and(&colls(18), &[coll(3, 7, 4)]), 0x01_01_0000_0003);
    c.explain(&and(&colls(18), &[coll(3, 101, 0)]), 0x02_01_0000_0003);
}

/// Each two faults that can be at one entry, but for those with 33rd.
fn order_at_a_device(c: &mut Case) {
    c.its_placed(1);
    let mut alone = |next: u64, itt: u64, bits: u64, want: i64| c.explain(&[dev(0, next, itt, bits)], want);
    alone(1, ITT, 17, 0x04_02_0000_0000);
    alone(1, 0, 5, 0x04_02_0000_0000);
    alone(1, DEVICES, 5, 0x04_02_0000_0000);
    alone(0, 0, 17, 0x05_02_0000_0000);
    // 2^17 entries are all of memory: inside, and over the tables.
    alone(0, MEMORY, 17, 0x05_02_0000_0000);
    alone(0, MEMORY - 0x100, 6, 0x07_02_0000_0000);
    alone(0, COLLECTIONS, 16, 0x08_02_0000_0000);
    alone(0, MEMORY + 0x8_0000 + 0x100, 16, 0x07_02_0000_0000);
    alone(16_383, MEMORY - 0x100, 18, 0x04_02_0000_0000);
}

fn order_at_the_33rd(c: &mut Case) {
    c.its_placed(1);
    let full = devs(33);
    let mut last =
        |next: u64, itt: u64, bits: u64, want: i64| c.explain(&and(&full, &[dev(32, next, itt, bits)]), want);
    last(0, ITT + 0x2000, 5, 0x06_02_0000_0020);
    last(1, ITT + 0x2000, 5, 0x04_02_0000_0020);
    last(0, ITT + 0x2000, 17, 0x05_02_0000_0020);
    last(0, 0, 5, 0x06_02_0000_0020);
    last(0, ITT, 5, 0x06_02_0000_0020);
    last(0, DEVICES, 5, 0x06_02_0000_0020);
    last(1, 0, 17, 0x04_02_0000_0020);
    last(0, 0, 17, 0x05_02_0000_0020);
}

fn order_of_devices(c: &mut Case) {
    c.its_placed(1);
    let mut two = |first: Entry, second: Entry, want: i64| c.explain(&[first, second], want);
    two(dev(0, 1, DEVICES, 5), good(1, 1), 0x08_02_0000_0000);
    two(dev(0, 1, 0, 5), good(1, 1), 0x07_02_0000_0000);
    two(dev(0, 1, ITT, 17), good(1, 1), 0x05_02_0000_0000);
    two(good(0, 2), good(1, 1), 0x04_02_0000_0000);
    two(dev(0, 1, ITT, 5), dev(1, 1, ITT, 17), 0x04_02_0000_0001);
    two(dev(0, 1, ITT, 5), dev(1, 0, 0, 17), 0x05_02_0000_0001);
    c.explain(&and(&devs(33), &[dev(31, 1, DEVICES, 5)]), 0x08_02_0000_001f);
    c.explain(&and(&devs(34), &[dev(33, 7, 0, 17)]), 0x06_02_0000_0020);
}

/// Each two faults that can be at one entry, but for those with 1,025th.
fn order_at_an_event(c: &mut Case) {
    c.its_placed(1);
    let mut alone = |entry: u64, want: i64| c.explain(&events_of(3, 3, &[(1, entry)]), want);
    alone(event(1, 8191, 7), 0x09_03_0003_0001);
    alone(event(7, 65_536, 7), 0x09_03_0003_0001);
    alone(event(65_535, 1, 7), 0x09_03_0003_0001);
    alone(event(0, 8191, 8), 0x09_03_0003_0001);
    alone(event(1, 8192, 8), 0x04_03_0003_0001);
    alone(event(7, 8192, 8), 0x04_03_0003_0001);
    alone(event(1, 8191, 8), 0x09_03_0003_0001);
    alone(event(0, 8192, 8), 0x0a_03_0003_0001);
}

fn order_at_the_1025th(c: &mut Case) {
    c.its_placed(1);
    let rows = three_with([512, 512, 1]);
    let mut last = |entry: u64, want: i64| c.explain(&and(&rows, &[(ITT + 0x4000 + 8 * 3, entry)]), want);
    last(event(0, 8192, 7), 0x0b_03_0006_0003);
    last(event(0, 8191, 7), 0x09_03_0006_0003);
    last(event(1, 8192, 7), 0x04_03_0006_0003);
    last(event(0, 8192, 8), 0x0a_03_0006_0003);
    last(event(1, 8192, 8), 0x04_03_0006_0003);
    last(event(1, 8191, 8), 0x09_03_0006_0003);
}

fn order_of_events(c: &mut Case) {
    c.its_placed(1);
    let mut two = |first: u64, second: u64, want: i64| c.explain(&events_of(3, 3, &[(1, first), (4, second)]), want);
    two(event(3, 8192, 7), event(0, 8192, 7), 0);
    two(event(3, 8192, 8), event(0, 8191, 7), 0x0a_03_0003_0001);
    two(event(3, 8192, 8), event(1, 8192, 7), 0x0a_03_0003_0001);
    two(event(2, 8192, 7), event(0, 8191, 7), 0x04_03_0003_0001);
    two(event(3, 8191, 7), event(0, 8191, 7), 0x09_03_0003_0001);
    two(event(3, 8192, 7), event(1, 1, 8), 0x09_03_0003_0004);
    let rows = three_with([1020, 10, 1]);
    c.explain(&and(&rows, &[(ITT + 0x2000 + 8 * 6, event(1, 8192, 8))]), 0x0a_03_0005_0006);
    c.explain(&and(&rows, &[(ITT + 0x2000 + 8 * 8, event(1, 1, 8))]), 0x0b_03_0005_0007);
}

fn collections_first(c: &mut Case) {
    c.its_placed(1);
    let rows = [good(0, 1), (ITT, event(1, 1, 9))];
    c.explain(&and(&rows, &[coll(0, 7, 4)]), 0x01_01_0000_0000);
    c.explain(&and(&rows, &[coll(0, 7, 1), coll(1, 7, 1)]), 0x02_01_0000_0001);
    c.explain(&and(&rows, &colls(17)), 0x03_01_0000_0010);
    c.explain(&and(&rows, &colls(16)), 0x04_02_0000_0000);
    c.explain(&and(&colls(16), &[coll(15, 7, 4), dev(0, 0, 0, 5)]), 0x01_01_0000_000f);
    c.explain(&and(&colls(17), &[dev(0, 0, DEVICES, 17)]), 0x03_01_0000_0010);
    c.explain(&and(&colls(17), &devs(33)), 0x03_01_0000_0010);
    // Both the index and the number are lower in the device's code.
    c.explain(&and(&events_of(0, 3, &[(0, event(0, 1, 7))]), &[coll(1, 8, 4)]), 0x01_01_0000_0001);
}

/// Devices 2 and 4, each with one event.
fn events_between_devices(c: &mut Case) {
    c.its_placed(1);
    let second = ITT + 0x100;
    let base = [coll(0, 7, 1), dev(2, 2, ITT, 5), dev(4, 0, second, 5)];
    let rows = and(&base, &[(ITT + 8 * 9, event(0, 8192, 7)), (second, event(0, 8192, 7))]);
    let mut check = |more: &[Entry], want: i64| c.explain(&and(&rows, more), want);
    check(&[], 0);
    // The first one's event is bad, and so is the second one's own entry.
    for (entry, want) in [(event(0, 1, 7), 0x09), (event(1, 8192, 7), 0x04), (event(0, 8192, 8), 0x0a)] {
        let code = want << 40 | 0x03_0002_0009;
        for bad in [dev(4, 1, second, 5), dev(4, 0, second, 17), dev(4, 0, 0, 5), dev(4, 0, ITT, 5)] {
            check(&[(ITT + 8 * 9, entry), bad], code);
        }
        check(&[(ITT + 8 * 9, entry), (second, event(0, 1, 7))], code);
    }
    // The first one's own entry comes before its events.
    let event_1 = (ITT + 8 * 9, event(0, 1, 7));
    check(&[dev(2, 3, ITT, 5), event_1], 0x04_02_0000_0002);
    check(&[dev(2, 2, ITT, 17), event_1], 0x05_02_0000_0002);
    check(&[dev(2, 2, 0, 5), event_1], 0x07_02_0000_0002);
    check(&[(second, event(0, 1, 7))], 0x09_03_0004_0000);
    check(&[dev(4, 0, ITT, 5), (second, event(0, 1, 7))], 0x08_02_0000_0004);
    check(&[dev(4, 1, second, 5), (second, event(0, 1, 7))], 0x04_02_0000_0004);
}
