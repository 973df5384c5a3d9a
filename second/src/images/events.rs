//! Event entries (§6.4, §8.6, §9.6, §9.7): how many there are, where their nexts lead, LPIs and ICIDs, and entries that
//! are not read.

use super::image::{linked, Image, COLLECTIONS, ENTRIES, ROOM};
use super::Set;
use crate::model::guest::PAGE;

/// §6.4: every bit of next set.
const WIDEST: u64 = 65_535;
/// §7.2: what is the cap in the device table. Here it is a next like others.
const DEVICE_CAP: u64 = 16_383;
/// An entry with LPI 0, every other bit set: blank.
const BLANK_ONES: u64 = 0xffff_0000_0000_ffff;

/// Collections 7 and 9, and device 0 with an ITT of 2^bits blank entries.
fn table(bits: u64) -> Image {
    let pages = 2 + (8u64 << bits).div_ceil(PAGE);
    Image::blank(pages).collection(0, 7, 1).collection(1, 9, 3).device(0, 0, ROOM, bits)
}

/// The same with events by number and next: LPIs that rise from 8,192, collection 7.
fn chain(bits: u64, rows: &[(u64, u64)]) -> Image {
    let put = |image: Image, (n, (number, next)): (u64, &(u64, u64))| image.event(ROOM, *number, *next, 8192 + n, 7);
    (0..).zip(rows).fold(table(bits), put)
}

fn numbers(count: u64) -> Vec<u64> {
    (0..count).collect()
}

/// One event in an ITT of 32 entries.
fn one(lpi: u64, icid: u64) -> Image {
    table(5).event(ROOM, 1, 0, lpi, icid)
}

/// An event whose next leads to the following entry, which is still blank.
fn first_of_two() -> Image {
    table(5).event(ROOM, 1, 1, 8192, 7)
}

pub fn add(set: &mut Set) {
    set.begin("events");
    one_event(set);
    two_events(set);
    full_tables(set);
    several_devices(set);
    limit(set);
    set.begin("event-next");
    each_bit(set);
    alone(set);
    off_by_one(set);
    jumps(set);
    last_of_two(set);
    set.begin("event-fields");
    good_fields(set);
    bad_lpis(set);
    bad_icids(set);
    set.begin("event-unread");
    unread(set);
    landings(set);
}

/// §8.6.
fn one_event(set: &mut Set) {
    for (bits, number) in [(1, 0), (1, 1), (5, 0), (5, 1), (5, 31), (9, 511), (10, 1023)] {
        set.shown(&format!("one-at-{number}-of-{bits}-bits"), chain(bits, &[(number, 0)]), [2, 1, 1]);
    }
}

/// §8.6. 4,095 is the largest distance in an image.
fn two_events(set: &mut Set) {
    for (bits, first, second) in [(1, 0, 1), (5, 0, 31), (5, 1, 31), (5, 30, 31), (9, 0, 511), (12, 0, 4095)] {
        let image = chain(bits, &linked(&[first, second]));
        set.shown(&format!("two-at-{first}-and-{second}-of-{bits}-bits"), image, [2, 1, 2]);
    }
}

/// §8.6.
fn full_tables(set: &mut Set) {
    for bits in [1, 2, 3, 5, 9, 10] {
        set.shown(&format!("full-of-{bits}-bits"), chain(bits, &linked(&numbers(1 << bits))), [2, 1, 1 << bits]);
    }
    let even: Vec<u64> = (0..1024).map(|n| 2 * n).collect();
    set.shown("1024-at-every-second", chain(11, &linked(&even)), [2, 1, 1024]);
}

/// So many devices with full ITTs of 2^bits events, which lie side by side in falling order.
fn spread(devices: u64, bits: u64) -> Image {
    let size = (8 << bits).max(0x100);
    let image = Image::blank(4).collection(0, 9, 3).collection(1, 7, 1);
    linked(&numbers(devices)).into_iter().fold(image, |image, (id, next)| {
        let itt = ROOM + size * (devices - 1 - id);
        filled(image.device(id, next, itt, bits), itt, bits, 7 + id % 2 * 2)
    })
}

/// Every entry of the ITT an event, with LPIs that fall from the highest.
fn filled(image: Image, itt: u64, bits: u64, icid: u64) -> Image {
    let rows = linked(&numbers(1 << bits));
    rows.into_iter().fold(image, |image, (number, next)| image.event(itt, number, next, 65_535 - number, icid))
}

/// §8.6, §9.3.
fn several_devices(set: &mut Set) {
    set.shown("2-devices-of-2", spread(2, 1), [2, 2, 4]);
    set.shown("2-devices-of-512", spread(2, 9), [2, 2, 1024]);
    set.shown("8-devices-of-128", spread(8, 7), [2, 8, 1024]);
    set.shown("32-devices-of-2", spread(32, 1), [2, 32, 64]);
    set.shown("32-devices-of-32", spread(32, 5), [2, 32, 1024]);
}

/// §9.7: LPI, next and ICID of the 1,025th are met before the limit.
fn limit(set: &mut Set) {
    let rows = linked(&numbers(1025));
    let full = || chain(11, &rows);
    set.refused("1025", full(), -12);
    set.refused("1026", chain(11, &linked(&numbers(1026))), -12);
    set.refused("2048", chain(11, &linked(&numbers(2048))), -12);
    set.refused("1025th-lpi-8191", full().event(ROOM, 1024, 0, 8191, 7), -22);
    set.refused("1025th-next-onto-a-blank", full().event(ROOM, 1024, 1, 8192, 7), -22);
    set.refused("1025th-icid-8", full().event(ROOM, 1024, 0, 8192, 8), -22);
    set.shown("1025th-after-the-last", full().event(ROOM, 1023, 0, 8192, 7), [2, 1, 1024]);
    set.shown("1025th-jumped-over", full().event(ROOM, 0, 2, 8192, 7), [2, 1, 1024]);
    set.refused("1025-over-3-devices", one_more(8192, 7), -12);
    set.refused("1025-over-3-devices-the-last-with-icid-8", one_more(8192, 8), -22);
    set.refused("1025-over-3-devices-the-last-with-lpi-65536", one_more(65_536, 7), -22);
}

/// Two devices with 512 events each, and a third with one.
fn one_more(lpi: u64, icid: u64) -> Image {
    let third = ROOM + 2 * PAGE;
    let image = spread(2, 9).of_length(5 * PAGE);
    image.device(1, 1, ROOM, 9).device(2, 0, third, 1).event(third, 0, 0, lpi, icid)
}

/// §9.6: nothing follows event 1 of 32. Whatever its next, it lands on a blank or leaves the table.
fn each_bit(set: &mut Set) {
    for bit in 0..16 {
        set.refused(&format!("bit-{bit}"), chain(5, &[(1, 1 << bit)]), -22);
    }
}

/// §9.6, §12.9.
fn alone(set: &mut Set) {
    for (bits, number, next) in [
        (1, 0, 1),
        (1, 1, 1),
        (3, 5, 3),
        (5, 0, 31),
        (5, 0, 32),
        (5, 31, 1),
        (5, 31, WIDEST),
        (5, 0, WIDEST - 1),
        (5, 0, WIDEST),
        (9, 1, 510),
        (9, 1, 511),
        (12, 0, 4095),
        (12, 0, DEVICE_CAP),
        (12, 0, WIDEST),
        (12, 1, WIDEST),
    ] {
        let name = format!("{next}-from-{number}-of-{bits}-bits-with-nothing-after");
        set.refused(&name, chain(bits, &[(number, next)]), -22);
    }
}

/// §9.6, §9.8: events 0 and 5. Any next but 5 loses the second, and only 0 does so without a word.
fn off_by_one(set: &mut Set) {
    for next in [1, 4, 6, 32, 32 + 5, DEVICE_CAP, 32_768 + 5, WIDEST - 1, WIDEST] {
        set.refused(&format!("{next}-where-5-leads-on"), chain(5, &[(0, next), (5, 0)]), -22);
    }
    set.shown("0-too-early", chain(5, &[(0, 0), (5, 0)]), [2, 1, 1]);
}

/// §9.6, §8.8: events 0, 5 and 9, with a next of the first or of the second changed.
fn jumps(set: &mut Set) {
    let three = |first: u64, second: u64| chain(5, &[(0, first), (5, second), (9, 0)]);
    set.shown("three-right", three(5, 4), [2, 1, 3]);
    set.shown("three-first-to-third", three(9, 4), [2, 1, 2]);
    set.shown("three-first-to-third-over-a-bad-next", three(9, 3), [2, 1, 2]);
    set.shown("three-second-0", three(5, 0), [2, 1, 2]);
    set.shown("three-first-0", three(0, 4), [2, 1, 1]);
    set.refused("three-second-short", three(5, 3), -22);
    set.refused("three-second-long", three(5, 5), -22);
    set.refused("three-second-16383", three(5, DEVICE_CAP), -22);
    set.refused("three-second-65535", three(5, WIDEST), -22);
    set.refused("three-first-short", three(4, 4), -22);
}

/// §9.6.
fn last_of_two(set: &mut Set) {
    for next in [1, 26, 27, DEVICE_CAP, WIDEST - 1, WIDEST] {
        set.refused(&format!("{next}-from-the-last-of-two"), chain(5, &[(0, 5), (5, next)]), -22);
    }
    let full = || chain(9, &linked(&numbers(512)));
    set.refused("1-from-the-last-of-512", full().event(ROOM, 511, 1, 8192, 7), -22);
    set.refused("16383-in-the-middle-of-512", full().event(ROOM, 255, DEVICE_CAP, 8192, 7), -22);
    set.refused("65535-in-the-middle-of-512", full().event(ROOM, 255, WIDEST, 8192, 7), -22);
}

/// §9.7, §5.10.
fn good_fields(set: &mut Set) {
    set.shown("lpi-8192", one(8192, 7), [2, 1, 1]);
    set.shown("lpi-65535", one(65_535, 7), [2, 1, 1]);
    set.shown("icid-of-the-second-collection", one(8192, 9), [2, 1, 1]);
    set.shown("lpi-shared", first_of_two().event(ROOM, 2, 0, 8192, 9), [2, 1, 2]);
    let across = one(8192, 7).device(0, 1, ROOM, 5).device(1, 0, ROOM + 0x100, 5).event(ROOM + 0x100, 1, 0, 8192, 7);
    set.shown("lpi-shared-by-devices", across, [2, 2, 2]);
    set.shown("icid-0", one(8192, 0).collection(1, 0, 2), [2, 1, 1]);
    set.shown("icid-65535", one(8192, 65_535).collection(1, 65_535, 2), [2, 1, 1]);
    let high = table(5).entry(COLLECTIONS) | 0x7ff << 52;
    set.shown("icid-of-a-collection-with-res0", one(8192, 7).put(COLLECTIONS, high), [2, 1, 1]);
}

/// §9.7, §6.4: each of the field's 32 bits counts, also beside a low part that would be good.
fn bad_lpis(set: &mut Set) {
    for lpi in [1, 4096, 8191, 65_536, 65_537, 8192 | 1 << 16, 8192 | 1 << 24, 1 << 31, 8192 | 1 << 31, (1 << 32) - 1] {
        set.refused(&format!("lpi-{lpi}"), one(lpi, 7), -22);
    }
    set.refused("lpi-8191-in-the-second", first_of_two().event(ROOM, 2, 0, 8191, 7), -22);
    set.refused("lpi-1-in-the-first", one(8192, 7).event(ROOM, 0, 1, 1, 7), -22);
}

/// §9.7.
fn bad_icids(set: &mut Set) {
    for icid in [0, 6, 8, 7 + 256, 7 + 32_768, 65_535] {
        set.refused(&format!("icid-{icid}-not-there"), one(8192, icid), -22);
    }
    set.refused("icid-not-there-in-the-second", first_of_two().event(ROOM, 2, 0, 8192, 8), -22);
    set.refused("icid-behind-a-blank", one(8192, 8).collection(3, 8, 0), -22);
    set.refused("icid-of-a-collection-with-v-clear", one(8192, 8).put(COLLECTIONS + 16, 8), -22);
    set.refused("no-collection-at-all", Image::blank(3).device(0, 0, ROOM, 5).event(ROOM, 0, 0, 8192, 0), -22);
}

/// §8.6, §8.8.
fn unread(set: &mut Set) {
    let two = || chain(5, &linked(&[4, 9]));
    let copy = two().entry(ROOM + 8 * 4);
    set.shown("ones-with-lpi-0-below-the-first", two().fill(ROOM, 0, 4, BLANK_ONES), [2, 1, 2]);
    set.shown("ones-jumped-over", two().fill(ROOM, 5, 9, u64::MAX), [2, 1, 2]);
    set.shown("ones-with-lpi-0-jumped-over", two().fill(ROOM, 5, 9, BLANK_ONES), [2, 1, 2]);
    set.shown("copies-jumped-over", two().fill(ROOM, 5, 9, copy), [2, 1, 2]);
    set.shown("ones-after-the-last", two().fill(ROOM, 10, 32, u64::MAX), [2, 1, 2]);
    set.shown("copies-after-the-last", two().fill(ROOM, 10, 32, copy), [2, 1, 2]);
    set.shown("ones-after-the-table", two().fill(ROOM, 32, ENTRIES, u64::MAX), [2, 1, 2]);
    set.shown("copies-after-the-table", two().fill(ROOM, 32, ENTRIES, copy), [2, 1, 2]);
    set.shown("no-event-all-ones-with-lpi-0", table(5).fill(ROOM, 0, 32, BLANK_ONES), [2, 1, 0]);
    set.refused("all-ones", table(5).fill(ROOM, 0, 32, u64::MAX), -22);
    set.shown("left-over-below-the-first", two().event(ROOM, 1, 3, 9000, 9), [2, 1, 3]);
}

/// §6.4, §6.5: an entry with LPI 0 is blank, whatever else it holds.
fn landings(set: &mut Set) {
    let at_5 = ROOM + 8 * 5;
    set.refused("landing-of-ones-with-lpi-0", chain(5, &[(0, 5)]).put(at_5, BLANK_ONES), -22);
    set.refused("landing-of-ones", chain(5, &[(0, 5)]).put(at_5, u64::MAX), -22);
    set.refused("landing-just-after-the-table", chain(5, &[(0, 32)]).event(ROOM, 32, 0, 8192, 7), -22);
    set.shown("first-with-lpi-0", chain(5, &[(0, 5), (5, 0)]).put(ROOM, BLANK_ONES), [2, 1, 1]);
}
