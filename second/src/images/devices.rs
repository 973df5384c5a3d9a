//! Device entries (§6.2, §8.3, §9.5, §9.6): how many there are, where their nexts lead, and entries that are not read.
//! No device has an event.

use super::image::{linked, Image, DEVICES, ENTRIES, ROOM};
use super::Set;

/// V clear, every other bit set.
const BLANK_ONES: u64 = u64::MAX >> 1;
/// §7.2: the cap.
const CAP: u64 = 16_383;

/// Devices by ID and next, each with an ITT of 256 bytes, one after the other; as many pages as these take.
fn chain(rows: &[(u64, u64)]) -> Image {
    let pages = 2 + (rows.len() as u64).div_ceil(16).min(3);
    let put = |image: Image, (n, (id, next)): (usize, &(u64, u64))| image.device(*id, *next, itt(n as u64), 5);
    rows.iter().enumerate().fold(Image::blank(pages), put)
}

fn itt(n: u64) -> u64 {
    ROOM + 0x100 * n
}

fn every(step: u64, first: u64, count: u64) -> Vec<u64> {
    (0..count).map(|n| first + step * n).collect()
}

fn ids(count: u64) -> Vec<u64> {
    every(1, 0, count)
}

pub fn add(set: &mut Set) {
    set.begin("devices");
    one(set);
    two(set);
    many(set);
    limit(set);
    past_limit(set);
    set.begin("device-next");
    each_bit(set);
    alone(set);
    off_by_one(set);
    jumps(set);
    last_of_two(set);
    past_the_end(set);
    among_many(set);
    set.begin("device-unread");
    landings(set);
    unread(set);
}

/// §8.3.
fn one(set: &mut Set) {
    for id in [0, 1, 2, 255, 256, 510, 511] {
        set.shown(&format!("one-at-{id}"), chain(&[(id, 0)]), [0, 1, 0]);
    }
}

/// §8.4. 511 is the largest distance in a page.
fn two(set: &mut Set) {
    for (first, second) in [(0, 1), (0, 2), (0, 100), (0, 256), (0, 510), (0, 511), (1, 511), (254, 257), (510, 511)] {
        let image = chain(&linked(&[first, second]));
        set.shown(&format!("two-at-{first}-and-{second}"), image, [0, 2, 0]);
    }
}

/// §8.4.
fn many(set: &mut Set) {
    set.shown("3", chain(&linked(&[0, 1, 2])), [0, 3, 0]);
    set.shown("3-apart", chain(&linked(&[0, 255, 511])), [0, 3, 0]);
    set.shown("8-apart", chain(&linked(&every(64, 7, 8))), [0, 8, 0]);
    set.shown("16", chain(&linked(&ids(16))), [0, 16, 0]);
    set.shown("31", chain(&linked(&ids(31))), [0, 31, 0]);
    set.shown("32", chain(&linked(&ids(32))), [0, 32, 0]);
    set.shown("32-over-the-page", chain(&linked(&every(16, 15, 32))), [0, 32, 0]);
    set.shown("32-at-the-end", chain(&linked(&every(1, 480, 32))), [0, 32, 0]);
}

/// §9.5; §8.8 for a 33rd that is not read.
fn limit(set: &mut Set) {
    set.refused("33", chain(&linked(&ids(33))), -12);
    set.refused("33-at-the-end", chain(&linked(&every(1, 479, 33))), -12);
    set.refused("whole-page", chain(&linked(&ids(ENTRIES))), -12);
    set.shown("33rd-after-the-last", chain(&linked(&ids(32))).device(32, 0, itt(40), 5), [0, 32, 0]);
    let but_9: Vec<u64> = (0..33).filter(|id| *id != 9).collect();
    set.shown("33rd-jumped-over", chain(&linked(&but_9)).device(9, 1, itt(40), 5), [0, 32, 0]);
}

/// §9.5: next and bits of the 33rd entry are met before the limit, its ITT after it.
fn past_limit(set: &mut Set) {
    let full = || chain(&linked(&ids(33)));
    set.refused("33rd-next-onto-a-blank", full().device(32, 1, itt(32), 5), -22);
    set.refused("33rd-next-past-the-end", full().device(32, 480, itt(32), 5), -22);
    set.refused("33rd-bits-17", full().device(32, 0, itt(32), 17), -22);
    set.refused("33rd-itt-outside", full().device(32, 0, 0, 5), -12);
    set.refused("33rd-itt-on-a-table", full().device(32, 0, DEVICES, 5), -12);
}

/// §9.6: nothing follows the device. Whatever its next, it lands on a blank or leaves the table.
fn each_bit(set: &mut Set) {
    for bit in 0..14 {
        set.refused(&format!("bit-{bit}"), chain(&[(0, 1 << bit)]), -22);
    }
}

/// §9.6.
fn alone(set: &mut Set) {
    for (id, next) in [(0, 511), (0, 512), (1, 510), (1, 511), (510, 1), (511, 1), (0, CAP - 1), (0, CAP), (511, CAP)] {
        set.refused(&format!("{next}-from-{id}-with-nothing-after"), chain(&[(id, next)]), -22);
    }
}

/// §9.6, §9.8: devices 0 and 5. Any next but 5 loses the second, and only 0 does so without a word.
fn off_by_one(set: &mut Set) {
    for next in [1, 4, 6, 512, 512 + 5, 8192 + 5, CAP - 1, CAP] {
        set.refused(&format!("{next}-where-5-leads-on"), chain(&[(0, next), (5, 0)]), -22);
    }
    set.shown("0-too-early", chain(&[(0, 0), (5, 0)]), [0, 1, 0]);
}

/// §9.6, §8.8: devices 0, 5 and 9, with a next of the first or of the second changed.
fn jumps(set: &mut Set) {
    let three = |first: u64, second: u64| chain(&[(0, first), (5, second), (9, 0)]);
    set.shown("three-right", three(5, 4), [0, 3, 0]);
    set.shown("three-first-to-third", three(9, 4), [0, 2, 0]);
    set.shown("three-first-to-third-over-a-bad-next", three(9, 3), [0, 2, 0]);
    set.shown("three-second-0", three(5, 0), [0, 2, 0]);
    set.shown("three-first-0", three(0, 4), [0, 1, 0]);
    set.refused("three-second-short", three(5, 3), -22);
    set.refused("three-second-long", three(5, 5), -22);
    set.refused("three-second-at-cap", three(5, CAP), -22);
    set.refused("three-first-short", three(4, 4), -22);
}

/// §9.6.
fn last_of_two(set: &mut Set) {
    for next in [1, 506, 507, CAP - 1, CAP] {
        set.refused(&format!("{next}-from-the-last-of-two"), chain(&[(0, 5), (5, next)]), -22);
    }
}

/// §9.6: behind the last entry lies the collection table, whose first entry has V set.
fn past_the_end(set: &mut Set) {
    set.refused("512-from-0-onto-a-collection", chain(&[(0, 512)]).collection(0, 7, 1), -22);
    set.refused("1-from-511-onto-a-collection", chain(&[(511, 1)]).collection(0, 7, 1), -22);
    set.refused("2-from-511-onto-a-collection", chain(&[(511, 2)]).collection(0, 7, 1).collection(1, 8, 1), -22);
}

/// §9.6, §9.8.
fn among_many(set: &mut Set) {
    let changed = |at: usize, next: u64| {
        let mut rows = linked(&ids(32));
        rows[at].1 = next;
        chain(&rows)
    };
    set.shown("0-at-the-first-of-32", changed(0, 0), [0, 1, 0]);
    set.shown("0-at-the-31st-of-32", changed(30, 0), [0, 31, 0]);
    set.shown("31-at-the-first-of-32", changed(0, 31), [0, 2, 0]);
    set.shown("2-at-the-first-of-32", changed(0, 2), [0, 31, 0]);
    set.refused("32-at-the-first-of-32", changed(0, 32), -22);
    set.refused("2-at-the-31st-of-32", changed(30, 2), -22);
    set.refused("1-at-the-last-of-32", changed(31, 1), -22);
    set.refused("480-at-the-last-of-32", changed(31, 480), -22);
    set.refused("cap-at-the-last-of-32", changed(31, CAP), -22);
    set.refused("cap-in-the-middle-of-32", changed(15, CAP), -22);
}

/// §6.2, §6.5: an entry with V clear is blank, whatever else it holds. §9.8: so the first may be lost.
fn landings(set: &mut Set) {
    let at_5 = DEVICES + 8 * 5;
    set.refused("landing-of-ones-with-v-clear", chain(&[(0, 5)]).put(at_5, BLANK_ONES), -22);
    set.refused("landing-of-ones", chain(&[(0, 5)]).put(at_5, u64::MAX), -22);
    let lost = chain(&[(0, 5), (5, 0)]);
    let entry = lost.entry(at_5);
    set.refused("landing-with-v-lost", lost.put(at_5, entry & BLANK_ONES), -22);
    set.shown("first-with-v-lost", chain(&[(0, 5), (5, 0)]).put(DEVICES, BLANK_ONES), [0, 1, 0]);
}

/// §8.3, §8.8.
fn unread(set: &mut Set) {
    let two = || chain(&linked(&[4, 9]));
    let copy = two().entry(DEVICES + 8 * 4);
    set.shown("ones-with-v-clear-below-the-first", two().fill(DEVICES, 0, 4, BLANK_ONES), [0, 2, 0]);
    set.shown("ones-jumped-over", two().fill(DEVICES, 5, 9, u64::MAX), [0, 2, 0]);
    set.shown("ones-with-v-clear-jumped-over", two().fill(DEVICES, 5, 9, BLANK_ONES), [0, 2, 0]);
    set.shown("copies-jumped-over", two().fill(DEVICES, 5, 9, copy), [0, 2, 0]);
    set.shown("ones-after-the-last", two().fill(DEVICES, 10, ENTRIES, u64::MAX), [0, 2, 0]);
    set.shown("copies-after-the-last", two().fill(DEVICES, 10, ENTRIES, copy), [0, 2, 0]);
    set.shown("ones-outside-every-table", two().fill(ROOM, 64, 512, u64::MAX), [0, 2, 0]);
    set.shown("no-device-all-ones-with-v-clear", Image::blank(2).fill(DEVICES, 0, ENTRIES, BLANK_ONES), [0, 0, 0]);
    set.refused("all-ones", Image::blank(2).fill(DEVICES, 0, ENTRIES, u64::MAX), -22);
    // What an old save left below the first device is a device too: the bytes do describe it.
    set.shown("left-over-below-the-first", two().device(1, 3, ROOM + 0xf00, 5), [0, 3, 0]);
    set.refused("left-over-below-the-first-on-its-itt", two().device(0, 4, ROOM, 5), -22);
}
