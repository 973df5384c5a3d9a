//! Collection entries alone (§6.3, §8.2, §9.4): two pages hold all that is read.

use super::image::{Image, COLLECTIONS, ENTRIES};
use super::Set;

/// V and every field set.
const ONES: u64 = u64::MAX;
/// V clear, every other bit set.
const BLANK_ONES: u64 = u64::MAX >> 1;

/// Entries from index 0 on, as listed.
fn table(rows: &[(u64, u64)]) -> Image {
    let put = |image: Image, (n, (icid, pe)): (usize, &(u64, u64))| image.collection(n as u64, *icid, *pe);
    rows.iter().enumerate().fold(Image::blank(2), put)
}

/// `count` distinct ICIDs, rising, with every pe.
fn distinct(count: u64) -> Vec<(u64, u64)> {
    (0..count).map(|n| (100 + 3 * n, n % 4)).collect()
}

fn falling(count: u64) -> Vec<(u64, u64)> {
    distinct(count).into_iter().rev().collect()
}

pub fn add(set: &mut Set) {
    set.begin("collections");
    counts(set);
    orders(set);
    good_pes(set);
    bad_pes(set);
    repeats(set);
    limit(set);
    whole_table(set);
    res0(set);
    unread(set);
}

/// §8.2.
fn counts(set: &mut Set) {
    for count in [1, 2, 3, 15, 16] {
        set.shown(&format!("{count}"), table(&distinct(count)), [count as usize, 0, 0]);
    }
}

/// §8.2: any order is taken. §11.2: the rows that are shown rise.
fn orders(set: &mut Set) {
    set.shown("2-falling", table(&falling(2)), [2, 0, 0]);
    set.shown("16-falling", table(&falling(16)), [16, 0, 0]);
    let rows = distinct(16);
    let mixed: Vec<(u64, u64)> = (0..16).map(|n| rows[n * 7 % 16]).collect();
    set.shown("16-mixed", table(&mixed), [16, 0, 0]);
    set.shown("icid-0", table(&[(0, 0)]), [1, 0, 0]);
    set.shown("icid-65535", table(&[(65_535, 3)]), [1, 0, 0]);
    set.shown("icid-65535-before-0", table(&[(65_535, 3), (0, 2)]), [2, 0, 0]);
    set.shown("icids-of-differing-width", table(&[(10, 0), (9, 1), (10_000, 2), (9999, 3), (100, 0)]), [5, 0, 0]);
}

/// §9.4.
fn good_pes(set: &mut Set) {
    for pe in 0..4 {
        set.shown(&format!("pe-{pe}"), table(&[(7, pe)]), [1, 0, 0]);
    }
}

/// §9.4, §6.3: each of the field's 36 bits counts, also beside a low part that would be good.
fn bad_pes(set: &mut Set) {
    for pe in [4, 5, 7, 255, 65_535, 65_537, 1 << 31, 1 << 32, 1 << 32 | 1, 1 << 35, 1 << 35 | 3, (1 << 36) - 1] {
        set.refused(&format!("pe-{pe}"), table(&[(7, pe)]), -22);
    }
    set.refused("pe-4-in-the-second", table(&[(7, 3), (8, 4)]), -22);
    let mut rows = distinct(16);
    rows[15].1 = 4;
    set.refused("pe-4-in-the-16th", table(&rows), -22);
}

/// §9.4.
fn repeats(set: &mut Set) {
    set.refused("icid-repeated", table(&[(7, 1), (7, 1)]), -22);
    set.refused("icid-repeated-with-another-pe", table(&[(7, 1), (7, 2)]), -22);
    set.refused("icid-repeated-after-another", table(&[(7, 1), (8, 1), (7, 1)]), -22);
    set.refused("icid-0-repeated", table(&[(0, 0), (0, 0)]), -22);
    set.refused("icid-65535-repeated", table(&[(65_535, 0), (1, 0), (65_535, 3)]), -22);
    let mut rows = distinct(16);
    rows[15].0 = rows[0].0;
    set.refused("icid-repeated-first-and-16th", table(&rows), -22);
}

/// §9.4, and §8.2 for what stands behind a blank.
fn limit(set: &mut Set) {
    let mut rows = distinct(17);
    set.refused("17", table(&rows), -12);
    set.refused("18", table(&distinct(18)), -12);
    set.shown("17th-after-a-blank", table(&distinct(16)).collection(17, 7, 0), [16, 0, 0]);
    set.shown("17th-of-ones-with-v-clear", table(&distinct(16)).put(COLLECTIONS + 8 * 16, BLANK_ONES), [16, 0, 0]);
    rows[16].1 = 4;
    set.refused("17th-with-pe-4", table(&rows), -22);
    rows[16] = rows[0];
    set.refused("17th-repeats", table(&rows), -22);
}

/// §8.2, §9.4: no entry is blank.
fn whole_table(set: &mut Set) {
    set.refused("whole-table", table(&distinct(ENTRIES)), -12);
    set.refused("whole-table-falling", table(&falling(ENTRIES)), -12);
    set.refused("whole-table-repeated", table(&vec![(7, 1); ENTRIES as usize]), -22);
    set.refused("whole-table-of-ones", Image::blank(2).fill(COLLECTIONS, 0, ENTRIES, ONES), -22);
}

/// §8.8.
fn res0(set: &mut Set) {
    let entry = table(&[(7, 1)]).entry(COLLECTIONS);
    for bit in 52..=62 {
        set.shown(&format!("res0-bit-{bit}"), Image::blank(2).put(COLLECTIONS, entry | 1 << bit), [1, 0, 0]);
    }
    set.shown("res0-all-bits", Image::blank(2).put(COLLECTIONS, entry | 0x7ff << 52), [1, 0, 0]);
}

/// §8.2, §8.8.
fn unread(set: &mut Set) {
    let blank = Image::blank(2).put(COLLECTIONS, BLANK_ONES);
    set.shown("first-of-ones-with-v-clear", blank.clone(), [0, 0, 0]);
    set.shown("behind-a-blank", blank.collection(1, 7, 1).collection(2, 8, 1), [0, 0, 0]);
    set.shown("garbage-behind-a-blank", table(&[(7, 1)]).fill(COLLECTIONS, 2, ENTRIES, ONES), [1, 0, 0]);
    set.shown("repeat-behind-a-blank", table(&[(7, 1)]).collection(2, 7, 2), [1, 0, 0]);
    set.shown("pe-4-behind-a-blank", table(&[(7, 1)]).collection(2, 8, 4), [1, 0, 0]);
    set.shown("last-entry-alone", Image::blank(2).collection(ENTRIES - 1, 7, 1), [0, 0, 0]);
    set.refused("first-of-ones", Image::blank(2).put(COLLECTIONS, ONES), -22);
}
