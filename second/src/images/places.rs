//! §9.5, but for its next and limit: how large ITTs are, where they lie, and what they lie over.

use super::image::{linked, Image, COLLECTIONS, DEVICES, ROOM};
use super::Set;
use crate::model::guest::PAGE;

/// One device with this ITT; the image ends after so many pages.
fn one(pages: u64, itt: u64, bits: u64) -> Image {
    Image::blank(pages).device(0, 0, itt, bits)
}

/// Devices 0, 1, 2 and so on with these ITTs, in an image of four pages.
fn several(places: &[(u64, u64)]) -> Image {
    let ids: Vec<u64> = (0..places.len() as u64).collect();
    let rows = linked(&ids).into_iter().zip(places);
    rows.fold(Image::blank(4), |image, ((id, next), (itt, bits))| image.device(id, next, *itt, *bits))
}

pub fn add(set: &mut Set) {
    set.begin("itt-size");
    fitting(set);
    one_page_short(set);
    past_all_memory(set);
    too_large(set);
    whole_memory(set);
    set.begin("itt-place");
    edges(set);
    outside(set);
    one_bit(set);
    set.begin("itt-overlap");
    on_tables(set);
    of_two(set);
    of_none(set);
    of_many(set);
    unread(set);
}

/// §5.5: up to the largest ITT that fits beside the tables, 4,096 entries.
fn fitting(set: &mut Set) {
    for bits in 1..=12u64 {
        let pages = 2 + (8u64 << bits).div_ceil(PAGE);
        set.shown(&format!("bits-{bits}"), one(pages, ROOM, bits), [0, 1, 0]);
    }
}

/// -14.
fn one_page_short(set: &mut Set) {
    for (pages, bits) in [(2, 1), (2, 9), (3, 10), (5, 11), (9, 12), (16, 13)] {
        set.refused(&format!("bits-{bits}-in-{pages}-pages"), one(pages, ROOM, bits), -14);
    }
}

/// -14.
fn past_all_memory(set: &mut Set) {
    for bits in 14..=16 {
        set.refused(&format!("bits-{bits}"), one(3, ROOM, bits), -14);
    }
}

/// -22: the field (§6.2) has room for 17 to 32, which are refused wherever the ITT lies.
fn too_large(set: &mut Set) {
    for bits in [17, 18, 24, 31, 32] {
        set.refused(&format!("bits-{bits}"), one(3, ROOM, bits), -22);
    }
    set.refused("bits-17-outside", one(3, 0, 17), -22);
    set.refused("bits-32-outside", one(3, ROOM + PAGE, 32), -22);
    set.refused("bits-17-on-a-table", one(3, DEVICES, 17), -22);
}

/// An ITT as large as the longest image is inside it from the first byte on only, and then on the tables.
fn whole_memory(set: &mut Set) {
    set.refused("bits-13-over-all", one(16, DEVICES, 13), -22);
    set.refused("bits-13-256-bytes-on", one(16, DEVICES + 0x100, 13), -14);
    set.refused("bits-13-one-page-short", one(15, DEVICES, 13), -14);
    set.refused("bits-12-over-the-tables", one(10, DEVICES, 12), -22);
}

/// §2.10: an end at memory's end is inside.
fn edges(set: &mut Set) {
    let end = ROOM + PAGE;
    set.shown("last-256-bytes", one(3, end - 0x100, 5), [0, 1, 0]);
    set.shown("last-256-bytes-of-the-longest", one(16, DEVICES + 0xff00, 5), [0, 1, 0]);
    set.shown("first-after-the-tables", one(3, ROOM, 5), [0, 1, 0]);
    set.shown("16-bytes-at-the-last-place", one(3, end - 0x100, 1), [0, 1, 0]);
    set.refused("last-256-bytes-but-twice-as-large", one(3, end - 0x100, 6), -14);
    set.refused("last-256-bytes-of-the-longest-but-twice-as-large", one(16, DEVICES + 0xff00, 6), -14);
    set.refused("at-the-end", one(3, end, 1), -14);
    set.refused("at-the-end-of-the-longest", one(16, DEVICES + 0x1_0000, 1), -14);
    set.refused("one-page-past-the-end", one(3, end + PAGE, 5), -14);
    set.refused("one-page-of-two-past-the-end", one(3, ROOM, 10), -14);
    set.refused("256-bytes-past-the-end", one(3, ROOM + 0x100, 9), -14);
}

/// -14, even where an ITT that begins before memory reaches the device table.
fn outside(set: &mut Set) {
    set.refused("256-bytes-before", one(3, DEVICES - 0x100, 5), -14);
    set.refused("over-the-start", one(3, DEVICES - 0x100, 6), -14);
    set.refused("one-page-before", one(3, DEVICES - PAGE, 9), -14);
    set.refused("one-page-before-and-over-the-start", one(3, DEVICES - PAGE, 10), -14);
    set.refused("at-0", one(3, 0, 5), -14);
    set.refused("at-256", one(3, 0x100, 5), -14);
    set.refused("at-2000-hex", one(3, 0x2000, 5), -14);
    set.refused("highest", one(3, (1 << 52) - 0x100, 5), -14);
    set.refused("highest-past-2-to-52", one(3, (1 << 52) - 0x100, 16), -14);
    set.refused("in-the-second-32-bits", one(3, 1 << 32 | ROOM, 5), -14);
    set.refused("second-device", several(&[(ROOM, 5), (ROOM + 2 * PAGE, 5)]), -14);
    set.refused("first-device", several(&[(ROOM + 2 * PAGE, 5), (ROOM, 5)]), -14);
}

/// One address bit of a good ITT changed: bits 8 to 11 stay in the page, bit 13 leads onto the device table.
fn one_bit(set: &mut Set) {
    for bit in [8, 11, 12, 13, 14, 16, 29, 30, 31, 32, 40, 51] {
        let image = one(3, ROOM ^ 1 << bit, 5);
        let name = format!("address-bit-{bit}");
        match bit {
            8..=11 => set.shown(&name, image, [0, 1, 0]),
            13 => set.refused(&name, image, -22),
            _ => set.refused(&name, image, -14),
        }
    }
}

/// -22.
fn on_tables(set: &mut Set) {
    for (name, itt) in [
        ("device-table", DEVICES),
        ("device-table-end", DEVICES + 0xf00),
        ("collection-table", COLLECTIONS),
        ("collection-table-end", COLLECTIONS + 0xf00),
    ] {
        set.refused(&format!("{name}-by-16-bytes"), one(3, itt, 1), -22);
        set.refused(&format!("{name}-by-256-bytes"), one(3, itt, 5), -22);
        set.refused(&format!("{name}-by-512-bytes"), one(3, itt, 6), -22);
    }
}

/// -22.
fn of_two(set: &mut Set) {
    for (name, first, second) in [
        ("same", (ROOM, 5), (ROOM, 5)),
        ("same-start-second-smaller", (ROOM, 6), (ROOM, 1)),
        ("same-start-second-larger", (ROOM, 1), (ROOM, 6)),
        ("second-inside-first", (ROOM, 9), (ROOM + 0x100, 1)),
        ("first-inside-second", (ROOM + 0x100, 1), (ROOM, 9)),
        ("second-in-the-end-of-first", (ROOM, 6), (ROOM + 0x100, 6)),
        ("first-in-the-end-of-second", (ROOM + 0x100, 6), (ROOM, 6)),
    ] {
        set.refused(name, several(&[first, second]), -22);
    }
}

/// §3.4: neighbours share no byte.
fn of_none(set: &mut Set) {
    for (name, first, second) in [
        ("none-side-by-side", (ROOM, 5), (ROOM + 0x100, 5)),
        ("none-second-before-first", (ROOM + 0x100, 5), (ROOM, 5)),
        ("none-of-16-bytes", (ROOM, 1), (ROOM + 0x100, 1)),
        ("none-of-a-page-each", (ROOM, 9), (ROOM + PAGE, 9)),
    ] {
        set.shown(name, several(&[first, second]), [0, 2, 0]);
    }
}

/// Not the neighbour alone counts, but every device met before.
fn of_many(set: &mut Set) {
    let mut places: Vec<(u64, u64)> = (0..32).map(|n| (ROOM + 0x100 * n, 5)).collect();
    set.refused("third-on-second", several(&[places[0], places[1], places[1]]), -22);
    set.refused("third-on-first", several(&[places[0], places[1], places[0]]), -22);
    places.reverse();
    set.shown("none-of-32-falling", several(&places), [0, 32, 0]);
    places[31] = places[0];
    set.refused("32nd-on-first", several(&places), -22);
    places[31] = places[30];
    set.refused("32nd-on-31st", several(&places), -22);
    places[31] = places[15];
    set.refused("32nd-on-16th", several(&places), -22);
    places[31] = (COLLECTIONS, 5);
    set.refused("32nd-on-collection-table", several(&places), -22);
}

/// §8.8: ITTs of devices that are not read count for nothing.
fn unread(set: &mut Set) {
    let jumped = Image::blank(3).device(0, 2, ROOM, 5).device(1, 0, ROOM, 5).device(2, 0, ROOM + 0x100, 5);
    set.shown("none-with-one-jumped-over", jumped, [0, 2, 0]);
    let after = Image::blank(3).device(0, 0, ROOM, 5).device(1, 0, ROOM, 5);
    set.shown("none-with-one-after-the-last", after, [0, 1, 0]);
}
