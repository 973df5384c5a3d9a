//! Each fault of §13.4 in each table that it can be in, with its line written out (§13.11); then two faults at one entry
//! (§13.9), and entries whose index or device has more than one digit.

use super::image::{linked, Image, DEVICES, ROOM};
use super::Set;
use crate::model::guest::PAGE;

/// So many collections, with ICIDs from 1 on.
fn collections(count: u64) -> Image {
    (0..count).fold(Image::blank(4), |image, n| image.collection(n, n + 1, n % 4))
}

/// Devices 0, 10, 20 and so on, each with an ITT of 32 entries, and collection 1.
fn devices(count: u64) -> Image {
    let ids: Vec<u64> = (0..count).map(|n| 10 * n).collect();
    let image = collections(1).of_length(6 * PAGE);
    linked(&ids).into_iter().fold(image, |image, (id, next)| image.device(id, next, itt(id), 5))
}

fn itt(id: u64) -> u64 {
    ROOM + 0x100 * (id / 10)
}

/// Devices 0, 10 and 20, and events 7 and 31 of device 10.
fn events() -> Image {
    devices(3).event(itt(10), 7, 24, 8192, 1).event(itt(10), 31, 0, 8192, 1)
}

/// Devices 12 and 34 with so many events each.
fn many(first: u64, second: u64) -> Image {
    let places = [ROOM, ROOM + 4 * PAGE];
    let image = collections(1).of_length(12 * PAGE).device(12, 22, places[0], 11).device(34, 0, places[1], 11);
    let numbers = |count: u64| linked(&(0..count).collect::<Vec<u64>>());
    places.into_iter().zip([first, second]).fold(image, |image, (itt, count)| {
        numbers(count).into_iter().fold(image, |image, (n, next)| image.event(itt, n, next, 65_535, 1))
    })
}

pub fn add(set: &mut Set) {
    set.begin("fault");
    in_collections(set);
    in_devices(set);
    in_itts(set);
    set.begin("fault-order");
    at_a_collection(set);
    at_a_device(set);
    at_an_event(set);
}

/// §13.8.
fn in_collections(set: &mut Set) {
    set.explained("pe", collections(3).collection(2, 9, 4), "refused -22: collection table, entry 2: pe");
    set.explained("repeat", collections(12).collection(11, 3, 0), "refused -22: collection table, entry 11: repeat");
    set.explained("17th", collections(17), "refused -12: collection table, entry 16: 17th");
    set.explained("17th-of-512", collections(512), "refused -12: collection table, entry 16: 17th");
    set.explained("none-behind-a-blank", collections(2).collection(3, 1, 4), "described");
}

/// §13.8.
fn in_devices(set: &mut Set) {
    let changed = |id: u64, next: u64, itt: u64, bits: u64| devices(3).device(id, next, itt, bits);
    let second = "refused -22: device table, entry 10";
    set.explained("device-next", changed(10, 9, itt(10), 5), &format!("{second}: next"));
    set.explained("device-next-past-the-end", changed(10, 502, itt(10), 5), &format!("{second}: next"));
    set.explained("device-next-of-the-last", changed(20, 1, itt(20), 5), "refused -22: device table, entry 20: next");
    set.explained("size", changed(10, 10, itt(10), 17), &format!("{second}: size"));
    set.explained("33rd", devices(33), "refused -12: device table, entry 320: 33rd");
    set.explained("33rd-of-50", devices(50), "refused -12: device table, entry 320: 33rd");
    set.explained("outside", changed(20, 0, 0, 5), "refused -14: device table, entry 20: ITT outside memory");
    set.explained("overlap-with-a-table", changed(10, 10, DEVICES, 5), &format!("{second}: overlap"));
    set.explained("overlap-with-the-device-before", changed(10, 10, itt(0), 5), &format!("{second}: overlap"));
    // At the later of the two.
    set.explained("overlap-of-two", changed(0, 10, itt(10), 5), &format!("{second}: overlap"));
    set.explained("none-jumped-over", devices(3).device(0, 20, itt(0), 5).device(10, 1, 0, 17), "described");
}

/// §13.8.
fn in_itts(set: &mut Set) {
    let changed = |number: u64, next: u64, lpi: u64, icid: u64| events().event(itt(10), number, next, lpi, icid);
    let first = "refused -22: ITT of device 10, entry 7";
    let last = "refused -22: ITT of device 10, entry 31";
    set.explained("lpi", changed(7, 24, 8191, 1), &format!("{first}: LPI"));
    set.explained("lpi-of-the-last", changed(31, 0, 65_536, 1), &format!("{last}: LPI"));
    set.explained("event-next", changed(7, 23, 8192, 1), &format!("{first}: next"));
    set.explained("event-next-past-the-end", changed(31, 1, 8192, 1), &format!("{last}: next"));
    set.explained("icid", changed(31, 0, 8192, 2), &format!("{last}: ICID not in the collections"));
    set.explained("1025th", many(1025, 0), "refused -12: ITT of device 12, entry 1024: 1,025th");
    set.explained("1025th-of-the-second", many(1000, 100), "refused -12: ITT of device 34, entry 24: 1,025th");
    set.explained("none-of-1024", many(1000, 24), "described");
    set.explained("none-behind-the-last-event", changed(7, 0, 8192, 1).event(itt(10), 31, 0, 1, 9), "described");
}

/// §13.9.
fn at_a_collection(set: &mut Set) {
    let full = |icid: u64, pe: u64| collections(16).collection(16, icid, pe);
    set.explained("pe-and-repeat", collections(2).collection(1, 1, 4), "refused -22: collection table, entry 1: pe");
    set.explained("repeat-and-17th", full(1, 0), "refused -22: collection table, entry 16: repeat");
    set.explained("pe-and-17th", full(99, 4), "refused -22: collection table, entry 16: pe");
}

/// §13.9.
fn at_a_device(set: &mut Set) {
    let one = |next: u64, itt: u64, bits: u64| devices(3).device(10, next, itt, bits);
    let last = |next: u64, itt: u64, bits: u64| devices(33).device(320, next, itt, bits);
    let (ten, end) = ("device table, entry 10", "device table, entry 320");
    set.explained("next-and-size", one(9, itt(10), 17), &format!("refused -22: {ten}: next"));
    set.explained("next-and-outside", one(9, 0, 5), &format!("refused -22: {ten}: next"));
    set.explained("next-and-overlap", one(9, DEVICES, 5), &format!("refused -22: {ten}: next"));
    set.explained("size-and-outside", one(10, 0, 17), &format!("refused -22: {ten}: size"));
    set.explained("size-and-overlap", one(10, DEVICES, 17), &format!("refused -22: {ten}: size"));
    let over_the_start = one(10, DEVICES - 0x100, 6);
    set.explained("outside-and-overlap", over_the_start, &format!("refused -14: {ten}: ITT outside memory"));
    set.explained("next-and-33rd", last(1, itt(320), 5), &format!("refused -22: {end}: next"));
    set.explained("size-and-33rd", last(0, itt(320), 17), &format!("refused -22: {end}: size"));
    set.explained("33rd-and-outside", last(0, 0, 5), &format!("refused -12: {end}: 33rd"));
    set.explained("33rd-and-overlap", last(0, itt(0), 5), &format!("refused -12: {end}: 33rd"));
}

/// §13.9.
fn at_an_event(set: &mut Set) {
    let one = |next: u64, lpi: u64, icid: u64| events().event(itt(10), 7, next, lpi, icid);
    let last = |next: u64, lpi: u64, icid: u64| many(1000, 25).event(ROOM + 4 * PAGE, 24, next, lpi, icid);
    let (seven, end) = ("refused -22: ITT of device 10, entry 7", "refused -22: ITT of device 34, entry 24");
    set.explained("lpi-and-next", one(23, 8191, 1), &format!("{seven}: LPI"));
    set.explained("lpi-and-icid", one(24, 8191, 2), &format!("{seven}: LPI"));
    set.explained("event-next-and-icid", one(23, 8192, 2), &format!("{seven}: next"));
    set.explained("lpi-and-1025th", last(0, 8191, 1), &format!("{end}: LPI"));
    set.explained("event-next-and-1025th", last(1, 8192, 1), &format!("{end}: next"));
    set.explained("icid-and-1025th", last(0, 8192, 2), &format!("{end}: ICID not in the collections"));
    let before = events().device(20, 1, 0, 17).event(itt(10), 7, 24, 8192, 2);
    set.explained("event-before-the-following-device", before, &format!("{seven}: ICID not in the collections"));
    let both = events().collection(0, 1, 4).event(itt(10), 7, 0, 1, 1);
    set.explained("collection-before-event", both, "refused -22: collection table, entry 0: pe");
}
