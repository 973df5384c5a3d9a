//! Two faults in one image: the one that is met first gives the number (§9.2).

use super::image::{linked, Image, COLLECTIONS, DEVICES, ROOM};
use super::Set;
use crate::model::guest::PAGE;

/// So many collections, ICIDs from 0 on.
fn collections(pages: u64, count: u64) -> Image {
    (0..count).fold(Image::blank(pages), |image, n| image.collection(n, n, n % 4))
}

/// Devices 0 and 1 with an event each, and collections 0 and 1; all of it good.
fn good() -> Image {
    let second = ROOM + 0x100;
    let devices = collections(3, 2).device(0, 1, ROOM, 5).device(1, 0, second, 5);
    devices.event(ROOM, 0, 0, 8192, 0).event(second, 0, 0, 8193, 1)
}

/// 33 devices, the last one past the limit.
fn devices_33() -> Image {
    let ids: Vec<u64> = (0..33).collect();
    linked(&ids).into_iter().fold(collections(5, 1), |image, (id, next)| image.device(id, next, ROOM + 0x100 * id, 5))
}

/// Device 0 with 1,025 events, the last one past the limit, and device 1.
fn events_1025() -> Image {
    let numbers: Vec<u64> = (0..1025).collect();
    let image = collections(7, 1).device(0, 1, ROOM, 11).device(1, 0, ROOM + 4 * PAGE, 5);
    linked(&numbers).into_iter().fold(image, |image, (n, next)| image.event(ROOM, n, next, 8192, 0))
}

pub fn add(set: &mut Set) {
    set.begin("order");
    set.shown("nothing-wrong", good(), [2, 2, 2]);
    collections_first(set);
    inside_a_device(set);
    events_before_the_next_device(set);
    limits(set);
}

/// §9.3, §9.4.
fn collections_first(set: &mut Set) {
    set.refused("pe-4-then-itt-outside", good().collection(0, 0, 4).device(0, 1, 0, 5), -22);
    set.refused("icid-repeated-then-itt-outside", good().collection(1, 0, 1).device(0, 1, 0, 5), -22);
    set.refused("17th-collection-then-next", collections(3, 17).device(0, 1, ROOM, 5), -12);
    set.refused("17th-collection-then-itt-outside", collections(3, 17).device(0, 0, 0, 5), -12);
    set.refused("17th-collection-then-overlap", collections(3, 17).device(0, 0, DEVICES, 5), -12);
    set.refused("18th-collection-with-pe-4", collections(3, 17).collection(17, 40, 4), -12);
    set.refused("pe-4-then-17th-collection", collections(3, 17).collection(3, 3, 4), -22);
}

/// §9.5, §9.6.
fn inside_a_device(set: &mut Set) {
    set.refused("next-and-itt-outside", good().device(0, 2, 0, 5), -22);
    set.refused("next-of-the-last-and-itt-outside", good().device(1, 1, 0, 5), -22);
    set.refused("size-and-itt-outside", good().device(0, 1, 0, 17), -22);
    set.refused("itt-outside-and-overlap", good().device(0, 1, COLLECTIONS, 16), -14);
    set.refused("itt-outside-and-overlap-with-the-first", good().device(1, 0, ROOM, 10), -14);
    set.refused("itt-outside-then-next-of-the-second", good().device(0, 1, 0, 5).device(1, 1, ROOM, 5), -14);
    // §6.5: of the second entry the first one's next asks for no more than that it is valid.
    set.refused("itt-outside-then-ones", good().device(0, 1, 0, 5).put(DEVICES + 8, u64::MAX), -14);
    set.refused("overlap-then-itt-outside", good().device(0, 1, COLLECTIONS, 5).device(1, 0, 0, 5), -22);
}

/// §9.3, §9.7.
fn events_before_the_next_device(set: &mut Set) {
    let outside = || good().device(1, 0, 0, 5);
    set.refused("good-events-then-itt-outside", outside(), -14);
    set.refused("lpi-then-itt-outside", outside().event(ROOM, 0, 0, 8191, 0), -22);
    set.refused("event-next-then-itt-outside", outside().event(ROOM, 0, 1, 8192, 0), -22);
    set.refused("icid-then-itt-outside", outside().event(ROOM, 0, 0, 8192, 2), -22);
    set.refused("itt-outside-then-lpi", good().device(0, 1, 0, 5).event(ROOM + 0x100, 0, 0, 1, 0), -14);
    set.refused("lpi-of-the-second-device", good().event(ROOM + 0x100, 0, 0, 1, 0), -22);
}

/// §9.5, §9.7.
fn limits(set: &mut Set) {
    set.refused("33rd-device", devices_33(), -12);
    set.refused("33rd-device-and-itt-outside", devices_33().device(32, 0, 0, 5), -12);
    set.refused("33rd-device-and-overlap", devices_33().device(32, 0, ROOM, 5), -12);
    set.refused("33rd-device-and-next", devices_33().device(32, 7, ROOM, 5), -22);
    set.refused("33rd-device-and-size", devices_33().device(32, 0, 0, 32), -22);
    set.refused("32nd-outside-then-33rd-device", devices_33().device(31, 1, 0, 5), -14);
    set.refused("lpi-of-the-32nd-then-33rd-device", devices_33().event(ROOM + 0x1f00, 0, 0, 1, 0), -22);
    set.refused("33rd-device-and-its-lpi", devices_33().event(ROOM + 0x2000, 0, 0, 1, 0), -12);
    set.refused("1025th-event", events_1025(), -12);
    set.refused("1025th-event-then-itt-outside", events_1025().device(1, 0, 0, 5), -12);
    set.refused("1025th-event-then-overlap", events_1025().device(1, 0, ROOM, 5), -12);
    set.refused("1025th-event-and-icid", events_1025().event(ROOM, 1024, 0, 8192, 1), -22);
    set.refused("lpi-of-the-1024th-then-1025th-event", events_1025().event(ROOM, 1023, 1, 1, 0), -22);
    set.refused("itt-outside-then-1025th-event", events_1025().device(0, 1, 0, 11), -14);
}
