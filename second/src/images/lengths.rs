//! The example (§11.4), empty images of every length that is read, and lengths that are not (§11.1).

use super::image::{Image, COLLECTIONS, DEVICES, ROOM};
use super::{Set, Want};

/// The words of §12.2 and §12.4 with next 0 and as they are, and that of §12.3.
const P2: u64 = 0x8000_0000_0800_0404;
const P2_NEXT_3: u64 = 0x8006_0000_0800_0404;
const P3: u64 = 0x8000_0000_0001_0007;
const P4: u64 = 0x0000_0000_2000_0007;
const P4_NEXT_2: u64 = 0x0002_0000_2000_0007;

/// §11.4.
const EXAMPLE: &str = "collections 1\n7 1\ndevices 1\n0 40002000 5\nevents 1\n0 1 8192 7\n";

fn example(pages: u64) -> Image {
    Image::blank(pages).put(DEVICES, P2).put(COLLECTIONS, P3).put(ROOM + 8, P4)
}

pub fn add(set: &mut Set) {
    set.begin("example");
    set.add("itself", example(4), Want::Whole(EXAMPLE.into()));
    samples(set);
    explained(set);
    set.begin("empty");
    empty(set);
    set.begin("length");
    wrong_lengths(set);
    wrong_lengths_of_good_bytes(set);
}

/// §11.1, §11.4, §12.2 to §12.4.
fn samples(set: &mut Set) {
    set.shown("just-long-enough", example(3), [1, 1, 1]);
    set.shown("longest", example(16), [1, 1, 1]);
    set.refused("without-its-itt", example(3).of_length(8192), -14);
    let chained = example(3).put(DEVICES, P2_NEXT_3);
    set.refused("device-next-3-onto-nothing", chained.clone(), -22);
    set.shown("device-next-3-onto-a-device", chained.device(3, 0, ROOM + 0x100, 1), [1, 2, 1]);
    let chained = example(3).put(ROOM + 8, P4_NEXT_2);
    set.refused("event-next-2-onto-nothing", chained.clone(), -22);
    set.shown("event-next-2-onto-an-event", chained.put(ROOM + 8 * 3, P4), [1, 1, 2]);
}

/// §13.12: the example as it is explained, with next 3, and with ICID 8 in the event.
fn explained(set: &mut Set) {
    set.explained("explained", example(4), "described");
    let next_3 = example(4).put(DEVICES, P2_NEXT_3);
    set.explained("with-next-3", next_3, "refused -22: device table, entry 0: next");
    let icid_8 = example(4).put(ROOM + 8, P4 + 1);
    set.explained("with-icid-8", icid_8, "refused -22: ITT of device 0, entry 1: ICID not in the collections");
}

/// §12.10.
fn empty(set: &mut Set) {
    for pages in 2..=16 {
        set.shown(&format!("{:05}", 4096 * pages), Image::blank(pages), [0, 0, 0]);
    }
}

/// §11.1.
fn wrong_lengths(set: &mut Set) {
    for length in [0, 1, 4095, 4096, 8191, 8193, 12_289, 65_535, 65_537, 69_632, 131_072] {
        set.refused(&format!("{length:06}"), Image::blank(0).of_length(length), -14);
    }
}

/// §11.1: bytes that would be shown if a reader cut them or took too few. Their length alone refuses them.
fn wrong_lengths_of_good_bytes(set: &mut Set) {
    for length in [4096, 12_289, 16_383, 16_385, 65_537, 131_072] {
        set.refused(&format!("{length:06}-of-the-example"), example(4).of_length(length), -14);
    }
}
