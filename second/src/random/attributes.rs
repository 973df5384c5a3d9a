//! Attribute calls at random: known names most times, their neighbours, and strange ones.

use super::pair::Pair;
use super::pick;
use crate::call::{Call, Device};

fn set_or_get(pair: &mut Pair, device: Device, group: u64, attribute: u64) -> Call {
    if pair.rng.one_in(2) {
        Call::Set { device, group, attribute }
    } else {
        Call::Get { device, group, attribute }
    }
}

/// Group 0 of both devices.
pub fn addresses(pair: &mut Pair) -> (Call, Vec<u8>) {
    let (device, attribute) = match pair.rng.below(16) {
        0..=2 => (Device::Vgic, 2),
        3..=5 => (Device::Vgic, 3),
        6..=11 => (Device::Vgic, 5),
        12..=14 => (Device::Its, 4),
        _ => (pair.rng.pick(&[Device::Vgic, Device::Its]), pair.rng.below(8)),
    };
    let attribute = pick::mostly(pair, attribute, 30);
    let number = match attribute {
        5 => region_word(pair),
        2 => pick::base(pair, 0x1_0000),
        _ => pick::base(pair, 0x2_0000),
    };
    let lent = pick::value(pair, 8, number);
    (set_or_get(pair, device, 0, attribute), lent)
}

/// A region word: the next index most times, a base that fits or nearly fits.
pub fn region_word(pair: &mut Pair) -> u64 {
    let standing = pair.guest().frames.regions.len() as u64;
    let vcpus = pair.guest().vcpus.len() as u64;
    let count = match pair.rng.below(8) {
        0 => 0,
        1 => pair.rng.below(4096),
        2 => 4095,
        3 => vcpus,
        4 => vcpus.saturating_sub(pair.rng.below(3)),
        _ => pair.rng.between(1, 5),
    };
    let index = match pair.rng.below(10) {
        0 => pair.rng.below(36),
        1 => standing.saturating_sub(1),
        2 => standing + 1,
        3 => pair.rng.below(4096),
        _ => standing,
    };
    let flags = if pair.rng.one_in(12) { pair.rng.below(16) } else { 0 };
    let base = pick::base(pair, count * 0x2_0000) & 0x000f_ffff_ffff_0000;
    count << 52 | base | flags << 12 | index
}

/// Groups 1, 5 and 7.
pub fn registers(pair: &mut Pair) -> (Call, Vec<u8>) {
    let (group, attribute) = match pair.rng.below(10) {
        0..=3 => (1, distributor_attribute(pair)),
        4..=6 => (5, redistributor_attribute(pair)),
        _ => (7, level_attribute(pair)),
    };
    let number = pick::word(pair) as u64;
    let lent = pick::value(pair, 4, number);
    (set_or_get(pair, Device::Vgic, group, attribute), lent)
}

/// The bank of an INTID that the sequence comes back to, or any.
fn bank(pair: &mut Pair) -> u64 {
    let focus = pair.intids.clone();
    match pair.rng.below(4) {
        0 => pair.rng.below(32),
        1 => (pair.guest().count as u64 / 32 - pair.rng.below(2)).min(31),
        _ => pair.rng.pick(&focus) / 32,
    }
}

fn distributor_attribute(pair: &mut Pair) -> u64 {
    let bank = bank(pair);
    let offset = match pair.rng.below(16) {
        0..=2 => 0x10,
        3..=11 => 0x200 + 4 * bank,
        12..=13 => 0x280 + 4 * bank,
        14 => pair.rng.pick(&[0, 4, 0x0c, 0x14, 0x1fc, 0x200, 0x201, 0x27f, 0x280, 0x300, 0x10200, 0x10280, 0x10010]),
        _ => pair.rng.below(0x400),
    };
    // A spoilt bit below 32 makes another offset; above, it must not matter (§4.11).
    let offset = if pair.rng.one_in(20) { offset ^ 1 << pair.rng.below(32) } else { offset };
    let high = if pair.rng.one_in(4) { pair.rng.next() << 32 } else { 0 };
    high | offset
}

fn redistributor_attribute(pair: &mut Pair) -> u64 {
    let offset = match pair.rng.below(16) {
        0..=3 => 0x10,
        4..=10 => 0x10200,
        11..=13 => 0x10280,
        14 => pair.rng.pick(&[0, 0x14, 0x200, 0x204, 0x280, 0x10204, 0x10284, 0x101fc, 0x10201, 0x10010, 0x20200]),
        _ => 0x10200 ^ 1 << pair.rng.below(32),
    };
    (pick::affinity(pair) as u64) << 32 | offset
}

fn level_attribute(pair: &mut Pair) -> u64 {
    let good = (pick::affinity(pair) as u64) << 32 | 32 * bank(pair);
    match pair.rng.below(14) {
        0 => good | 1 << pair.rng.between(10, 31),
        1 => good | pair.rng.below(32),
        2 => pair.rng.next(),
        _ => good,
    }
}

/// Group 3.
pub fn count(pair: &mut Pair) -> (Call, Vec<u8>) {
    let number = match pair.rng.below(5) {
        0 => pair.rng.pick(&[0, 32, 63, 64, 65, 96, 256, 992, 1023, 1024, 1025, 1056]),
        1 => pair.rng.word() as u64,
        2 => 16 * pair.rng.below(70),
        _ => 32 * pair.rng.below(40),
    };
    let attribute = pick::mostly(pair, 0, 20);
    let lent = pick::value(pair, 4, number);
    (set_or_get(pair, Device::Vgic, 3, attribute), lent)
}

/// Group 4 of both devices. INIT of the VGIC is rare here: the plan of a sequence makes it.
pub fn control(pair: &mut Pair) -> (Call, Vec<u8>) {
    let device = pair.rng.pick(&[Device::Vgic, Device::Its]);
    let number = pair.rng.below(6);
    let attribute = pick::mostly(pair, number, 10);
    let number = pair.rng.next();
    let lent = pick::value(pair, 0, number);
    (set_or_get(pair, device, 4, attribute), lent)
}

/// Groups and attributes that look like known ones, or like nothing.
pub fn strange(pair: &mut Pair) -> (Call, Vec<u8>) {
    let device = pair.rng.pick(&[Device::Vgic, Device::Its]);
    let known = pair.rng.pick(&[0, 1, 3, 4, 5, 7]);
    let group = match pair.rng.below(3) {
        0 => pair.rng.below(10),
        _ => pick::mostly(pair, known, 1),
    };
    let known = pair.rng.pick(&[0, 2, 3, 4, 5, 0x10, 0x204, 0x10200, 32]);
    let attribute = pick::mostly(pair, known, 3);
    let width = pair.rng.pick(&[0, 4, 8]);
    let number = pair.rng.next();
    let lent = pick::value(pair, width, number);
    (set_or_get(pair, device, group, attribute), lent)
}
