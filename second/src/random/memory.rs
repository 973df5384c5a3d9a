//! Memory for restore: what a save left or a mapping written out entry by entry, then spoilt here and there.
//! Each restore (part 9) is also held against what the bytes describe (part 8).

use super::aim;
use super::far;
use super::its::lent_memory;
use super::long::{self, Long};
use super::pair::Pair;
use crate::call::Call;
use crate::model::described::{described, describes};
use crate::model::its::{Mapping, Tables};

/// Memory into which entries are put, and where it and the tables lie.
pub struct Image {
    bytes: Vec<u8>,
    start: u64,
    pub tables: Tables,
}

impl Image {
    /// Where an entry lies in the bytes, if it does: a spoilt ITT may be anywhere.
    fn place(&self, table: u64, index: u64) -> Option<std::ops::Range<usize>> {
        let at = (table + 8 * index).checked_sub(self.start)? as usize;
        (at + 8 <= self.bytes.len()).then_some(at..at + 8)
    }

    pub fn put(&mut self, table: u64, index: u64, entry: u64) {
        if let Some(place) = self.place(table, index) {
            self.bytes[place].copy_from_slice(&entry.to_le_bytes());
        }
    }

    pub fn entry(&self, table: u64, index: u64) -> u64 {
        self.place(table, index).map_or(0, |place| u64::from_le_bytes(self.bytes[place].try_into().expect("8 bytes")))
    }

    pub fn clear(&mut self, table: u64, entries: u64) {
        (0..entries).for_each(|index| self.put(table, index, 0));
    }

    pub fn clear_tables(&mut self) {
        let Tables { devices, collections } = self.tables;
        self.clear(devices.start, devices.entries());
        self.clear(collections.start, collections.entries());
    }
}

pub fn restore(pair: &mut Pair) {
    if pair.guest().running && !pair.rng.one_in(8) {
        pair.make(Call::Stop, vec![]);
    }
    let tables = pair.guest().its.tables;
    let (memory, long) = match tables {
        Some(tables) if !pair.memory.is_empty() => make_image(pair, tables),
        _ => (lent_memory(pair), None),
    };
    let expected = expect(pair, &memory);
    let read = expected.is_some();
    let Some((answer, _)) = pair.make(Call::Restore, memory.clone()) else { return };
    check(pair, answer, expected, &memory);
    if let Some(long) = long.as_ref().filter(|_| read) {
        long.check(pair, answer);
    }
    // A long next stays in memory, to be spoilt or saved over.
    if long.is_some() || answer == 0 && pair.rng.one_in(2) {
        pair.memory = memory;
    }
}

/// What the bytes describe; none where restore is refused before it reads them.
fn expect(pair: &Pair, memory: &[u8]) -> Option<Option<Mapping>> {
    let tables = pair.guest().check_tables(memory.len()).ok()?;
    Some(described(&pair.guest().world(tables, memory)))
}

/// §9.2: restore is accepted where something is described, and gives that; else it is refused.
fn check(pair: &mut Pair, answer: i64, expected: Option<Option<Mapping>>, memory: &[u8]) {
    let Some(expected) = expected else { return };
    pair.tables[if answer == 0 { 1 } else { 2 }] += 1;
    pair.far.restored += (answer == 0 && far::apart(&pair.guest().its.mapping)) as u64;
    let guest = pair.guest();
    let tables = guest.its.tables.expect("placed");
    let note = match expected {
        None if answer == 0 => "restore is accepted, but the bytes describe nothing",
        Some(_) if answer != 0 => "restore is refused, but the bytes describe a mapping",
        Some(mapping) if mapping != guest.its.mapping => "restore gives another mapping than the bytes describe",
        Some(mapping) if !describes(&guest.world(tables, memory), &mapping) => "the mapping is not described",
        Some(mapping) => return only_one(pair, mapping, memory),
        _ => return,
    };
    pair.differ(note);
}

/// §8.1: the bytes describe no other mapping, not one that lacks a device, an event or a collection, or has another pe.
fn only_one(pair: &mut Pair, mapping: Mapping, memory: &[u8]) {
    let mut others = Vec::new();
    for id in mapping.devices.keys() {
        let mut other = mapping.clone();
        other.devices.remove(id);
        other.events.retain(|key, _| key.0 != *id);
        others.push(other);
    }
    for key in mapping.events.keys().take(8) {
        let mut other = mapping.clone();
        other.events.remove(key);
        others.push(other);
    }
    for icid in mapping.collections.keys() {
        let mut other = mapping.clone();
        other.collections.insert(*icid, mapping.collections[icid] + 1);
        others.push(other.clone());
        other.collections.remove(icid);
        others.push(other);
    }
    let tables = pair.guest().its.tables.expect("placed");
    let world = pair.guest().world(tables, memory);
    if others.iter().any(|other| describes(&world, other)) {
        pair.differ("the bytes describe two mappings");
    }
}

/// An image of one long next, which stays as it is, one that aims at a fault, or another, which is spoilt.
fn make_image(pair: &mut Pair, tables: Tables) -> (Vec<u8>, Option<Long>) {
    let start = pair.guest().memory.start as u64;
    let mut image = Image { bytes: pair.memory.clone(), start, tables };
    if pair.rng.one_in(3) {
        if let Some(long) = long::write_out(pair, &mut image) {
            return (image.bytes, Some(long));
        }
    }
    if pair.rng.one_in(2) {
        aim::write_out(pair, &mut image);
        return (image.bytes, None);
    }
    (spoilt_image(pair, image), None)
}

fn spoilt_image(pair: &mut Pair, mut image: Image) -> Vec<u8> {
    match pair.rng.below(4) {
        0 => {}
        1 => {
            // What the present mapping would leave.
            let mut copy = pair.guest().clone();
            let _ = copy.save(&mut image.bytes);
        }
        _ => write_out(pair, &mut image),
    }
    for _ in 0..pair.rng.pick(&[0, 0, 1, 1, 2, 3]) {
        spoil(pair, &mut image);
    }
    image.bytes
}

/// Rising IDs below `limit`: one after another, close together, far apart, around the devices' cap, or as far apart as
/// events can be.
pub fn rising(pair: &mut Pair, count: u64, limit: u64) -> Vec<u64> {
    if pair.rng.one_in(3) {
        return (0..count.min(limit)).collect();
    }
    let mut ids = Vec::new();
    let mut id = pair.rng.pick(&[0, 0, 1, 5, 16_383]);
    while id < limit && (ids.len() as u64) < count {
        ids.push(id);
        id += match pair.rng.below(12) {
            0 if limit > 16_384 => pair.rng.pick(&[16_382, 16_383, 16_384, 20_000]),
            1 if limit == 65_536 => pair.rng.pick(&[65_534, 65_535, 16_383]),
            0..=2 => pair.rng.below(limit / 4) + 1,
            3..=5 => pair.rng.below(20) + 1,
            _ => 1,
        };
    }
    ids
}

/// §7.2, but for the devices' cap.
pub fn distance(ids: &[u64], n: usize) -> u64 {
    ids.get(n + 1).map_or(0, |following| following - ids[n])
}

/// Writes a mapping out entry by entry over cleared tables: often as large as the limits allow, or one more.
fn write_out(pair: &mut Pair, image: &mut Image) {
    let tables = image.tables;
    image.clear_tables();
    let vcpus = pair.guest().vcpus.len() as u64;
    let icids = pair.rng.pick(&[1, 2, 5, 16, 16, 17]);
    for n in 0..icids {
        let pe = pair.rng.below(vcpus);
        let high = if pair.rng.one_in(10) { pair.rng.below(2048) << 52 } else { 0 };
        image.put(tables.collections.start, n, 1 << 63 | high | pe << 16 | (n * 37 % 101));
    }
    let count = pair.rng.pick(&[0, 1, 2, 4, 8, 32, 32, 33]);
    let ids = rising(pair, count, tables.devices.entries());
    let mut budget = pair.rng.pick(&[3, 20, 200, 1024, 1025, 1030]);
    let mut at = free_start(pair, tables);
    // Now and then the last device is lost: the next that leads to it leads to nothing.
    let written = if pair.rng.one_in(5) { ids.len().saturating_sub(1) } else { ids.len() };
    for (n, id) in ids.iter().enumerate().take(written) {
        let bits = if pair.rng.one_in(8) { pair.rng.between(8, 16) } else { pair.rng.between(1, 6) };
        let next = distance(&ids, n).min(16_383);
        image.put(tables.devices.start, *id, 1 << 63 | next << 49 | at >> 8 << 5 | (bits - 1));
        write_events(pair, image, at, bits, icids, &mut budget);
        at = (at + (8 << bits)).div_ceil(256) * 256;
    }
}

/// After the tables, most times: ITTs then have room up to memory's end.
fn free_start(pair: &mut Pair, tables: Tables) -> u64 {
    let end = tables.devices.area().end.max(tables.collections.area().end) as u64;
    if pair.rng.one_in(12) {
        return pair.guest().memory.start as u64;
    }
    end
}

fn write_events(pair: &mut Pair, image: &mut Image, itt: u64, bits: u64, icids: u64, budget: &mut u64) {
    image.clear(itt, 1 << bits);
    let count = (*budget).min(pair.rng.pick(&[0, 1, 3, 64, 400, 1025]));
    let ids = rising(pair, count, 1 << bits);
    *budget -= ids.len() as u64;
    let written = if pair.rng.one_in(40) { ids.len().saturating_sub(1) } else { ids.len() };
    for (n, id) in ids.iter().enumerate().take(written) {
        let icid = pair.rng.below(icids) * 37 % 101;
        let lpi = pair.rng.between(8192, 65_535);
        image.put(itt, *id, distance(&ids, n) << 48 | lpi << 16 | icid);
    }
}

/// The last one more often: there a limit may be passed and a second fault be met.
fn pick_or_last(pair: &mut Pair, list: &[u64]) -> u64 {
    if pair.rng.one_in(3) {
        return list[list.len() - 1];
    }
    pair.rng.pick(list)
}

/// Spoils one entry, most times one that is read.
fn spoil(pair: &mut Pair, image: &mut Image) {
    let tables = image.tables;
    let devices: Vec<u64> =
        (0..tables.devices.entries()).filter(|id| image.entry(tables.devices.start, *id) >> 63 == 1).collect();
    if pair.rng.one_in(4) || devices.is_empty() {
        let index = pair.rng.below(18);
        let entry = spoilt_collection(pair, image.entry(tables.collections.start, index));
        image.put(tables.collections.start, index, entry);
        return;
    }
    let id = pick_or_last(pair, &devices);
    let entry = image.entry(tables.devices.start, id);
    if pair.rng.one_in(2) {
        let entry = spoilt_device(pair, entry);
        let id = if pair.rng.one_in(6) { pair.rng.below(tables.devices.entries()) } else { id };
        image.put(tables.devices.start, id, entry);
        return;
    }
    let (itt, bits) = ((entry >> 5 & 0xfff_ffff_ffff) << 8, ((entry & 0x1f) + 1).min(16));
    let events: Vec<u64> = (0..1u64 << bits).filter(|n| image.entry(itt, *n) >> 16 & 0xffff_ffff != 0).collect();
    let any = pair.rng.below(1 << bits);
    let number = if events.is_empty() || pair.rng.one_in(6) { any } else { pick_or_last(pair, &events) };
    let entry = spoilt_event(pair, image.entry(itt, number));
    image.put(itt, number, entry);
}

fn spoilt_collection(pair: &mut Pair, entry: u64) -> u64 {
    let vcpus = pair.guest().vcpus.len() as u64;
    match pair.rng.below(6) {
        0 => entry ^ 1 << 63,
        1 => {
            (entry | 1 << 63) & 0xfff0_0000_0000_ffff
                | pair.rng.pick(&[vcpus, vcpus.saturating_sub(1), 1 << 35, 1 << 32]) << 16
        }
        2 => entry & !0xffff | pair.rng.below(101),
        3 => entry ^ 1 << pair.rng.between(52, 62),
        4 => pair.rng.next(),
        _ => entry ^ 1 << pair.rng.below(64),
    }
}

fn spoilt_device(pair: &mut Pair, entry: u64) -> u64 {
    let memory = pair.guest().memory;
    match pair.rng.below(8) {
        0 => entry ^ 1 << 63,
        1..=2 => entry & !(0x3fff << 49) | pair.rng.pick(&[0, 1, 2, 511, 16_382, 16_383]) << 49,
        3 => entry & !0x1f | pair.rng.pick(&[0, 14, 15, 16, 31]),
        4 => {
            let itt =
                pair.rng.pick(&[memory.start, memory.end, memory.end - 256, memory.start.saturating_sub(256)]) as u64;
            entry & !(0xfff_ffff_ffff << 5) | (itt >> 8) << 5
        }
        5 => pair.rng.next() | 1 << 63,
        6 => entry.wrapping_add(1 << pair.rng.between(5, 12)),
        _ => entry ^ 1 << pair.rng.below(64),
    }
}

fn spoilt_event(pair: &mut Pair, entry: u64) -> u64 {
    match pair.rng.below(6) {
        0 => entry & !(0xffff_ffff << 16),
        1 => entry & !(0xffff_ffff << 16) | pair.rng.pick(&[1, 8191, 8192, 65_535, 65_536, 0x8000_2000]) << 16,
        2 => entry & !(0xffff << 48) | pair.rng.pick(&[0, 1, 2, 16_383, 65_534, 65_535]) << 48,
        3 => entry & !0xffff | pair.rng.below(101),
        4 => pair.rng.next(),
        _ => entry ^ 1 << pair.rng.below(64),
    }
}
