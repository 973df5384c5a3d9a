//! Damage to a saved image: where nothing is read (§8.8), in one bit, in one field, or in one entry.

use super::image::{Image, COLLECTIONS, DEVICES, ENTRIES};
use super::random::Saved;
use crate::model::tables::take;
use crate::rng::Rng;

/// Fields as [high, low], in the order of §6.2, §6.3 (with its zeros) and §6.4.
const DEVICE_FIELDS: &[(u32, u32)] = &[(63, 63), (62, 49), (48, 5), (4, 0)];
const COLLECTION_FIELDS: &[(u32, u32)] = &[(63, 63), (62, 52), (51, 16), (15, 0)];
const EVENT_FIELDS: &[(u32, u32)] = &[(63, 48), (47, 16), (15, 0)];

/// An entry by its address, with its fields.
#[derive(Clone, Copy)]
struct Spot {
    address: u64,
    fields: &'static [(u32, u32)],
}

/// Every entry that restore reads and finds not blank, kind by kind.
fn read_spots(saved: &Saved) -> [Vec<Spot>; 3] {
    let mapping = &saved.mapping;
    let spot = |address: u64, fields: &'static [(u32, u32)]| Spot { address, fields };
    let collections = (0..mapping.collections.len() as u64).map(|n| spot(COLLECTIONS + 8 * n, COLLECTION_FIELDS));
    let devices = mapping.devices.keys().map(|id| spot(DEVICES + 8 * id, DEVICE_FIELDS));
    let events = mapping.events.keys().map(|(id, n)| spot(mapping.devices[id].itt + 8 * n, EVENT_FIELDS));
    [collections.collect(), devices.collect(), events.collect()]
}

/// A kind first, so that many events do not hide the few devices.
fn pick_spot(rng: &mut Rng, saved: &Saved) -> Spot {
    let kinds: Vec<Vec<Spot>> = read_spots(saved).into_iter().filter(|spots| !spots.is_empty()).collect();
    let kind = rng.below(kinds.len() as u64) as usize;
    rng.pick(&kinds[kind])
}

/// Most times a bit of an entry that is read, else any bit of the image.
pub fn spoil_bit(rng: &mut Rng, saved: &mut Saved) {
    let bytes = saved.image.bytes.len() as u64;
    let address = if rng.one_in(6) { DEVICES + 8 * rng.below(bytes / 8) } else { pick_spot(rng, saved).address };
    let entry = saved.image.entry(address) ^ 1 << rng.below(64);
    saved.image.set(address, entry);
}

/// A field gets a value near its own, at an end of its range, or any.
pub fn spoil_field(rng: &mut Rng, saved: &mut Saved) {
    let spot = pick_spot(rng, saved);
    let (high, low) = rng.pick(spot.fields);
    let entry = saved.image.entry(spot.address);
    let mask = u64::MAX >> (63 - (high - low));
    let value = take(entry, high, low);
    let any = rng.next();
    let new = rng.pick(&[0, 1, mask, mask - 1, value.wrapping_add(1), value.wrapping_sub(1), value ^ mask, any]) & mask;
    saved.image.set(spot.address, entry & !(mask << low) | new << low);
}

/// An entry gets another's place or bytes, is lost, or becomes junk.
pub fn spoil_entry(rng: &mut Rng, saved: &mut Saved) {
    let (spot, other) = (pick_spot(rng, saved), pick_spot(rng, saved));
    let (entry, others) = (saved.image.entry(spot.address), saved.image.entry(other.address));
    let last = DEVICES + saved.image.bytes.len() as u64 - 8;
    let beside = (spot.address + 8).min(last);
    match rng.below(7) {
        0 => saved.image.set(spot.address, 0),
        1 => saved.image.set(spot.address, u64::MAX),
        2 => saved.image.set(spot.address, rng.next()),
        3 => saved.image.set(spot.address, others),
        4 => saved.image.set(beside, entry),
        5 => {
            saved.image.set(spot.address, others);
            saved.image.set(other.address, entry);
        }
        _ => {
            saved.image.set(beside, entry);
            saved.image.set(spot.address, 0);
        }
    }
}

/// Other bytes wherever nothing is read, and the collections in any order.
pub fn spoil_unread(rng: &mut Rng, saved: &mut Saved) {
    mix_collections(rng, saved);
    spoil_after_collections(rng, saved);
    let ids: Vec<u64> = saved.mapping.devices.keys().copied().collect();
    spoil_chain(rng, &mut saved.image, DEVICES, ENTRIES, &ids, 1 << 63);
    spoil_itts(rng, saved);
}

/// §8.2: any order; §8.8: with bits in [62:52].
fn mix_collections(rng: &mut Rng, saved: &mut Saved) {
    let addresses: Vec<u64> = read_spots(saved)[0].iter().map(|spot| spot.address).collect();
    let mut entries: Vec<u64> = addresses.iter().map(|address| saved.image.entry(*address)).collect();
    rng.shuffle(&mut entries);
    for (address, entry) in addresses.into_iter().zip(entries) {
        saved.image.set(address, entry | rng.below(2048) << 52);
    }
}

/// §8.2: the entry behind the last collection stays blank; those behind it hold anything.
fn spoil_after_collections(rng: &mut Rng, saved: &mut Saved) {
    let count = saved.mapping.collections.len() as u64;
    saved.image.set(COLLECTIONS + 8 * count, rng.next() >> 1);
    for index in count + 1..ENTRIES {
        saved.image.set(COLLECTIONS + 8 * index, rng.next());
    }
}

/// §8.3: below the first ID, and everywhere where there is none, entries stay blank: the bits of `valid` are clear.
/// Those that a next jumps over or behind the last hold anything (§8.8).
fn spoil_chain(rng: &mut Rng, image: &mut Image, table: u64, entries: u64, ids: &[u64], valid: u64) {
    let first = ids.first().copied().unwrap_or(entries);
    for index in (0..entries).filter(|index| !ids.contains(index)) {
        let junk = if index < first { rng.next() & !valid } else { rng.next() };
        image.set(table + 8 * index, junk);
    }
}

/// §8.6.
fn spoil_itts(rng: &mut Rng, saved: &mut Saved) {
    for (id, device) in &saved.mapping.devices {
        let events = saved.mapping.events.keys().filter(|key| key.0 == *id).map(|key| key.1);
        let numbers: Vec<u64> = events.collect();
        spoil_chain(rng, &mut saved.image, device.itt, 1 << device.bits, &numbers, 0xffff_ffff << 16);
    }
}
