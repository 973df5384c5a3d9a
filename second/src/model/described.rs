//! Part 8, rule by rule, and nothing of how restore walks. `describes` decides whether the bytes describe a given
//! mapping; `described` finds the one that they describe, if any.

use super::its::{Device, Event, Mapping, COLLECTION_LIMIT, DEVICE_LIMIT, EVENT_LIMIT};
use super::restore::World;
use super::tables::DEVICE_CAP;
use std::collections::BTreeSet;

/// A table with nexts (§8.4, §8.6): which of its entries are blank, and the next of each.
struct Links<'a> {
    entries: u64,
    /// §7.2: none in an ITT.
    cap: Option<u64>,
    blank: Box<dyn Fn(u64) -> bool + 'a>,
    next: Box<dyn Fn(u64) -> u64 + 'a>,
}

/// §6.2, §7.2: blank, next and cap in the device table.
fn device_links<'a>(world: &'a World) -> Links<'a> {
    let table = world.tables.devices;
    Links {
        entries: table.entries(),
        cap: Some(DEVICE_CAP),
        blank: Box::new(move |id| world.entry(table.start, id) >> 63 == 0),
        next: Box::new(move |id| world.entry(table.start, id) << 1 >> 50),
    }
}

/// §6.4, §8.6: blank and next in an ITT.
fn event_links<'a>(world: &'a World, device: Device) -> Links<'a> {
    Links {
        entries: 1 << device.bits,
        cap: None,
        blank: Box::new(move |number| world.entry(device.itt, number) << 16 >> 32 == 0),
        next: Box::new(move |number| world.entry(device.itt, number) >> 48),
    }
}

impl Links<'_> {
    fn all_blank(&self, from: u64, to: u64) -> bool {
        (from..to).all(|index| (self.blank)(index))
    }

    /// §8.4, §8.6: the next of `id` is right if `following` comes after it. §8.5: nothing stands from a capped landing
    /// up to that one.
    fn leads(&self, id: u64, following: u64) -> bool {
        let distance = following - id;
        match self.cap.filter(|cap| distance > *cap) {
            Some(cap) => (self.next)(id) == cap && self.all_blank(id + cap, following),
            None => (self.next)(id) == distance,
        }
    }

    /// §8.3 to §8.5, for an ITT §8.6: the IDs have valid entries, below the first all are blank, each next is right.
    fn hold(&self, ids: &[u64]) -> bool {
        let first = ids.first().copied().unwrap_or(self.entries);
        let valid = ids.iter().all(|id| *id < self.entries && !(self.blank)(*id));
        valid
            && self.all_blank(0, first)
            && ids.windows(2).all(|pair| pair[0] < pair[1] && self.leads(pair[0], pair[1]))
            && ids.last().is_none_or(|last| (self.next)(*last) == 0)
    }

    /// The only IDs for which that can hold, if any: the first is the lowest that is not blank (§8.3), and behind each
    /// one comes the one to which it leads (§8.4). More than `limit` are none (§8.7).
    fn only(&self, limit: usize) -> Option<Vec<u64>> {
        let mut ids: Vec<u64> = (0..self.entries).find(|id| !(self.blank)(*id)).into_iter().collect();
        while let Some(last) = ids.last().copied().filter(|last| (self.next)(*last) != 0) {
            let following = (last + 1..self.entries).find(|id| !(self.blank)(*id) && self.leads(last, *id))?;
            ids.push(following);
            if ids.len() > limit {
                return None;
            }
        }
        Some(ids)
    }
}

/// §8.2: the entries in front of the first blank one.
fn collection_rows(world: &World) -> Vec<(u64, u64)> {
    let table = world.tables.collections;
    let entries = (0..table.entries()).map(|index| world.entry(table.start, index));
    entries.take_while(|entry| entry >> 63 == 1).map(|entry| (entry & 0xffff, entry << 12 >> 28)).collect()
}

/// §6.2: ITT and bits.
fn device_at(world: &World, id: u64) -> Device {
    let entry = world.entry(world.tables.devices.start, id);
    Device { itt: (entry & 0x0001_ffff_ffff_ffe0) << 3, bits: (entry & 0x1f) + 1 }
}

/// §6.4: LPI and ICID.
fn event_at(world: &World, device: Device, number: u64) -> Event {
    let entry = world.entry(device.itt, number);
    Event { lpi: entry << 16 >> 32, icid: entry & 0xffff }
}

/// §8.2; of §8.7 the pe and the limit.
fn collections_hold(world: &World, mapping: &Mapping) -> bool {
    let rows = collection_rows(world);
    let distinct: BTreeSet<u64> = rows.iter().map(|row| row.0).collect();
    rows.len() <= COLLECTION_LIMIT
        && distinct.len() == rows.len()
        && rows.iter().all(|(_, pe)| *pe < world.vcpus)
        && rows.into_iter().collect::<std::collections::BTreeMap<_, _>>() == mapping.collections
}

/// §8.7: where ITTs lie (§1.14).
fn places_hold(world: &World, mapping: &Mapping) -> bool {
    let mut areas = vec![world.tables.devices.area(), world.tables.collections.area()];
    for device in mapping.devices.values() {
        if device.bits > 16 || !device.area().inside(&world.area) {
            return false;
        }
        if areas.iter().any(|other| other.overlaps(&device.area())) {
            return false;
        }
        areas.push(device.area());
    }
    true
}

/// The events of a device, rising.
fn events_of(mapping: &Mapping, id: u64) -> Vec<u64> {
    mapping.events.keys().filter(|key| key.0 == id).map(|key| key.1).collect()
}

/// §8.6; of §8.7 what an event names, its LPI and the limit.
fn events_hold(world: &World, mapping: &Mapping) -> bool {
    let fields = mapping.events.iter().all(|((id, number), event)| {
        mapping.devices.get(id).is_some_and(|device| {
            *number < 1 << device.bits
                && event_at(world, *device, *number) == *event
                && (8192..=65_535).contains(&event.lpi)
                && mapping.collections.contains_key(&event.icid)
        })
    });
    let links = |(id, device): (&u64, &Device)| event_links(world, *device).hold(&events_of(mapping, *id));
    fields && mapping.events.len() <= EVENT_LIMIT && mapping.devices.iter().all(links)
}

/// §8.1: §8.2 to §8.7 hold.
pub fn describes(world: &World, mapping: &Mapping) -> bool {
    let ids: Vec<u64> = mapping.devices.keys().copied().collect();
    collections_hold(world, mapping)
        && ids.len() <= DEVICE_LIMIT
        && device_links(world).hold(&ids)
        && mapping.devices.iter().all(|(id, device)| device_at(world, *id) == *device)
        && places_hold(world, mapping)
        && events_hold(world, mapping)
}

/// §8.1: bytes describe one mapping at most, so that it is this candidate or none.
pub fn described(world: &World) -> Option<Mapping> {
    let mut candidate = Mapping { collections: collection_rows(world).into_iter().collect(), ..Mapping::default() };
    for id in device_links(world).only(DEVICE_LIMIT)? {
        candidate.devices.insert(id, device_at(world, id));
    }
    if !places_hold(world, &candidate) {
        return None;
    }
    for (id, device) in candidate.devices.clone() {
        for number in event_links(world, device).only(EVENT_LIMIT)? {
            candidate.events.insert((id, number), event_at(world, device, number));
        }
    }
    describes(world, &candidate).then_some(candidate)
}
