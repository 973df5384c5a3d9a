//! Parts 6 and 7: entries, and save.

use super::answer::{refuse_if, Answer, Refusal};
use super::guest::Guest;
use super::its::{Device, Event, Tables, ENTRY};

/// §7.2: the cap, in the device table alone.
pub const DEVICE_CAP: u64 = 16_383;

/// §2.11: puts `value` at bits [high:low].
fn put(value: u64, high: u32, low: u32) -> u64 {
    assert!(value as u128 >> (high - low + 1) == 0, "the field is too narrow for {value}");
    value << low
}

/// §2.11: takes the bits [high:low].
#[cfg(feature = "restore")]
pub fn take(entry: u64, high: u32, low: u32) -> u64 {
    (entry >> low) % (1 << (high - low + 1))
}

/// §6.2.
pub fn device_entry(device: &Device, next: u64) -> u64 {
    put(1, 63, 63) | put(next, 62, 49) | put(device.itt >> 8, 48, 5) | put(device.bits - 1, 4, 0)
}

/// §6.3.
pub fn collection_entry(icid: u64, pe: u64) -> u64 {
    put(1, 63, 63) | put(pe, 51, 16) | put(icid, 15, 0)
}

/// §6.4.
pub fn event_entry(event: &Event, next: u64) -> u64 {
    put(next, 63, 48) | put(event.lpi, 47, 16) | put(event.icid, 15, 0)
}

/// §7.2: how far the following ID is away, 0 at the last one. In an ITT this is next as it stands.
fn distance(ids: &[u64], place: usize) -> u64 {
    match ids.get(place + 1) {
        Some(following) => following - ids[place],
        None => 0,
    }
}

/// §7.3 to §7.5: a table as it comes out, the entries that are named and zeros.
fn table_bytes(entries: u64, named: &[(u64, u64)]) -> Vec<u8> {
    let mut bytes = vec![0; (entries * ENTRY) as usize];
    for (index, entry) in named {
        let at = (index * ENTRY) as usize;
        bytes[at..at + 8].copy_from_slice(&entry.to_le_bytes());
    }
    bytes
}

impl Guest {
    /// §7.1, §9.1.
    pub fn check_tables(&self, length: usize) -> Result<Tables, Refusal> {
        refuse_if(length as u128 != self.memory.end - self.memory.start, Refusal::Outside)?;
        let tables = self.placed()?;
        refuse_if(self.running, Refusal::Busy)?;
        Ok(tables)
    }

    /// §7.3.
    fn saved_devices(&self) -> Vec<(u64, u64)> {
        let devices = &self.its.mapping.devices;
        let ids: Vec<u64> = devices.keys().copied().collect();
        let entry = |(n, id): (usize, &u64)| (*id, device_entry(&devices[id], distance(&ids, n).min(DEVICE_CAP)));
        ids.iter().enumerate().map(entry).collect()
    }

    /// §7.4.
    fn saved_collections(&self) -> Vec<(u64, u64)> {
        let rows = self.its.mapping.collections.iter();
        rows.enumerate().map(|(n, (icid, pe))| (n as u64, collection_entry(*icid, *pe))).collect()
    }

    /// §7.5.
    fn saved_events(&self, id: u64) -> Vec<(u64, u64)> {
        let events = &self.its.mapping.events;
        let ids: Vec<u64> = events.keys().filter(|key| key.0 == id).map(|key| key.1).collect();
        let entry = |(n, number): (usize, &u64)| (*number, event_entry(&events[&(id, *number)], distance(&ids, n)));
        ids.iter().enumerate().map(entry).collect()
    }

    /// §6.1: where an address lies in lent memory.
    fn write(&self, memory: &mut [u8], address: u64, bytes: &[u8]) {
        let at = (address as u128 - self.memory.start) as usize;
        memory[at..at + bytes.len()].copy_from_slice(bytes);
    }

    /// §7.6: these tables and no other byte.
    pub fn save(&mut self, memory: &mut [u8]) -> Answer {
        let tables = self.check_tables(memory.len())?;
        let devices = table_bytes(tables.devices.entries(), &self.saved_devices());
        self.write(memory, tables.devices.start, &devices);
        let collections = table_bytes(tables.collections.entries(), &self.saved_collections());
        self.write(memory, tables.collections.start, &collections);
        for (id, device) in &self.its.mapping.devices {
            let events = table_bytes(1 << device.bits, &self.saved_events(*id));
            self.write(memory, device.itt, &events);
        }
        Ok(0)
    }
}
