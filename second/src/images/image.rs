//! One image: bytes in which entries are put at their addresses.

use crate::model::guest::PAGE;
use crate::model::its::{Device, Event, ENTRY};
use crate::model::tables::{collection_entry, device_entry, event_entry};
use crate::show::START;

pub const DEVICES: u64 = START;
pub const COLLECTIONS: u64 = START + PAGE;
/// The first byte after the two tables.
pub const ROOM: u64 = START + 2 * PAGE;
/// §11.1: each table is one page.
pub const ENTRIES: u64 = PAGE / ENTRY;

#[derive(Clone)]
pub struct Image {
    pub bytes: Vec<u8>,
}

impl Image {
    /// All zeros.
    pub fn blank(pages: u64) -> Image {
        Image { bytes: Vec::new() }.of_length(pages * PAGE)
    }

    /// Cut, or with zeros after its end.
    pub fn of_length(mut self, length: u64) -> Image {
        self.bytes.resize(length as usize, 0);
        self
    }

    pub fn set(&mut self, address: u64, entry: u64) {
        let at = (address - START) as usize;
        self.bytes[at..at + 8].copy_from_slice(&entry.to_le_bytes());
    }

    pub fn put(mut self, address: u64, entry: u64) -> Image {
        self.set(address, entry);
        self
    }

    pub fn entry(&self, address: u64) -> u64 {
        let at = (address - START) as usize;
        u64::from_le_bytes(self.bytes[at..at + 8].try_into().expect("8 bytes"))
    }

    /// The same entry at each index from `from` up to, not with, `to`.
    pub fn fill(self, table: u64, from: u64, to: u64, entry: u64) -> Image {
        (from..to).fold(self, |image, index| image.put(table + 8 * index, entry))
    }

    pub fn device(self, id: u64, next: u64, itt: u64, bits: u64) -> Image {
        self.put(DEVICES + 8 * id, device_entry(&Device { itt, bits }, next))
    }

    pub fn collection(self, index: u64, icid: u64, pe: u64) -> Image {
        self.put(COLLECTIONS + 8 * index, collection_entry(icid, pe))
    }

    pub fn event(self, itt: u64, number: u64, next: u64, lpi: u64, icid: u64) -> Image {
        self.put(itt + 8 * number, event_entry(&Event { lpi, icid }, next))
    }
}

/// §7.2: each ID with its next. No distance in an image reaches the cap.
pub fn linked(ids: &[u64]) -> Vec<(u64, u64)> {
    let next = |n: usize| ids.get(n + 1).map_or(0, |following| following - ids[n]);
    ids.iter().enumerate().map(|(n, id)| (*id, next(n))).collect()
}
