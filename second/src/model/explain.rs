//! Part 13, from the list of faults. Nothing stops at a first fault here: every one that is there (§13.7, §13.8) is
//! written down, and the earliest of them (§13.9) is the answer. Of `restore.rs` only the bytes of an entry are taken.

use super::answer::{Answer, Refusal};
use super::guest::{Area, Guest};
use super::its::{Table, COLLECTION_LIMIT, DEVICE_LIMIT, ENTRY, EVENT_LIMIT};
use super::restore::World;
use super::tables::DEVICE_CAP;

/// §13.4.
#[derive(Clone, Copy, PartialEq, Eq, Debug)]
pub enum Fault {
    Pe,
    Repeat,
    Collection17,
    Next,
    Size,
    Device33,
    Outside,
    Overlap,
    Lpi,
    Icid,
    Event1025,
}

impl Fault {
    /// §13.4: the number in a code, what a restore answers, and the name.
    fn row(self) -> (u64, Refusal, &'static str) {
        match self {
            Fault::Pe => (1, Refusal::Invalid, "pe"),
            Fault::Repeat => (2, Refusal::Invalid, "repeat"),
            Fault::Collection17 => (3, Refusal::Limit, "17th"),
            Fault::Next => (4, Refusal::Invalid, "next"),
            Fault::Size => (5, Refusal::Invalid, "size"),
            Fault::Device33 => (6, Refusal::Limit, "33rd"),
            Fault::Outside => (7, Refusal::Outside, "ITT outside memory"),
            Fault::Overlap => (8, Refusal::Invalid, "overlap"),
            Fault::Lpi => (9, Refusal::Invalid, "LPI"),
            Fault::Icid => (10, Refusal::Invalid, "ICID not in the collections"),
            Fault::Event1025 => (11, Refusal::Limit, "1,025th"),
        }
    }

    pub fn refusal(self) -> Refusal {
        self.row().1
    }

    pub fn name(self) -> &'static str {
        self.row().2
    }
}

/// §13.5: the entry, by its table and index.
#[derive(Clone, Copy, PartialEq, Eq, Debug)]
pub enum Place {
    Collection(u64),
    Device(u64),
    Event { device: u64, number: u64 },
}

/// A fault at its place.
#[derive(Clone, Copy, PartialEq, Eq, Debug)]
pub struct Named {
    pub place: Place,
    pub fault: Fault,
}

/// §13.9: the order at one entry of each table.
const AT_A_COLLECTION: [Fault; 3] = [Fault::Pe, Fault::Repeat, Fault::Collection17];
const AT_A_DEVICE: [Fault; 5] = [Fault::Next, Fault::Size, Fault::Device33, Fault::Outside, Fault::Overlap];
const AT_AN_EVENT: [Fault; 4] = [Fault::Lpi, Fault::Next, Fault::Icid, Fault::Event1025];

impl Named {
    /// §13.6.
    pub fn code(&self) -> u64 {
        let (table, device, index) = match self.place {
            Place::Collection(index) => (1, 0, index),
            Place::Device(id) => (2, 0, id),
            Place::Event { device, number } => (3, device, number),
        };
        (self.fault.row().0 << 40) + (table << 32) + (device << 16) + index
    }

    /// §13.9: of two faults the one with the lower key is earlier. Behind a device's own entry stand those of its ITT.
    fn key(&self) -> (u64, u64, u64, u64, usize) {
        let at = |order: &[Fault]| order.iter().position(|fault| *fault == self.fault).expect("a fault of its table");
        match self.place {
            Place::Collection(index) => (0, index, 0, 0, at(&AT_A_COLLECTION)),
            Place::Device(id) => (1, id, 0, 0, at(&AT_A_DEVICE)),
            Place::Event { device, number } => (1, device, 1, number, at(&AT_AN_EVENT)),
        }
    }
}

/// A table with nexts: where it is, how many entries it has, and how one is read.
struct Linked<'a> {
    world: &'a World<'a>,
    start: u64,
    entries: u64,
    blank: fn(u64) -> bool,
    next: fn(u64) -> u64,
    /// §7.2: in the device table alone.
    cap: Option<u64>,
}

impl Linked<'_> {
    fn blank(&self, index: u64) -> bool {
        (self.blank)(self.world.entry(self.start, index))
    }

    fn next(&self, index: u64) -> u64 {
        (self.next)(self.world.entry(self.start, index))
    }

    fn all_blank(&self, from: u64, to: u64) -> bool {
        (from..to).all(|index| self.blank(index))
    }

    /// §8.4, §8.5: whether the entry at `from` leads to the one at `to`, which must be valid.
    fn leads(&self, from: u64, to: u64) -> bool {
        if self.blank(to) {
            return false;
        }
        let (next, distance) = (self.next(from), to - from);
        let capped = self.cap.is_some_and(|cap| next == cap && distance > cap && self.all_blank(from + cap, to));
        next == distance || capped
    }

    /// §13.7: the IDs of all entries that are read, rising. Each is the first valid one, or the one before leads to it.
    fn read(&self) -> Vec<u64> {
        let mut ids: Vec<u64> = (0..self.entries).filter(|index| !self.blank(*index)).take(1).collect();
        let following = |from: u64| (from + 1..self.entries).find(|to| self.leads(from, *to));
        while let Some(to) = ids.last().and_then(|from| following(*from)) {
            ids.push(to);
        }
        ids
    }

    /// §13.8: past the last entry; onto a blank one, below the cap; at the cap, where all from there on is blank.
    fn bad_next(&self, id: u64) -> bool {
        let next = self.next(id);
        let landing = id + next;
        let past = landing >= self.entries;
        let onto_blank = self.cap.is_none_or(|cap| next < cap) && !past && self.blank(landing);
        let to_nothing = self.cap == Some(next) && self.all_blank(landing, self.entries);
        next != 0 && (past || onto_blank || to_nothing)
    }
}

/// §6.2.
fn device_table<'a>(world: &'a World) -> Linked<'a> {
    Linked {
        world,
        start: world.tables.devices.start,
        entries: world.tables.devices.entries(),
        blank: |entry| entry < 1 << 63,
        next: |entry| entry >> 49 & 0x3fff,
        cap: Some(DEVICE_CAP),
    }
}

/// A device that is read: its ID, and ITT and bits as its entry has them (§6.2).
#[derive(Clone, Copy)]
struct Device {
    id: u64,
    itt: u64,
    bits: u64,
}

impl Device {
    /// §5.5. Of more bits than a device can have it is no table, but an area still.
    fn area(&self) -> Area {
        Area::new(self.itt, (ENTRY as u128) << self.bits)
    }

    /// §13.7: whether its ITT is read.
    fn itt_is_read(&self, world: &World) -> bool {
        self.bits <= 16 && self.area().inside(&world.area)
    }

    /// §6.4.
    fn table<'a>(&self, world: &'a World) -> Linked<'a> {
        Linked {
            world,
            start: self.itt,
            entries: 1 << self.bits,
            blank: |entry| entry & 0xffff_ffff_0000 == 0,
            next: |entry| entry >> 48,
            cap: None,
        }
    }
}

/// The numbers in an event's entry (§6.4).
struct Event {
    lpi: u64,
    icid: u64,
}

/// Every entry that is read (§13.7), table by table.
struct Read {
    /// pe and ICID (§6.3), by index.
    collections: Vec<(u64, u64)>,
    devices: Vec<Device>,
    /// The events of each of the devices.
    events: Vec<Vec<u64>>,
}

/// §13.7: an entry of the collection table, if it and all before it are valid.
fn read_collections(world: &World) -> Vec<(u64, u64)> {
    let Table { start, .. } = world.tables.collections;
    let valid = |index: &u64| world.entry(start, *index) >= 1 << 63;
    let indices = (0..world.tables.collections.entries()).take_while(valid);
    indices.map(|index| world.entry(start, index)).map(|entry| (entry >> 16 & 0xf_ffff_ffff, entry & 0xffff)).collect()
}

fn read(world: &World) -> Read {
    let table = device_table(world);
    let device = |id: u64| {
        let entry = world.entry(table.start, id);
        Device { id, itt: (entry >> 5 & 0xfff_ffff_ffff) * 256, bits: entry % 32 + 1 }
    };
    let devices: Vec<Device> = table.read().into_iter().map(device).collect();
    let events = |device: &Device| match device.itt_is_read(world) {
        true => device.table(world).read(),
        false => Vec::new(),
    };
    Read { collections: read_collections(world), events: devices.iter().map(events).collect(), devices }
}

impl Read {
    /// §13.8: the faults at an entry of the collection table.
    fn at_collection(&self, world: &World, index: usize) -> Vec<Fault> {
        let (pe, icid) = self.collections[index];
        let before = &self.collections[..index];
        there(&[
            (Fault::Pe, pe >= world.vcpus),
            (Fault::Repeat, before.iter().any(|row| row.1 == icid)),
            (Fault::Collection17, before.len() >= COLLECTION_LIMIT),
        ])
    }

    /// §13.8: the faults at the entry of the device that so many others are before.
    fn at_device(&self, world: &World, count: usize) -> Vec<Fault> {
        let (device, before) = (self.devices[count], &self.devices[..count]);
        let tables = [world.tables.devices.area(), world.tables.collections.area()];
        let mut areas = tables.into_iter().chain(before.iter().map(Device::area));
        there(&[
            (Fault::Next, device_table(world).bad_next(device.id)),
            (Fault::Size, device.bits > 16),
            (Fault::Device33, before.len() >= DEVICE_LIMIT),
            (Fault::Outside, !device.area().inside(&world.area)),
            (Fault::Overlap, areas.any(|area| area.overlaps(&device.area()))),
        ])
    }

    /// §13.8: the faults at an event's entry, by how many devices and how many events of its own are before it.
    fn at_event(&self, world: &World, devices: usize, events: usize) -> Vec<Fault> {
        let (device, number) = (self.devices[devices], self.events[devices][events]);
        let entry = world.entry(device.itt, number);
        let event = Event { lpi: entry >> 16 & 0xffff_ffff, icid: entry & 0xffff };
        let before = self.events[..devices].iter().map(Vec::len).sum::<usize>() + events;
        there(&[
            (Fault::Lpi, event.lpi < 8192 || event.lpi > 65_535),
            (Fault::Next, device.table(world).bad_next(number)),
            (Fault::Icid, !self.collections.iter().any(|row| row.1 == event.icid)),
            (Fault::Event1025, before >= EVENT_LIMIT && self.whole_before(world, devices)),
        ])
    }

    /// §13.8: whether each of the first so many devices has an ITT that is read, with good nexts up to the last event.
    fn whole_before(&self, world: &World, devices: usize) -> bool {
        let good = |device: &Device, events: &Vec<u64>| {
            device.itt_is_read(world) && !events.iter().any(|number| device.table(world).bad_next(*number))
        };
        self.devices[..devices].iter().zip(&self.events).all(|(device, events)| good(device, events))
    }

    /// All faults at all entries, in no order that counts.
    fn faults(&self, world: &World) -> Vec<Named> {
        let mut all = Vec::new();
        let mut note = |place: Place, faults: Vec<Fault>| {
            all.extend(faults.into_iter().map(|fault| Named { place, fault }));
        };
        for index in 0..self.collections.len() {
            note(Place::Collection(index as u64), self.at_collection(world, index));
        }
        for (n, device) in self.devices.iter().enumerate() {
            note(Place::Device(device.id), self.at_device(world, n));
            for (k, number) in self.events[n].iter().enumerate() {
                note(Place::Event { device: device.id, number: *number }, self.at_event(world, n, k));
            }
        }
        all
    }
}

fn there(clauses: &[(Fault, bool)]) -> Vec<Fault> {
    clauses.iter().filter(|(_, holds)| *holds).map(|(fault, _)| *fault).collect()
}

/// §13.1: the first fault, if there is any.
fn first_fault(world: &World) -> Option<Named> {
    read(world).faults(world).into_iter().min_by_key(Named::key)
}

impl Guest {
    /// §13.1, behind the tests of §13.2. The mapping that stands is not looked at.
    pub fn first_fault(&self, memory: &[u8]) -> Result<Option<Named>, Refusal> {
        let tables = self.check_tables(memory.len())?;
        Ok(first_fault(&self.world(tables, memory)))
    }

    /// §13.3.
    pub fn explain(&self, memory: &[u8]) -> Answer {
        Ok(self.first_fault(memory)?.map_or(0, |named| named.code()))
    }
}
