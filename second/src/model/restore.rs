//! Part 9: restore as it walks. The first fault on the way is the answer (§9.2).

use super::answer::{refuse_if, Answer, Refusal};
use super::guest::{Area, Guest};
use super::its::{Device, Event, Mapping, Table, Tables, COLLECTION_LIMIT, DEVICE_LIMIT, ENTRY, EVENT_LIMIT};
use super::tables::{take, DEVICE_CAP};

/// All that a restore depends on (§8.1).
pub struct World<'a> {
    pub memory: &'a [u8],
    pub area: Area,
    pub tables: Tables,
    pub vcpus: u64,
}

impl World<'_> {
    /// §6.1: entry `index` of the table at `start`, which lies inside memory.
    pub fn entry(&self, start: u64, index: u64) -> u64 {
        let at = (start as u128 + (index * ENTRY) as u128 - self.area.start) as usize;
        u64::from_le_bytes(self.memory[at..at + 8].try_into().expect("8 bytes"))
    }
}

/// A table with nexts.
struct Linked<'a> {
    world: &'a World<'a>,
    start: u64,
    entries: u64,
    valid: fn(u64) -> bool,
}

/// §6.2, §6.5.
fn device_valid(entry: u64) -> bool {
    take(entry, 63, 63) == 1
}

/// §6.4, §6.5.
fn event_valid(entry: u64) -> bool {
    take(entry, 47, 16) != 0
}

impl Linked<'_> {
    fn entry(&self, index: u64) -> u64 {
        self.world.entry(self.start, index)
    }

    fn stands(&self, index: u64) -> bool {
        (self.valid)(self.entry(index))
    }

    /// §9.6: the first valid entry from `index` on.
    fn first_from(&self, index: u64) -> Option<u64> {
        (index..self.entries).find(|index| self.stands(*index))
    }

    /// §9.6: where a next leads, if it does not end the table.
    fn follow(&self, index: u64, next: u64) -> Result<Option<u64>, Refusal> {
        if next == 0 {
            return Ok(None);
        }
        let landing = index + next;
        refuse_if(landing >= self.entries, Refusal::Invalid)?;
        refuse_if(!self.stands(landing), Refusal::Invalid)?;
        Ok(Some(landing))
    }

    /// §9.6: the one exception, in the device table.
    fn follow_device(&self, id: u64, next: u64) -> Result<Option<u64>, Refusal> {
        if next != DEVICE_CAP {
            return self.follow(id, next);
        }
        self.first_from(id + next).ok_or(Refusal::Invalid).map(Some)
    }
}

/// §9.4, rising (§9.3) up to the first blank entry (§8.2).
fn read_collections(world: &World, mapping: &mut Mapping) -> Result<(), Refusal> {
    let Table { start, .. } = world.tables.collections;
    for index in 0..world.tables.collections.entries() {
        let entry = world.entry(start, index);
        if take(entry, 63, 63) == 0 {
            break;
        }
        let (pe, icid) = (take(entry, 51, 16), take(entry, 15, 0));
        refuse_if(pe >= world.vcpus, Refusal::Invalid)?;
        refuse_if(mapping.collections.contains_key(&icid), Refusal::Invalid)?;
        refuse_if(mapping.collections.len() >= COLLECTION_LIMIT, Refusal::Limit)?;
        mapping.collections.insert(icid, pe);
    }
    Ok(())
}

/// §9.3, §9.5: the next comes first, and before the following device all the events.
fn read_devices(world: &World, mapping: &mut Mapping) -> Result<(), Refusal> {
    let table = world.tables.devices;
    let linked = Linked { world, start: table.start, entries: table.entries(), valid: device_valid };
    let mut at = linked.first_from(0);
    while let Some(id) = at {
        let entry = linked.entry(id);
        let following = linked.follow_device(id, take(entry, 62, 49))?;
        let device = Device { itt: take(entry, 48, 5) << 8, bits: take(entry, 4, 0) + 1 };
        check_device(world, mapping, &device)?;
        mapping.devices.insert(id, device);
        read_events(world, mapping, id, &device)?;
        at = following;
    }
    Ok(())
}

/// §9.5, behind the next.
fn check_device(world: &World, mapping: &Mapping, device: &Device) -> Result<(), Refusal> {
    refuse_if(device.bits > 16, Refusal::Invalid)?;
    refuse_if(mapping.devices.len() >= DEVICE_LIMIT, Refusal::Limit)?;
    refuse_if(!device.area().inside(&world.area), Refusal::Outside)?;
    let mut others = vec![world.tables.devices.area(), world.tables.collections.area()];
    others.extend(mapping.devices.values().map(Device::area));
    refuse_if(others.iter().any(|other| other.overlaps(&device.area())), Refusal::Invalid)
}

/// §9.7.
fn read_events(world: &World, mapping: &mut Mapping, id: u64, device: &Device) -> Result<(), Refusal> {
    let linked = Linked { world, start: device.itt, entries: 1 << device.bits, valid: event_valid };
    let mut at = linked.first_from(0);
    while let Some(number) = at {
        let entry = linked.entry(number);
        let event = Event { lpi: take(entry, 47, 16), icid: take(entry, 15, 0) };
        refuse_if(event.lpi < 8192 || event.lpi > 65_535, Refusal::Invalid)?;
        let following = linked.follow(number, take(entry, 63, 48))?;
        refuse_if(!mapping.collections.contains_key(&event.icid), Refusal::Invalid)?;
        refuse_if(mapping.events.len() >= EVENT_LIMIT, Refusal::Limit)?;
        mapping.events.insert((id, number), event);
        at = following;
    }
    Ok(())
}

impl Guest {
    pub fn world<'a>(&self, tables: Tables, memory: &'a [u8]) -> World<'a> {
        World { memory, area: self.memory, tables, vcpus: self.vcpus.len() as u64 }
    }

    /// §9.1, §9.2: what stood before does not count, and nothing else changes.
    pub fn restore(&mut self, memory: &[u8]) -> Answer {
        let tables = self.check_tables(memory.len())?;
        let world = self.world(tables, memory);
        let mut mapping = Mapping::default();
        read_collections(&world, &mut mapping)?;
        read_devices(&world, &mut mapping)?;
        self.its.mapping = mapping;
        Ok(0)
    }
}
