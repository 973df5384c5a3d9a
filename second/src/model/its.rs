//! Part 5: ITS INIT, placing, the mapping commands, lookup and RESET.

use super::answer::{refuse_if, Answer, Refusal};
use super::guest::{Area, Guest, PAGE};
use crate::call::Call;
use std::collections::BTreeMap;

/// §1.6.
pub const COLLECTION_LIMIT: usize = 16;
/// §1.6.
pub const DEVICE_LIMIT: usize = 32;
/// §1.6.
pub const EVENT_LIMIT: usize = 1024;
/// §6.1: the bytes of an entry.
pub const ENTRY: u64 = 8;

/// §5.1: a device without its ID.
#[derive(Clone, Copy, PartialEq, Eq, Debug)]
pub struct Device {
    pub itt: u64,
    pub bits: u64,
}

/// §5.1: an event without its device and number.
#[derive(Clone, Copy, PartialEq, Eq, Debug)]
pub struct Event {
    pub lpi: u64,
    pub icid: u64,
}

/// §5.1. Devices by ID, events by device and number, of each ICID the pe.
#[derive(Clone, PartialEq, Eq, Debug, Default)]
pub struct Mapping {
    pub collections: BTreeMap<u64, u64>,
    pub devices: BTreeMap<u64, Device>,
    pub events: BTreeMap<(u64, u64), Event>,
}

/// §5.4: a table's place.
#[derive(Clone, Copy, PartialEq, Eq, Debug)]
pub struct Table {
    pub start: u64,
    pub pages: u64,
}

#[derive(Clone, Copy, PartialEq, Eq, Debug)]
pub struct Tables {
    pub devices: Table,
    pub collections: Table,
}

#[derive(Clone, PartialEq, Debug, Default)]
pub struct Its {
    pub initialised: bool,
    pub tables: Option<Tables>,
    pub mapping: Mapping,
}

impl Device {
    /// §5.5: the ITT.
    pub fn area(&self) -> Area {
        Area::new(self.itt, (ENTRY << self.bits) as u128)
    }
}

impl Mapping {
    /// §5.4: a collection alone is something.
    pub fn is_empty(&self) -> bool {
        self.collections.is_empty() && self.devices.is_empty() && self.events.is_empty()
    }
}

impl Table {
    /// §5.5.
    pub fn area(&self) -> Area {
        Area::new(self.start, self.pages as u128 * PAGE as u128)
    }

    /// §5.4: 512 to a page.
    pub fn entries(&self) -> u64 {
        self.pages * PAGE / ENTRY
    }

    /// §5.4: start and pages.
    fn misshapen(&self) -> bool {
        self.start % PAGE != 0 || self.pages < 1 || self.pages > 128
    }
}

impl Guest {
    pub fn its_call(&mut self, call: &Call, lent: &mut [u8]) -> Answer {
        match *call {
            Call::Place { device_start, device_pages, collection_start, collection_pages } => self.place(Tables {
                devices: Table { start: device_start, pages: device_pages },
                collections: Table { start: collection_start, pages: collection_pages },
            }),
            Call::MapDevice { device, itt, bits } => self.map_device(device, Device { itt, bits }),
            Call::UnmapDevice { device } => self.unmap_device(device),
            Call::MapCollection { icid, pe } => self.map_collection(icid, pe),
            Call::UnmapCollection { icid } => self.unmap_collection(icid),
            Call::MapEvent { device, event, lpi, icid } => self.map_event(device, event, Event { lpi, icid }),
            Call::Discard { device, event } => self.discard(device, event),
            Call::Move { device, event, icid } => self.move_event(device, event, icid),
            Call::Lookup { device, event } => self.lookup(device, event),
            Call::Save => self.save(lent),
            #[cfg(feature = "restore")]
            Call::Restore => self.restore(lent),
            #[cfg(feature = "restore")]
            Call::Explain => self.explain(lent),
            _ => unreachable!("no call of the ITS"),
        }
    }

    /// §5.2.
    pub fn its_init(&mut self) -> Answer {
        refuse_if(!self.initialised || self.frames.its.is_none(), Refusal::NotReady)?;
        self.its.initialised = true;
        Ok(0)
    }

    /// §5.14: tables need not be placed for it (§5.3).
    pub fn its_reset(&mut self) -> Answer {
        refuse_if(!self.its.initialised, Refusal::NotReady)?;
        refuse_if(self.running, Refusal::Busy)?;
        self.its.tables = None;
        self.its.mapping = Mapping::default();
        Ok(0)
    }

    /// §5.4: each test is made of both tables before the next one.
    fn place(&mut self, tables: Tables) -> Answer {
        refuse_if(!self.its.initialised, Refusal::NotReady)?;
        refuse_if(!self.its.mapping.is_empty(), Refusal::Busy)?;
        let (devices, collections) = (tables.devices, tables.collections);
        refuse_if(devices.misshapen() || collections.misshapen(), Refusal::Invalid)?;
        let inside = |table: Table| table.area().inside(&self.memory);
        refuse_if(!inside(devices) || !inside(collections), Refusal::Outside)?;
        refuse_if(devices.area().overlaps(&collections.area()), Refusal::Invalid)?;
        self.its.tables = Some(tables);
        Ok(0)
    }

    /// §5.3: of every command, save and restore.
    pub fn placed(&self) -> Result<Tables, Refusal> {
        refuse_if(!self.its.initialised, Refusal::NotReady)?;
        self.its.tables.ok_or(Refusal::NotReady)
    }

    /// §5.5.
    fn table_areas(&self, tables: Tables) -> Vec<Area> {
        let mut areas = vec![tables.devices.area(), tables.collections.area()];
        areas.extend(self.its.mapping.devices.values().map(Device::area));
        areas
    }

    /// §5.6.
    fn map_device(&mut self, id: u64, device: Device) -> Answer {
        let tables = self.placed()?;
        refuse_if(id >= tables.devices.entries(), Refusal::Invalid)?;
        refuse_if(device.bits < 1 || device.bits > 16, Refusal::Invalid)?;
        refuse_if(device.itt % 256 != 0, Refusal::Invalid)?;
        refuse_if(self.its.mapping.devices.contains_key(&id), Refusal::Exists)?;
        refuse_if(self.its.mapping.devices.len() >= DEVICE_LIMIT, Refusal::Limit)?;
        refuse_if(!device.area().inside(&self.memory), Refusal::Outside)?;
        let meets = self.table_areas(tables).iter().any(|area| area.overlaps(&device.area()));
        refuse_if(meets, Refusal::Invalid)?;
        self.its.mapping.devices.insert(id, device);
        Ok(0)
    }

    /// §5.7.
    fn unmap_device(&mut self, id: u64) -> Answer {
        self.placed()?;
        self.its.mapping.devices.remove(&id).ok_or(Refusal::Missing)?;
        self.its.mapping.events.retain(|(device, _), _| *device != id);
        Ok(0)
    }

    /// §5.8.
    fn map_collection(&mut self, icid: u64, pe: u64) -> Answer {
        self.placed()?;
        refuse_if(icid >= 65_536 || pe >= self.vcpus.len() as u64, Refusal::Invalid)?;
        let collections = &mut self.its.mapping.collections;
        let full = collections.len() >= COLLECTION_LIMIT;
        refuse_if(full && !collections.contains_key(&icid), Refusal::Limit)?;
        collections.insert(icid, pe);
        Ok(0)
    }

    /// §5.9.
    fn unmap_collection(&mut self, icid: u64) -> Answer {
        self.placed()?;
        let mapping = &mut self.its.mapping;
        refuse_if(!mapping.collections.contains_key(&icid), Refusal::Missing)?;
        refuse_if(mapping.events.values().any(|event| event.icid == icid), Refusal::Invalid)?;
        mapping.collections.remove(&icid);
        Ok(0)
    }

    /// §5.10.
    fn map_event(&mut self, id: u64, number: u64, event: Event) -> Answer {
        self.placed()?;
        let mapping = &mut self.its.mapping;
        let device = mapping.devices.get(&id).ok_or(Refusal::Missing)?;
        refuse_if(number >= 1 << device.bits, Refusal::Invalid)?;
        refuse_if(event.lpi < 8192 || event.lpi > 65_535, Refusal::Invalid)?;
        refuse_if(!mapping.collections.contains_key(&event.icid), Refusal::Missing)?;
        refuse_if(mapping.events.contains_key(&(id, number)), Refusal::Exists)?;
        refuse_if(mapping.events.len() >= EVENT_LIMIT, Refusal::Limit)?;
        mapping.events.insert((id, number), event);
        Ok(0)
    }

    /// §5.11.
    fn discard(&mut self, id: u64, number: u64) -> Answer {
        self.placed()?;
        self.its.mapping.events.remove(&(id, number)).ok_or(Refusal::Missing)?;
        Ok(0)
    }

    /// §5.12.
    fn move_event(&mut self, id: u64, number: u64, icid: u64) -> Answer {
        self.placed()?;
        let mapping = &mut self.its.mapping;
        refuse_if(!mapping.collections.contains_key(&icid), Refusal::Missing)?;
        mapping.events.get_mut(&(id, number)).ok_or(Refusal::Missing)?.icid = icid;
        Ok(0)
    }

    /// §5.13.
    fn lookup(&self, id: u64, number: u64) -> Answer {
        self.placed()?;
        let mapping = &self.its.mapping;
        let event = mapping.events.get(&(id, number)).ok_or(Refusal::Missing)?;
        Ok(event.lpi + 65_536 * mapping.collections[&event.icid])
    }
}
