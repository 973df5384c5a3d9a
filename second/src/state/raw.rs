//! The numbers in a state's bytes as they stand there. Nothing is judged here, and nothing behind the last row is read
//! (§1.7).

use super::layout::{self, List, Marked};
use crate::model::guest::Area;

pub struct Raw {
    pub width: u64,
    pub start: u64,
    pub length: u64,
    pub init: u64,
    pub running: u64,
    pub irqs: u64,
    pub irqs_set: u64,
    pub status: u64,
    pub its_init: u64,
    pub distributor: Base,
    pub single: Base,
    pub its: Base,
    pub device_table: Table,
    pub collection_table: Table,
    pub regions: Rows<Region>,
    pub vcpus: Rows<Vcpu>,
    pub banks: Vec<Bank>,
    pub devices: Rows<Device>,
    pub collections: Rows<Collection>,
    pub events: Rows<Event>,
}

/// How many rows are said to stand, and those for which there is room.
pub struct Rows<T> {
    pub count: u64,
    pub rows: Vec<T>,
}

pub struct Base {
    pub set: u64,
    pub base: u64,
}

pub struct Table {
    pub placed: u64,
    pub start: u64,
    pub pages: u64,
}

pub struct Region {
    pub base: u64,
    pub count: u64,
}

pub struct Bank {
    pub latch: u64,
    pub level: u64,
    pub trigger: u64,
}

pub struct Vcpu {
    pub affinity: u64,
    pub bank: Bank,
    pub status: u64,
}

pub struct Device {
    pub id: u64,
    pub itt: u64,
    pub bits: u64,
}

pub struct Collection {
    pub icid: u64,
    pub pe: u64,
}

pub struct Event {
    pub device: u64,
    pub event: u64,
    pub lpi: u64,
    pub icid: u64,
}

fn base(bytes: &[u8], at: Marked) -> Base {
    Base { set: at.mark.get(bytes), base: at.start.get(bytes) }
}

fn table(bytes: &[u8], at: Marked) -> Table {
    Table { placed: at.mark.get(bytes), start: at.start.get(bytes), pages: at.pages.get(bytes) }
}

/// Each row in use, made from its numbers by column.
fn rows<T>(bytes: &[u8], list: &List, make: impl Fn(&dyn Fn(usize) -> u64) -> T) -> Rows<T> {
    let rows = (0..list.rows(bytes)).map(|row| make(&|column| list.number(bytes, row, column))).collect();
    Rows { count: list.count.get(bytes), rows }
}

impl Raw {
    pub fn read(bytes: &[u8]) -> Raw {
        Raw {
            width: layout::WIDTH.get(bytes),
            start: layout::START.get(bytes),
            length: layout::MEMORY.get(bytes),
            init: layout::INIT.get(bytes),
            running: layout::RUNNING.get(bytes),
            irqs: layout::IRQS.get(bytes),
            irqs_set: layout::IRQS_SET.get(bytes),
            status: layout::STATUS.get(bytes),
            its_init: layout::ITS_INIT.get(bytes),
            distributor: base(bytes, layout::DISTRIBUTOR),
            single: base(bytes, layout::SINGLE),
            its: base(bytes, layout::ITS),
            device_table: table(bytes, layout::DEVICE_TABLE),
            collection_table: table(bytes, layout::COLLECTION_TABLE),
            regions: rows(bytes, &layout::REGIONS, |n| Region { base: n(0), count: n(1) }),
            vcpus: rows(bytes, &layout::VCPUS, |n| Vcpu {
                affinity: n(0),
                bank: Bank { latch: n(1), level: n(2), trigger: n(3) },
                status: n(4),
            }),
            banks: rows(bytes, &layout::BANKS, |n| Bank { latch: n(0), level: n(1), trigger: n(2) }).rows,
            devices: rows(bytes, &layout::DEVICES, |n| Device { id: n(0), itt: n(1), bits: n(2) }),
            collections: rows(bytes, &layout::COLLECTIONS, |n| Collection { icid: n(0), pe: n(1) }),
            events: rows(bytes, &layout::EVENTS, |n| Event { device: n(0), event: n(1), lpi: n(2), icid: n(3) }),
        }
    }

    pub fn memory(&self) -> Area {
        Area::new(self.start, self.length as u128)
    }

    /// 2^p. No p above 64 tells anything.
    pub fn top(&self) -> u128 {
        1 << self.width.min(64)
    }

    /// The three bases, each with the bytes that its frame takes (§3.3, §3.6).
    pub fn bases(&self) -> [(&Base, u128); 3] {
        let redistributors = if self.init == 0 { 1 } else { self.vcpus.count as u128 };
        [(&self.distributor, 65_536), (&self.single, 131_072 * redistributors), (&self.its, 131_072)]
    }

    pub fn tables(&self) -> [&Table; 2] {
        [&self.device_table, &self.collection_table]
    }

    /// Both tables are placed.
    pub fn placed(&self) -> bool {
        self.tables().iter().all(|table| table.placed != 0)
    }

    /// The frames that stand (§3.4): those of the bases that are set, and the regions.
    pub fn frames(&self) -> Vec<Area> {
        let bases = self.bases();
        let set = bases.iter().filter(|(base, _)| base.set != 0);
        let mut areas: Vec<Area> = set.map(|(base, size)| Area::new(base.base, *size)).collect();
        areas.extend(self.regions.rows.iter().map(Region::area));
        areas
    }
}

impl Region {
    /// §3.7.
    pub fn area(&self) -> Area {
        Area::new(self.base, self.count as u128 * 131_072)
    }
}

impl Table {
    /// §5.4.
    pub fn area(&self) -> Area {
        Area::new(self.start, self.pages as u128 * 4096)
    }
}

impl Device {
    /// §5.10: how many events the ITT has room for. More than 2^60 is no size of anything.
    pub fn events(&self) -> u64 {
        1 << self.bits.min(60)
    }

    /// §5.5.
    pub fn itt_area(&self) -> Area {
        Area::new(self.itt, 8 * self.events() as u128)
    }
}
