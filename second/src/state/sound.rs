//! The judge: whether bytes are sound (§1.8), clause by clause as in `LAYOUT.md`. No call of the library is made here,
//! and no clause leans on another, so that a state can break just one.

use super::raw::{Bank, Raw, Vcpu};
use crate::model::guest::Area;

/// A short name, and whether the numbers keep the rule.
pub type Clause = (&'static str, fn(&Raw) -> bool);

pub const CLAUSES: &[Clause] = &[
    // §1.9: as §1.4 asks.
    ("width least", |s| s.width >= 36),
    ("width most", |s| s.width <= 52),
    ("memory start", |s| s.start % 4096 == 0),
    ("memory step", |s| s.length % 4096 == 0),
    ("memory least", |s| s.length >= 4096),
    ("memory most", |s| s.length <= 1 << 30),
    ("memory end", |s| s.memory().end <= s.top()),
    // §1.9; the interrupt count as in §3.14 and, where it was not set, in §1.5 and §1.17.
    ("marks", |s| marks(s).iter().all(|mark| *mark <= 1)),
    ("running", |s| s.running == 0 || s.init != 0),
    ("count least", |s| s.irqs >= 64),
    ("count most", |s| s.irqs <= 1024),
    ("count step", |s| s.irqs % 32 == 0),
    ("count unset", |s| s.irqs == 64 || s.irqs == 256 || s.irqs_set != 0),
    ("distributor status", |s| s.status < 16),
    // §1.9: within §1.6.
    ("VCPUs most", |s| s.vcpus.count <= 64),
    // §1.12.
    ("affinities", |s| distinct(&s.vcpus.rows)),
    ("SGI trigger", |s| s.vcpus.rows.iter().all(|vcpu| vcpu.bank.trigger % 65_536 == 65_535)),
    ("SGI level", |s| s.vcpus.rows.iter().all(|vcpu| vcpu.bank.level % 65_536 == 0)),
    // §1.9.
    ("VCPU status", |s| s.vcpus.rows.iter().all(|vcpu| vcpu.status < 16)),
    // §1.10, with the sizes of §3.3 and §3.6.
    ("base step", |s| s.bases().iter().all(|(base, _)| base.set == 0 || base.base % 65_536 == 0)),
    ("base end", |s| s.bases().iter().all(|(base, size)| base.set == 0 || base.base as u128 + size <= s.top())),
    ("base unset", |s| s.bases().iter().all(|(base, _)| base.set != 0 || base.base == 0)),
    // §1.9: within §1.6.
    ("regions most", |s| s.regions.count <= 32),
    // §1.10.
    ("region or single", |s| s.single.set == 0 || s.regions.count == 0),
    ("region step", |s| s.regions.rows.iter().all(|region| region.base % 65_536 == 0)),
    ("region least", |s| s.regions.rows.iter().all(|region| region.count >= 1)),
    ("region most", |s| s.regions.rows.iter().all(|region| region.count <= 4095)),
    ("region end", |s| s.regions.rows.iter().all(|region| region.area().end <= s.top())),
    ("frames apart", |s| apart(&s.frames())),
    // §1.11.
    ("INIT VCPU", |s| s.init == 0 || s.vcpus.count > 0),
    ("INIT distributor", |s| s.init == 0 || s.distributor.set != 0),
    ("INIT places", |s| s.init == 0 || s.single.set != 0 || places(s) >= s.vcpus.count as u128),
    // §1.9.
    ("ITS INIT order", |s| s.its_init == 0 || s.init != 0),
    // §1.13.
    ("ITS INIT frame", |s| s.its_init == 0 || s.its.set != 0),
    ("tables both", |s| (s.device_table.placed == 0) == (s.collection_table.placed == 0)),
    ("tables order", |s| s.its_init != 0 || s.tables().iter().all(|table| table.placed == 0)),
    ("table unset", |s| s.tables().iter().all(|table| table.placed != 0 || (table.start, table.pages) == (0, 0))),
    // §1.13: form and place as in §5.4.
    ("table step", |s| s.tables().iter().all(|table| table.start % 4096 == 0 || table.placed == 0)),
    ("table least", |s| s.tables().iter().all(|table| table.pages >= 1 || table.placed == 0)),
    ("table most", |s| s.tables().iter().all(|table| table.pages <= 128 || table.placed == 0)),
    ("table inside", |s| s.tables().iter().all(|table| table.area().inside(&s.memory()) || table.placed == 0)),
    ("tables apart", |s| !s.placed() || !s.device_table.area().overlaps(&s.collection_table.area())),
    // §1.14: nothing without tables, the limits of §1.6, and devices as in §5.6.
    ("mapping unplaced", |s| s.placed() || s.devices.count == 0 && s.collections.count == 0 && s.events.count == 0),
    ("devices most", |s| !s.placed() || s.devices.count <= 32),
    ("collections most", |s| !s.placed() || s.collections.count <= 16),
    ("events most", |s| !s.placed() || s.events.count <= 1024),
    ("devices rise", |s| !s.placed() || rising(s.devices.rows.iter().map(|device| device.id))),
    ("device ID", |s| !s.placed() || s.devices.rows.iter().all(|device| device.id < entries(s))),
    ("bits least", |s| !s.placed() || s.devices.rows.iter().all(|device| device.bits >= 1)),
    ("bits most", |s| !s.placed() || s.devices.rows.iter().all(|device| device.bits <= 16)),
    ("ITT step", |s| !s.placed() || s.devices.rows.iter().all(|device| device.itt % 256 == 0)),
    ("ITT inside", |s| !s.placed() || s.devices.rows.iter().all(|device| device.itt_area().inside(&s.memory()))),
    // §1.14: the tables of §5.5 apart.
    ("ITT and tables", |s| !s.placed() || s.tables().iter().all(|table| clear_of(&itts(s), &table.area()))),
    ("ITTs apart", |s| !s.placed() || apart(&itts(s))),
    // §1.14: collections as in §5.8.
    ("collections rise", |s| !s.placed() || rising(s.collections.rows.iter().map(|row| row.icid))),
    ("collection pe", |s| !s.placed() || s.collections.rows.iter().all(|row| row.pe < s.vcpus.count)),
    // §1.14: events as in §5.10, and what they name.
    ("events rise", |s| !s.placed() || rising(s.events.rows.iter().map(|event| (event.device, event.event)))),
    ("event device", |s| !s.placed() || s.events.rows.iter().all(|event| room(s, event.device).is_some())),
    ("event number", |s| !s.placed() || s.events.rows.iter().all(|event| fits(s, event.device, event.event))),
    ("event LPI", |s| !s.placed() || s.events.rows.iter().all(|event| event.lpi >= 8192)),
    ("event ICID", |s| !s.placed() || s.events.rows.iter().all(|event| stands(s, event.icid))),
    // §1.15.
    ("last latch", |s| last_bank(s).is_none_or(|bank| bank.latch < 1 << 28)),
    ("last level", |s| last_bank(s).is_none_or(|bank| bank.level < 1 << 28)),
    ("last trigger", |s| last_bank(s).is_none_or(|bank| bank.trigger < 1 << 28)),
    // §1.16: fresh as in §4.3.
    ("early VCPU latch", |s| s.init != 0 || s.vcpus.rows.iter().all(|vcpu| vcpu.bank.latch == 0)),
    ("early VCPU level", |s| s.init != 0 || s.vcpus.rows.iter().all(|vcpu| vcpu.bank.level == 0)),
    ("early VCPU trigger", |s| s.init != 0 || s.vcpus.rows.iter().all(|vcpu| vcpu.bank.trigger == 65_535)),
    ("early VCPU status", |s| s.init != 0 || s.vcpus.rows.iter().all(|vcpu| vcpu.status == 0)),
    ("early shared latch", |s| s.init != 0 || s.banks.iter().all(|bank| bank.latch == 0)),
    ("early shared level", |s| s.init != 0 || s.banks.iter().all(|bank| bank.level == 0)),
    ("early shared trigger", |s| s.init != 0 || s.banks.iter().all(|bank| bank.trigger == 0)),
    ("early distributor status", |s| s.init != 0 || s.status == 0),
];

/// §1.9: all the marks.
fn marks(s: &Raw) -> [u64; 9] {
    let bases = [s.distributor.set, s.single.set, s.its.set];
    let [distributor, single, its] = bases;
    let (devices, collections) = (s.device_table.placed, s.collection_table.placed);
    [s.init, s.running, s.irqs_set, s.its_init, distributor, single, its, devices, collections]
}

/// §1.12.
fn distinct(vcpus: &[Vcpu]) -> bool {
    let taken = |n: usize| vcpus[..n].iter().any(|before| before.affinity == vcpus[n].affinity);
    !(0..vcpus.len()).any(taken)
}

/// §1.15: the bank from INTID 992 on. It is there with 1,024 interrupts alone (§4.2).
fn last_bank(s: &Raw) -> Option<&Bank> {
    s.banks.last().filter(|_| s.irqs == 1024)
}

/// §3.4: no two of the areas share a byte.
fn apart(areas: &[Area]) -> bool {
    let meets = |n: usize| areas[..n].iter().any(|before| before.overlaps(&areas[n]));
    !(0..areas.len()).any(meets)
}

/// §3.4: none of the areas shares a byte with the other one.
fn clear_of(areas: &[Area], other: &Area) -> bool {
    !areas.iter().any(|area| area.overlaps(other))
}

/// §1.11: the sum of the regions' counts.
fn places(s: &Raw) -> u128 {
    s.regions.rows.iter().map(|region| region.count as u128).sum()
}

/// §5.4: a page has 512 entries.
fn entries(s: &Raw) -> u64 {
    s.device_table.pages.saturating_mul(512)
}

/// §5.5.
fn itts(s: &Raw) -> Vec<Area> {
    s.devices.rows.iter().map(|device| device.itt_area()).collect()
}

/// §1.14: rising, and nothing twice.
fn rising<T: PartialOrd>(keys: impl Iterator<Item = T>) -> bool {
    let keys: Vec<T> = keys.collect();
    keys.windows(2).all(|pair| pair[0] < pair[1])
}

/// §5.10: how many events a device has room for, if it is mapped.
fn room(s: &Raw, device: u64) -> Option<u64> {
    s.devices.rows.iter().find(|row| row.id == device).map(|row| row.events())
}

/// §5.10. Of a device that is not mapped another clause tells.
fn fits(s: &Raw, device: u64, event: u64) -> bool {
    room(s, device).is_none_or(|room| event < room)
}

/// §1.14: whether the collection is mapped.
fn stands(s: &Raw, icid: u64) -> bool {
    s.collections.rows.iter().any(|row| row.icid == icid)
}

/// Every clause that the bytes break, by its place in the list.
#[cfg(feature = "its")]
pub fn broken(bytes: &[u8]) -> Vec<usize> {
    let raw = Raw::read(bytes);
    (0..CLAUSES.len()).filter(|n| !CLAUSES[*n].1(&raw)).collect()
}

/// The first clause that the bytes break: none in sound bytes.
pub fn first_broken(bytes: &[u8]) -> Option<usize> {
    let raw = Raw::read(bytes);
    CLAUSES.iter().position(|clause| !clause.1(&raw))
}
