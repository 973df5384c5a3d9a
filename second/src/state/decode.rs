//! Sound bytes as the model's own state: the model can take over any guest whose bytes it is shown (§1.7, §1.8).

use super::raw::{Bank, Base, Raw};
use super::sound::{first_broken, CLAUSES};
use crate::model::banks::{bit, interrupts, Irq};
use crate::model::frames::{Frames, Region};
use crate::model::guest::{Guest, Vcpu};
#[cfg(feature = "its")]
use crate::model::its::{Device, Event, Its, Mapping, Table, Tables};

/// The guest that the bytes hold, or the name of the first rule that they break.
pub fn take_over(bytes: &[u8]) -> Result<Guest, &'static str> {
    match first_broken(bytes) {
        Some(clause) => Err(CLAUSES[clause].0),
        None => Ok(guest(&Raw::read(bytes))),
    }
}

fn guest(raw: &Raw) -> Guest {
    Guest {
        width: raw.width as u32,
        memory: raw.memory(),
        vcpus: raw.vcpus.rows.iter().map(vcpu).collect(),
        frames: frames(raw),
        initialised: raw.init == 1,
        running: raw.running == 1,
        count: raw.irqs as u32,
        count_set: raw.irqs_set == 1,
        shared: (1..).zip(&raw.banks).map(|(bank, words)| irqs(words)[..interrupts(bank)].to_vec()).collect(),
        status: raw.status as u32,
        #[cfg(feature = "its")]
        its: its(raw),
    }
}

/// §3.1: a row of the VCPUs.
fn vcpu(row: &super::raw::Vcpu) -> Vcpu {
    Vcpu { affinity: row.affinity as u32, irqs: irqs(&row.bank), status: row.status as u32 }
}

/// §4.1: bit n of the three words is the bank's interrupt n.
fn irqs(bank: &Bank) -> [Irq; 32] {
    let of = |word: u64, n: usize| bit(word as u32, n);
    std::array::from_fn(|n| Irq { latch: of(bank.latch, n), level: of(bank.level, n), edge: of(bank.trigger, n) })
}

/// §3.5, §3.7: what stands. Of a base that is not set nothing is kept.
fn frames(raw: &Raw) -> Frames {
    let set = |base: &Base| (base.set == 1).then_some(base.base);
    Frames {
        distributor: set(&raw.distributor),
        single: set(&raw.single),
        its: set(&raw.its),
        regions: raw.regions.rows.iter().map(|row| Region { base: row.base, count: row.count }).collect(),
    }
}

/// §5.2, §5.4.
#[cfg(feature = "its")]
fn its(raw: &Raw) -> Its {
    let table = |table: &super::raw::Table| Table { start: table.start, pages: table.pages };
    let tables = Tables { devices: table(&raw.device_table), collections: table(&raw.collection_table) };
    Its { initialised: raw.its_init == 1, tables: raw.placed().then_some(tables), mapping: mapping(raw) }
}

/// §5.1: the rows of the three sets.
#[cfg(feature = "its")]
fn mapping(raw: &Raw) -> Mapping {
    let (devices, events) = (raw.devices.rows.iter(), raw.events.rows.iter());
    Mapping {
        collections: raw.collections.rows.iter().map(|row| (row.icid, row.pe)).collect(),
        devices: devices.map(|row| (row.id, Device { itt: row.itt, bits: row.bits })).collect(),
        events: events.map(|row| ((row.device, row.event), Event { lpi: row.lpi, icid: row.icid })).collect(),
    }
}

/// §1.8: after a call the bytes must be sound, and must hold this very guest; else what they hold that it has not.
pub fn holds(bytes: &[u8], guest: &Guest) -> Result<(), String> {
    let held = take_over(bytes).map_err(|clause| format!("the state is not sound: it breaks \"{clause}\""))?;
    if held == *guest {
        return Ok(());
    }
    let mut parts: Vec<(&str, bool)> = vec![
        ("width or memory", (held.width, held.memory) != (guest.width, guest.memory)),
        ("VCPUs", held.vcpus != guest.vcpus),
        ("frames", held.frames != guest.frames),
        ("marks", (held.initialised, held.running) != (guest.initialised, guest.running)),
        ("interrupt count", (held.count, held.count_set) != (guest.count, guest.count_set)),
        ("shared banks", held.shared != guest.shared),
        ("STATUSR", held.status != guest.status),
    ];
    #[cfg(feature = "its")]
    parts.push(("ITS", held.its != guest.its));
    parts.retain(|part| part.1);
    let names: Vec<&str> = parts.iter().map(|part| part.0).collect();
    Err(format!("the state's bytes hold other {} than the model", names.join(", ")))
}
