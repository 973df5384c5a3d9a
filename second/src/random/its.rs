//! The ITS in a sequence: on the way to its tables, then mapping commands that meet each other.

use super::life::look_now_and_then;
use super::pair::Pair;
use super::{calls, far, pick};
use crate::call::{Call, Device};
use crate::model::guest::Area;
use crate::model::its::{DEVICE_LIMIT, EVENT_LIMIT};
use crate::trace;

/// Memory above this is not lent: such guests see wrong lengths only.
pub const LENT_LIMIT: u64 = 4 << 20;

pub fn memory_length(pair: &Pair) -> u64 {
    let memory = pair.guest().memory;
    (memory.end - memory.start) as u64
}

/// ITS INIT, placing, now and then many mappings at once, then calls of every kind.
pub fn live(pair: &mut Pair) {
    if pair.rng.one_in(4) {
        return;
    }
    fresh_memory(pair);
    if let Some(base) = pick::free_base(pair, 0x2_0000) {
        pair.make(Call::Set { device: Device::Its, group: 0, attribute: 4 }, base.to_le_bytes().to_vec());
    }
    init(pair);
    for _ in 0..3 {
        let call = place(pair);
        pair.make(call, vec![]);
    }
    fill(pair);
    for _ in 0..pair.rng.between(40, 200) {
        if !pair.stands() {
            return;
        }
        any_and_keep(pair);
        look_now_and_then(pair);
    }
}

/// Memory that holds something everywhere, so that every byte that save writes or leaves is seen.
fn fresh_memory(pair: &mut Pair) {
    let length = memory_length(pair);
    pair.memory = if length <= LENT_LIMIT { vec![0; length as usize] } else { Vec::new() };
    let memory = &mut pair.memory;
    match pair.rng.below(3) {
        0 => {}
        1 => memory.fill(0xff),
        _ => {
            let generator = pair.rng.inside();
            pair.rng.fill(memory);
            trace::filled(generator, memory);
        }
    }
}

pub fn init(pair: &mut Pair) {
    pair.make(Call::Set { device: Device::Its, group: 4, attribute: 0 }, vec![]);
}

/// One call; what a save leaves in memory is kept.
fn any_and_keep(pair: &mut Pair) {
    // A set-up in between may have given the guest other memory.
    if pair.memory.len() as u64 != memory_length(pair) && memory_length(pair) <= LENT_LIMIT {
        fresh_memory(pair);
    }
    if pair.rng.one_in(5) {
        let (call, lent) = calls::any(pair);
        pair.make(call, lent);
        return;
    }
    #[cfg(feature = "restore")]
    if pair.rng.one_in(25) {
        super::memory::restore(pair);
        return;
    }
    if pair.rng.one_in(40) {
        save(pair);
        return;
    }
    let call = any(pair);
    pair.make(call, vec![]);
}

fn save(pair: &mut Pair) {
    let memory = lent_memory(pair);
    if pair.guest().running && pair.rng.one_in(2) {
        pair.make(Call::Stop, vec![]);
    }
    if let Some((0, after)) = pair.make(Call::Save, memory) {
        pair.memory = after;
        pair.tables[0] += 1;
        pair.far.saved += far::apart(&pair.guest().its.mapping) as u64;
    }
}

/// The memory, or now and then one of a wrong length.
pub fn lent_memory(pair: &mut Pair) -> Vec<u8> {
    let mut memory = pair.memory.clone();
    let length = memory.len();
    match pair.rng.below(40) {
        0 => memory.resize(length + 1, 0),
        1 => memory.truncate(length.saturating_sub(1)),
        2 => memory.clear(),
        3 => memory.resize(length + 4096, 0),
        _ => {}
    }
    memory
}

/// Many mappings at once, so that limits are met.
fn fill(pair: &mut Pair) {
    if pair.rng.one_in(4) {
        far::map(pair);
    }
    if pair.rng.one_in(6) {
        for _ in 0..18 {
            let icid = if pair.rng.one_in(2) { pair.rng.below(40) } else { pair.rng.below(65_536) };
            let pe = pair.rng.below(pair.guest().vcpus.len() as u64);
            pair.make(Call::MapCollection { icid, pe }, vec![]);
        }
    }
    if pair.rng.one_in(4) {
        for _ in 0..DEVICE_LIMIT + 12 {
            let bits = pair.rng.between(1, 5);
            good_device(pair, bits);
        }
    }
    if pair.rng.one_in(30) {
        fill_events(pair);
    }
}

/// Where an ITT has room beside other tables: at the start of memory or right after one of them.
pub fn free_starts(memory: Area, areas: &[Area], bits: u64) -> Vec<u64> {
    let mut starts: Vec<u64> = areas.iter().map(|area| (area.end as u64).div_ceil(256) * 256).collect();
    starts.push(memory.start as u64);
    starts.retain(|start| {
        let area = Area::new(*start, 8 << bits);
        area.inside(&memory) && !areas.iter().any(|other| other.overlaps(&area))
    });
    starts
}

/// Maps a new device where there is room, if there is any.
pub fn good_device(pair: &mut Pair, bits: u64) {
    let starts = free_starts(pair.guest().memory, &table_areas(pair), bits);
    if !starts.is_empty() {
        let entries = pair.guest().its.tables.map_or(1, |tables| tables.devices.entries());
        let device = if pair.rng.one_in(4) { new_device(pair) } else { pair.rng.below(entries) };
        let itt = pair.rng.pick(&starts);
        pair.make(Call::MapDevice { device, itt, bits }, vec![]);
    }
}

/// One event after another until the limit is passed.
fn fill_events(pair: &mut Pair) {
    pair.make(Call::MapCollection { icid: 5, pe: 0 }, vec![]);
    (0..3).for_each(|_| good_device(pair, 9));
    let devices: Vec<u64> = pair.guest().its.mapping.devices.keys().copied().collect();
    for event in 0..512 {
        for device in &devices {
            if !pair.stands() || pair.guest().its.mapping.events.len() == EVENT_LIMIT && pair.rng.one_in(8) {
                return;
            }
            pair.make(Call::MapEvent { device: *device, event, lpi: 8192 + event, icid: 5 }, vec![]);
        }
    }
}

/// The tables and ITTs that stand.
fn table_areas(pair: &Pair) -> Vec<Area> {
    let its = &pair.guest().its;
    let mut areas: Vec<Area> = its.mapping.devices.values().map(|device| device.area()).collect();
    areas.extend(its.tables.iter().flat_map(|tables| [tables.devices.area(), tables.collections.area()]));
    areas
}

/// Any command, placing, ITS INIT or RESET.
pub fn any(pair: &mut Pair) -> Call {
    if pair.guest().its.tables.is_none() && pair.rng.one_in(2) {
        return place(pair);
    }
    match pair.rng.below(100) {
        0..=13 => map_device(pair),
        14..=17 => Call::UnmapDevice { device: device(pair) },
        18..=27 => Call::MapCollection { icid: icid(pair), pe: pe(pair) },
        28..=30 => Call::UnmapCollection { icid: icid(pair) },
        31..=60 => map_event(pair),
        61..=65 => {
            let (device, event) = mapped_event(pair);
            Call::Discard { device, event }
        }
        66..=73 => {
            let (device, event) = mapped_event(pair);
            Call::Move { device, event, icid: icid(pair) }
        }
        74..=94 => {
            let (device, event) = mapped_event(pair);
            Call::Lookup { device, event }
        }
        95..=97 => place(pair),
        98 => Call::Set { device: Device::Its, group: 4, attribute: 0 },
        _ => Call::Set { device: Device::Its, group: 4, attribute: 4 },
    }
}

/// Two tables: mostly good, often neighbours, sometimes misshapen, outside or over each other.
fn place(pair: &mut Pair) -> Call {
    let pages = memory_length(pair) / 4096;
    let most = (pages / 2).clamp(1, 128);
    let start = pair.guest().memory.start as u64;
    let rng = &mut pair.rng;
    let device_pages = if rng.one_in(2) { rng.between(1, most) } else { rng.between(1, most.min(3)) };
    let collection_pages = rng.between(1, most.min(2));
    let first = rng.below((pages + 1).saturating_sub(device_pages + collection_pages));
    let mut places = [start + 4096 * first, start + 4096 * (first + device_pages)];
    if rng.one_in(4) {
        places = [start + 4096 * (first + collection_pages), start + 4096 * first];
    }
    let mut numbers = [places[0], device_pages, places[1], collection_pages];
    if pair.rng.one_in(3) {
        spoil_place(pair, &mut numbers, start, pages);
    }
    let [device_start, device_pages, collection_start, collection_pages] = numbers;
    Call::Place { device_start, device_pages, collection_start, collection_pages }
}

fn spoil_place(pair: &mut Pair, numbers: &mut [u64; 4], start: u64, pages: u64) {
    for _ in 0..pair.rng.between(1, 2) {
        let rng = &mut pair.rng;
        let table = rng.pick(&[0, 2]);
        match rng.below(8) {
            0 => numbers[table] = numbers[table].wrapping_add(rng.pick(&[1, 0x100, 0x800, 4096])),
            1 => numbers[table] = numbers[table].wrapping_sub(4096),
            2 => numbers[table] = start + 4096 * (pages - rng.below(2)),
            3 => numbers[table + 1] = rng.pick(&[0, 129, 128, 1 << 32, pages, pages + 1]),
            4 => numbers[0] = numbers[2],
            5 => numbers[table] = 0u64.wrapping_sub(4096),
            6 => numbers[table + 1] += 1,
            _ => numbers[table] = pick::strange(pair),
        }
    }
}

/// A device ID: one that is mapped, a low one, one near the table's end, any, or a bad one.
pub fn device(pair: &mut Pair) -> u64 {
    let mapped: Vec<u64> = pair.guest().its.mapping.devices.keys().copied().collect();
    if !mapped.is_empty() && !pair.rng.one_in(4) {
        return pair.rng.pick(&mapped);
    }
    new_device(pair)
}

fn new_device(pair: &mut Pair) -> u64 {
    let entries = pair.guest().its.tables.map_or(512, |tables| tables.devices.entries());
    match pair.rng.below(12) {
        0 => entries,
        1 => entries - 1,
        2 => {
            let good = pair.rng.below(entries);
            pick::mostly(pair, good, 1)
        }
        3..=5 => pair.rng.below(8),
        6 => pair.rng.pick(&[0, 16_382, 16_383, 16_384, 20_000, 32_767]),
        _ => pair.rng.below(entries),
    }
}

fn map_device(pair: &mut Pair) -> Call {
    let device = if pair.rng.one_in(5) { device(pair) } else { new_device(pair) };
    let bits = match pair.rng.below(16) {
        0 => pair.rng.pick(&[0, 16, 17, 18, 32, 64, 256 + 4, u64::MAX]),
        1..=2 => pair.rng.between(7, 16),
        _ => pair.rng.between(1, 6),
    };
    Call::MapDevice { device, itt: itt(pair, bits), bits }
}

/// A place for an ITT: right after or right before another table, at an end of memory, anywhere, misaligned or outside.
fn itt(pair: &mut Pair, bits: u64) -> u64 {
    let size = 8u64 << bits.min(20);
    let guest = pair.guest();
    let (start, end) = (guest.memory.start as u64, guest.memory.end as u64);
    let areas = table_areas(pair);
    let rng = &mut pair.rng;
    let near = if areas.is_empty() {
        start
    } else {
        let area = rng.pick(&areas);
        rng.pick(&[area.start, area.end, area.end]) as u64
    };
    let up = |address: u64| address.wrapping_add(255) / 256 * 256;
    match rng.below(20) {
        0..=5 => up(near),
        6..=8 => near.wrapping_sub(size) / 256 * 256,
        9 => up(near).wrapping_sub(256),
        10 => up(near).wrapping_add(256),
        11 => end.wrapping_sub(size) / 256 * 256,
        12 => end.wrapping_sub(size).wrapping_add(256) / 256 * 256,
        13 => start.wrapping_sub(rng.pick(&[0, 256, size])),
        14 => near.wrapping_add(rng.pick(&[1, 8, 128, 255])),
        15 => pick::strange(pair),
        _ => start + rng.below((end - start) / 256) * 256,
    }
}

/// An ICID: one that stands, a low one, or a bad one.
pub fn icid(pair: &mut Pair) -> u64 {
    let standing: Vec<u64> = pair.guest().its.mapping.collections.keys().copied().collect();
    if !standing.is_empty() && !pair.rng.one_in(5) {
        return pair.rng.pick(&standing);
    }
    match pair.rng.below(6) {
        0 => pair.rng.pick(&[65_535, 65_536, 65_537, 1 << 32]),
        1 => {
            let good = pair.rng.below(20);
            pick::mostly(pair, good, 1)
        }
        _ => pair.rng.below(20),
    }
}

fn pe(pair: &mut Pair) -> u64 {
    let vcpus = pair.guest().vcpus.len() as u64;
    match pair.rng.below(12) {
        0 => vcpus,
        1 => pick::mostly(pair, 0, 1),
        2 => vcpus.saturating_sub(1),
        _ => pair.rng.below(vcpus),
    }
}

fn map_event(pair: &mut Pair) -> Call {
    let device = device(pair);
    let bits = pair.guest().its.mapping.devices.get(&device).map_or(4, |device| device.bits);
    let good = pair.rng.below(1 << bits);
    let event = match pair.rng.below(16) {
        0 => 1 << bits,
        1 => (1 << bits) - 1,
        2 => pick::mostly(pair, good, 1),
        3..=7 => pair.rng.below(4),
        _ => good,
    };
    let lpi = match pair.rng.below(14) {
        0 => pair.rng.pick(&[0, 1023, 8191, 65_536, 8192 + 65_536, (1 << 32) + 8192]),
        1 => pick::strange(pair),
        2 => pair.rng.pick(&[8192, 65_535]),
        _ => pair.rng.between(8192, 65_535),
    };
    Call::MapEvent { device, event, lpi, icid: icid(pair) }
}

/// An event that is mapped most times.
pub fn mapped_event(pair: &mut Pair) -> (u64, u64) {
    let mapped: Vec<(u64, u64)> = pair.guest().its.mapping.events.keys().copied().collect();
    if !mapped.is_empty() && !pair.rng.one_in(4) {
        let (device, event) = pair.rng.pick(&mapped);
        return (pick::mostly(pair, device, 30), pick::mostly(pair, event, 20));
    }
    let number = pair.rng.below(70);
    (device(pair), pick::mostly(pair, number, 4))
}

/// What can be asked about the mapping: lookups, and a save on a copy, whose bytes show all of it.
pub fn questions(pair: &mut Pair) -> Vec<(Call, Vec<u8>)> {
    let mut list: Vec<(Call, Vec<u8>)> = Vec::new();
    for _ in 0..6 {
        let (device, event) = mapped_event(pair);
        list.push((Call::Lookup { device, event }, vec![]));
    }
    let length = memory_length(pair);
    if length <= LENT_LIMIT {
        list.push((Call::Save, vec![0xa5; length as usize]));
    }
    list
}

/// Each call of the ITS once, with numbers that may be good.
pub fn each_kind(pair: &mut Pair) -> Vec<(Call, Vec<u8>)> {
    let start = pair.guest().memory.start as u64;
    let (device, event, icid) = (0, 1, 7);
    let mut list = vec![
        (
            Call::Place { device_start: start, device_pages: 1, collection_start: start + 4096, collection_pages: 1 },
            vec![],
        ),
        (Call::MapDevice { device, itt: start + 8192, bits: 5 }, vec![]),
        (Call::UnmapDevice { device }, vec![]),
        (Call::MapCollection { icid, pe: 0 }, vec![]),
        (Call::UnmapCollection { icid }, vec![]),
        (Call::MapEvent { device, event, lpi: 8192, icid }, vec![]),
        (Call::Discard { device, event }, vec![]),
        (Call::Move { device, event, icid }, vec![]),
        (Call::Lookup { device, event }, vec![]),
        (Call::Save, vec![1; 4096]),
    ];
    // The right length too, where that is not much to lend.
    #[cfg(feature = "restore")]
    for length in [4096, memory_length(pair).min(1 << 18)] {
        list.extend([Call::Explain, Call::Restore].map(|call| (call, vec![0; length as usize])));
    }
    list.push((any(pair), vec![]));
    list
}
