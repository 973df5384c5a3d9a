//! Images for restore that aim at a fault: a mapping is written out, with one more row than a limit allows now and then,
//! and faults are planted in its entries, often two at one entry (§13.9). In images spoilt at random a repeat, a 33rd
//! device or a 1,025th event is seldom the first fault.

use super::its::free_starts;
use super::memory::{distance, rising, Image};
use super::pair::Pair;
use crate::model::guest::Area;
use crate::model::its::Tables;

/// A device that was written: where its entry and those of its events are.
struct Written {
    id: u64,
    itt: u64,
    bits: u64,
    events: Vec<u64>,
}

/// How many collections, devices and events there are to be.
struct Plan {
    collections: u64,
    devices: u64,
    events: u64,
}

impl Plan {
    /// One limit is passed, or none.
    fn draw(pair: &mut Pair) -> Plan {
        let over = pair.rng.below(6);
        let more = pair.rng.pick(&[1, 1, 2]);
        let most = |n: u64, limit: u64, few: u64| if over == n { limit + more } else { few };
        let few = [pair.rng.between(1, 16), pair.rng.pick(&[1, 2, 3, 5, 32]), pair.rng.pick(&[0, 3, 40, 200, 1024])];
        Plan { collections: most(0, 16, few[0]), devices: most(1, 32, few[1]), events: most(2, 1024, few[2]) }
    }
}

pub fn write_out(pair: &mut Pair, image: &mut Image) {
    let plan = Plan::draw(pair);
    image.clear_tables();
    write_collections(pair, image, plan.collections);
    let devices = write_devices(pair, image, &plan);
    for _ in 0..pair.rng.pick(&[0, 1, 1, 1, 2, 2, 3]) {
        plant(pair, image, plan.collections, &devices);
    }
}

/// The ICIDs are those of `icid`.
fn write_collections(pair: &mut Pair, image: &mut Image, count: u64) {
    let vcpus = pair.guest().vcpus.len() as u64;
    for index in 0..count {
        let pe = pair.rng.below(vcpus);
        image.put(image.tables.collections.start, index, 1 << 63 | pe << 16 | icid(index));
    }
}

fn icid(index: u64) -> u64 {
    index * 37 % 101
}

/// Devices as far as there is room for their ITTs, each with its share of the events.
fn write_devices(pair: &mut Pair, image: &mut Image, plan: &Plan) -> Vec<Written> {
    let ids = rising(pair, plan.devices, image.tables.devices.entries());
    let mut areas = vec![image.tables.devices.area(), image.tables.collections.area()];
    let (mut left, mut written) = (plan.events, Vec::new());
    for (n, id) in ids.iter().enumerate() {
        let share =
            if n + 1 == ids.len() { left } else { pair.rng.pick(&[0, left / 2, left / (ids.len() - n) as u64]) };
        let bits = share.next_power_of_two().ilog2() as u64 + pair.rng.between(1, 2);
        let starts = free_starts(pair.guest().memory, &areas, bits);
        if starts.is_empty() {
            break;
        }
        let itt = pair.rng.pick(&starts);
        areas.push(Area::new(itt, 8 << bits));
        left -= share;
        let events = write_events(pair, image, itt, bits, share, plan.collections.min(16));
        written.push(Written { id: *id, itt, bits, events });
    }
    link(image, &written);
    written
}

fn link(image: &mut Image, devices: &[Written]) {
    let ids: Vec<u64> = devices.iter().map(|device| device.id).collect();
    for (n, device) in devices.iter().enumerate() {
        let next = distance(&ids, n).min(16_383);
        let entry = 1 << 63 | next << 49 | device.itt >> 8 << 5 | (device.bits - 1);
        image.put(image.tables.devices.start, device.id, entry);
    }
}

fn write_events(pair: &mut Pair, image: &mut Image, itt: u64, bits: u64, count: u64, icids: u64) -> Vec<u64> {
    image.clear(itt, 1 << bits);
    let skipped = pair.rng.below((1 << bits) - count + 1);
    let numbers: Vec<u64> = (skipped..skipped + count).collect();
    for (n, number) in numbers.iter().enumerate() {
        let lpi = pair.rng.between(8192, 65_535);
        let entry = distance(&numbers, n) << 48 | lpi << 16 | icid(pair.rng.below(icids));
        image.put(itt, *number, entry);
    }
    numbers
}

/// Changes bits [high:low] of an entry.
fn change(image: &mut Image, table: u64, index: u64, [high, low]: [u32; 2], value: u64) {
    let mask = (u64::MAX >> (63 - (high - low))) << low;
    let entry = image.entry(table, index);
    image.put(table, index, entry & !mask | value << low & mask);
}

/// The last one half the time: there a limit may be passed as well.
fn some(pair: &mut Pair, count: usize) -> usize {
    if pair.rng.one_in(2) {
        return count - 1;
    }
    pair.rng.below(count as u64) as usize
}

fn plant(pair: &mut Pair, image: &mut Image, collections: u64, devices: &[Written]) {
    if pair.rng.one_in(4) || devices.is_empty() {
        return plant_collection(pair, image, collections);
    }
    let n = some(pair, devices.len());
    let device = &devices[n];
    if device.events.is_empty() || pair.rng.one_in(2) {
        return plant_device(pair, image, devices, n);
    }
    let number = device.events[some(pair, device.events.len())];
    plant_event(pair, image, device.itt, number);
}

/// pe or repeat.
fn plant_collection(pair: &mut Pair, image: &mut Image, count: u64) {
    let table = image.tables.collections.start;
    let index = some(pair, count as usize) as u64;
    if pair.rng.one_in(2) {
        let pe = pair.guest().vcpus.len() as u64 + pair.rng.pick(&[0, 0, 1, 1 << 32, 1 << 35]);
        change(image, table, index, [51, 16], pe);
    } else {
        let other = pair.rng.below(count);
        change(image, table, index, [15, 0], icid(other));
    }
}

/// next, size, an ITT outside memory or over another table.
fn plant_device(pair: &mut Pair, image: &mut Image, devices: &[Written], n: usize) {
    let (table, id) = (image.tables.devices.start, devices[n].id);
    match pair.rng.below(4) {
        0 => {
            let right = image.entry(table, id) >> 49 & 0x3fff;
            let next = pair.rng.pick(&[right + 1, right ^ 2, 511, 16_382, 16_383]);
            change(image, table, id, [62, 49], next);
        }
        1 => change(image, table, id, [4, 0], pair.rng.between(16, 31)),
        2 => {
            let Area { start, end } = pair.guest().memory;
            let itt = pair.rng.pick(&[end, end - 256, start.saturating_sub(256), 1 << 51]) as u64;
            change(image, table, id, [48, 5], itt >> 8);
            change(image, table, id, [4, 0], pair.rng.between(5, 15));
        }
        _ => {
            let Tables { devices: first, collections: second } = image.tables;
            let other = &devices[pair.rng.below(devices.len() as u64) as usize];
            let itt = pair.rng.pick(&[first.start, second.start, other.itt, other.itt]);
            change(image, table, id, [48, 5], itt >> 8);
        }
    }
}

/// LPI, next or ICID.
fn plant_event(pair: &mut Pair, image: &mut Image, itt: u64, number: u64) {
    match pair.rng.below(3) {
        0 => change(image, itt, number, [47, 16], pair.rng.pick(&[1, 8191, 65_536, 1 << 31 | 8192])),
        1 => {
            let right = image.entry(itt, number) >> 48;
            let next = pair.rng.pick(&[right + 1, right ^ 2, 16_383, 65_535]);
            change(image, itt, number, [63, 48], next);
        }
        _ => change(image, itt, number, [15, 0], pair.rng.between(101, 65_535)),
    }
}
