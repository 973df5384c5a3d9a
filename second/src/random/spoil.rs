//! Damage: a sound state's bytes changed through the layout, so that a rule is broken, or nearly.

use crate::model::guest::Area;
use crate::rng::Rng;
use crate::state::layout::{self, Field, List, Marked, LISTS};
use crate::state::raw::Raw;

/// Changes a few things, mostly one, and tells which.
pub fn spoil(rng: &mut Rng, bytes: &mut [u8]) -> String {
    let times = if rng.one_in(5) { rng.between(2, 4) } else { 1 };
    let notes: Vec<String> = (0..times).map(|_| once(rng, bytes)).collect();
    notes.join(", ")
}

fn once(rng: &mut Rng, bytes: &mut [u8]) -> String {
    match rng.below(32) {
        0..=3 => flip(rng, bytes),
        4..=11 => field(rng, bytes),
        12 => unset_count(rng, bytes),
        13 => last_bank(rng, bytes),
        14 => early(rng, bytes),
        15..=17 => count(rng, bytes),
        18..=19 => swap_rows(rng, bytes),
        20..=21 => copy_row(rng, bytes),
        22..=25 => move_area(rng, bytes),
        26..=29 => take_away(rng, bytes),
        _ => plain(rng, bytes),
    }
}

fn write(bytes: &mut [u8], field: Field, number: u64) -> String {
    let before = field.get(bytes);
    field.put(bytes, number);
    format!("{} bytes at {} from {before:#x} to {:#x}", field.size, field.at, field.get(bytes))
}

/// A bit, more often where something stands than in zeros.
fn flip(rng: &mut Rng, bytes: &mut [u8]) -> String {
    let length = bytes.len() as u64;
    let used: Vec<u64> = (0..length).filter(|at| bytes[*at as usize] != 0).collect();
    let near = (rng.pick(&used) + rng.below(3)).saturating_sub(1).min(length - 1);
    let at = if rng.one_in(3) { rng.below(length) } else { near };
    let bit = rng.below(8);
    bytes[at as usize] ^= 1 << bit;
    format!("bit {bit} of byte {at} flipped")
}

/// A list in which at least so many rows are in use.
fn some_list(rng: &mut Rng, bytes: &[u8], least: usize) -> Option<&'static List> {
    let lists: Vec<&List> = LISTS.into_iter().filter(|list| list.rows(bytes) >= least).collect();
    (!lists.is_empty()).then(|| rng.pick(&lists))
}

/// A number in use and one of its kind: the same column of another row, or another of the words.
fn some_field(rng: &mut Rng, bytes: &[u8]) -> (Field, Field) {
    let word = |rng: &mut Rng| Field { at: 8 * rng.below(layout::WORDS as u64) as usize, size: 8 };
    match some_list(rng, bytes, 1) {
        Some(list) if !rng.one_in(3) => {
            let column = rng.below(list.sizes.len() as u64) as usize;
            let row = |rng: &mut Rng| rng.below(list.rows(bytes) as u64) as usize;
            (list.field(row(rng), column), list.field(row(rng), column))
        }
        _ => (word(rng), word(rng)),
    }
}

const LIMITS: [u64; 23] = [
    15, 16, 31, 32, 35, 36, 52, 53, 63, 64, 127, 128, 256, 512, 1023, 1024, 1056, 4095, 4096, 8191, 8192, 65_535,
    65_536,
];

const STEPS: [u64; 10] = [1, 2, 16, 32, 256, 4096, 65_536, 131_072, 1 << 30, 1 << 32];

/// A limit or a step from one, the number's own value or its neighbour's a step off, 2^p and what lies below it.
fn field(rng: &mut Rng, bytes: &mut [u8]) -> String {
    let (field, other) = some_field(rng, bytes);
    let (own, other) = (field.get(bytes), other.get(bytes));
    let top = 1u64 << layout::WIDTH.get(bytes).min(63);
    let step = rng.pick(&STEPS);
    let limit = if rng.one_in(8) { 1 << rng.between(29, 33) } else { rng.pick(&LIMITS) };
    let number = match rng.below(13) {
        0 => rng.pick(&[1, 2, 256, 1 << 32, 1 << 63, u64::MAX]),
        1..=2 => limit,
        3 => limit.wrapping_add(rng.pick(&[1, u64::MAX])),
        4..=5 => own.wrapping_add(step),
        6..=7 => own.wrapping_sub(step),
        8 => other,
        9 => other.wrapping_add(rng.pick(&[step, step.wrapping_neg()])),
        10 => top.wrapping_sub(rng.pick(&[0, step])),
        11 => 0,
        _ => own ^ 1 << rng.below(64),
    };
    write(bytes, field, number)
}

/// A list gets longer or shorter than it is; the interrupt count tells how long the banks are.
fn count(rng: &mut Rng, bytes: &mut [u8]) -> String {
    let list = rng.pick(&LISTS);
    let own = list.count.get(bytes);
    let (one, room) = if list.count == layout::IRQS { (32, 1024) } else { (1, list.room as u64) };
    let few = rng.pick(&[0, one, own / 2, own.wrapping_add(1 << 32), u64::MAX]);
    let number = rng.pick(&[own.wrapping_add(one), own.wrapping_sub(one), room, room + one, few]);
    write(bytes, list.count, number)
}

/// Two rows of a list, neighbours half the time.
fn two_rows(rng: &mut Rng, bytes: &[u8]) -> Option<[std::ops::Range<usize>; 2]> {
    let list = some_list(rng, bytes, 2)?;
    let rows = list.rows(bytes) as u64;
    let first = rng.below(rows - 1);
    let second = if rng.one_in(2) { first + 1 } else { rng.between(first + 1, rows - 1) };
    let range = |row: u64| {
        let at = list.at + row as usize * list.row_size();
        at..at + list.row_size()
    };
    Some([range(first), range(second)])
}

fn swap_rows(rng: &mut Rng, bytes: &mut [u8]) -> String {
    let Some([first, second]) = two_rows(rng, bytes) else { return field(rng, bytes) };
    let (before, after) = (bytes[first.clone()].to_vec(), bytes[second.clone()].to_vec());
    bytes[first.clone()].copy_from_slice(&after);
    bytes[second.clone()].copy_from_slice(&before);
    format!("the rows at {} and {} swapped", first.start, second.start)
}

fn copy_row(rng: &mut Rng, bytes: &mut [u8]) -> String {
    let Some([first, second]) = two_rows(rng, bytes) else { return count(rng, bytes) };
    let (from, to) = if rng.one_in(2) { (first, second) } else { (second, first) };
    let note = format!("the row at {} copied to {}", from.start, to.start);
    bytes.copy_within(from, to.start);
    note
}

/// A frame, or a table or ITT, goes to an edge of another one, of memory or of the space.
fn move_area(rng: &mut Rng, bytes: &mut [u8]) -> String {
    let raw = Raw::read(bytes);
    let (mut starts, mut areas, steps): (Vec<Field>, Vec<Area>, [u64; 3]);
    if raw.placed() && rng.one_in(2) {
        starts = vec![layout::DEVICE_TABLE.start, layout::COLLECTION_TABLE.start];
        starts.extend((0..raw.devices.rows.len()).map(|row| layout::DEVICES.field(row, 1)));
        areas = raw.tables().iter().map(|table| table.area()).collect();
        areas.extend(raw.devices.rows.iter().map(|device| device.itt_area()));
        (areas, steps) = ([areas, vec![raw.memory()]].concat(), [128, 256, 4096]);
    } else {
        starts = vec![layout::DISTRIBUTOR.start, layout::SINGLE.start, layout::ITS.start];
        starts.extend((0..raw.regions.rows.len()).map(|row| layout::REGIONS.field(row, 0)));
        (areas, steps) = (raw.frames(), [32_768, 65_536, 131_072]);
        areas.push(Area { start: 0, end: raw.top() });
    }
    let area = rng.pick(&areas);
    let edge = rng.pick(&[area.start, area.end]) as u64;
    let off = rng.pick(&steps).wrapping_mul(rng.below(6).wrapping_sub(3));
    write(bytes, rng.pick(&starts), edge.wrapping_add(off))
}

fn clear(bytes: &mut [u8], thing: Marked, table: bool) -> String {
    let last = if table { thing.pages } else { thing.start };
    bytes[thing.mark.at..last.at + last.size].fill(0);
    format!("bytes {} to {} cleared", thing.mark.at, last.at + last.size)
}

/// A thing that later steps stand on is wholly gone, or a step is marked as made.
fn take_away(rng: &mut Rng, bytes: &mut [u8]) -> String {
    match rng.below(10) {
        0 => clear(bytes, layout::DISTRIBUTOR, false),
        1 => clear(bytes, layout::SINGLE, false),
        2 => clear(bytes, layout::ITS, false),
        3 => clear(bytes, rng.pick(&[layout::DEVICE_TABLE, layout::COLLECTION_TABLE]), true),
        4 => clear(bytes, layout::DEVICE_TABLE, true) + ", " + &clear(bytes, layout::COLLECTION_TABLE, true),
        5 => {
            let lists = [&layout::EVENTS, &layout::COLLECTIONS, &layout::DEVICES];
            let some = &lists[..rng.between(1, 3) as usize];
            let notes: Vec<String> = some.iter().map(|list| write(bytes, list.count, 0)).collect();
            notes.join(", ")
        }
        6 => write(bytes, rng.pick(&[layout::REGIONS.count, layout::VCPUS.count]), 0),
        7 => write(bytes, rng.pick(&[layout::INIT, layout::ITS_INIT]), 0),
        _ => write(bytes, rng.pick(&[layout::INIT, layout::ITS_INIT, layout::RUNNING, layout::IRQS_SET]), 1),
    }
}

/// A bit of the field, one of those from `low` to `high`.
fn bit(rng: &mut Rng, bytes: &mut [u8], field: Field, low: u64, high: u64) -> String {
    let number = field.get(bytes) ^ 1 << rng.between(low, high);
    write(bytes, field, number)
}

/// With 1,024 interrupts a bit at the border of those that §1.15 speaks of, mostly in the last bank.
fn last_bank(rng: &mut Rng, bytes: &mut [u8]) -> String {
    if layout::IRQS.get(bytes) != 1024 {
        return field(rng, bytes);
    }
    let row = if rng.one_in(4) { 29 } else { 30 };
    let word = layout::BANKS.field(row, rng.below(3) as usize);
    bit(rng, bytes, word, 26, 31)
}

/// A count that was not set: 64 and 256 stay sound, others do not (§1.9). Behind the banks that stand there may be anything,
/// which before INIT is mostly no fresh bank.
fn unset_count(rng: &mut Rng, bytes: &mut [u8]) -> String {
    let number = rng.pick(&[64, 64, 256, 256, 256, 96, 128, 224, 288, 512, 1024]);
    write(bytes, layout::IRQS_SET, 0) + ", " + &write(bytes, layout::IRQS, number)
}

/// A guest as it is before INIT, and mostly one bit of a bank or a STATUSR that is not fresh (§1.16).
fn early(rng: &mut Rng, bytes: &mut [u8]) -> String {
    put_back(bytes);
    let vcpus = layout::VCPUS.rows(bytes) as u64;
    let change = match rng.below(4) {
        0 => "all fresh".into(),
        1 => bit(rng, bytes, layout::STATUS, 0, 3),
        2 if vcpus > 0 => early_vcpu(rng, bytes, vcpus),
        _ => {
            let row = rng.below(layout::BANKS.rows(bytes) as u64) as usize;
            let word = layout::BANKS.field(row, rng.below(3) as usize);
            bit(rng, bytes, word, 0, 27)
        }
    };
    format!("INIT put back, {change}")
}

/// A bit of a VCPU's latch, level, trigger or STATUSR; of the two in the middle none of SGIs.
fn early_vcpu(rng: &mut Rng, bytes: &mut [u8], vcpus: u64) -> String {
    let (column, low, high) = rng.pick(&[(1, 0, 31), (2, 16, 31), (3, 16, 31), (4, 0, 3)]);
    let word = layout::VCPUS.field(rng.below(vcpus) as usize, column);
    bit(rng, bytes, word, low, high)
}

/// INIT and what comes only after it are gone, and banks and STATUSRs fresh: a sound state stays one.
fn put_back(bytes: &mut [u8]) {
    for mark in [layout::INIT, layout::RUNNING, layout::STATUS, layout::ITS_INIT] {
        mark.put(bytes, 0);
    }
    clear(bytes, layout::DEVICE_TABLE, true);
    clear(bytes, layout::COLLECTION_TABLE, true);
    for list in [&layout::DEVICES, &layout::COLLECTIONS, &layout::EVENTS] {
        list.count.put(bytes, 0);
    }
    for row in 0..layout::VCPUS.rows(bytes) {
        (1..5).for_each(|column| layout::VCPUS.field(row, column).put(bytes, if column == 3 { 0xffff } else { 0 }));
    }
    for row in 0..layout::BANKS.rows(bytes) {
        (0..3).for_each(|column| layout::BANKS.field(row, column).put(bytes, 0));
    }
}

/// Bytes with no thought for what they are.
fn plain(rng: &mut Rng, bytes: &mut [u8]) -> String {
    let length = bytes.len() as u64;
    let at = rng.below(length);
    let end = (at + rng.between(1, 64)).min(length);
    let run = &mut bytes[at as usize..end as usize];
    match rng.below(16) {
        0..=5 => run[0] = rng.pick(&[0, 1, 0x7f, 0x80, 0xff]),
        6..=9 => run.fill(rng.pick(&[0, 0xff])),
        10..=14 => rng.fill(run),
        _ => {
            rng.fill(bytes);
            return "all bytes at random".into();
        }
    }
    format!("bytes {at} to {end} replaced")
}
