//! Parts 6 and 7: the entries, and save.

use super::case::Case;
use super::its::MEMORY;
use crate::call::Call;

pub const CASES: &[(&str, fn(&mut Case))] = &[
    ("§7.1 save: length of memory -14, then -6, then running -16", refusals),
    ("§6.2, §6.3, §6.4, §12.2, §12.3, §12.4 the sample entries", samples),
    ("§7.6, §12.10 the empty mapping saves zeros in the two tables alone", empty),
    ("§7.3, §7.5, §7.6 every other entry of the tables and ITTs becomes zero", zeros),
    ("§7.2, §12.6, §12.7 next of devices, up to 16,383", device_next),
    ("§7.2, §7.5 next of events is the distance itself, up to 65,535", event_next),
    ("§7.2, §7.5 distances of 16,383, 20,000 and more in one ITT", event_distances),
    ("§7.2, §12.7 devices and events 20,000 apart: the devices' next alone is cut", devices_alone),
    ("§7.4 collections by rising ICID from entry 0", collections),
    ("§6.1, §6.2, §6.3, §2.11 wide fields: the highest ITT, the last pe", wide),
    ("§7.6 save leaves the state, and can be made again", again),
    ("§5.1 one mapping, whatever commands made it", any_order),
];

const LENGTH: usize = 0x10_0000;

/// Memory before a save, or what it must be after it.
pub struct Memory {
    pub bytes: Vec<u8>,
    pub start: u64,
}

impl Memory {
    /// No byte is 0, so that every zero that save writes is seen.
    pub fn filled(start: u64, length: usize) -> Memory {
        Memory { bytes: (0..length).map(|n| (n % 251) as u8 + 1).collect(), start }
    }

    pub fn put(&mut self, address: u64, entry: u64) {
        let at = (address - self.start) as usize;
        self.bytes[at..at + 8].copy_from_slice(&entry.to_le_bytes());
    }

    pub fn zero(&mut self, address: u64, length: usize) {
        let at = (address - self.start) as usize;
        self.bytes[at..at + length].fill(0);
    }
}

impl Case<'_> {
    pub fn no_save(&mut self, length: usize, want: i64) {
        self.lent(Call::Save, &vec![0x77; length], want);
    }

    /// Save into `before`; afterwards every byte must be as in `after`.
    pub fn save(&mut self, before: &Memory, after: &Memory) {
        let held = self.lent(Call::Save, &before.bytes, 0);
        if let Some(at) = held.iter().zip(&after.bytes).position(|(a, b)| a != b) {
            let address = before.start + (at as u64 & !7);
            self.notes
                .push(format!("saved memory at {address:#x}: {:02x?}, expected {:02x?}", held[at], after.bytes[at]));
        }
    }

    /// Save into filled memory; `entries` stand at their addresses, `zeros` are the runs that save writes.
    pub fn saves(&mut self, zeros: &[(u64, usize)], entries: &[(u64, u64)]) {
        let before = Memory::filled(MEMORY, LENGTH);
        let mut after = Memory::filled(MEMORY, LENGTH);
        zeros.iter().for_each(|(address, length)| after.zero(*address, *length));
        entries.iter().for_each(|(address, entry)| after.put(*address, *entry));
        self.save(&before, &after);
    }
}

const TABLES: (u64, usize) = (MEMORY, 0x2000);

fn refusals(c: &mut Case) {
    c.no_save(0, -14);
    c.no_save(LENGTH, -6);
    c.ready(4);
    c.no_save(LENGTH - 1, -14);
    c.no_save(LENGTH, -6);
    c.its_base(0x0900_0000, 0);
    c.its_init(0);
    c.no_save(LENGTH + 1, -14);
    c.no_save(LENGTH, -6);
    c.start(0);
    c.no_save(LENGTH, -6);
    c.place(MEMORY, 1, MEMORY + 0x1000, 1, 0);
    c.no_save(LENGTH - 4096, -14);
    c.no_save(LENGTH, -16);
    c.stop(0);
    c.saves(&[TABLES], &[]);
    c.reset(0);
    c.no_save(LENGTH, -6);
}

fn samples(c: &mut Case) {
    c.its_placed(1);
    c.collection(7, 1, 0);
    c.device(0, 0x4000_2000, 5, 0);
    c.device(3, 0x4000_3000, 5, 0);
    c.event(0, 1, 8192, 7, 0);
    c.event(0, 3, 8193, 7, 0);
    saves_samples(c);
}

fn saves_samples(c: &mut Case) {
    c.saves(
        &[TABLES, (0x4000_2000, 256), (0x4000_3000, 256)],
        &[
            (MEMORY, 0x8006_0000_0800_0404),
            (MEMORY + 24, 0x8000_0000_0800_0604),
            (MEMORY + 0x1000, 0x8000_0000_0001_0007),
            (0x4000_2008, 0x0002_0000_2000_0007),
            (0x4000_2018, 0x0000_0000_2001_0007),
        ],
    );
}

fn empty(c: &mut Case) {
    c.its_placed(1);
    c.saves(&[TABLES], &[]);
    c.collection(7, 1, 0);
    c.device(0, 0x4000_2000, 5, 0);
    c.no_device(0, 0);
    c.no_collection(7, 0);
    c.saves(&[TABLES], &[]);
}

fn zeros(c: &mut Case) {
    c.its_placed(1);
    c.device(2, 0x4000_2000, 1, 0);
    c.device(5, 0x4000_2100, 12, 0);
    c.saves(
        &[TABLES, (0x4000_2000, 16), (0x4000_2100, 0x8000)],
        &[(MEMORY + 16, 0x8006_0000_0800_0400), (MEMORY + 40, 0x8000_0000_0800_042b)],
    );
}

fn device_next(c: &mut Case) {
    for (second, next) in [(1, 1u64), (16_382, 16_382), (16_383, 16_383), (16_384, 16_383), (20_000, 16_383)] {
        c.setup(40, MEMORY, 0x10_0000, 0);
        c.its_placed(64);
        c.device(0, 0x4008_0000, 1, 0);
        c.device(second, 0x4008_0100, 1, 0);
        c.saves(
            &[(MEMORY, 65 * 0x1000), (0x4008_0000, 16), (0x4008_0100, 16)],
            &[(MEMORY, 0x8000_0000_0801_0000 | next << 49), (MEMORY + 8 * second, 0x8000_0000_0801_0020)],
        );
    }
}

fn event_next(c: &mut Case) {
    for second in [1, 16_382, 16_383, 16_384, 20_000, 32_768, 65_534, 65_535u64] {
        c.setup(40, MEMORY, 0x10_0000, 0);
        c.its_placed(1);
        c.collection(0xffff, 3, 0);
        c.device(0, 0x4008_0000, 16, 0);
        c.event(0, 0, 65_535, 0xffff, 0);
        c.event(0, second, 8192, 0xffff, 0);
        c.saves(
            &[TABLES, (0x4008_0000, 0x8_0000)],
            &[
                (MEMORY, 0x8000_0000_0801_000f),
                (MEMORY + 0x1000, 0x8000_0000_0003_ffff),
                (0x4008_0000, 0x0000_0000_ffff_ffff | second << 48),
                (0x4008_0000 + 8 * second, 0x0000_0000_2000_ffff),
            ],
        );
    }
}

fn event_distances(c: &mut Case) {
    c.its_placed(1);
    c.collection(7, 1, 0);
    c.device(0, 0x4008_0000, 16, 0);
    for event in [65_535, 1, 36_384, 16_384] {
        c.event(0, event, 8192, 7, 0);
    }
    c.saves(
        &[TABLES, (0x4008_0000, 0x8_0000)],
        &[
            (MEMORY, 0x8000_0000_0801_000f),
            (MEMORY + 0x1000, 0x8000_0000_0001_0007),
            (0x4008_0000 + 8, 16_383 << 48 | 0x2000_0007),
            (0x4008_0000 + 8 * 16_384, 20_000 << 48 | 0x2000_0007),
            (0x4008_0000 + 8 * 36_384, 29_151 << 48 | 0x2000_0007),
            (0x4008_0000 + 8 * 65_535, 0x2000_0007),
        ],
    );
}

fn devices_alone(c: &mut Case) {
    c.its_placed(64);
    c.collection(7, 1, 0);
    for (id, itt) in [(0, 0x4008_0000), (20_000, 0x400c_0000)] {
        c.device(id, itt, 15, 0);
        c.event(id, 0, 8192, 7, 0);
        c.event(id, 20_000, 8193, 7, 0);
    }
    c.saves(
        &[(MEMORY, 65 * 0x1000), (0x4008_0000, 0x4_0000), (0x400c_0000, 0x4_0000)],
        &[
            (MEMORY, 16_383 << 49 | 0x8000_0000_0801_000e),
            (MEMORY + 8 * 20_000, 0x8000_0000_0801_800e),
            (MEMORY + 0x4_0000, 0x8000_0000_0001_0007),
            (0x4008_0000, 20_000 << 48 | 0x2000_0007),
            (0x4008_0000 + 8 * 20_000, 0x2001_0007),
            (0x400c_0000, 20_000 << 48 | 0x2000_0007),
            (0x400c_0000 + 8 * 20_000, 0x2001_0007),
        ],
    );
}

fn collections(c: &mut Case) {
    c.its_placed(1);
    c.collection(65_535, 0, 0);
    c.collection(3, 2, 0);
    c.collection(256, 1, 0);
    c.collection(0, 3, 0);
    c.saves(
        &[TABLES],
        &[
            (MEMORY + 0x1000, 0x8000_0000_0003_0000),
            (MEMORY + 0x1008, 0x8000_0000_0002_0003),
            (MEMORY + 0x1010, 0x8000_0000_0001_0100),
            (MEMORY + 0x1018, 0x8000_0000_0000_ffff),
        ],
    );
}

fn wide(c: &mut Case) {
    let start = 0xf_ffff_ffff_0000;
    c.setup(52, start, 0x1_0000, 0);
    c.adds(64);
    c.base(2, 0x0800_0000, 0);
    c.base(3, 0x1000_0000, 0);
    c.its_base(0x0900_0000, 0);
    c.init(0);
    c.its_init(0);
    c.place(start + 0x1000, 1, start, 1, 0);
    c.collection(1, 63, 0);
    c.device(511, 0xf_ffff_ffff_ff00, 5, 0);
    c.event(511, 31, 40_000, 1, 0);
    c.lookup(511, 31, 40_000 + 63 * 65_536);
    let before = Memory::filled(start, 0x1_0000);
    let mut after = Memory::filled(start, 0x1_0000);
    after.zero(start, 0x2000);
    after.zero(0xf_ffff_ffff_ff00, 256);
    after.put(start, 0x8000_0000_003f_0001);
    after.put(start + 0x1ff8, 0x8001_ffff_ffff_ffe4);
    after.put(0xf_ffff_ffff_fff8, 0x0000_0000_9c40_0001);
    c.save(&before, &after);
}

fn again(c: &mut Case) {
    for _ in 0..2 {
        c.setup(40, MEMORY, 0x10_0000, 0);
        samples(c);
        c.lookup(0, 1, 8192 + 65_536);
        c.lookup(0, 3, 8193 + 65_536);
        c.no_collection(7, -22);
        c.device(3, 0x4000_4000, 5, -17);
    }
}

/// The mapping of `samples` in another order and by other ways.
fn any_order(c: &mut Case) {
    c.its_placed(1);
    c.device(9, 0x4000_2000, 5, 0);
    c.collection(8, 0, 0);
    c.device(3, 0x4000_3000, 5, 0);
    c.event(9, 2, 9000, 8, 0);
    c.no_device(9, 0);
    c.device(0, 0x4000_2000, 5, 0);
    c.event(0, 3, 8193, 8, 0);
    c.collection(7, 3, 0);
    c.event(0, 1, 8192, 7, 0);
    c.event(0, 2, 8192, 7, 0);
    c.collection(7, 1, 0);
    c.moved(0, 3, 7, 0);
    c.discard(0, 2, 0);
    c.no_collection(8, 0);
    saves_samples(c);
}
