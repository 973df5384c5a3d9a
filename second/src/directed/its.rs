//! Part 5: ITS INIT, placing, mapping commands, lookup and RESET.

use super::case::{Case, ITS};
use crate::call::Call;

pub const CASES: &[(&str, fn(&mut Case))] = &[
    ("§5.2 ITS INIT: -6 before VGIC INIT or without a base; repeated 0", init),
    ("§5.3 every command is -6 before ITS INIT", before_init),
    ("§5.3 all commands but placing and RESET are -6 until placed", before_placing),
    ("§5.4 placing: start and pages", place_form),
    ("§5.4 placing: not inside memory -14, overlap -22, in this order over both", place_order),
    ("§5.4 placing again replaces both while nothing is mapped; else -16", place_again),
    ("§5.6, §5.4 a device ID not below the number of entries is -22", device_id),
    ("§5.6 bits not 1 to 16 -22, ITT not divisible by 256 -22", device_form),
    ("§5.6, §1.6 a mapped device -17, a 33rd -12", device_limit),
    ("§5.6, §5.5 an ITT not inside memory -14, overlap -22", device_place),
    ("§5.6 the order of a device's faults", device_order),
    ("§5.7 removing a device: not mapped -2; its events go too", device_removal),
    ("§5.8, §1.6 ICID and pe -22, a 17th collection -12, a new pe", collection),
    ("§5.9 removing a collection: not mapped -2, named by an event -22", collection_removal),
    ("§5.10 the order of an event's faults", event_order),
    ("§5.10 the bounds of event, LPI and ICID", event_limits),
    ("§5.10, §1.6 a mapped event -17, a 1,025th -12", event_count),
    ("§5.10 several events have the same LPI", shared_lpi),
    ("§5.11, §5.12, §5.13 discard, move and lookup of what is not there: -2", missing),
    ("§5.13 lookup is LPI + 65,536 x pe", lookup),
    ("§5.12 move gives the event another collection", moves),
    ("§5.14 RESET: -6, running -16, then empty and not placed", reset),
    ("§5.3 placing and commands work while running", running),
    ("§10.10, §4.17 set, clear, activate and line of INTIDs 1,020 to 1,023 leave a mapping", special_intids),
    ("§1.17, §5.13, §5.14 commands, lookup and RESET of a guest whose count of 256 was never set", former_count),
];

pub const MEMORY: u64 = 0x4000_0000;
const END: u64 = 0x4010_0000;
const PAGE: u64 = 0x1000;

impl Case<'_> {
    pub fn its_init(&mut self, want: i64) {
        self.set(ITS, 4, 0, &[], want);
    }

    pub fn reset(&mut self, want: i64) {
        self.set(ITS, 4, 4, &[], want);
    }

    pub fn place(
        &mut self,
        device_start: u64,
        device_pages: u64,
        collection_start: u64,
        collection_pages: u64,
        want: i64,
    ) {
        self.expect(Call::Place { device_start, device_pages, collection_start, collection_pages }, want);
    }

    pub fn device(&mut self, device: u64, itt: u64, bits: u64, want: i64) {
        self.expect(Call::MapDevice { device, itt, bits }, want);
    }

    pub fn no_device(&mut self, device: u64, want: i64) {
        self.expect(Call::UnmapDevice { device }, want);
    }

    pub fn collection(&mut self, icid: u64, pe: u64, want: i64) {
        self.expect(Call::MapCollection { icid, pe }, want);
    }

    pub fn no_collection(&mut self, icid: u64, want: i64) {
        self.expect(Call::UnmapCollection { icid }, want);
    }

    pub fn event(&mut self, device: u64, event: u64, lpi: u64, icid: u64, want: i64) {
        self.expect(Call::MapEvent { device, event, lpi, icid }, want);
    }

    pub fn discard(&mut self, device: u64, event: u64, want: i64) {
        self.expect(Call::Discard { device, event }, want);
    }

    pub fn moved(&mut self, device: u64, event: u64, icid: u64, want: i64) {
        self.expect(Call::Move { device, event, icid }, want);
    }

    pub fn lookup(&mut self, device: u64, event: u64, want: i64) {
        self.expect(Call::Lookup { device, event }, want);
    }

    /// A guest of 4 VCPUs past ITS INIT, no tables placed.
    pub fn its_ready(&mut self) {
        self.ready(4);
        self.its_base(0x0900_0000, 0);
        self.its_init(0);
    }

    /// Device table of `pages` pages at the start of memory, collection table of one page after it.
    pub fn its_placed(&mut self, pages: u64) {
        self.its_ready();
        self.place(MEMORY, pages, MEMORY + pages * PAGE, 1, 0);
    }
}

fn init(c: &mut Case) {
    c.its_init(-6);
    c.adds(4);
    c.base(2, 0x0800_0000, 0);
    c.base(3, 0x080a_0000, 0);
    c.its_base(0x0900_0000, 0);
    c.its_init(-6);
    c.init(0);
    c.its_init(0);
    c.its_init(0);
    c.start(0);
    c.its_init(0);
    c.setup(40, MEMORY, 0x10_0000, 0);
    c.ready(1);
    c.its_init(-6);
    c.start(0);
    c.its_init(-6);
    c.its_base(0x0900_0000, 0);
    c.its_init(0);
    c.place(MEMORY, 1, MEMORY + PAGE, 1, 0);
    c.collection(1, 0, 0);
    c.its_init(0);
    c.no_collection(1, 0);
}

fn all_commands(c: &mut Case, want: i64) {
    c.device(0, MEMORY + 0x2000, 5, want);
    c.no_device(0, want);
    c.collection(0, 0, want);
    c.no_collection(0, want);
    c.event(0, 0, 8192, 0, want);
    c.discard(0, 0, want);
    c.moved(0, 0, 0, want);
    c.lookup(0, 0, want);
    // Numbers that would be refused otherwise.
    c.device(u64::MAX, 1, 99, want);
    c.collection(u64::MAX, u64::MAX, want);
    c.event(9, u64::MAX, 0, 9, want);
}

fn before_init(c: &mut Case) {
    for step in 0..3 {
        c.place(MEMORY, 1, MEMORY + PAGE, 1, -6);
        c.place(1, 0, 1, 0, -6);
        c.reset(-6);
        all_commands(c, -6);
        match step {
            0 => c.ready(4),
            _ => c.its_base(0x0900_0000, if step == 1 { 0 } else { -17 }),
        }
    }
}

fn before_placing(c: &mut Case) {
    c.its_ready();
    all_commands(c, -6);
    c.place(MEMORY, 0, MEMORY + PAGE, 1, -22);
    all_commands(c, -6);
    c.reset(0);
    all_commands(c, -6);
    c.start(0);
    all_commands(c, -6);
}

fn place_form(c: &mut Case) {
    c.its_ready();
    for off in [1, 0x100, 0x800, 0xfff] {
        c.place(MEMORY + off, 1, MEMORY + 4 * PAGE, 1, -22);
        c.place(MEMORY, 1, MEMORY + 4 * PAGE + off, 1, -22);
    }
    for pages in [0, 129, 256, 1 << 32, (1 << 32) + 1, 1 << 63, u64::MAX] {
        c.place(MEMORY, pages, MEMORY + 4 * PAGE, 1, -22);
        c.place(MEMORY + 4 * PAGE, 1, MEMORY, pages, -22);
    }
    c.place(MEMORY, 128, MEMORY + 128 * PAGE, 128, 0);
    c.place(MEMORY, 1, MEMORY + PAGE, 1, 0);
}

fn place_order(c: &mut Case) {
    c.its_ready();
    for start in [0, MEMORY - PAGE, END, END - PAGE, u64::MAX - 0xfff, 1 << 40] {
        c.place(start, 2, MEMORY + 4 * PAGE, 1, -14);
        c.place(MEMORY + 4 * PAGE, 1, start, 2, -14);
    }
    // Any fault of form comes first, whichever table has it.
    c.place(END, 1, MEMORY + 1, 1, -22);
    c.place(END, 1, MEMORY, 0, -22);
    c.place(MEMORY, 129, END, 1, -22);
    // Outside memory comes before the overlap.
    c.place(END - PAGE, 2, END - PAGE, 1, -14);
    c.place(MEMORY, 1, MEMORY, 1, -22);
    c.place(MEMORY, 4, MEMORY + 3 * PAGE, 1, -22);
    c.place(MEMORY + 3 * PAGE, 1, MEMORY, 4, -22);
    c.place(MEMORY + PAGE, 1, MEMORY, 4, -22);
    c.place(MEMORY, 4, MEMORY + 4 * PAGE, 1, 0);
    c.place(END - PAGE, 1, END - 2 * PAGE, 1, 0);
}

fn place_again(c: &mut Case) {
    c.its_placed(1);
    c.device(511, MEMORY + 0x10000, 1, 0);
    c.place(MEMORY, 2, MEMORY + 2 * PAGE, 1, -16);
    c.place(1, 0, 1, 0, -16);
    c.no_device(511, 0);
    c.place(MEMORY + PAGE, 2, MEMORY, 1, 0);
    c.device(1023, MEMORY + 0x10000, 1, 0);
    c.device(1024, MEMORY + 0x20000, 1, -22);
    c.device(0, MEMORY + 2 * PAGE, 1, -22);
    c.device(0, MEMORY + 3 * PAGE, 1, 0);
    c.no_device(0, 0);
    c.no_device(1023, 0);
    // A collection alone is something that is mapped.
    c.collection(3, 0, 0);
    c.place(MEMORY, 1, MEMORY + PAGE, 1, -16);
    c.no_collection(3, 0);
    c.place(MEMORY, 1, MEMORY + PAGE, 1, 0);
}

fn device_id(c: &mut Case) {
    c.its_placed(1);
    for id in [512, 513, 1 << 16, 1 << 32, (1 << 32) + 5, 1 << 63, u64::MAX] {
        c.device(id, MEMORY + 0x2000, 5, -22);
    }
    c.device(511, MEMORY + 0x2000, 5, 0);
    c.device(0, MEMORY + 0x3000, 5, 0);
    c.setup(40, MEMORY, 0x10_0000, 0);
    c.its_placed(128);
    c.device(65_536, MEMORY + 0xf_0000, 5, -22);
    c.device(65_535, MEMORY + 0xf_0000, 5, 0);
}

fn device_form(c: &mut Case) {
    c.its_placed(1);
    for bits in [0, 17, 18, 64, 256 + 5, (1 << 32) + 5, u64::MAX] {
        c.device(0, MEMORY + 0x2000, bits, -22);
    }
    for off in [1, 8, 0x80, 0xff, 0x101] {
        c.device(0, MEMORY + 0x2000 + off, 5, -22);
    }
    c.device(0, MEMORY + 0x2000, 1, 0);
    c.device(1, MEMORY + 0x2100, 5, 0);
    c.device(2, MEMORY + 0x8_0000, 16, 0);
}

fn device_limit(c: &mut Case) {
    c.its_placed(1);
    for id in 0..32 {
        c.device(id, MEMORY + 0x2000 + 0x100 * id, 5, 0);
        c.device(id, MEMORY + 0x2000 + 0x100 * id, 5, -17);
    }
    c.device(32, MEMORY + 0x8000, 5, -12);
    // A device that stands is -17 with 32 devices too; -12 comes before the place.
    c.device(31, MEMORY + 0x8000, 5, -17);
    c.device(32, 0, 5, -12);
    c.device(32, MEMORY, 5, -12);
    c.no_device(7, 0);
    c.device(32, MEMORY + 0x8000, 5, 0);
    c.device(7, MEMORY + 0x2700, 5, -12);
}

fn device_place(c: &mut Case) {
    c.its_placed(1);
    for itt in [0, MEMORY - 0x100, END - 0x100 + 0x100, END - 0x200 + 0x100, u64::MAX - 0xff, 1 << 52] {
        c.device(0, itt, 6, -14);
    }
    c.device(0, END - 0x200, 6, 0);
    c.device(1, MEMORY, 1, -22);
    c.device(1, MEMORY + PAGE, 1, -22);
    c.device(1, MEMORY + 2 * PAGE - 0x100, 1, -22);
    c.device(1, END - 0x100, 1, -22);
    c.device(1, END - 0x200, 6, -22);
    c.device(1, END - 0x300, 6, -22);
    c.device(1, END - 0x300, 5, 0);
    // 16 bytes here (§5.5), but the next one can begin no sooner than 256 bytes on.
    c.device(2, MEMORY + 2 * PAGE, 1, 0);
    c.device(3, MEMORY + 2 * PAGE + 0x100, 5, 0);
    c.device(4, MEMORY + 2 * PAGE + 0x200, 9, 0);
    c.device(5, MEMORY + 3 * PAGE + 0x100, 1, -22);
    c.device(5, MEMORY + 3 * PAGE + 0x200, 1, 0);
}

fn device_order(c: &mut Case) {
    c.its_placed(1);
    c.device(3, MEMORY + 0x2000, 5, 0);
    c.device(3, MEMORY + 0x2000, 0, -22);
    c.device(3, MEMORY + 0x2001, 5, -22);
    c.device(3, 0, 5, -17);
    c.device(3, MEMORY, 5, -17);
    // Partly outside and partly over another table: outside first.
    c.device(4, MEMORY - 0x100, 6, -14);
}

fn device_removal(c: &mut Case) {
    c.its_placed(1);
    c.collection(7, 1, 0);
    c.device(3, MEMORY + 0x2000, 5, 0);
    c.device(4, MEMORY + 0x2100, 5, 0);
    c.event(3, 1, 8192, 7, 0);
    c.event(3, 2, 8193, 7, 0);
    c.event(4, 1, 8194, 7, 0);
    for id in [0, 5, 511, 512, (1 << 32) + 3, u64::MAX] {
        c.no_device(id, -2);
    }
    c.no_device(3, 0);
    c.no_device(3, -2);
    c.lookup(3, 1, -2);
    c.lookup(4, 1, 8194 + 65_536);
    c.device(3, MEMORY + 0x2000, 5, 0);
    c.lookup(3, 1, -2);
    c.event(3, 1, 9000, 7, 0);
    c.lookup(3, 1, 9000 + 65_536);
}

fn collection(c: &mut Case) {
    c.its_placed(1);
    for icid in [65_536, 65_537, 1 << 32, (1 << 32) + 3, u64::MAX] {
        c.collection(icid, 0, -22);
    }
    for pe in [4, 5, 64, 1 << 32, (1 << 32) + 1, u64::MAX] {
        c.collection(0, pe, -22);
    }
    for n in 0..16 {
        c.collection(65_535 - n * 1000, n % 4, 0);
    }
    c.collection(5, 0, -12);
    c.collection(5, 4, -22);
    // One that stands gets the new pe, with 16 collections too.
    c.device(0, MEMORY + 0x2000, 5, 0);
    c.event(0, 0, 8192, 65_535, 0);
    c.lookup(0, 0, 8192);
    c.collection(65_535, 3, 0);
    c.lookup(0, 0, 8192 + 3 * 65_536);
    c.collection(65_535, 4, -22);
    c.lookup(0, 0, 8192 + 3 * 65_536);
}

fn collection_removal(c: &mut Case) {
    c.its_placed(1);
    c.collection(7, 1, 0);
    c.collection(8, 1, 0);
    for icid in [0, 6, 9, 65_536 + 7, (1 << 32) + 7, u64::MAX] {
        c.no_collection(icid, -2);
    }
    c.device(0, MEMORY + 0x2000, 5, 0);
    c.event(0, 0, 8192, 7, 0);
    c.no_collection(7, -22);
    c.no_collection(8, 0);
    c.no_collection(8, -2);
    c.discard(0, 0, 0);
    c.no_collection(7, 0);
    c.collection(7, 1, 0);
    c.event(0, 0, 8192, 7, 0);
    c.no_device(0, 0);
    c.no_collection(7, 0);
}

fn event_order(c: &mut Case) {
    c.its_placed(1);
    c.collection(7, 1, 0);
    c.device(3, MEMORY + 0x2000, 5, 0);
    c.event(4, 32, 0, 9, -2);
    c.event(512, 0, 8192, 7, -2);
    c.event((1 << 32) + 3, 0, 8192, 7, -2);
    c.event(3, 32, 0, 9, -22);
    c.event(3, 31, 0, 9, -22);
    c.event(3, 31, 8192, 9, -2);
    c.event(3, 31, 8192, 7, 0);
    c.event(3, 31, 8192, 9, -2);
    c.event(3, 31, 8191, 7, -22);
    c.event(3, 31, 8192, 7, -17);
}

fn event_limits(c: &mut Case) {
    c.its_placed(1);
    c.collection(7, 1, 0);
    c.device(3, MEMORY + 0x2000, 5, 0);
    for event in [32, 33, 1 << 16, 1 << 32, (1 << 32) + 1, u64::MAX] {
        c.event(3, event, 8192, 7, -22);
    }
    for lpi in [0, 1, 1023, 8191, 65_536, 65_536 + 8192, (1 << 32) + 8192, u64::MAX] {
        c.event(3, 0, lpi, 7, -22);
    }
    for icid in [0, 6, 8, 65_535, 65_536, 65_536 + 7, (1 << 32) + 7, u64::MAX] {
        c.event(3, 0, 8192, icid, -2);
    }
    c.event(3, 0, 8192, 7, 0);
    c.event(3, 31, 65_535, 7, 0);
    c.lookup(3, 31, 65_535 + 65_536);
    c.device(4, MEMORY + 0x8_0000, 16, 0);
    c.event(4, 65_535, 9000, 7, 0);
    c.event(4, 65_536, 9000, 7, -22);
}

fn event_count(c: &mut Case) {
    c.its_placed(1);
    c.collection(7, 1, 0);
    c.device(3, MEMORY + 0x2000, 9, 0);
    c.device(4, MEMORY + 0x3000, 10, 0);
    for n in 0..1024 {
        c.event(3 + n / 512, n % 512, 8192 + n, 7, 0);
    }
    c.event(4, 600, 8192, 7, -12);
    c.event(4, 511, 8192, 7, -17);
    c.event(4, 600, 8192, 9, -2);
    c.lookup(4, 511, 8192 + 1023 + 65_536);
    c.discard(3, 0, 0);
    c.event(4, 600, 8192, 7, 0);
    c.event(3, 0, 8192, 7, -12);
    c.no_device(3, 0);
    c.device(3, MEMORY + 0x2000, 9, 0);
    c.event(3, 0, 8192, 7, 0);
}

fn shared_lpi(c: &mut Case) {
    c.its_placed(1);
    c.collection(7, 1, 0);
    c.device(3, MEMORY + 0x2000, 5, 0);
    c.device(4, MEMORY + 0x2100, 5, 0);
    c.event(3, 0, 9000, 7, 0);
    c.event(3, 1, 9000, 7, 0);
    c.event(4, 0, 9000, 7, 0);
    c.discard(3, 0, 0);
    c.lookup(3, 1, 9000 + 65_536);
    c.lookup(4, 0, 9000 + 65_536);
}

fn missing(c: &mut Case) {
    c.its_placed(1);
    c.collection(7, 1, 0);
    c.device(3, MEMORY + 0x2000, 5, 0);
    c.event(3, 1, 8192, 7, 0);
    for (device, event) in
        [(3, 0), (3, 31), (3, 32), (3, (1 << 32) + 1), (4, 1), (512, 1), ((1 << 32) + 3, 1), (u64::MAX, 1)]
    {
        c.discard(device, event, -2);
        c.moved(device, event, 7, -2);
        c.lookup(device, event, -2);
    }
    for icid in [6, 65_536 + 7, (1 << 32) + 7, u64::MAX] {
        c.moved(3, 1, icid, -2);
    }
    c.discard(3, 1, 0);
    c.discard(3, 1, -2);
    c.lookup(3, 1, -2);
}

fn lookup(c: &mut Case) {
    c.its_placed(1);
    for icid in 0..4 {
        c.collection(icid, icid, 0);
    }
    c.device(3, MEMORY + 0x2000, 5, 0);
    for event in 0..4 {
        c.event(3, event, 8192 + 1000 * event, event, 0);
        c.lookup(3, event, 8192 + 1000 * event as i64 + 65_536 * event as i64);
    }
}

fn moves(c: &mut Case) {
    c.its_placed(1);
    c.collection(7, 1, 0);
    c.collection(9, 2, 0);
    c.device(3, MEMORY + 0x2000, 5, 0);
    c.event(3, 1, 8192, 7, 0);
    c.event(3, 2, 8193, 7, 0);
    c.moved(3, 1, 7, 0);
    c.lookup(3, 1, 8192 + 65_536);
    c.moved(3, 1, 9, 0);
    c.lookup(3, 1, 8192 + 2 * 65_536);
    c.lookup(3, 2, 8193 + 65_536);
    c.no_collection(9, -22);
    c.moved(3, 2, 9, 0);
    c.no_collection(7, 0);
}

fn reset(c: &mut Case) {
    c.reset(-6);
    c.its_ready();
    c.reset(0);
    c.place(MEMORY, 1, MEMORY + PAGE, 1, 0);
    c.collection(7, 1, 0);
    c.device(3, MEMORY + 0x2000, 5, 0);
    c.event(3, 1, 8192, 7, 0);
    c.start(0);
    c.reset(-16);
    c.lookup(3, 1, 8192 + 65_536);
    c.stop(0);
    c.reset(0);
    c.lookup(3, 1, -6);
    c.device(3, MEMORY + 0x2000, 5, -6);
    c.place(MEMORY + PAGE, 1, MEMORY, 1, 0);
    c.lookup(3, 1, -2);
    c.no_device(3, -2);
    c.no_collection(7, -2);
    c.its_init(0);
    c.device(3, MEMORY + 0x2000, 5, 0);
}

fn special_intids(c: &mut Case) {
    c.put(3, 0, 1024, 0);
    c.its_placed(1);
    c.collection(7, 1, 0);
    c.device(3, MEMORY + 0x2000, 5, 0);
    c.event(3, 1, 8192, 7, 0);
    c.trigger(0, 1023, u32::MAX, 0);
    for intid in 1020..1024 {
        c.idle(|c| {
            c.raise(0, intid, 0);
            c.line(1, intid, 1, 0);
            c.clear(2, intid, 0);
            c.activate(3, intid, 0);
            c.line(0, intid, 0, 0);
            c.lookup(3, 1, 8192 + 65_536);
        });
    }
}

/// A device with an event, and all that can be made of it.
fn map_and_unmap(c: &mut Case) {
    c.collection(7, 1, 0);
    c.collection(9, 3, 0);
    c.device(3, MEMORY + 0x2000, 5, 0);
    c.event(3, 1, 8192, 7, 0);
    c.lookup(3, 1, 8192 + 65_536);
    c.moved(3, 1, 9, 0);
    c.lookup(3, 1, 8192 + 3 * 65_536);
    c.discard(3, 1, 0);
    c.lookup(3, 1, -2);
    c.event(3, 2, 9000, 7, 0);
    c.no_collection(7, -22);
    c.no_device(3, 0);
    c.no_collection(7, 0);
}

fn former_count(c: &mut Case) {
    c.become_former();
    c.its_placed(1);
    map_and_unmap(c);
    c.reset(0);
    c.lookup(3, 1, -6);
    c.word(3, 0, 256);
    // Found in a guest that has its tables already.
    c.setup(40, MEMORY, END - MEMORY, 0);
    c.its_placed(1);
    c.collection(1, 2, 0);
    c.device(9, MEMORY + 0x4000, 4, 0);
    c.event(9, 15, 65_535, 1, 0);
    c.become_former();
    c.lookup(9, 15, 65_535 + 2 * 65_536);
    map_and_unmap(c);
    c.raise(0, 255, 0);
    c.lookup(9, 15, 65_535 + 2 * 65_536);
    c.start(0);
    c.reset(-16);
    c.stop(0);
    c.reset(0);
    c.pending(0, 255, 1);
    c.word(3, 0, 256);
    c.put(3, 0, 64, -16);
}

fn running(c: &mut Case) {
    c.its_ready();
    c.start(0);
    c.place(MEMORY, 1, MEMORY + PAGE, 1, 0);
    c.collection(7, 1, 0);
    c.device(3, MEMORY + 0x2000, 5, 0);
    c.event(3, 1, 8192, 7, 0);
    c.moved(3, 1, 7, 0);
    c.lookup(3, 1, 8192 + 65_536);
    c.no_collection(7, -22);
    c.discard(3, 1, 0);
    c.no_device(3, 0);
    c.no_collection(7, 0);
}
