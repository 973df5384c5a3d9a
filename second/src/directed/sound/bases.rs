//! The sound states (§1.8) from which the cases start: made by calls, on the library and the model at once.

use crate::directed::case::Case;
use crate::model::Model;
use crate::sides::{Both, Library};

#[derive(Clone, Copy, PartialEq, Eq, Debug)]
pub enum Base {
    /// Set up: p 40 and 2 MiB of memory. Here and below the count is 64 and not set, where no other is named.
    Fresh,
    /// Two VCPUs, distributor, single run and ITS frame; INIT would be accepted.
    Early,
    /// The same with 256 interrupts, set.
    Wide,
    /// The same with 64 VCPUs and 1,024 interrupts.
    Many,
    /// Early after INIT.
    Single,
    /// Three VCPUs in regions of 2 and 1, with 256 interrupts, set, after INIT.
    Regions,
    /// Single after ITS INIT, with its tables placed.
    Placed,
    /// Placed with two devices, two collections and three events.
    Mapped,
    /// Every limit of §1.6 is reached, with 1,024 interrupts.
    Full,
    /// Fresh with 256 interrupts that were never set (§1.17).
    Former,
    /// Early with 256 interrupts that were never set.
    FormerEarly,
    /// Mapped with 256 interrupts that were never set, and all its banks in use.
    FormerMapped,
}

pub const BASES: [Base; 12] = [
    Base::Fresh,
    Base::Early,
    Base::Wide,
    Base::Many,
    Base::Single,
    Base::Regions,
    Base::Placed,
    Base::Mapped,
    Base::Full,
    Base::Former,
    Base::FormerEarly,
    Base::FormerMapped,
];

pub const TOP: u64 = 1 << 40;
pub const MEMORY: u64 = 0x4000_0000;
pub const LENGTH: u64 = 0x20_0000;
pub const END: u64 = MEMORY + LENGTH;

pub const DISTRIBUTOR: u64 = 0x0800_0000;
pub const SINGLE: u64 = 0x080a_0000;
pub const ITS: u64 = 0x0900_0000;
/// The two regions of `Regions`.
pub const FIRST: u64 = 0x0a00_0000;
pub const SECOND: u64 = 0x0b00_0000;

/// The device table has two pages, the collection table, right after it, one.
pub const DEVICE_TABLE: u64 = MEMORY + 0x1_0000;
pub const COLLECTION_TABLE: u64 = MEMORY + 0x1_2000;
pub const TABLES_END: u64 = MEMORY + 0x1_3000;
/// The ITTs of `Mapped`: 32 events of device 3, 16 events of device 1,000.
pub const ITT: u64 = MEMORY + 0x2_0000;
pub const OTHER_ITT: u64 = MEMORY + 0x2_1000;

fn frames(c: &mut Case, vcpus: u32) {
    c.adds(vcpus);
    c.base(2, DISTRIBUTOR, 0);
    c.its_base(ITS, 0);
}

fn single(c: &mut Case, vcpus: u32) {
    frames(c, vcpus);
    c.base(3, SINGLE, 0);
}

fn wide(c: &mut Case) {
    c.put(3, 0, 256, 0);
    single(c, 2);
}

fn many(c: &mut Case) {
    c.put(3, 0, 1024, 0);
    single(c, 64);
}

fn regions(c: &mut Case) {
    c.put(3, 0, 256, 0);
    frames(c, 3);
    c.region(0, FIRST, 2, 0);
    c.region(1, SECOND, 1, 0);
    c.init(0);
}

fn placed(c: &mut Case) {
    c.init(0);
    c.its_init(0);
    c.place(DEVICE_TABLE, 2, COLLECTION_TABLE, 1, 0);
}

fn mapped(c: &mut Case) {
    c.collection(7, 1, 0);
    c.collection(9, 0, 0);
    c.device(3, ITT, 5, 0);
    c.device(1000, OTHER_ITT, 4, 0);
    c.event(3, 1, 8192, 7, 0);
    c.event(3, 2, 9000, 9, 0);
    c.event(1000, 0, 65_535, 7, 0);
}

fn full(c: &mut Case) {
    c.put(3, 0, 1024, 0);
    frames(c, 64);
    (0..32).for_each(|n| c.region(n, FIRST + n * 0x10_0000, 3, 0));
    placed(c);
    (0..16).for_each(|n| c.collection(n, n, 0));
    for device in 0..32 {
        c.device(device, ITT + 256 * device, 5, 0);
        (0..32).for_each(|event| c.event(device, event, 8192 + event, event % 16, 0));
    }
}

fn its(c: &mut Case, base: Base) {
    match base {
        Base::Full => full(c),
        _ => {
            single(c, 2);
            placed(c);
        }
    }
    if [Base::Mapped, Base::FormerMapped].contains(&base) {
        mapped(c);
    }
}

/// §1.17: the guest that stands, before INIT or after it. After INIT its banks are used.
fn former(c: &mut Case, base: Base) {
    c.become_former();
    if base == Base::FormerMapped {
        for bank in 1..8 {
            c.put(1, 0x200 + 4 * bank, 0x8000_0001 << bank, 0);
            c.put(7, 32 * bank, u32::MAX >> bank, 0);
            c.trigger(0, 32 * bank, 0x00ff_00ff << bank, 0);
        }
    }
}

/// The state's bytes, or the first step that went wrong.
pub fn build(base: Base) -> Result<Vec<u8>, String> {
    let mut both = Both { library: Library::new(&vec![0x5a; Library::len()]), model: Model::default() };
    let mut case = Case::new(&mut both);
    case.setup(40, MEMORY, LENGTH, 0);
    match base {
        Base::Fresh | Base::Former => {}
        Base::Early | Base::FormerEarly => single(&mut case, 2),
        Base::Wide => wide(&mut case),
        Base::Many => many(&mut case),
        Base::Single => {
            single(&mut case, 2);
            case.init(0);
        }
        Base::Regions => regions(&mut case),
        Base::Placed | Base::Mapped | Base::Full | Base::FormerMapped => its(&mut case, base),
    }
    if [Base::Former, Base::FormerEarly, Base::FormerMapped].contains(&base) {
        former(&mut case, base);
    }
    match case.notes.first() {
        None => Ok(both.library.state.content().to_vec()),
        Some(note) => Err(note.clone()),
    }
}
