//! §1.13, §1.14: the two tables and the mapping.

use super::bases::{Base, COLLECTION_TABLE, DEVICE_TABLE, END, ITT, MEMORY, OTHER_ITT, TABLES_END};
use super::{Put, Row};
use crate::state::layout::{self, Field, COLLECTIONS, DEVICES, EVENTS, ITS_INIT};
use Base::{Full, Mapped, Placed, Single};

const D: layout::Marked = layout::DEVICE_TABLE;
const C: layout::Marked = layout::COLLECTION_TABLE;
const NO_D: [Put; 3] = [(D.mark, 0), (D.start, 0), (D.pages, 0)];
const NO_C: [Put; 3] = [(C.mark, 0), (C.start, 0), (C.pages, 0)];
const NEITHER: [Put; 6] = [NO_D[0], NO_D[1], NO_D[2], NO_C[0], NO_C[1], NO_C[2]];
const NEITHER_EARLY: [Put; 7] = [NO_D[0], NO_D[1], NO_D[2], NO_C[0], NO_C[1], NO_C[2], (ITS_INIT, 0)];
/// The last page below 2^64.
const LAST: u64 = 0u64.wrapping_sub(0x1000);

const fn device_id(row: usize, number: u64) -> Put {
    (DEVICES.field(row, 0), number)
}

const fn itt(row: usize, number: u64) -> Put {
    (DEVICES.field(row, 1), number)
}

const fn bits(row: usize, number: u64) -> Put {
    (DEVICES.field(row, 2), number)
}

const fn icid(row: usize, number: u64) -> Put {
    (COLLECTIONS.field(row, 0), number)
}

const fn pe(row: usize, number: u64) -> Put {
    (COLLECTIONS.field(row, 1), number)
}

/// Columns of an event: device, event, LPI, ICID.
const fn event(row: usize, column: usize, number: u64) -> Put {
    (EVENTS.field(row, column), number)
}

/// The events of the first device alone, so that the second may be changed.
const TWO: Put = (EVENTS.count, 2);

pub const ROWS: &[Row] = &[
    // §1.9: marks.
    Row("marks", Placed, &[(D.mark, 2)], &[(D.mark, 1)]),
    Row("marks", Placed, &[(C.mark, 257)], &[(C.mark, 1)]),
    // §1.13: both or neither, and after ITS INIT.
    Row("tables both", Placed, &NO_C, &NEITHER),
    Row("tables both", Placed, &NO_D, &NEITHER),
    Row("tables order", Placed, &[(ITS_INIT, 0)], &NEITHER_EARLY),
    // §1.13: tables that are not placed.
    Row("table unset", Single, &[(D.start, 0x1000)], &[(D.start, 0)]),
    Row("table unset", Single, &[(D.pages, 1)], &[(D.pages, 0)]),
    Row("table unset", Single, &[(C.start, 1 << 63)], &[(C.start, 0)]),
    Row("table unset", Single, &[(C.pages, 1)], &[(C.pages, 0)]),
    // §1.13: form and place, as in §5.4.
    Row("table step", Placed, &[(D.start, DEVICE_TABLE - 0x800)], &[(D.start, DEVICE_TABLE - 0x1000)]),
    Row("table step", Placed, &[(C.start, COLLECTION_TABLE + 1)], &[(C.start, COLLECTION_TABLE + 0x1000)]),
    Row("table least", Placed, &[(D.pages, 0)], &[(D.pages, 1)]),
    Row("table least", Placed, &[(C.pages, 0)], &[(C.pages, 1)]),
    Row("table most", Placed, &[(D.start, TABLES_END), (D.pages, 129)], &[(D.start, TABLES_END), (D.pages, 128)]),
    Row("table most", Placed, &[(C.pages, 129)], &[(C.pages, 128)]),
    Row("table inside", Placed, &[(D.start, MEMORY - 0x1000)], &[(D.start, MEMORY)]),
    Row("table inside", Placed, &[(D.start, END - 0x1000)], &[(D.start, END - 0x2000)]),
    Row("table inside", Placed, &[(C.start, END)], &[(C.start, END - 0x1000)]),
    Row("table inside", Placed, &[(C.start, LAST)], &[(C.start, MEMORY)]),
    Row("tables apart", Placed, &[(C.start, COLLECTION_TABLE - 0x1000)], &[(C.start, COLLECTION_TABLE)]),
    Row("tables apart", Placed, &[(C.start, DEVICE_TABLE)], &[(C.start, DEVICE_TABLE - 0x1000)]),
    // §1.14: nothing without tables, and the limits of §1.6.
    Row("mapping unplaced", Single, &[(DEVICES.count, 1)], &[(DEVICES.count, 0)]),
    Row("mapping unplaced", Single, &[(COLLECTIONS.count, 1)], &[(COLLECTIONS.count, 0)]),
    Row("mapping unplaced", Single, &[(EVENTS.count, 1)], &[(EVENTS.count, 0)]),
    Row("devices most", Full, &[(DEVICES.count, 33)], &[(DEVICES.count, 32)]),
    Row("devices most", Full, &[(DEVICES.count, (1 << 32) + 32)], &[(EVENTS.count, 992), (DEVICES.count, 31)]),
    Row("collections most", Full, &[(COLLECTIONS.count, 17)], &[(COLLECTIONS.count, 16)]),
    Row("collections most", Full, &[(COLLECTIONS.count, u64::MAX)], &[(EVENTS.count, 0), (COLLECTIONS.count, 1)]),
    Row("events most", Full, &[(EVENTS.count, 1025)], &[(EVENTS.count, 1024)]),
    Row("events most", Full, &[(EVENTS.count, 1 << 32)], &[(EVENTS.count, 1023)]),
    // §1.14: devices, as in §5.6.
    Row("devices rise", Mapped, &[device_id(0, 1000), device_id(1, 3)], &[device_id(0, 3), device_id(1, 1000)]),
    Row("devices rise", Mapped, &[TWO, device_id(1, 3)], &[TWO, device_id(1, 4)]),
    Row("devices rise", Full, &[(EVENTS.count, 992), device_id(31, 0)], &[(EVENTS.count, 992), device_id(31, 1023)]),
    Row("device ID", Mapped, &[TWO, device_id(1, 1024)], &[TWO, device_id(1, 1023)]),
    Row("device ID", Mapped, &[TWO, device_id(1, (1 << 32) + 1000)], &[TWO, device_id(1, 1000)]),
    Row("device ID", Mapped, &[(D.pages, 1), TWO], &[(D.pages, 1), TWO, device_id(1, 511)]),
    Row("bits least", Mapped, &[TWO, bits(1, 0)], &[TWO, bits(1, 1)]),
    Row("bits most", Mapped, &[itt(1, MEMORY + 0x10_0000), bits(1, 17)], &[itt(1, MEMORY + 0x10_0000), bits(1, 16)]),
    Row("ITT step", Mapped, &[itt(1, OTHER_ITT + 0x80)], &[itt(1, OTHER_ITT + 0x100)]),
    Row("ITT step", Mapped, &[itt(0, ITT + 1)], &[itt(0, ITT)]),
    Row("ITT inside", Mapped, &[itt(0, MEMORY - 0x100)], &[itt(0, MEMORY)]),
    Row("ITT inside", Mapped, &[bits(0, 6), itt(0, END - 0x100)], &[bits(0, 6), itt(0, END - 0x200)]),
    Row("ITT inside", Mapped, &[itt(1, END)], &[itt(1, END - 0x100)]),
    Row("ITT inside", Mapped, &[itt(1, 0u64.wrapping_sub(0x100))], &[itt(1, END - 0x200)]),
    // §1.14: the tables of §5.5 apart.
    Row("ITT and tables", Mapped, &[itt(0, TABLES_END - 0x100)], &[itt(0, TABLES_END)]),
    Row("ITT and tables", Mapped, &[itt(1, DEVICE_TABLE)], &[itt(1, DEVICE_TABLE - 0x100)]),
    Row(
        "ITT and tables",
        Mapped,
        &[bits(0, 6), itt(0, DEVICE_TABLE - 0x100)],
        &[bits(0, 6), itt(0, DEVICE_TABLE - 0x200)],
    ),
    Row("ITTs apart", Mapped, &[itt(1, ITT)], &[itt(1, ITT + 0x100)]),
    Row("ITTs apart", Mapped, &[bits(0, 6), itt(1, ITT + 0x100)], &[bits(0, 6), itt(1, ITT + 0x200)]),
    Row("ITTs apart", Full, &[itt(31, ITT)], &[itt(31, ITT + 0x8000)]),
    // §1.14: collections, as in §5.8.
    Row("collections rise", Mapped, &[icid(0, 9), icid(1, 7)], &[icid(0, 7), icid(1, 9)]),
    Row("collections rise", Mapped, &[event(1, 3, 7), icid(1, 7)], &[event(1, 3, 7), icid(1, 8)]),
    Row("collections rise", Full, &[(EVENTS.count, 0), icid(15, 14)], &[(EVENTS.count, 0), icid(15, 65_535)]),
    Row("collection pe", Mapped, &[pe(0, 2)], &[pe(0, 1)]),
    Row("collection pe", Full, &[pe(15, 64)], &[pe(15, 63)]),
    // §1.14: events, as in §5.10, and what they name.
    Row("events rise", Mapped, &[event(0, 1, 2), event(1, 1, 1)], &[event(0, 1, 1), event(1, 1, 2)]),
    Row("events rise", Mapped, &[event(1, 1, 1)], &[event(1, 1, 31)]),
    Row("events rise", Mapped, &[event(0, 0, 1000)], &[event(0, 0, 3)]),
    Row("event device", Mapped, &[event(2, 0, 1001)], &[event(2, 0, 1000)]),
    Row("event device", Mapped, &[event(0, 0, 2)], &[event(0, 0, 3)]),
    Row("event number", Mapped, &[event(2, 1, 16)], &[event(2, 1, 15)]),
    Row("event number", Mapped, &[event(1, 1, 32)], &[event(1, 1, 31)]),
    Row("event LPI", Mapped, &[event(0, 2, 8191)], &[event(0, 2, 8192)]),
    Row("event LPI", Mapped, &[event(2, 2, 0)], &[event(2, 2, 65_535)]),
    Row("event ICID", Mapped, &[event(0, 3, 8)], &[event(0, 3, 9)]),
    Row("event ICID", Full, &[event(1023, 3, 16)], &[event(1023, 3, 0)]),
];

/// The four bytes after the banks.
const GAP: Field = Field { at: 2348, size: 4 };

pub const FREE: &[(&str, Base, &[Put])] = &[
    ("§1.7 the bytes behind the banks", Mapped, &[(GAP, u64::MAX)]),
    ("§1.7 a device behind the last", Mapped, &[device_id(2, 3), bits(2, 99), itt(31, 1)]),
    ("§1.7 a collection behind the last", Mapped, &[icid(2, 9), pe(15, 64)]),
    ("§1.7 an event behind the last", Mapped, &[event(3, 0, 3), event(1023, 2, 1)]),
    ("§5.10 two events share an LPI", Mapped, &[event(1, 2, 8192)]),
    ("§5.8 an ICID is any of 16 bits", Mapped, &[icid(0, 0), icid(1, 65_535), (EVENTS.count, 0)]),
];
