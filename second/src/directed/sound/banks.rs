//! §1.15, §1.16: the last bank's four highest bits, and banks and STATUSRs before INIT.

use super::bases::Base;
use super::{Put, Row};
use crate::state::layout::{BANKS, INIT, IRQS, IRQS_SET, STATUS, VCPUS};
use Base::{Early, Former, FormerEarly, FormerMapped, Fresh, Full, Many, Regions, Single, Wide};

/// Columns of a shared bank; those of a VCPU stand behind its affinity.
const LATCH: usize = 0;
const LEVEL: usize = 1;
const TRIGGER: usize = 2;
const VCPU_STATUS: usize = 3;

const ONES: u64 = 0xffff_ffff;
/// The same guest after INIT.
const AFTER: Put = (INIT, 1);

const fn shared(row: usize, column: usize, word: u64) -> Put {
    (BANKS.field(row, column), word)
}

/// The bank from INTID 992 on.
const fn last(column: usize, word: u64) -> Put {
    shared(30, column, word)
}

const fn vcpu(row: usize, column: usize, word: u64) -> Put {
    (VCPUS.field(row, 1 + column), word)
}

pub const ROWS: &[Row] = &[
    // §1.15: bit by bit. Sound are bit 27, the same bit of the bank before, and the same bits with a count of 992.
    Row("last latch", Full, &[last(LATCH, 1 << 28)], &[last(LATCH, 1 << 27)]),
    Row("last latch", Full, &[last(LATCH, 1 << 29)], &[shared(29, LATCH, 1 << 29)]),
    Row("last latch", Full, &[last(LATCH, 1 << 30)], &[shared(0, LATCH, 1 << 30)]),
    Row("last latch", Full, &[last(LATCH, 1 << 31)], &[last(LATCH, 1 << 31), (IRQS, 992)]),
    Row("last latch", Full, &[last(LATCH, ONES)], &[last(LATCH, 0x0fff_ffff)]),
    Row("last level", Full, &[last(LEVEL, 1 << 28)], &[last(LEVEL, 1 << 27)]),
    Row("last level", Full, &[last(LEVEL, 1 << 29)], &[shared(29, LEVEL, 1 << 29)]),
    Row("last level", Full, &[last(LEVEL, 1 << 30)], &[shared(0, LEVEL, 1 << 30)]),
    Row("last level", Full, &[last(LEVEL, 1 << 31)], &[last(LEVEL, 1 << 31), (IRQS, 992)]),
    Row("last level", Full, &[last(LEVEL, ONES)], &[last(LEVEL, 0x0fff_ffff)]),
    Row("last trigger", Full, &[last(TRIGGER, 1 << 28)], &[last(TRIGGER, 1 << 27)]),
    Row("last trigger", Full, &[last(TRIGGER, 1 << 29)], &[shared(29, TRIGGER, 1 << 29)]),
    Row("last trigger", Full, &[last(TRIGGER, 1 << 30)], &[shared(0, TRIGGER, 1 << 30)]),
    Row("last trigger", Full, &[last(TRIGGER, 1 << 31)], &[last(TRIGGER, 1 << 31), (IRQS, 992)]),
    Row("last trigger", Full, &[last(TRIGGER, ONES)], &[last(TRIGGER, 0x0fff_ffff)]),
    // §1.16: a VCPU's bank, from an SGI's latch to the highest bit, and its STATUSR. After INIT the same is sound.
    Row("early VCPU latch", Early, &[vcpu(0, LATCH, 1)], &[vcpu(0, LATCH, 1), AFTER]),
    Row("early VCPU latch", Early, &[vcpu(1, LATCH, 1 << 16)], &[vcpu(1, LATCH, 0)]),
    Row("early VCPU latch", Many, &[vcpu(63, LATCH, 1 << 31)], &[vcpu(63, LATCH, 1 << 31), AFTER]),
    Row("early VCPU level", Early, &[vcpu(0, LEVEL, 1 << 16)], &[vcpu(0, LEVEL, 1 << 16), AFTER]),
    Row("early VCPU level", Early, &[vcpu(1, LEVEL, 1 << 20)], &[vcpu(2, LEVEL, 1 << 20)]),
    Row("early VCPU level", Many, &[vcpu(63, LEVEL, 1 << 31)], &[vcpu(63, LEVEL, 1 << 31), AFTER]),
    Row("early VCPU trigger", Early, &[vcpu(0, TRIGGER, 0x1_ffff)], &[vcpu(0, TRIGGER, 0x1_ffff), AFTER]),
    Row("early VCPU trigger", Early, &[vcpu(1, TRIGGER, ONES)], &[vcpu(1, TRIGGER, 0xffff)]),
    Row("early VCPU trigger", Many, &[vcpu(63, TRIGGER, 0x8000_ffff)], &[vcpu(63, TRIGGER, 0x8000_ffff), AFTER]),
    Row("early VCPU status", Early, &[vcpu(0, VCPU_STATUS, 1)], &[vcpu(0, VCPU_STATUS, 1), AFTER]),
    Row("early VCPU status", Early, &[vcpu(1, VCPU_STATUS, 15)], &[vcpu(2, VCPU_STATUS, 15)]),
    Row("early VCPU status", Many, &[vcpu(63, VCPU_STATUS, 8)], &[vcpu(63, VCPU_STATUS, 8), AFTER]),
    // §1.16: the one shared bank of 64 interrupts, the last of 256, set or never set (§1.17), and of 1,024 the last two.
    Row("early shared latch", Fresh, &[shared(0, LATCH, 1)], &[shared(0, LATCH, 0)]),
    Row("early shared latch", Early, &[shared(0, LATCH, 1 << 31)], &[shared(1, LATCH, 1 << 31)]),
    Row("early shared latch", Wide, &[shared(6, LATCH, 1 << 31)], &[shared(7, LATCH, 1 << 31)]),
    Row("early shared latch", Former, &[shared(1, LATCH, 1)], &[shared(7, LATCH, 1)]),
    Row("early shared latch", FormerEarly, &[shared(6, LATCH, 1 << 31)], &[shared(7, LATCH, 1 << 31)]),
    Row("early shared latch", FormerEarly, &[shared(3, LATCH, 1 << 8)], &[shared(3, LATCH, 1 << 8), AFTER]),
    Row("early shared latch", Wide, &[shared(3, LATCH, 1 << 8)], &[shared(3, LATCH, 1 << 8), AFTER]),
    Row("early shared latch", Early, &[shared(0, LATCH, 1 << 8)], &[shared(0, LATCH, 1 << 8), AFTER]),
    Row("early shared latch", Many, &[shared(29, LATCH, 1 << 31)], &[shared(29, LATCH, 1 << 31), AFTER]),
    Row("early shared latch", Many, &[last(LATCH, 1 << 27)], &[last(LATCH, 1 << 27), AFTER]),
    Row("early shared level", Fresh, &[shared(0, LEVEL, 1)], &[shared(0, LEVEL, 0)]),
    Row("early shared level", Early, &[shared(0, LEVEL, 1 << 31)], &[shared(1, LEVEL, 1 << 31)]),
    Row("early shared level", Wide, &[shared(6, LEVEL, 1 << 31)], &[shared(7, LEVEL, 1 << 31)]),
    Row("early shared level", Former, &[shared(1, LEVEL, 1)], &[shared(7, LEVEL, 1)]),
    Row("early shared level", FormerEarly, &[shared(6, LEVEL, 1 << 31)], &[shared(7, LEVEL, 1 << 31)]),
    Row("early shared level", FormerEarly, &[shared(3, LEVEL, 1 << 8)], &[shared(3, LEVEL, 1 << 8), AFTER]),
    Row("early shared level", Wide, &[shared(3, LEVEL, 1 << 8)], &[shared(3, LEVEL, 1 << 8), AFTER]),
    Row("early shared level", Early, &[shared(0, LEVEL, 1 << 8)], &[shared(0, LEVEL, 1 << 8), AFTER]),
    Row("early shared level", Many, &[shared(29, LEVEL, 1 << 31)], &[shared(29, LEVEL, 1 << 31), AFTER]),
    Row("early shared level", Many, &[last(LEVEL, 1 << 27)], &[last(LEVEL, 1 << 27), AFTER]),
    Row("early shared trigger", Fresh, &[shared(0, TRIGGER, 1)], &[shared(0, TRIGGER, 0)]),
    Row("early shared trigger", Early, &[shared(0, TRIGGER, 1 << 31)], &[shared(1, TRIGGER, 1 << 31)]),
    Row("early shared trigger", Wide, &[shared(6, TRIGGER, 1 << 31)], &[shared(7, TRIGGER, 1 << 31)]),
    Row("early shared trigger", Former, &[shared(1, TRIGGER, 1)], &[shared(7, TRIGGER, 1)]),
    Row("early shared trigger", FormerEarly, &[shared(6, TRIGGER, 1 << 31)], &[shared(7, TRIGGER, 1 << 31)]),
    Row("early shared trigger", FormerEarly, &[shared(3, TRIGGER, 1 << 8)], &[shared(3, TRIGGER, 1 << 8), AFTER]),
    Row("early shared trigger", Wide, &[shared(3, TRIGGER, 0xffff)], &[shared(3, TRIGGER, 0xffff), AFTER]),
    Row("early shared trigger", Early, &[shared(0, TRIGGER, 0xffff)], &[shared(0, TRIGGER, 0xffff), AFTER]),
    Row("early shared trigger", Many, &[shared(29, TRIGGER, 1 << 31)], &[shared(29, TRIGGER, 1 << 31), AFTER]),
    Row("early shared trigger", Many, &[last(TRIGGER, 1 << 27)], &[last(TRIGGER, 1 << 27), AFTER]),
    Row("early distributor status", Fresh, &[(STATUS, 1)], &[(STATUS, 0)]),
    Row("early distributor status", Early, &[(STATUS, 8)], &[(STATUS, 8), AFTER]),
    Row("early distributor status", Many, &[(STATUS, 15)], &[(STATUS, 15), AFTER]),
    Row("early distributor status", FormerEarly, &[(STATUS, 4)], &[(STATUS, 4), AFTER]),
    // §1.16: INIT put back in a guest that has gone on.
    Row("early VCPU latch", Regions, &[vcpu(2, LATCH, 1), (INIT, 0)], &[vcpu(2, LATCH, 1)]),
    Row("early shared trigger", Regions, &[shared(6, TRIGGER, 1), (INIT, 0)], &[shared(6, TRIGGER, 1)]),
];

/// Changes that no rule forbids.
pub const FREE: &[(&str, Base, &[Put])] = &[
    ("§1.15 the last bank's other bits", Full, &[last(0, 0x0fff_ffff), last(1, 0x0fff_ffff), last(2, 0x0fff_ffff)]),
    ("§1.15 all bits of the bank before", Full, &[shared(29, 0, ONES), shared(29, 1, ONES), shared(29, 2, ONES)]),
    ("§1.15 no such bank with a count of 992", Full, &[(IRQS, 992), last(0, ONES), last(1, ONES), last(2, ONES)]),
    ("§1.15 all bits of the last bank of 64", Single, &[shared(0, 0, ONES), shared(0, 1, ONES), shared(0, 2, ONES)]),
    ("§1.15 all bits of the last bank of 256", Regions, &[shared(6, 0, ONES), shared(6, 1, ONES), shared(6, 2, ONES)]),
    (
        "§1.15, §1.17 the last bank of 256 never set",
        FormerMapped,
        &[shared(6, 0, ONES), shared(6, 1, ONES), shared(6, 2, ONES)],
    ),
    ("§1.16 a VCPU behind the last", Early, &[vcpu(2, LATCH, 1), vcpu(2, TRIGGER, 0), vcpu(63, LEVEL, ONES)]),
    ("§1.16 a bank behind the last", Early, &[shared(1, LEVEL, 1), last(LATCH, ONES), last(TRIGGER, ONES)]),
    ("§1.16 a bank behind the last of 256", Wide, &[shared(7, LEVEL, 1), last(LATCH, ONES), last(TRIGGER, ONES)]),
    (
        "§1.16, §1.17 a bank behind the last of 256 never set",
        FormerEarly,
        &[shared(7, LEVEL, 1), last(LATCH, ONES), last(TRIGGER, ONES)],
    ),
    ("§1.16 a bank behind a count that is set to 64", Fresh, &[(IRQS_SET, 1), shared(1, LATCH, 1), last(LEVEL, 1)]),
    ("§1.16 a bank behind a smaller count", Wide, &[(IRQS, 64), shared(1, LATCH, 1), last(LEVEL, 1)]),
    ("§1.16, §1.5 a bank behind 64 never set", Former, &[(IRQS, 64), shared(1, LATCH, 1), last(LEVEL, 1)]),
    ("§1.16 after INIT nothing need be fresh", Single, &[vcpu(1, LATCH, ONES), shared(0, TRIGGER, 1), (STATUS, 1)]),
];
