//! §1.9, §1.12: the guest's own numbers, its marks and VCPUs.

use super::bases::{Base, LENGTH, MEMORY, TOP};
use super::{Put, Row};
use crate::state::layout::{
    BANKS, COLLECTION_TABLE, DEVICE_TABLE, DISTRIBUTOR, INIT, IRQS, IRQS_SET, ITS, ITS_INIT, MEMORY as SIZE, REGIONS,
    RUNNING, SINGLE, START, STATUS, VCPUS, WIDTH,
};
use Base::{Early, Former, FormerEarly, FormerMapped, Fresh, Full, Placed, Regions, Single, Wide};

const AFFINITY: usize = 0;
const LATCH: usize = 1;
const LEVEL: usize = 2;
const TRIGGER: usize = 3;
const VCPU_STATUS: usize = 4;

pub const ROWS: &[Row] = &[
    // §1.9: as §1.4 asks.
    Row("width least", Fresh, &[(WIDTH, 35)], &[(WIDTH, 36)]),
    Row("width most", Fresh, &[(WIDTH, 53)], &[(WIDTH, 52)]),
    Row("width most", Fresh, &[(WIDTH, (1 << 32) + 40)], &[(WIDTH, 41)]),
    Row("memory start", Fresh, &[(START, MEMORY + 0x800)], &[(START, MEMORY + 0x1000)]),
    Row("memory start", Fresh, &[(START, 1)], &[(START, 0)]),
    Row("memory step", Fresh, &[(SIZE, 0x1800)], &[(SIZE, 0x2000)]),
    Row("memory step", Fresh, &[(SIZE, LENGTH - 1)], &[(SIZE, LENGTH)]),
    Row("memory least", Fresh, &[(SIZE, 0)], &[(SIZE, 0x1000)]),
    Row("memory most", Fresh, &[(SIZE, (1 << 30) + 0x1000)], &[(SIZE, 1 << 30)]),
    Row("memory end", Fresh, &[(START, TOP - LENGTH + 0x1000)], &[(START, TOP - LENGTH)]),
    Row("memory end", Fresh, &[(START, 0u64.wrapping_sub(LENGTH))], &[(START, 0)]),
    Row("memory end", Fresh, &[(WIDTH, 36), (START, 1 << 36)], &[(WIDTH, 37), (START, 1 << 36)]),
    // §1.9: marks.
    Row("marks", Single, &[(INIT, 2)], &[(INIT, 1)]),
    Row("marks", Single, &[(INIT, 1 + (1 << 32))], &[(INIT, 0)]),
    Row("marks", Single, &[(RUNNING, 2)], &[(RUNNING, 1)]),
    Row("marks", Single, &[(RUNNING, 256)], &[(RUNNING, 0)]),
    Row("marks", Fresh, &[(IRQS_SET, u64::MAX)], &[(IRQS_SET, 1)]),
    Row("marks", Former, &[(IRQS_SET, 2)], &[(IRQS_SET, 1)]),
    Row("marks", Regions, &[(IRQS_SET, 1 << 32)], &[(IRQS_SET, 0)]),
    Row("marks", Single, &[(ITS_INIT, 2)], &[(ITS_INIT, 1)]),
    Row("marks", Early, &[(DISTRIBUTOR.mark, 2)], &[(DISTRIBUTOR.mark, 1)]),
    Row("marks", Early, &[(SINGLE.mark, 3)], &[(SINGLE.mark, 1)]),
    Row("marks", Early, &[(ITS.mark, 1 << 63)], &[(ITS.mark, 1)]),
    // §1.9: running.
    Row("running", Early, &[(RUNNING, 1)], &[(RUNNING, 1), (INIT, 1)]),
    Row("running", Fresh, &[(RUNNING, 1)], &[(RUNNING, 0)]),
    // §1.9: the interrupt count, as in §3.14.
    Row("count least", Fresh, &[(IRQS_SET, 1), (IRQS, 32)], &[(IRQS_SET, 1), (IRQS, 64)]),
    Row("count least", Wide, &[(IRQS, 0)], &[(IRQS, 96)]),
    Row("count most", Full, &[(IRQS, 1056)], &[(IRQS, 1024)]),
    Row("count most", Single, &[(IRQS_SET, 1), (IRQS, (1 << 32) + 64)], &[(IRQS_SET, 1), (IRQS, 64)]),
    Row("count step", Wide, &[(IRQS, 80)], &[(IRQS, 128)]),
    Row("count step", Full, &[(IRQS, 1023)], &[(IRQS, 992)]),
    // §1.9, §1.17: 64 or 256 where it was not set. Before INIT a larger count needs fresh banks behind the first one, which
    // a fresh guest has not. Of each count that §3.14 takes `unset_counts` tells.
    Row("count unset", Wide, &[(IRQS_SET, 0), (IRQS, 224)], &[(IRQS_SET, 0), (IRQS, 256)]),
    Row("count unset", Former, &[(IRQS, 224)], &[(IRQS, 224), (IRQS_SET, 1)]),
    Row("count unset", Former, &[(IRQS, 96)], &[(IRQS, 64)]),
    Row("count unset", FormerEarly, &[(IRQS, 128)], &[(IRQS, 128), (IRQS_SET, 1)]),
    Row("count unset", Single, &[(IRQS, 96)], &[(IRQS, 64)]),
    Row("count unset", Single, &[(IRQS, 288)], &[(IRQS, 256)]),
    Row("count unset", FormerMapped, &[(IRQS, 224)], &[(IRQS, 64)]),
    Row("count unset", FormerMapped, &[(IRQS, 288)], &[(IRQS, 288), (IRQS_SET, 1)]),
    Row("count unset", Regions, &[(IRQS_SET, 0), (IRQS, 512)], &[(IRQS_SET, 0)]),
    Row("count unset", Full, &[(IRQS_SET, 0)], &[(IRQS_SET, 1)]),
    // §1.9: STATUSR.
    Row("distributor status", Single, &[(STATUS, 16)], &[(STATUS, 15)]),
    Row("distributor status", Regions, &[(STATUS, 1 << 32)], &[(STATUS, 8)]),
    // §1.9: within §1.6.
    Row("VCPUs most", Full, &[(VCPUS.count, 65)], &[(VCPUS.count, 64)]),
    // §1.12.
    Row("affinities", Early, &[(VCPUS.field(1, AFFINITY), 0)], &[(VCPUS.field(1, AFFINITY), 1 << 31)]),
    Row("affinities", Full, &[(VCPUS.field(0, AFFINITY), 63)], &[(VCPUS.field(0, AFFINITY), 64)]),
    Row("SGI trigger", Single, &[(VCPUS.field(1, TRIGGER), 0x7fff)], &[(VCPUS.field(1, TRIGGER), 0xffff)]),
    Row("SGI trigger", Regions, &[(VCPUS.field(0, TRIGGER), 0xffff_fffe)], &[(VCPUS.field(0, TRIGGER), 0xffff_ffff)]),
    Row("SGI level", Single, &[(VCPUS.field(1, LEVEL), 0x8000)], &[(VCPUS.field(1, LEVEL), 0x1_0000)]),
    Row("SGI level", Regions, &[(VCPUS.field(0, LEVEL), 0xffff_0001)], &[(VCPUS.field(0, LEVEL), 0xffff_0000)]),
    // §1.9: STATUSR.
    Row("VCPU status", Single, &[(VCPUS.field(1, VCPU_STATUS), 16)], &[(VCPUS.field(1, VCPU_STATUS), 15)]),
    Row("VCPU status", Regions, &[(VCPUS.field(0, VCPU_STATUS), 1 << 31)], &[(VCPUS.field(0, VCPU_STATUS), 1)]),
];

/// Changes that no rule forbids.
pub const FREE: &[(&str, Base, &[Put])] = &[
    ("§1.12 latches of SGIs may be up", Single, &[(VCPUS.field(0, LATCH), 0xffff_ffff)]),
    ("§1.8 a shared bank is any three words", Single, &[(BANKS.field(0, 0), u64::MAX), (BANKS.field(0, 2), 0x1234)]),
    ("§1.7 a VCPU behind the last", Single, &[(VCPUS.field(2, AFFINITY), 0), (VCPUS.field(2, LEVEL), 1)]),
    ("§1.7 a region behind the last", Single, &[(REGIONS.field(0, 0), 1), (REGIONS.field(31, 1), u64::MAX)]),
    ("§1.7 a bank behind the last", Single, &[(BANKS.field(7, 0), u64::MAX), (BANKS.field(30, 2), u64::MAX)]),
    ("§1.7, §1.17 a bank behind the last of 256 never set", FormerMapped, &[(BANKS.field(7, 0), u64::MAX)]),
    ("§1.17 256 that were set count as never set", Wide, &[(IRQS_SET, 0)]),
    ("§1.17 256 that were set count as never set after INIT", Regions, &[(IRQS_SET, 0)]),
    ("§1.17 256 that were never set count as set", FormerEarly, &[(IRQS_SET, 1)]),
    ("§1.17 256 that were never set count as set after INIT", FormerMapped, &[(IRQS_SET, 1)]),
    ("§1.11 the INIT mark alone is put back", Single, &[(INIT, 0)]),
    ("§1.13 both tables are put back", Placed, &TABLES_GONE),
];

const TABLES_GONE: [Put; 6] = [
    (DEVICE_TABLE.mark, 0),
    (DEVICE_TABLE.start, 0),
    (DEVICE_TABLE.pages, 0),
    (COLLECTION_TABLE.mark, 0),
    (COLLECTION_TABLE.start, 0),
    (COLLECTION_TABLE.pages, 0),
];
