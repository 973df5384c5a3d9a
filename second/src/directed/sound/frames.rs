//! §1.10, §1.11: bases, regions, no two over each other, and what INIT found.

use super::bases::{Base, DISTRIBUTOR as DIST, FIRST, ITS as FRAME, SECOND, SINGLE as RUN, TOP};
use super::{Put, Row};
use crate::state::layout::{DISTRIBUTOR, INIT, ITS, ITS_INIT, REGIONS, SINGLE, VCPUS};
use Base::{Early, Fresh, Full, Regions, Single};

const K64: u64 = 0x1_0000;
const K128: u64 = 0x2_0000;
/// The last 64 KiB below 2^64: in 64 bits a sum would wrap (§2.10).
const LAST: u64 = 0u64.wrapping_sub(K64);

const fn base(row: usize, number: u64) -> Put {
    (REGIONS.field(row, 0), number)
}

const fn count(row: usize, number: u64) -> Put {
    (REGIONS.field(row, 1), number)
}

pub const ROWS: &[Row] = &[
    // §1.10: bases.
    Row("base step", Early, &[(DISTRIBUTOR.start, DIST + 0x8000)], &[(DISTRIBUTOR.start, DIST + K64)]),
    Row("base step", Early, &[(SINGLE.start, RUN + 0x1000)], &[(SINGLE.start, RUN + K64)]),
    Row("base step", Single, &[(ITS.start, FRAME + 1)], &[(ITS.start, FRAME + K64)]),
    Row("base end", Early, &[(DISTRIBUTOR.start, TOP)], &[(DISTRIBUTOR.start, TOP - K64)]),
    Row("base end", Early, &[(DISTRIBUTOR.start, LAST)], &[(DISTRIBUTOR.start, 0)]),
    Row("base end", Early, &[(SINGLE.start, TOP - K64)], &[(SINGLE.start, TOP - K128)]),
    Row("base end", Single, &[(SINGLE.start, TOP - 3 * K64)], &[(SINGLE.start, TOP - 2 * K128)]),
    Row("base end", Single, &[(SINGLE.start, LAST)], &[(SINGLE.start, 0)]),
    Row("base end", Single, &[(ITS.start, TOP - K64)], &[(ITS.start, TOP - K128)]),
    Row("base end", Early, &[(ITS.start, LAST)], &[(ITS.start, 0)]),
    // §1.10: bases that are not set.
    Row("base unset", Fresh, &[(DISTRIBUTOR.start, K64)], &[(DISTRIBUTOR.start, K64), (DISTRIBUTOR.mark, 1)]),
    Row("base unset", Fresh, &[(SINGLE.start, K64)], &[(SINGLE.start, K64), (SINGLE.mark, 1)]),
    Row("base unset", Fresh, &[(ITS.start, 1 << 63)], &[(ITS.start, 0)]),
    Row("base unset", Early, &[(ITS.mark, 0)], &[(ITS.mark, 0), (ITS.start, 0)]),
    // §1.9: within §1.6.
    Row("regions most", Full, &[(REGIONS.count, 33)], &[(REGIONS.count, 32)]),
    Row("regions most", Full, &[(REGIONS.count, u64::MAX)], &[(REGIONS.count, 31)]),
    // §1.10: regions.
    Row("region or single", Early, &[(REGIONS.count, 1), base(0, FIRST), count(0, 1)], &INSTEAD),
    Row("region or single", Regions, &[(SINGLE.mark, 1)], &[(SINGLE.mark, 0)]),
    Row("region step", Regions, &[base(0, FIRST + 0x8000)], &[base(0, FIRST + K64)]),
    Row("region step", Full, &[base(31, TOP - 0x10_0000 + 1)], &[base(31, TOP - 0x10_0000)]),
    Row("region least", Regions, &[count(0, 3), count(1, 0)], &[count(0, 2), count(1, 1)]),
    Row("region most", Regions, &[count(1, 4096)], &[count(1, 4095)]),
    Row("region end", Regions, &[base(1, TOP - K64)], &[base(1, TOP - K128)]),
    Row("region end", Regions, &[base(0, TOP - 3 * K64)], &[base(0, TOP - 2 * K128)]),
    Row("region end", Regions, &[base(1, LAST)], &[base(1, 0)]),
    // §1.10, §3.4, §3.6: no two frames over each other.
    Row("frames apart", Early, &[(DISTRIBUTOR.start, RUN + K64)], &[(DISTRIBUTOR.start, RUN + K128)]),
    Row("frames apart", Early, &[(DISTRIBUTOR.start, RUN)], &[(DISTRIBUTOR.start, RUN - K64)]),
    Row("frames apart", Single, &[(DISTRIBUTOR.start, RUN + 3 * K64)], &[(DISTRIBUTOR.start, RUN + 2 * K128)]),
    Row("frames apart", Single, &[(ITS.start, DIST - K64)], &[(ITS.start, DIST - K128)]),
    Row("frames apart", Early, &[(ITS.start, RUN + K64)], &[(ITS.start, RUN + K128)]),
    Row("frames apart", Early, &[(SINGLE.start, FRAME)], &[(SINGLE.start, FRAME + K128)]),
    Row("frames apart", Regions, &[base(1, FIRST + 3 * K64)], &[base(1, FIRST + 2 * K128)]),
    Row("frames apart", Regions, &[base(0, SECOND - 3 * K64)], &[base(0, SECOND - 2 * K128)]),
    Row("frames apart", Regions, &[base(0, DIST)], &[base(0, DIST + K64)]),
    Row("frames apart", Regions, &[base(1, FRAME + K64)], &[base(1, FRAME + K128)]),
    Row("frames apart", Full, &[base(31, FIRST)], &[base(31, FIRST + 3 * K128)]),
    // §1.11.
    Row("INIT VCPU", Single, &[(VCPUS.count, 0)], &[(VCPUS.count, 1)]),
    Row("INIT VCPU", Regions, &[(VCPUS.count, 0)], &[(VCPUS.count, 0), (INIT, 0)]),
    Row("INIT distributor", Single, &NO_DISTRIBUTOR, &[NO_DISTRIBUTOR[0], NO_DISTRIBUTOR[1], (INIT, 0)]),
    Row("INIT places", Regions, &[count(0, 1)], &[count(0, 1), count(1, 2)]),
    Row("INIT places", Regions, &[(REGIONS.count, 0)], &[(REGIONS.count, 0), (INIT, 0)]),
    Row("INIT places", Regions, &[(REGIONS.count, 1)], &[(REGIONS.count, 1), (VCPUS.count, 2)]),
    Row("INIT places", Single, &NO_SINGLE, &[NO_SINGLE[0], NO_SINGLE[1], (INIT, 0)]),
    // §1.9.
    Row("ITS INIT order", Early, &[(ITS_INIT, 1)], &[(ITS_INIT, 1), (INIT, 1)]),
    // §1.13.
    Row("ITS INIT frame", Single, &[(ITS_INIT, 1), (ITS.mark, 0), (ITS.start, 0)], &[(ITS_INIT, 1)]),
];

const INSTEAD: [Put; 5] = [(REGIONS.count, 1), base(0, FIRST), count(0, 1), (SINGLE.mark, 0), (SINGLE.start, 0)];
const NO_DISTRIBUTOR: [Put; 2] = [(DISTRIBUTOR.mark, 0), (DISTRIBUTOR.start, 0)];
const NO_SINGLE: [Put; 2] = [(SINGLE.mark, 0), (SINGLE.start, 0)];
