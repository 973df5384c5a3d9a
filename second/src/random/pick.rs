//! Numbers that are likely to meet an edge.

use super::pair::Pair;

const K64: u64 = 0x1_0000;
const K128: u64 = 0x2_0000;

/// Numbers that break code which looks at too few or too many bits.
pub fn strange(pair: &mut Pair) -> u64 {
    let rng = &mut pair.rng;
    let power = 1u64 << rng.below(64);
    match rng.below(6) {
        0 => power,
        1 => power - 1,
        2 => power + rng.below(4),
        3 => u64::MAX - rng.below(3),
        4 => (1 << 32) + rng.below(8),
        _ => rng.next(),
    }
}

/// A good number most times; else one that looks alike in its low bits, or a strange one.
pub fn mostly(pair: &mut Pair, good: u64, odds: u64) -> u64 {
    if !pair.rng.one_in(odds) {
        return good;
    }
    match pair.rng.below(3) {
        0 => good ^ 1 << pair.rng.below(64),
        1 => good.wrapping_add(pair.rng.below(3)).wrapping_sub(1),
        _ => strange(pair),
    }
}

/// A VCPU number: the focus of the sequence, the last one, the one after it, any, or a bad one.
pub fn vcpu(pair: &mut Pair) -> u64 {
    let count = pair.guest().vcpus.len() as u64;
    match pair.rng.below(24) {
        0 => count,
        1 => pair.rng.below(70),
        2 => {
            let good = pair.rng.below(count);
            mostly(pair, good, 1)
        }
        3..=5 => count.saturating_sub(1),
        6..=8 => pair.rng.below(count),
        _ => {
            let focus = pair.vcpus.clone();
            pair.rng.pick(&focus)
        }
    }
}

/// An INTID: the focus of the sequence, near a border, any, or a bad one.
pub fn intid(pair: &mut Pair) -> u64 {
    let count = pair.guest().count as u64;
    match pair.rng.below(24) {
        0 => pair.rng.pick(&[0, 15, 16, 31, 32, 33, 63, 64, 255, 256, 991, 992, 1019, 1020, 1021, 1023, 1024, 1025]),
        1 => (count + pair.rng.below(4)).saturating_sub(2),
        2 => count + pair.rng.below(64),
        3 => {
            let good = pair.rng.below(1024);
            mostly(pair, good, 1)
        }
        4 => pair.rng.below(1024),
        5 => pair.rng.below(32),
        6 => 32 + pair.rng.below(count - 32),
        _ => {
            let focus = pair.intids.clone();
            pair.rng.pick(&focus)
        }
    }
}

/// An affinity: one that stands, one next to it, or any.
pub fn affinity(pair: &mut Pair) -> u32 {
    let standing: Vec<u32> = pair.guest().vcpus.iter().map(|vcpu| vcpu.affinity).collect();
    let rng = &mut pair.rng;
    if standing.is_empty() {
        return rng.pick(&[0, 1, 0x100, u32::MAX]);
    }
    match rng.below(12) {
        0 => rng.pick(&standing) ^ 1 << rng.below(32),
        1 => rng.word(),
        _ => rng.pick(&standing),
    }
}

/// A base for a frame of `size` bytes: near the top of the space, near a standing frame (before, after, one step off),
/// anywhere, or no multiple of 65,536.
pub fn base(pair: &mut Pair, size: u64) -> u64 {
    let top = 1u64 << pair.guest().width;
    let near = near_frame(pair, size);
    let rng = &mut pair.rng;
    let off = rng.pick(&[0, 0, 0, K64, K64.wrapping_neg(), K128, K128.wrapping_neg()]);
    let good = match rng.below(12) {
        0..=2 => top.wrapping_sub(size).wrapping_add(off),
        3..=7 => near.wrapping_add(off),
        8 => rng.below(8) * K64,
        _ => rng.below(top / K64) * K64,
    };
    match rng.below(25) {
        0 => good.wrapping_add(rng.pick(&[1, 0x1000, 0x8000, 0xffff, 8])),
        1 => rng.pick(&[top, top + K64, 1 << 63, 0u64.wrapping_sub(K64), 0u64.wrapping_sub(K128), good | 1 << 60]),
        _ => good,
    }
}

/// Just before or just after a standing frame, or on it. The single run is taken as it is and as whole.
fn near_frame(pair: &mut Pair, size: u64) -> u64 {
    let guest = pair.guest();
    let mut edges: Vec<u64> = Vec::new();
    for area in guest.standing() {
        edges.extend([(area.start as u64).wrapping_sub(size), area.end as u64, area.start as u64]);
    }
    if let Some(single) = guest.frames.single {
        let whole = single + guest.vcpus.len() as u64 * K128;
        edges.extend([whole, whole.wrapping_sub(K128), whole]);
    }
    if edges.is_empty() {
        return pair.rng.below(1 << 20) * K64;
    }
    pair.rng.pick(&edges)
}

/// A base where a frame of `size` bytes meets no fault, if one is found near the others or anywhere.
pub fn free_base(pair: &mut Pair, size: u64) -> Option<u64> {
    let top = pair.guest().top();
    for _ in 0..40 {
        let start = base(pair, size);
        let area = crate::model::guest::Area::new(start, size as u128);
        let free =
            start % K64 == 0 && area.end <= top && !pair.guest().standing().iter().any(|other| other.overlaps(&area));
        if free {
            return Some(start);
        }
    }
    None
}

/// Bytes of a value: the right width most times.
pub fn value(pair: &mut Pair, width: usize, number: u64) -> Vec<u8> {
    let rng = &mut pair.rng;
    let width = if rng.one_in(16) { rng.pick(&[0, 1, 3, 4, 5, 7, 8, 9, 16]) } else { width };
    let mut bytes = number.to_le_bytes().to_vec();
    bytes.resize(width.max(8), 0);
    for byte in &mut bytes[8..] {
        *byte = rng.next() as u8;
    }
    bytes.truncate(width);
    bytes
}

/// A word with few, many, some or all bits.
pub fn word(pair: &mut Pair) -> u32 {
    let rng = &mut pair.rng;
    match rng.below(6) {
        0 => 0,
        1 => u32::MAX,
        2 => 1 << rng.below(32),
        3 => 0xffff << rng.below(17),
        _ => rng.word(),
    }
}
