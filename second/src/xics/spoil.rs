//! Damage: a sound XICS's bytes changed, so that a rule of §14.12 is broken, or nearly.

use super::layout::{get, put, Table, SERVERS, SOURCES};
use crate::rng::Rng;

/// Changes a few things, mostly one, and tells which.
pub fn spoil(rng: &mut Rng, bytes: &mut [u8]) -> String {
    let times = if rng.one_in(6) { rng.between(2, 3) } else { 1 };
    let notes: Vec<String> = (0..times).map(|_| once(rng, bytes)).collect();
    notes.join(", ")
}

fn once(rng: &mut Rng, bytes: &mut [u8]) -> String {
    match rng.below(16) {
        0..=1 => flip(rng, bytes),
        2 => byte(rng, bytes),
        3..=5 => count(rng, bytes),
        6..=9 => number(rng, bytes),
        10..=12 => server_word(rng, bytes),
        _ => source_word(rng, bytes),
    }
}

fn write(bytes: &mut [u8], at: usize, number: u64) -> String {
    let before = get(bytes, at);
    put(bytes, at, number);
    format!("8 bytes at {at} from {before:#x} to {number:#x}")
}

/// A bit anywhere, in rows that stand more often than behind them.
fn flip(rng: &mut Rng, bytes: &mut [u8]) -> String {
    let at = place(rng, bytes);
    let bit = rng.below(8);
    bytes[at] ^= 1 << bit;
    format!("bit {bit} of byte {at} flipped")
}

fn byte(rng: &mut Rng, bytes: &mut [u8]) -> String {
    let at = place(rng, bytes);
    bytes[at] = rng.next() as u8;
    format!("byte {at} as {:#x}", bytes[at])
}

fn place(rng: &mut Rng, bytes: &[u8]) -> usize {
    let table = rng.pick(&[SERVERS, SOURCES]);
    match rng.below(4) {
        0 => rng.below(bytes.len() as u64) as usize,
        _ => table.number(0) + rng.below(16 * table.used(bytes) as u64) as usize,
    }
}

/// The number of rows: one more or less, the limit, one with a bit far above.
fn count(rng: &mut Rng, bytes: &mut [u8]) -> String {
    let table = rng.pick(&[SERVERS, SOURCES]);
    let said = table.said(bytes);
    let new = match rng.below(8) {
        0..=1 => said.saturating_sub(1),
        2 => said + 1,
        3 => rng.pick(&[0, 63, 64, 65]),
        4..=5 => said | 1 << rng.between(6, 63),
        6 => rng.below(said + 1),
        _ => rng.next(),
    };
    write(bytes, table.count, new)
}

/// A row that stands, where there is one.
fn row(rng: &mut Rng, table: Table, bytes: &[u8]) -> usize {
    rng.below(table.used(bytes) as u64) as usize
}

/// The number of a row: another row's, one at a bound, its own with another bit, or any.
fn number(rng: &mut Rng, bytes: &mut [u8]) -> String {
    let table = rng.pick(&[SERVERS, SOURCES]);
    let (one, other) = (row(rng, table, bytes), row(rng, table, bytes));
    let at = table.number(one);
    let new = match rng.below(6) {
        0..=1 => get(bytes, table.number(other)),
        2 => rng.pick(&[0xf_ffff, 1 << 20, 0xffff_ffff, 1 << 32, u64::MAX]),
        3 => get(bytes, at) ^ 1 << rng.below(64),
        4 => rng.below(1 << 20),
        _ => get(bytes, at) | 1 << rng.pick(&[20, 21, 32, 33, 63]),
    };
    write(bytes, at, new)
}

/// A server's word: a bit of the two fields that the rule is about, of the unused ones, of the free ones; both fields.
fn server_word(rng: &mut Rng, bytes: &mut [u8]) -> String {
    let at = SERVERS.word(row(rng, SERVERS, bytes));
    let word = get(bytes, at);
    let new = match rng.below(8) {
        0 => word ^ 1 << rng.between(16, 23),
        1 => word ^ 1 << rng.between(32, 55),
        2 => word ^ 1 << rng.below(16),
        3 => word ^ 1 << rng.between(24, 31),
        4 => word ^ 1 << rng.between(56, 63),
        5 => word & !(0xff_ffff << 32),
        6 => word | 0xff << 16,
        _ => word & !(0xff << 16) | rng.below(255) << 16 | 1 << rng.between(32, 55),
    };
    write(bytes, at, new)
}

/// A source's word: a bit above the fields, one of them, another destination that stands or may not.
fn source_word(rng: &mut Rng, bytes: &mut [u8]) -> String {
    let at = SOURCES.word(row(rng, SOURCES, bytes));
    let word = get(bytes, at);
    let server = get(bytes, SERVERS.number(row(rng, SERVERS, bytes)));
    let above = word & !0xffff_ffff;
    let new = match rng.below(6) {
        0 => word ^ 1 << rng.between(43, 63),
        1..=2 => word ^ 1 << rng.between(32, 42),
        3 => word ^ 1 << rng.below(32),
        4 => above | server & 0xffff_ffff,
        _ => above | rng.below(100),
    };
    write(bytes, at, new)
}
