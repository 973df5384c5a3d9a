//! Numbers and words at random, weighted so that calls meet each other and the bounds of part 14.

use super::life::Life;
use super::Call;
use crate::rng::Rng;

/// Servers' numbers that a sequence comes back to: next to the bounds, small ones, and any.
pub fn servers(rng: &mut Rng) -> Vec<u64> {
    let mut pool = vec![0, 1, 0xffff_ffff, 0xffff_fffe, 0xf_ffff, 0x10_0000];
    pool.extend((0..40).map(|_| rng.below(100)));
    pool.extend((0..50).map(|_| rng.word() as u64));
    rng.shuffle(&mut pool);
    pool
}

/// Sources' numbers likewise.
pub fn sources(rng: &mut Rng) -> Vec<u64> {
    let mut pool = vec![0, 1, 2, 0xf_ffff, 0xf_fffe];
    pool.extend((0..40).map(|_| rng.below(100)));
    pool.extend((0..50).map(|_| rng.below(1 << 20)));
    rng.shuffle(&mut pool);
    pool
}

/// A registered server's number, where there is one.
fn registered_server(life: &mut Life) -> u64 {
    let numbers: Vec<u64> = life.xics().servers.iter().map(|row| row.0).collect();
    if numbers.is_empty() {
        return life.rng.below(3);
    }
    life.rng.pick(&numbers)
}

fn registered_source(life: &mut Life) -> u64 {
    let numbers: Vec<u64> = life.xics().sources.iter().map(|row| row.0).collect();
    if numbers.is_empty() {
        return life.rng.below(3);
    }
    life.rng.pick(&numbers)
}

/// Mostly registered; else from the pool, past a bound, a registered one with a bit above the bound, or a source's number.
pub fn server(life: &mut Life) -> u64 {
    let own = registered_server(life);
    match life.rng.below(20) {
        0..=13 => own,
        14..=15 => life.rng.pick(&life.servers),
        16 => registered_source(life),
        17 => own | 1 << life.rng.between(32, 63),
        18 => life.rng.pick(&[0xffff_ffff, 1 << 32, (1 << 32) + 1, 1 << 63, u64::MAX]),
        _ => own ^ 1 << life.rng.below(32),
    }
}

pub fn source(life: &mut Life) -> u64 {
    let own = registered_source(life);
    match life.rng.below(20) {
        0..=13 => own,
        14..=15 => life.rng.pick(&life.sources),
        16 => registered_server(life),
        17 => own | 1 << life.rng.between(20, 63),
        18 => life.rng.pick(&[0xf_ffff, 1 << 20, (1 << 20) + 1, 1 << 32, u64::MAX]),
        _ => own ^ 1 << life.rng.below(20),
    }
}

/// Mostly a number of the pool that is not registered yet, so that the tables fill up.
fn unused(rng: &mut Rng, pool: &[u64], used: &[u64]) -> u64 {
    let free: Vec<u64> = pool.iter().copied().filter(|number| !used.contains(number)).collect();
    if free.is_empty() || rng.one_in(5) {
        return rng.pick(pool);
    }
    rng.pick(&free)
}

pub fn new_server(life: &mut Life) -> Call {
    if life.rng.one_in(6) {
        return Call::AddServer { server: server(life) };
    }
    let used: Vec<u64> = life.xics().servers.iter().map(|row| row.0).collect();
    Call::AddServer { server: unused(&mut life.rng, &life.servers, &used) }
}

pub fn new_source(life: &mut Life) -> Call {
    let server = if life.rng.one_in(6) { server(life) } else { registered_server(life) };
    if life.rng.one_in(6) {
        return Call::AddSource { source: source(life), server };
    }
    let used: Vec<u64> = life.xics().sources.iter().map(|row| row.0).collect();
    Call::AddSource { source: unused(&mut life.rng, &life.sources, &used), server }
}

/// A value for a get.
pub fn preset(life: &mut Life) -> Vec<u8> {
    let mut value = vec![0; width(&mut life.rng)];
    life.rng.fill(&mut value);
    value
}

/// Mostly the right width.
fn width(rng: &mut Rng) -> usize {
    match rng.below(14) {
        0 => rng.pick(&[0, 1, 4, 7, 9, 12, 16]),
        _ => 8,
    }
}

/// The word as 8 bytes, or cut or filled to another width.
fn lent(rng: &mut Rng, word: u64) -> Vec<u8> {
    let mut value = word.to_le_bytes().to_vec();
    value.resize(width(rng), 0x33);
    value
}

pub fn set_source(life: &mut Life) -> (Call, Vec<u8>) {
    let (source, word) = (source(life), source_word(life));
    (Call::SetSource { source }, lent(&mut life.rng, word))
}

/// Half of the time a server that a source goes to now, so that its current priority meets the source's.
pub fn set_server(life: &mut Life) -> (Call, Vec<u8>) {
    let named = registered_source(life);
    let aimed = life.xics().source(named).map(|source| source.destination as u64);
    let server = aimed.filter(|_| life.rng.one_in(2)).unwrap_or_else(|| server(life));
    let word = server_word(life);
    (Call::SetServer { server }, lent(&mut life.rng, word))
}

/// Near another priority, at an end, or any.
fn priority(rng: &mut Rng, near: u8) -> u64 {
    let number = match rng.below(8) {
        0 => near.wrapping_sub(1),
        1..=2 => near,
        3 => near.wrapping_add(1),
        4 => 0,
        5 => rng.pick(&[254, 255]),
        _ => rng.next() as u8,
    };
    number as u64
}

/// §14.5: the destination is mostly a server's, the priority near that server's current one, and often nothing but the
/// priority stands against delivery.
fn source_word(life: &mut Life) -> u64 {
    let destination = match life.rng.below(12) {
        0..=9 => registered_server(life),
        _ => server(life),
    } & 0xffff_ffff;
    let current = life.xics().server(destination).map_or(0, |server| server.current);
    let rng = &mut life.rng;
    let marks = if rng.one_in(2) { 4 + rng.below(2) } else { rng.below(8) };
    let above = match rng.below(24) {
        0 => 1 << rng.between(43, 63),
        1 => rng.next() >> 43 << 43,
        _ => 0,
    };
    above | marks << 40 | priority(rng, current) << 32 | destination
}

/// §14.6: mostly a word that keeps the rule of §14.10, with any bits 15:0.
fn server_word(life: &mut Life) -> u64 {
    let named = registered_source(life);
    let near = life.xics().source(named).map_or(0, |source| source.priority);
    let rng = &mut life.rng;
    let some = match rng.below(5) {
        0 => rng.pick(&[1, 2, 0xf_ffff, 0x10_0000, 0x80_0000, 0xff_ffff]),
        1 => rng.between(1, 0xff_ffff),
        _ => named.clamp(1, 0xff_ffff),
    };
    let less = if rng.one_in(3) { rng.pick(&[0, 1, 254]) } else { rng.below(255) };
    let (source, pending) = match rng.below(12) {
        0..=4 => (0, 255),
        5..=9 => (some, less),
        10 => (0, less),
        _ => (some, 255),
    };
    let low = if rng.one_in(2) { 0 } else { rng.pick(&[1, 0x8000, 0xffff, 0x1234]) };
    let ipi = priority(rng, 255);
    priority(rng, near) << 56 | source << 32 | ipi << 24 | pending << 16 | low
}
