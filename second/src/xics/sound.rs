//! The judge: whether bytes of the right length are a sound XICS (§14.12), clause by clause as in `LAYOUT.md`. It reads
//! words, not the model's fields, and no clause leans on another, so that bytes can break just one.

use super::layout::{Row, SERVERS, SOURCES};

/// The numbers in the bytes as they stand there.
pub struct Raw {
    servers_said: u64,
    sources_said: u64,
    servers: Vec<Row>,
    sources: Vec<Row>,
}

impl Raw {
    fn read(bytes: &[u8]) -> Raw {
        Raw {
            servers_said: SERVERS.said(bytes),
            sources_said: SOURCES.said(bytes),
            servers: SERVERS.rows(bytes),
            sources: SOURCES.rows(bytes),
        }
    }
}

/// A short name, and whether the numbers keep the rule.
pub type Clause = (&'static str, fn(&Raw) -> bool);

pub const CLAUSES: &[Clause] = &[
    ("servers most", |x| x.servers_said <= 64),
    ("sources most", |x| x.sources_said <= 64),
    // §14.12: below the bounds of §14.1.
    ("server number", |x| x.servers.iter().all(|row| row.0 <= 0xffff_ffff)),
    ("source number", |x| x.sources.iter().all(|row| row.0 <= 0xf_ffff)),
    ("server twice", |x| distinct(&x.servers)),
    ("source twice", |x| distinct(&x.sources)),
    // §14.12: a word that §14.9 takes.
    ("source bits", |x| x.sources.iter().all(|row| row.1 <= 0x7ff_ffff_ffff)),
    ("source destination", |x| x.sources.iter().all(|row| stands(&x.servers, row.1 & 0xffff_ffff))),
    // §14.12: a word that §14.10 takes, with bits 15:0 being 0.
    ("server without a source", |x| x.servers.iter().all(|row| of_source(row) != 0 || of_priority(row) == 255)),
    ("server with a source", |x| x.servers.iter().all(|row| of_priority(row) != 255 || of_source(row) == 0)),
    ("server low bits", |x| x.servers.iter().all(|row| row.1 & 0xffff == 0)),
];

/// §14.12: no number occurs twice.
fn distinct(rows: &[Row]) -> bool {
    let taken = |n: usize| rows[..n].iter().any(|before| before.0 == rows[n].0);
    !(0..rows.len()).any(taken)
}

/// §14.9: whether the server is registered.
fn stands(servers: &[Row], number: u64) -> bool {
    servers.iter().any(|row| row.0 == number)
}

/// §14.6: the source number in a server's word.
fn of_source(row: &Row) -> u64 {
    row.1 >> 32 & 0xff_ffff
}

/// §14.6: the pending priority in a server's word.
fn of_priority(row: &Row) -> u64 {
    row.1 >> 16 & 0xff
}

/// Every clause that the bytes break, by its place in the list.
pub fn broken(bytes: &[u8]) -> Vec<usize> {
    let raw = Raw::read(bytes);
    (0..CLAUSES.len()).filter(|n| !CLAUSES[*n].1(&raw)).collect()
}
