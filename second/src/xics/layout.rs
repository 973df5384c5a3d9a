//! The bytes of an XICS (§14.2), as `LAYOUT.md` tells: where each number lies, and the model's XICS out of bytes and into
//! them.

use super::model::{Server, Source, Xics, MOST};

/// §14.2.
pub const LENGTH: usize = 2_064;

/// A table: where the number of its rows lies, and its first row.
#[derive(Clone, Copy)]
pub struct Table {
    pub count: usize,
    pub from: usize,
}

pub const SERVERS: Table = Table { count: 0, from: 16 };
pub const SOURCES: Table = Table { count: 8, from: 1_040 };

/// The number and the word of a row.
pub type Row = (u64, u64);

/// 8 bytes, little endian.
pub fn get(bytes: &[u8], at: usize) -> u64 {
    (0..8).rev().fold(0, |number, n| number << 8 | bytes[at + n] as u64)
}

pub fn put(bytes: &mut [u8], at: usize, number: u64) {
    (0..8).for_each(|n| bytes[at + n] = (number >> (8 * n)) as u8);
}

impl Table {
    /// Where a row's number lies.
    pub fn number(self, row: usize) -> usize {
        self.from + 16 * row
    }

    /// Where a row's word lies.
    pub fn word(self, row: usize) -> usize {
        self.from + 16 * row + 8
    }

    /// How many rows are said to stand.
    pub fn said(self, bytes: &[u8]) -> u64 {
        get(bytes, self.count)
    }

    /// How many rows stand: not more than there is room for.
    pub fn used(self, bytes: &[u8]) -> usize {
        self.said(bytes).min(MOST as u64) as usize
    }

    /// The rows that stand; nothing behind them is read.
    pub fn rows(self, bytes: &[u8]) -> Vec<Row> {
        (0..self.used(bytes)).map(|row| (get(bytes, self.number(row)), get(bytes, self.word(row)))).collect()
    }

    /// Writes the rows and their number, and nothing behind them.
    fn write(self, bytes: &mut [u8], rows: impl Iterator<Item = Row>) {
        let mut count = 0;
        for (number, word) in rows {
            put(bytes, self.number(count), number);
            put(bytes, self.word(count), word);
            count += 1;
        }
        put(bytes, self.count, count as u64);
    }
}

/// The XICS that sound bytes hold.
pub fn decode(bytes: &[u8]) -> Xics {
    Xics {
        servers: SERVERS.rows(bytes).into_iter().map(|(number, word)| (number, Server::of(word))).collect(),
        sources: SOURCES.rows(bytes).into_iter().map(|(number, word)| (number, Source::of(word))).collect(),
    }
}

/// Writes the XICS over what the bytes were.
pub fn encode(xics: &Xics, bytes: &mut [u8]) {
    SERVERS.write(bytes, xics.servers.iter().map(|row| (row.0, row.1.word())));
    SOURCES.write(bytes, xics.sources.iter().map(|row| (row.0, row.1.word())));
}
