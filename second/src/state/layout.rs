//! Where each number lies in a state's bytes (§1.7), as `LAYOUT.md` tells.

/// A number in the state, little endian: where it begins and how many bytes it has.
#[derive(Clone, Copy, PartialEq, Eq, Debug)]
pub struct Field {
    pub at: usize,
    pub size: usize,
}

impl Field {
    pub fn get(self, bytes: &[u8]) -> u64 {
        bytes[self.at..self.at + self.size].iter().rev().fold(0, |number, byte| number << 8 | *byte as u64)
    }

    /// Writes the low bytes of the number, as many as there is room for.
    pub fn put(self, bytes: &mut [u8], number: u64) {
        bytes[self.at..self.at + self.size].copy_from_slice(&number.to_le_bytes()[..self.size]);
    }
}

const fn word(at: usize) -> Field {
    Field { at, size: 8 }
}

/// §1.2: the length of a state.
pub const LENGTH: usize = 11_400;

pub const WIDTH: Field = word(0);
pub const START: Field = word(8);
pub const MEMORY: Field = word(16);
pub const INIT: Field = word(24);
pub const RUNNING: Field = word(32);
pub const IRQS: Field = word(40);
pub const IRQS_SET: Field = word(48);
pub const STATUS: Field = word(56);
pub const ITS_INIT: Field = word(64);

/// A mark and the numbers that count only where it is set.
#[derive(Clone, Copy)]
pub struct Marked {
    pub mark: Field,
    pub start: Field,
    /// Tables have a number of pages, frames have not.
    pub pages: Field,
}

const fn marked(at: usize) -> Marked {
    Marked { mark: word(at), start: word(at + 8), pages: word(at + 16) }
}

pub const DISTRIBUTOR: Marked = marked(72);
pub const SINGLE: Marked = marked(88);
pub const ITS: Marked = marked(104);
pub const DEVICE_TABLE: Marked = marked(120);
pub const COLLECTION_TABLE: Marked = marked(144);

/// The words before the first list.
pub const WORDS: usize = 23;

/// Rows of one shape after each other. `sizes` are the bytes of the numbers in a row.
pub struct List {
    pub count: Field,
    pub at: usize,
    pub room: usize,
    pub sizes: &'static [usize],
}

impl List {
    pub const fn row_size(&self) -> usize {
        self.offset(self.sizes.len())
    }

    const fn offset(&self, column: usize) -> usize {
        let (mut sum, mut n) = (0, 0);
        while n < column {
            sum += self.sizes[n];
            n += 1;
        }
        sum
    }

    pub const fn field(&self, row: usize, column: usize) -> Field {
        Field { at: self.at + row * self.row_size() + self.offset(column), size: self.sizes[column] }
    }

    pub fn number(&self, bytes: &[u8], row: usize, column: usize) -> u64 {
        self.field(row, column).get(bytes)
    }

    /// The rows in use, as far as there is room for them. How many banks there are the interrupt count tells (§4.2).
    pub fn rows(&self, bytes: &[u8]) -> usize {
        let count = self.count.get(bytes);
        let count = if self.count == IRQS { (count / 32).saturating_sub(1) } else { count };
        count.min(self.room as u64) as usize
    }
}

pub const REGIONS: List = List { count: word(168), at: 184, room: 32, sizes: &[8, 8] };
pub const VCPUS: List = List { count: word(176), at: 696, room: 64, sizes: &[4, 4, 4, 4, 4] };
pub const BANKS: List = List { count: IRQS, at: 1976, room: 31, sizes: &[4, 4, 4] };
pub const DEVICES: List = List { count: word(2352), at: 2376, room: 32, sizes: &[8, 8, 8] };
pub const COLLECTIONS: List = List { count: word(2360), at: 3144, room: 16, sizes: &[2, 2] };
pub const EVENTS: List = List { count: word(2368), at: 3208, room: 1024, sizes: &[2, 2, 2, 2] };

/// Four bytes behind the banks: no part of the state either (§1.7).
const GAP: std::ops::Range<usize> = 2348..2352;

pub const LISTS: [&List; 6] = [&REGIONS, &VCPUS, &BANKS, &DEVICES, &COLLECTIONS, &EVENTS];

/// §1.7: whether the bytes behind the last rows are what they were before the call. What set-up finds is no state
/// (§1.4), so that only the rows which it leaves count.
pub fn idle_stand(before: &[u8], after: &[u8], set_up: bool) -> bool {
    let stand = |list: &List| {
        let used = list.rows(after).max(if set_up { 0 } else { list.rows(before) });
        let idle = list.at + used * list.row_size()..list.at + list.room * list.row_size();
        before[idle.clone()] == after[idle]
    };
    LISTS.into_iter().all(stand) && before[GAP] == after[GAP]
}
