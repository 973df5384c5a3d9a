//! The bytes of a guest with 256 interrupts that were never set (§1.17). No call makes them, so they are written here.

use super::layout::{BANKS, IRQS, IRQS_SET};
use crate::model::guest::FORMER_COUNT;

/// Puts back the mark and writes the count of 256. The shared banks that stand stay as they are, and those that come with
/// the count are fresh (§4.3): a sound state stays one (§1.8), before INIT too (§1.16).
pub fn make(bytes: &mut [u8]) {
    let standing = BANKS.rows(bytes);
    IRQS.put(bytes, FORMER_COUNT as u64);
    IRQS_SET.put(bytes, 0);
    for row in standing..BANKS.rows(bytes) {
        (0..BANKS.sizes.len()).for_each(|column| BANKS.field(row, column).put(bytes, 0));
    }
}
