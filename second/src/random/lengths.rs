//! §1.3, §1.4: a state of the wrong length is -14 from every call, set-up too, and no byte changes.

use super::calls;
use super::pair::Pair;
use crate::call::Call;
use crate::sides::{Library, Side};
use crate::trace;

pub fn wrong_length(pair: &mut Pair) {
    let right = Library::len();
    let length = match pair.rng.below(6) {
        0 => 0,
        1 => right - 1,
        2 => right + 1,
        3 => right / 2,
        4 => pair.rng.below(right as u64) as usize,
        _ => right + 1 + pair.rng.below(right as u64) as usize,
    };
    all_refused(pair, length);
}

/// The lengths next to the right one, and far from it.
pub fn every_length(pair: &mut Pair) {
    let right = Library::len();
    for length in [0, 1, right / 2, right - 8, right - 1, right + 1, right + 8, 2 * right] {
        all_refused(pair, length);
    }
}

fn all_refused(pair: &mut Pair, length: usize) {
    let mut list = calls::each_kind(pair);
    list.push((calls::good_setup(pair), vec![]));
    list.push((calls::odd_setup(pair), vec![]));
    for (call, lent) in list {
        if let Err(note) = refused(pair, length, &call, lent) {
            pair.differ(&format!("on a state of {length} bytes, {call:x?}: {note}"));
            return;
        }
    }
}

fn refused(pair: &Pair, length: usize, call: &Call, mut lent: Vec<u8>) -> Result<(), String> {
    let mut bytes = pair.library.state.content().to_vec();
    bytes.resize(length, 0x33);
    let mut library = Library::new(&bytes);
    let mut complaints = Vec::new();
    trace::asked(&bytes, call, &lent);
    trace::expected(-14, &lent, &bytes);
    let answer = library.call(call, &mut lent, &mut complaints);
    if answer != -14 {
        return Err(format!("answered {answer}, a wrong length is -14"));
    }
    complaints.into_iter().next().map_or(Ok(()), Err)
}
