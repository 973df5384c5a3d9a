//! A guest that the model takes over from its bytes: the state may be one that no sequence of calls has reached, and all calls
//! on it are compared as on any other.

#[cfg(feature = "its")]
use super::pair::compare;
use super::pair::Pair;
use super::{calls, observe};
use crate::call::Call;
use crate::model::Guest;

/// Some calls of every kind, after each of which the bytes must hold the model's guest. Hands back how many.
pub fn go_on(seed: u64, guest: Guest, bytes: &[u8]) -> Result<u64, String> {
    let mut pair = Pair::taken(seed, guest, bytes);
    for _ in 0..12 {
        let (call, lent) = any(&mut pair);
        pair.make(call, lent);
    }
    if pair.rng.one_in(4) {
        observe::look(&mut pair, false);
        #[cfg(feature = "restore")]
        save_and_restore(&mut pair);
    }
    ended(pair)
}

/// §10.8: a guest that is saved and restored has the mapping that it had.
#[cfg(feature = "restore")]
fn save_and_restore(pair: &mut Pair) {
    let length = super::its::memory_length(pair);
    if length > 1 << 20 {
        return;
    }
    pair.make(Call::Stop, vec![]);
    let before = pair.guest().clone();
    let Some((0, memory)) = pair.make(Call::Save, vec![0; length as usize]) else { return };
    pair.make(Call::Restore, memory);
    if *pair.guest() != before {
        pair.differ("save and restore left another guest");
    }
}

fn any(pair: &mut Pair) -> (Call, Vec<u8>) {
    #[cfg(feature = "its")]
    if pair.guest().its.initialised && pair.rng.one_in(2) {
        return (super::its::any(pair), vec![]);
    }
    calls::any(pair)
}

/// Each kind of call once, each on a copy, and then all that a sequence would come back to is asked.
#[cfg(feature = "its")]
pub fn each_kind(seed: u64, guest: Guest, bytes: &[u8]) -> Result<u64, String> {
    let mut pair = Pair::taken(seed, guest, bytes);
    for (call, lent) in calls::each_kind(&mut pair) {
        pair.step += 1;
        compare(&mut pair.model.clone(), &mut pair.library.clone(), &call, lent)?;
    }
    observe::look(&mut pair, false);
    ended(pair)
}

fn ended(pair: Pair) -> Result<u64, String> {
    match pair.difference {
        None => Ok(pair.step),
        Some(note) => Err(format!("at call {} after the model took over: {note}", pair.step)),
    }
}
