//! Damaged states. The judge (`state/sound.rs`) says by the layout alone whether the bytes are sound. Where they are
//! not, every call but set-up is -22 (§1.3); where they are, the model takes the guest over and goes on beside the
//! library.

use super::pair::Pair;
use super::{calls, spoil, taken};
use crate::call::{Call, Device};
use crate::model::Model;
use crate::sides::{Library, Side};
use crate::state::sound::{first_broken, CLAUSES};
use crate::state::{decode, layout};
use crate::trace;

/// What came of the damaged states, and how many calls were compared on them.
pub struct Tally {
    pub sound: u64,
    /// Not sound, by the first clause that is broken.
    pub first: [u64; CLAUSES.len()],
    /// States on which every kind of call was refused.
    pub refused: u64,
    /// States that the model took over.
    pub taken: u64,
    pub calls: u64,
}

impl Default for Tally {
    fn default() -> Tally {
        Tally { sound: 0, first: [0; CLAUSES.len()], refused: 0, taken: 0, calls: 0 }
    }
}

impl Tally {
    pub fn unsound(&self) -> u64 {
        self.first.iter().sum()
    }

    pub fn add(&mut self, other: &Tally) {
        self.sound += other.sound;
        self.refused += other.refused;
        self.taken += other.taken;
        self.calls += other.calls;
        for (n, count) in other.first.iter().enumerate() {
            self.first[n] += count;
        }
    }

    pub fn tell(&self) {
        let (sound, unsound) = (self.sound, self.unsound());
        println!(
            "damage: {} states judged, {sound} sound and {unsound} not; {} taken over, {} refused by every call",
            sound + unsound,
            self.taken,
            self.refused
        );
        let told: Vec<String> = CLAUSES.iter().zip(self.first).map(|(clause, n)| format!("{} {n}", clause.0)).collect();
        println!("damage: first broken: {}", told.join(", "));
    }
}

/// States judged at a time; of each verdict the first few are gone into.
const AT_A_TIME: u64 = 24;
const GONE_INTO: u64 = 2;

pub fn damaged(pair: &mut Pair) {
    let mut left = [GONE_INTO; 2];
    for _ in 0..AT_A_TIME {
        if !pair.stands() {
            return;
        }
        let mut bytes = pair.library.state.content().to_vec();
        let what = spoil::spoil(&mut pair.rng, &mut bytes);
        if let Err(note) = check(pair, &bytes, &mut left) {
            pair.differ(&format!("on a copy of the state with {what}: {note}"));
        }
    }
}

/// Whole states of one byte over and over.
pub fn plain_junk(pair: &mut Pair) {
    for byte in [0xff, 0, 1, 0x80, 0x55] {
        let bytes = vec![byte; Library::len()];
        if let Err(note) = check(pair, &bytes, &mut [1, 1]) {
            pair.differ(&format!("on a state of bytes {byte}: {note}"));
        }
    }
}

/// Judges the bytes and compares that with what the library says of them.
fn check(pair: &mut Pair, bytes: &[u8], left: &mut [u64; 2]) -> Result<(), String> {
    let first = first_broken(bytes);
    agree(bytes, first)?;
    let enough = &mut left[first.is_some() as usize];
    let more = *enough > 0;
    *enough = enough.saturating_sub(1);
    match first {
        None => pair.tally.sound += 1,
        Some(clause) => pair.tally.first[clause] += 1,
    }
    match (first, more) {
        (_, false) => Ok(()),
        (None, true) => {
            pair.tally.taken += 1;
            let guest = decode::take_over(bytes).expect("judged to be sound");
            pair.tally.calls += taken::go_on(pair.rng.next(), guest, bytes)?;
            Ok(())
        }
        (Some(_), true) => {
            pair.tally.refused += 1;
            pair.tally.calls += all_refused(pair, bytes)?;
            Ok(())
        }
    }
}

/// The library says the same of the bytes. A get of group 3 is asked (§3.15): it has no -22 of its own.
pub fn agree(bytes: &[u8], first: Option<usize>) -> Result<(), String> {
    let call = Call::Get { device: Device::Vgic, group: 3, attribute: 0 };
    let (mut lent, mut complaints) = (vec![0x77; 4], Vec::new());
    trace::asked(bytes, &call, &lent);
    let (verdict, want, after) = match first {
        None => ("no rule is broken".into(), 0, (layout::IRQS.get(bytes) as u32).to_le_bytes().to_vec()),
        Some(clause) => (format!("\"{}\" is broken", CLAUSES[clause].0), -22, lent.clone()),
    };
    trace::expected(want, &after, bytes);
    let answer = Library::new(bytes).call(&call, &mut lent, &mut complaints);
    if answer != want || lent != after {
        return Err(format!("{verdict}, and a get of group 3 answers {answer} with {lent:x?}"));
    }
    complaints.into_iter().next().map_or(Ok(()), Err)
}

/// §1.3: every kind of call is -22, one with an unknown name too.
pub fn all_refused(pair: &mut Pair, bytes: &[u8]) -> Result<u64, String> {
    let mut list = calls::each_kind(pair);
    pair.rng.shuffle(&mut list);
    let made = list.len() as u64 + 1;
    for (call, mut lent) in list {
        let mut library = Library::new(bytes);
        let mut complaints = Vec::new();
        trace::asked(bytes, &call, &lent);
        trace::expected(-22, &lent, bytes);
        let answer = library.call(&call, &mut lent, &mut complaints);
        if answer != -22 {
            return Err(format!("the state breaks a rule, but {call:x?} answers {answer}"));
        }
        if let Some(complaint) = complaints.first() {
            return Err(format!("{call:x?}: {complaint}"));
        }
    }
    set_up_heals(pair, bytes)?;
    Ok(made)
}

/// §1.4: set-up makes a fresh guest out of any bytes.
fn set_up_heals(pair: &mut Pair, bytes: &[u8]) -> Result<(), String> {
    let mut both = (Model::default(), Library::new(bytes));
    let setup = calls::good_setup(pair);
    let answer = super::compare(&mut both.0, &mut both.1, &setup, vec![])?.0;
    match answer {
        0 => Ok(()),
        _ => Err(format!("the state breaks a rule, and {setup:x?} answers {answer}")),
    }
}
