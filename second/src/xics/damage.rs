//! §14.3: bytes that are damaged or of a wrong length. The judge says by the layout alone whether damaged bytes are sound.
//! Where they are not, every call but set-up is -22; where they are, the model takes the XICS over and goes on beside the
//! library.

use super::each::each_kind;
use super::layout::LENGTH;
use super::life::{any, Life};
use super::sides::{Both, Side};
use super::sound::{broken, CLAUSES};
use super::{spoil, Call};

/// What came of the damaged bytes.
#[derive(Default)]
pub struct Tally {
    pub sound: u64,
    /// Not sound, by the first clause that is broken.
    pub first: [u64; CLAUSES.len()],
    /// Bytes of a wrong length.
    pub lengths: u64,
}

/// At the default budget each clause must have been the first broken one so often.
const FEW: u64 = 10;

impl Tally {
    fn unsound(&self) -> u64 {
        self.first.iter().sum()
    }

    pub fn judged(&self) -> u64 {
        self.sound + self.unsound()
    }

    pub fn add(&mut self, other: &Tally) {
        self.sound += other.sound;
        self.lengths += other.lengths;
        self.first.iter_mut().zip(other.first).for_each(|(ours, theirs)| *ours += theirs);
    }

    pub fn tell(&self) {
        let (sound, unsound) = (self.sound, self.unsound());
        let told: Vec<String> = CLAUSES.iter().zip(self.first).map(|(clause, n)| format!("{} {n}", clause.0)).collect();
        println!("xics damage: {sound} sound and {unsound} not, {} of a wrong length", self.lengths);
        println!("xics damage: first broken: {}", told.join(", "));
    }

    /// The clauses that were met too seldom, and whether both verdicts were common.
    pub fn rare(&self) -> Vec<&'static str> {
        let seldom = CLAUSES.iter().zip(self.first).filter(|(_, count)| *count < FEW).map(|(clause, _)| clause.0);
        let few = 5 * self.sound.min(self.unsound()) < self.judged();
        seldom.chain(few.then_some("one of the two verdicts")).collect()
    }
}

/// Copies damaged at a time; of each verdict the first few are gone into.
const AT_A_TIME: u64 = 24;
const GONE_INTO: u64 = 2;

pub fn damaged(life: &mut Life) {
    let mut left = [GONE_INTO; 2];
    for _ in 0..AT_A_TIME {
        let mut bytes = life.both.bytes().to_vec();
        let what = spoil::spoil(&mut life.rng, &mut bytes);
        if let Err(note) = check(life, &bytes, &mut left) {
            return life.differ(&format!("on a copy with {what}: {note}"));
        }
    }
}

/// Judges the bytes and compares that with what the library says of them.
fn check(life: &mut Life, bytes: &[u8], left: &mut [u64; 2]) -> Result<(), String> {
    let first = broken(bytes).first().copied();
    agree(bytes, first)?;
    match first {
        None => life.tally.sound += 1,
        Some(clause) => life.tally.first[clause] += 1,
    }
    let enough = &mut left[first.is_some() as usize];
    if *enough == 0 {
        return Ok(());
    }
    *enough -= 1;
    life.aside += if first.is_none() { go_on(life, bytes)? } else { all_refused(life, bytes, -22)? };
    Ok(())
}

/// The library says the same of the bytes. Deliverable is asked: it has no -22 of its own (§14.11).
fn agree(bytes: &[u8], first: Option<usize>) -> Result<(), String> {
    let answer = Both::new(bytes).compare(&Call::Deliverable { source: 1 << 20 }, &[])?.0;
    let (verdict, want) = match first {
        None => ("no rule is broken".into(), -2),
        Some(clause) => (format!("\"{}\" is broken", CLAUSES[clause].0), -22),
    };
    match answer == want {
        true => Ok(()),
        false => Err(format!("{verdict}, and asking whether a source from 2^20 on is deliverable answers {answer}")),
    }
}

/// Some calls of every kind on an XICS that no sequence of calls may have made.
fn go_on(life: &mut Life, bytes: &[u8]) -> Result<u64, String> {
    let mut other = Life::taken(life.rng.next(), bytes);
    (0..12).for_each(|_| any(&mut other));
    life.reach.add(&other.reach);
    match other.difference {
        None => Ok(other.step),
        Some(note) => Err(format!("at call {} after the model took over: {note}", other.step)),
    }
}

/// Every kind of call gives the number and changes nothing. Set-up makes any bytes of the right length sound (§14.4).
fn all_refused(life: &mut Life, bytes: &[u8], want: i64) -> Result<u64, String> {
    let server = life.xics().servers.first().map_or(0, |row| row.0);
    let source = life.xics().sources.first().map_or(0, |row| row.0);
    let list = each_kind(server, source);
    let mut both = Both::new(bytes);
    for (call, value) in &list {
        let answer = both.compare(call, value)?.0;
        if answer != want {
            return Err(format!("{call:x?} answers {answer}, not {want}"));
        }
    }
    let answer = both.compare(&Call::Setup, &[])?.0;
    match answer == if bytes.len() == LENGTH { 0 } else { -14 } {
        true => Ok(list.len() as u64 + 1),
        false => Err(format!("set-up answers {answer}")),
    }
}

/// §14.3, §14.4: bytes of a wrong length are -14 whatever they hold, from set-up too.
pub fn wrong_length(life: &mut Life) {
    let rng = &mut life.rng;
    let length = match rng.below(8) {
        0 => 0,
        1 => LENGTH - 1,
        2 => LENGTH + 1,
        3 => LENGTH - 16,
        4 => LENGTH + 16,
        5 => 11_400,
        6 => rng.below(LENGTH as u64) as usize,
        _ => LENGTH + 1 + rng.below(LENGTH as u64) as usize,
    };
    let mut bytes = life.both.bytes().to_vec();
    bytes.resize(length, 0);
    life.tally.lengths += 1;
    match all_refused(life, &bytes, -14) {
        Ok(made) => life.aside += made,
        Err(note) => life.differ(&format!("on {length} bytes: {note}")),
    }
}
