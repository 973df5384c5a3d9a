//! One XICS's life: set-up, registering, then calls of every kind, looked at from time to time. It stops at the first
//! difference.

use super::damage::{self, Tally};
use super::model::{Xics, MOST};
use super::reach::Reach;
use super::sides::Both;
use super::{carry, layout, pick, Call};
use crate::rng::Rng;

pub struct Life {
    pub rng: Rng,
    pub both: Both,
    /// Calls compared so far, and those on copies.
    pub step: u64,
    pub aside: u64,
    pub difference: Option<String>,
    /// Numbers that this sequence comes back to, so that calls meet.
    pub servers: Vec<u64>,
    pub sources: Vec<u64>,
    /// Whether there were 64 servers, and 64 sources.
    pub full: (bool, bool),
    /// XICSs that were carried over.
    pub carried: u64,
    pub reach: Reach,
    pub tally: Tally,
    tell: bool,
}

impl Life {
    pub fn new(seed: u64, tell: bool) -> Life {
        let mut rng = Rng::new(seed);
        let mut bytes = vec![0; layout::LENGTH];
        match rng.below(4) {
            0 => {}
            1 => bytes.fill(0xff),
            _ => rng.fill(&mut bytes),
        }
        Life::of(rng, &bytes, tell)
    }

    /// An XICS that is there already: the model takes it over from its bytes.
    pub fn taken(seed: u64, bytes: &[u8]) -> Life {
        Life::of(Rng::new(seed), bytes, false)
    }

    fn of(mut rng: Rng, bytes: &[u8], tell: bool) -> Life {
        let (servers, sources) = (pick::servers(&mut rng), pick::sources(&mut rng));
        Life {
            rng,
            both: Both::new(bytes),
            step: 0,
            aside: 0,
            difference: None,
            servers,
            sources,
            full: (false, false),
            carried: 0,
            reach: Reach::default(),
            tally: Tally::default(),
            tell,
        }
    }

    pub fn xics(&self) -> &Xics {
        self.both.model.xics()
    }

    pub fn stands(&self) -> bool {
        self.difference.is_none()
    }

    pub fn differ(&mut self, note: &str) {
        if self.stands() {
            self.difference = Some(note.into());
        }
    }

    /// Makes the call on both sides. Hands back the answer and the value after it, where they agree.
    pub fn make(&mut self, call: Call, value: &[u8]) -> Option<(i64, Vec<u8>)> {
        if !self.stands() {
            return None;
        }
        self.step += 1;
        let before = self.both.model.xics.clone();
        let result = self.both.compare(&call, value);
        if self.tell {
            println!("{:5} {call:x?} lent {value:02x?} -> {result:x?}", self.step);
        }
        match result {
            Ok((answer, after)) => {
                self.see(before.ok().as_ref(), &call, value, answer);
                Some((answer, after))
            }
            Err(note) => {
                self.differ(&note);
                None
            }
        }
    }

    /// Counts what came of a call on a sound XICS.
    fn see(&mut self, before: Option<&Xics>, call: &Call, value: &[u8], answer: i64) {
        if let Some(before) = before {
            self.reach.count(before, call, value, answer);
        }
        if let Ok(xics) = &self.both.model.xics {
            self.full.0 |= xics.servers.len() == MOST;
            self.full.1 |= xics.sources.len() == MOST;
        }
    }
}

pub fn live(life: &mut Life) {
    set_up(life);
    if !life.stands() {
        return;
    }
    register(life);
    let length = life.rng.between(60, 260);
    body(life, length);
    ask_all(life);
    if life.stands() && life.rng.one_in(2) {
        carry::over(life);
    }
}

/// §14.4: set-up does not look at what the bytes hold; the other calls do.
fn set_up(life: &mut Life) {
    for _ in 0..life.rng.below(3) {
        let call = Call::Deliverable { source: life.rng.below(4) };
        life.make(call, &[]);
    }
    life.make(Call::Setup, &[]);
}

/// So many are to be registered: few, some, or as many as there is room for and more.
fn wanted(rng: &mut Rng) -> u64 {
    match rng.below(8) {
        0 => rng.below(3),
        1..=4 => rng.between(2, 20),
        _ => rng.between(70, 110),
    }
}

/// Mostly servers first, since a source needs one.
fn register(life: &mut Life) {
    let (servers, sources) = (wanted(&mut life.rng), wanted(&mut life.rng));
    let mut list = [vec![true; servers as usize], vec![false; sources as usize]].concat();
    if life.rng.one_in(2) {
        life.rng.shuffle(&mut list);
    }
    for server in list {
        let call = if server { pick::new_server(life) } else { pick::new_source(life) };
        life.make(call, &[]);
    }
}

fn body(life: &mut Life, length: u64) {
    for _ in 0..length {
        if !life.stands() {
            return;
        }
        any(life);
        look_now_and_then(life);
    }
}

/// One call at random. A source that was set is asked about at once, so that its fields meet its server's.
pub fn any(life: &mut Life) {
    let (call, value) = match life.rng.below(100) {
        0..=5 => (pick::new_server(life), vec![]),
        6..=13 => (pick::new_source(life), vec![]),
        14..=42 => pick::set_source(life),
        43..=57 => pick::set_server(life),
        58..=66 => (Call::GetSource { source: pick::source(life) }, pick::preset(life)),
        67..=74 => (Call::GetServer { server: pick::server(life) }, pick::preset(life)),
        _ => (Call::Deliverable { source: pick::source(life) }, vec![]),
    };
    let done = life.make(call, &value);
    if let (Call::SetSource { source }, Some((0, _))) = (call, done) {
        life.make(Call::Deliverable { source }, &[]);
    }
}

fn look_now_and_then(life: &mut Life) {
    match life.rng.below(400) {
        0..=5 => damage::damaged(life),
        6..=8 => damage::wrong_length(life),
        9..=10 => ask_all(life),
        11 => {
            life.make(Call::Setup, &[]);
        }
        _ => {}
    }
}

/// §14.15: every word, and whether each source is deliverable.
fn ask_all(life: &mut Life) {
    if !life.stands() {
        return;
    }
    for call in questions(life.xics()) {
        life.make(call, if call.has_value() { &[0x77; 8] } else { &[] });
    }
}

/// All that can be asked of what is registered.
pub fn questions(xics: &Xics) -> Vec<Call> {
    let servers = xics.servers.iter().map(|row| Call::GetServer { server: row.0 });
    let sources = xics.sources.iter().map(|row| Call::GetSource { source: row.0 });
    let deliverable = xics.sources.iter().map(|row| Call::Deliverable { source: row.0 });
    servers.chain(sources).chain(deliverable).collect()
}
