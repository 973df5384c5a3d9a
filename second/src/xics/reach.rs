//! What came of the calls of the sequences: told at the end, so that it is seen if something is no longer met.

use super::model::{Xics, SOURCES_END};
use super::Call;

/// At the default budget each kind must have been met so often.
const FEW: u64 = 20;

const KINDS: [&str; 32] = [
    "set up",
    "server added",
    "server from 2^32",
    "server repeated",
    "65th server",
    "source added",
    "source from 2^20",
    "its server from 2^32",
    "source repeated",
    "no such server",
    "65th source",
    "source set",
    "source set width",
    "source set missing",
    "bits above 42",
    "destination",
    "server set",
    "server set with low bits",
    "server set width",
    "server set missing",
    "no source below 255",
    "a source at 255",
    "got",
    "got width",
    "got missing",
    "deliverable",
    "not pending alone",
    "masked alone",
    "priority equal alone",
    "priority above alone",
    "not for several reasons",
    "asked missing",
];

/// How often each kind was met.
#[derive(Default)]
pub struct Reach([u64; KINDS.len()]);

fn word_of(value: &[u8]) -> u64 {
    value.iter().rev().fold(0, |word, byte| word << 8 | *byte as u64)
}

/// Which of the faults that are -22 it was: they are told apart by the call and its word alone.
fn invalid(call: &Call, value: &[u8]) -> &'static str {
    match *call {
        Call::AddServer { .. } => "server from 2^32",
        Call::AddSource { source, .. } if source >= SOURCES_END => "source from 2^20",
        Call::AddSource { .. } => "its server from 2^32",
        Call::SetSource { .. } if word_of(value) >> 43 != 0 => "bits above 42",
        Call::SetSource { .. } => "destination",
        _ if value[2] == 255 => "a source at 255",
        _ => "no source below 255",
    }
}

fn refused(call: &Call, value: &[u8], answer: i64) -> &'static str {
    match (call, answer) {
        (_, -22) => invalid(call, value),
        (Call::AddServer { .. }, -17) => "server repeated",
        (Call::AddServer { .. }, _) => "65th server",
        (Call::AddSource { .. }, -17) => "source repeated",
        (Call::AddSource { .. }, -2) => "no such server",
        (Call::AddSource { .. }, _) => "65th source",
        (Call::SetSource { .. }, -14) => "source set width",
        (Call::SetSource { .. }, _) => "source set missing",
        (Call::SetServer { .. }, -14) => "server set width",
        (Call::SetServer { .. }, _) => "server set missing",
        (Call::Deliverable { .. }, _) => "asked missing",
        (_, -14) => "got width",
        _ => "got missing",
    }
}

/// Why a source is not deliverable.
fn why_not(xics: &Xics, source: u64) -> &'static str {
    let Some(source) = xics.source(source) else { return "asked missing" };
    let current = xics.server(source.destination as u64).map_or(0, |server| server.current);
    match (source.pending, source.masked, source.priority.cmp(&current)) {
        (false, false, std::cmp::Ordering::Less) => "not pending alone",
        (true, true, std::cmp::Ordering::Less) => "masked alone",
        (true, false, std::cmp::Ordering::Equal) => "priority equal alone",
        (true, false, std::cmp::Ordering::Greater) => "priority above alone",
        _ => "not for several reasons",
    }
}

fn done(xics: &Xics, call: &Call, value: &[u8], answer: i64) -> &'static str {
    match *call {
        Call::Setup => "set up",
        Call::AddServer { .. } => "server added",
        Call::AddSource { .. } => "source added",
        Call::SetSource { .. } => "source set",
        Call::SetServer { .. } if value[..2] == [0, 0] => "server set",
        Call::SetServer { .. } => "server set with low bits",
        Call::GetSource { .. } | Call::GetServer { .. } => "got",
        Call::Deliverable { .. } if answer == 1 => "deliverable",
        Call::Deliverable { source } => why_not(xics, source),
    }
}

impl Reach {
    /// A call on this XICS, sound before it.
    pub fn count(&mut self, xics: &Xics, call: &Call, value: &[u8], answer: i64) {
        let kind = if answer < 0 { refused(call, value, answer) } else { done(xics, call, value, answer) };
        self.0[KINDS.iter().position(|name| *name == kind).expect("a kind of the list")] += 1;
    }

    pub fn add(&mut self, other: &Reach) {
        self.0.iter_mut().zip(other.0).for_each(|(ours, theirs)| *ours += theirs);
    }

    fn counted(&self) -> impl Iterator<Item = (&'static str, u64)> + '_ {
        KINDS.into_iter().zip(self.0)
    }

    pub fn tell(&self) {
        let told: Vec<String> = self.counted().map(|(kind, count)| format!("{kind} {count}")).collect();
        println!("xics: reached: {}", told.join(", "));
    }

    /// The kinds that were met too seldom.
    pub fn rare(&self) -> Vec<&'static str> {
        self.counted().filter(|(_, count)| *count < FEW).map(|(kind, _)| kind).collect()
    }
}
