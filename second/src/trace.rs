//! A trace: calls with what is expected of each, as bytes, for `replay.c` to make again on another archive.
//!
//! What is expected of a call are the answer and the lent bytes of the model (of §1.3, where a state is not sound), and
//! a checksum of the state that the library left: the model reads states, but makes none. Library and model must agree while a
//! trace is written; a run with a difference leaves none. An XICS is noted as a state is, with the length that it has: which
//! of the two is lent follows from the call.
//!
//! Calls are made on many copies of states and from many places, and a trace is the list of them in order: so it is kept once
//! for the program, like a log, and notes nothing while none is open.
//!
//! The bytes: `RKTRACE2`, the length of a state, the length of an XICS, then records. Numbers are varints (7 bits a byte, lowest
//! first) unless said otherwise.
//! `S` length, changes: the state becomes the last one, cut or filled with zeros to the length, with the changes made.
//! `G` generator (8 bytes), length: memory 0 becomes what the generator of `rng.rs` fills.
//! `C` kind (1 byte), numbers, lent bytes, answer (zigzag), changes made to the lent bytes, checksum of the state (8 bytes): a call.
//! Lent bytes are a length and, up to 64 of them, the bytes; above, which of two memories (0 or 1) they are changes of, cut or
//! filled as a state is, and the changes. What they hold after the call is that memory from then on.
//! `E` calls: the end.
//! Changes are a count of runs; a run is the bytes passed over, 2 x length (+ 1 for one byte repeated) and its bytes.

use crate::call::{Call, Device};
use crate::xics;
use std::cell::RefCell;
use std::fs::File;
use std::io::{BufWriter, Result, Write};

struct Trace {
    file: BufWriter<File>,
    /// As a replay has them after the last record.
    state: Vec<u8>,
    memories: [Vec<u8>; 2],
    /// The lent bytes of the call that is being noted, and which memory they go to.
    lent: Vec<u8>,
    slot: usize,
    calls: u64,
    bytes: u64,
    result: Result<()>,
}

thread_local! {
    static OPEN: RefCell<Option<Trace>> = const { RefCell::new(None) };
}

fn with(note: impl FnOnce(&mut Trace)) {
    OPEN.with(|open| {
        if let Some(trace) = open.borrow_mut().as_mut() {
            note(trace);
        }
    });
}

pub fn open(path: &str, state_len: usize, xics_len: usize) -> Result<()> {
    let file = BufWriter::new(File::create(path)?);
    let (state, memories, lent) = Default::default();
    let mut trace = Trace { file, state, memories, lent, slot: 0, calls: 0, bytes: 0, result: Ok(()) };
    trace.put(b"RKTRACE2");
    trace.number(state_len as u64);
    trace.number(xics_len as u64);
    OPEN.with(|open| *open.borrow_mut() = Some(trace));
    Ok(())
}

/// Writes the end; hands back how many calls and bytes were noted.
pub fn close() -> Result<(u64, u64)> {
    let mut trace = OPEN.with(|open| open.borrow_mut().take()).expect("a trace is open");
    let calls = trace.calls;
    trace.put(b"E");
    trace.number(calls);
    trace.result?;
    trace.file.flush()?;
    Ok((calls, trace.bytes))
}

/// The memory of the guest was filled by a generator: told as such, because bytes at random cannot be noted in fewer.
#[cfg(feature = "its")]
pub fn filled(generator: u64, memory: &[u8]) {
    with(|trace| {
        trace.put(b"G");
        trace.put(&generator.to_le_bytes());
        trace.number(memory.len() as u64);
        trace.memories[0] = memory.to_vec();
    });
}

/// A call is about to be made on this state with these lent bytes.
pub fn asked(state: &[u8], call: &Call, lent: &[u8]) {
    with(|trace| trace.note_asked(state, coded(call), lent));
}

/// A call is about to be made on this XICS with this value.
pub fn asked_xics(xics: &[u8], call: &xics::Call, value: &[u8]) {
    with(|trace| trace.note_asked(xics, coded_xics(call), value));
}

/// What is expected of it: the answer, the lent bytes, the state.
pub fn expected(answer: i64, lent: &[u8], state: &[u8]) {
    with(|trace| {
        trace.number((answer << 1 ^ answer >> 63) as u64);
        let before = std::mem::take(&mut trace.lent);
        trace.changes(&before, lent);
        if lent.len() > SMALL {
            let slot = trace.slot;
            trace.memories[slot] = lent.to_vec();
        }
        trace.put(&checksum(state).to_le_bytes());
        trace.state = state.to_vec();
        trace.calls += 1;
    });
}

/// Lent bytes up to this many are noted as they are, more of them as changes of the last memory.
const SMALL: usize = 64;

/// Over words of 8 bytes, little endian, the last one filled with zeros.
fn checksum(bytes: &[u8]) -> u64 {
    let mut sum = bytes.len() as u64;
    for chunk in bytes.chunks(8) {
        let mut word = [0; 8];
        word[..chunk.len()].copy_from_slice(chunk);
        sum = (sum ^ u64::from_le_bytes(word)).wrapping_mul(0x9e37_79b9_7f4a_7c15);
        sum ^= sum >> 32;
    }
    sum
}

impl Trace {
    fn put(&mut self, bytes: &[u8]) {
        if self.result.is_ok() {
            self.result = self.file.write_all(bytes);
        }
        self.bytes += bytes.len() as u64;
    }

    fn number(&mut self, mut number: u64) {
        while number >= 0x80 {
            self.put(&[number as u8 | 0x80]);
            number >>= 7;
        }
        self.put(&[number as u8]);
    }

    fn note_state(&mut self, state: &[u8]) {
        if self.state == state {
            return;
        }
        self.put(b"S");
        self.number(state.len() as u64);
        let mut before = std::mem::take(&mut self.state);
        before.resize(state.len(), 0);
        self.changes(&before, state);
    }

    fn note_asked(&mut self, state: &[u8], (kind, numbers): (u8, Vec<u64>), lent: &[u8]) {
        self.note_state(state);
        self.put(&[b'C', kind]);
        numbers.into_iter().for_each(|number| self.number(number));
        self.note_lent(lent);
    }

    fn note_lent(&mut self, lent: &[u8]) {
        self.number(lent.len() as u64);
        if lent.len() > SMALL {
            self.slot = !alike(&self.memories[0], lent) as usize;
            self.put(&[self.slot as u8]);
            let mut before = std::mem::take(&mut self.memories[self.slot]);
            before.resize(lent.len(), 0);
            self.changes(&before, lent);
        } else {
            self.put(lent);
        }
        self.lent = lent.to_vec();
    }

    fn changes(&mut self, before: &[u8], after: &[u8]) {
        let runs = runs(before, after);
        self.number(runs.len() as u64);
        let mut at = 0;
        for (start, length, repeated) in runs {
            self.number((start - at) as u64);
            self.number(2 * length as u64 + repeated as u64);
            self.put(&after[start..start + if repeated { 1 } else { length }]);
            at = start + length;
        }
    }
}

/// Whether most bytes are the same. A look lends memory of its own in between, and must not displace the sequence's.
fn alike(before: &[u8], after: &[u8]) -> bool {
    2 * before.iter().zip(after).filter(|(a, b)| a == b).count() > after.len()
}

/// The runs in which two lists of one length differ: start, length, and whether it is one byte repeated.
fn runs(before: &[u8], after: &[u8]) -> Vec<(usize, usize, bool)> {
    let mut runs = Vec::new();
    let mut at = next_difference(before, after, 0);
    while at < after.len() {
        let same = repeated(after, at);
        let length = if same >= 8 { same } else { literal(before, after, at) };
        runs.push((at, length, same >= 8));
        at = next_difference(before, after, at + length);
    }
    runs
}

fn next_difference(before: &[u8], after: &[u8], mut at: usize) -> usize {
    while at + 256 <= after.len() && before[at..at + 256] == after[at..at + 256] {
        at += 256;
    }
    (at..after.len()).find(|at| before[*at] != after[*at]).unwrap_or(after.len())
}

fn repeated(bytes: &[u8], at: usize) -> usize {
    bytes[at..].iter().take_while(|byte| **byte == bytes[at]).count()
}

/// Up to where nothing differs for 4 bytes, or one byte is repeated.
fn literal(before: &[u8], after: &[u8], start: usize) -> usize {
    let ends = |at: usize| {
        let end = (at + 8).min(after.len());
        let settled = before[at..end.min(at + 4)] == after[at..end.min(at + 4)];
        settled || (end == at + 8 && repeated(&after[at..end], 0) == 8)
    };
    (start + 1..after.len()).find(|at| ends(*at)).unwrap_or(after.len()) - start
}

/// The number of a call in the trace, and its own numbers. `replay.c` has the same list.
fn coded(call: &Call) -> (u8, Vec<u64>) {
    match *call {
        Call::Setup { width, start, length } => (0, vec![width, start, length]),
        Call::VcpuAdd { affinity } => (1, vec![affinity as u64]),
        Call::Start => (2, vec![]),
        Call::Stop => (3, vec![]),
        Call::Set { device: Device::Vgic, group, attribute } => (4, vec![group, attribute]),
        Call::Set { device: Device::Its, group, attribute } => (5, vec![group, attribute]),
        Call::Get { device: Device::Vgic, group, attribute } => (6, vec![group, attribute]),
        Call::Get { device: Device::Its, group, attribute } => (7, vec![group, attribute]),
        Call::RedistBase { vcpu } => (8, vec![vcpu]),
        Call::Pending { vcpu, intid } => (9, vec![vcpu, intid]),
        Call::SetPending { vcpu, intid } => (10, vec![vcpu, intid]),
        Call::ClearPending { vcpu, intid } => (11, vec![vcpu, intid]),
        Call::Activate { vcpu, intid } => (12, vec![vcpu, intid]),
        Call::Line { vcpu, intid, level } => (13, vec![vcpu, intid, level]),
        Call::Trigger { vcpu, intid, word } => (14, vec![vcpu, intid, word as u64]),
        #[cfg(feature = "its")]
        _ => coded_its(call),
    }
}

#[cfg(feature = "its")]
fn coded_its(call: &Call) -> (u8, Vec<u64>) {
    match *call {
        Call::Place { device_start, device_pages, collection_start, collection_pages } => {
            (15, vec![device_start, device_pages, collection_start, collection_pages])
        }
        Call::MapDevice { device, itt, bits } => (16, vec![device, itt, bits]),
        Call::UnmapDevice { device } => (17, vec![device]),
        Call::MapCollection { icid, pe } => (18, vec![icid, pe]),
        Call::UnmapCollection { icid } => (19, vec![icid]),
        Call::MapEvent { device, event, lpi, icid } => (20, vec![device, event, lpi, icid]),
        Call::Discard { device, event } => (21, vec![device, event]),
        Call::Move { device, event, icid } => (22, vec![device, event, icid]),
        Call::Lookup { device, event } => (23, vec![device, event]),
        Call::Save => (24, vec![]),
        #[cfg(feature = "restore")]
        Call::Restore => (25, vec![]),
        #[cfg(feature = "restore")]
        Call::Explain => (26, vec![]),
        _ => unreachable!("coded above"),
    }
}

/// The same for the calls on an XICS.
fn coded_xics(call: &xics::Call) -> (u8, Vec<u64>) {
    use xics::Call;
    match *call {
        Call::Setup => (27, vec![]),
        Call::AddServer { server } => (28, vec![server]),
        Call::AddSource { source, server } => (29, vec![source, server]),
        Call::SetSource { source } => (30, vec![source]),
        Call::SetServer { server } => (31, vec![server]),
        Call::GetSource { source } => (32, vec![source]),
        Call::GetServer { server } => (33, vec![server]),
        Call::Deliverable { source } => (34, vec![source]),
    }
}
