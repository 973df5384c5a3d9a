//! Directed cases: one or more for each paragraph of docs/DEFINITION.md that tells what a call does, with the answers
//! written out. A title begins with the paragraphs that are tried. Each case runs against the library and against the
//! model, from a fresh guest of its own; around every call §2.4 is watched.

mod banks;
mod case;
#[cfg(feature = "restore")]
mod explain;
mod former;
mod frames;
mod holds;
#[cfg(feature = "its")]
mod its;
mod numbers;
#[cfg(feature = "restore")]
mod order;
#[cfg(feature = "restore")]
mod restore;
#[cfg(feature = "its")]
mod save;
#[cfg(feature = "its")]
mod sound;
mod special;
pub mod xics;

use crate::call::{Call, Device};
use crate::model::Model;
use crate::report::{Kind, Report};
use crate::sides::{Both, Library, Side};
use case::Case;

type Row = (&'static str, fn(&mut Case));

fn all() -> Vec<Row> {
    let mut rows = Vec::new();
    rows.extend_from_slice(holds::CASES);
    rows.extend_from_slice(numbers::CASES);
    rows.extend_from_slice(frames::CASES);
    rows.extend_from_slice(banks::CASES);
    rows.extend_from_slice(special::CASES);
    rows.extend_from_slice(former::CASES);
    #[cfg(feature = "its")]
    rows.extend_from_slice(its::CASES);
    #[cfg(feature = "its")]
    rows.extend_from_slice(save::CASES);
    #[cfg(feature = "restore")]
    rows.extend_from_slice(restore::CASES);
    #[cfg(feature = "restore")]
    rows.extend_from_slice(explain::CASES);
    #[cfg(feature = "restore")]
    rows.extend_from_slice(order::CASES);
    rows
}

pub fn run(report: &mut Report) {
    for (name, body) in all() {
        let mut library = Library::new(&vec![0x5a; Library::len()]);
        let theirs = run_one(&mut library, Kind::DirectedLibrary, name, body, report);
        let ours = run_one(&mut Model::default(), Kind::DirectedModel, name, body, report);
        if theirs != ours {
            let note = format!("before its restores explain answers {theirs:x?}, in the model {ours:x?}");
            report.fail(Kind::DirectedLibrary, &format!("directed library: {name}"), &note);
        }
    }
    #[cfg(feature = "restore")]
    explain::states(report);
    in_turns(report);
    #[cfg(feature = "its")]
    sound::run(report);
}

/// The cases once more, on the library and the model at once: for a trace.
pub fn run_both(report: &mut Report) {
    for (name, body) in all() {
        let library = Library::new(&vec![0x5a; Library::len()]);
        let mut both = Both { library, model: Model::default() };
        run_one(&mut both, Kind::DirectedLibrary, name, body, report);
    }
    #[cfg(feature = "restore")]
    explain::states(report);
    #[cfg(feature = "its")]
    sound::run(report);
}

/// Runs a case; what explain answered before its restores.
fn run_one(side: &mut dyn Side, kind: Kind, name: &str, body: fn(&mut Case), report: &mut Report) -> Vec<i64> {
    let label = if kind == Kind::DirectedModel { "model" } else { "library" };
    let mut case = Case::new(side);
    case.setup(40, 0x4000_0000, 0x10_0000, 0);
    body(&mut case);
    match case.notes.first() {
        None => report.pass(1),
        Some(note) => report.fail(kind, &format!("directed {label}: {name}"), note),
    }
    case.explained
}

/// A guest's first calls, other ones for each `n`.
fn first_calls(n: u64) -> Vec<(Call, Vec<u8>)> {
    let set = |group, attribute| Call::Set { device: Device::Vgic, group, attribute };
    vec![
        (Call::Setup { width: 40 + n, start: 0x4000_0000, length: 0x1000 << n }, vec![]),
        (Call::VcpuAdd { affinity: 7 + n as u32 }, vec![]),
        (set(3, 0), (64 + 32 * n as u32).to_le_bytes().to_vec()),
        (set(0, 2), (0x0800_0000u64 << n).to_le_bytes().to_vec()),
        (set(0, 3), (0x0900_0000u64 << n).to_le_bytes().to_vec()),
        (set(4, 0), vec![]),
        (Call::SetPending { vcpu: 0, intid: 20 + n }, vec![]),
        (set(1, 0x204), (5u32 << n).to_le_bytes().to_vec()),
        (if n == 0 { Call::Start } else { Call::Stop }, vec![]),
    ]
}

/// §1.2: the library keeps nothing. Two guests whose calls take turns have the bytes that each one has alone.
fn in_turns(report: &mut Report) {
    let mut complaints = Vec::new();
    let mut make = |library: &mut Library, (call, mut lent): (Call, Vec<u8>)| {
        if library.call(&call, &mut lent, &mut complaints) != 0 {
            complaints.push(format!("{call:x?} is refused"));
        }
    };
    let fresh = || Library::new(&vec![0x5a; Library::len()]);
    let (mut alone, mut turns) = ([fresh(), fresh()], [fresh(), fresh()]);
    for (n, library) in alone.iter_mut().enumerate() {
        first_calls(n as u64).into_iter().for_each(|step| make(library, step));
    }
    for (first, second) in first_calls(0).into_iter().zip(first_calls(1)) {
        make(&mut turns[0], first);
        make(&mut turns[1], second);
    }
    if (0..2).any(|n| alone[n].state.content() != turns[n].state.content()) {
        complaints.push("a guest has other bytes than alone".into());
    }
    match complaints.first() {
        None => report.pass(1),
        Some(note) => report.fail(Kind::DirectedLibrary, "directed library: §1.2 guests whose calls take turns", note),
    }
}
