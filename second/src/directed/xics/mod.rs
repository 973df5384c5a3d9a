//! Directed cases of part 14, with the answers and the bytes written out. Each runs against the library and against the
//! model, on an XICS of its own that was set up in bytes of 0x5a.

mod case;
mod deliver;
mod register;
mod sound;
mod words;

use crate::report::{Kind, Report};
use crate::xics::layout::LENGTH;
use crate::xics::sides::{Both, Library, Model, Side};
use case::Case;

fn all() -> Vec<(&'static str, fn(&mut Case))> {
    [register::CASES, words::CASES, deliver::CASES].concat()
}

pub fn run(report: &mut Report) {
    let before = [0x5a; LENGTH];
    for (name, body) in all() {
        run_one(&mut Library::new(&before), Kind::DirectedLibrary, name, &body, report);
        run_one(&mut Model::new(&before), Kind::DirectedModel, name, &body, report);
    }
    sound::run(false, report);
}

/// The cases once more, on the library and the model at once: for a trace.
pub fn run_both(report: &mut Report) {
    for (name, body) in all() {
        run_one(&mut Both::new(&[0x5a; LENGTH]), Kind::DirectedLibrary, name, &body, report);
    }
    sound::run(true, report);
}

fn run_one(side: &mut dyn Side, kind: Kind, name: &str, body: &dyn Fn(&mut Case), report: &mut Report) {
    let mut case = Case::new(side);
    case.setup();
    body(&mut case);
    note(report, kind, name, case.notes.into_iter().next().map_or(Ok(()), Err));
}

fn note(report: &mut Report, kind: Kind, title: &str, result: Result<(), String>) {
    let label = if kind == Kind::DirectedModel { "model" } else { "library" };
    match result {
        Ok(()) => report.pass(1),
        Err(note) => report.fail(kind, &format!("directed {label}: {title}"), &note),
    }
}
