//! The second program: a model of docs/DEFINITION.md, written by people who have not looked at the library's code, and
//! held against the library call by call. `§3.8` in a comment or a title is a paragraph of that page.

mod call;
mod directed;
#[cfg(feature = "restore")]
mod explain;
mod faults;
mod ffi;
#[cfg(feature = "restore")]
mod images;
mod model;
mod random;
mod report;
mod rng;
#[cfg(feature = "restore")]
mod show;
mod sides;
mod state;
mod trace;
mod xics;

use report::{Kind, Report};
use std::process::exit;

const USAGE: &str = "usage: second [check [CALLS [SEED]]] | directed | hunt PART | replay SEED | xics [SEED]
       second faults FOLDER [LIST..] | trace FILE [CALLS [SEED]] | show FILE | explain FILE | images FOLDER";

fn number(text: Option<&String>, absent: u64) -> u64 {
    match text {
        None => absent,
        Some(text) => text.parse().unwrap_or_else(|_| usage()),
    }
}

fn usage() -> ! {
    eprintln!("{USAGE}");
    exit(2)
}

/// §1.2, §14.2: the length is the layout's, and always the same. On another length no judge could be asked.
fn check_length(title: &str, length: usize, ask: fn() -> i64, report: &mut Report) {
    let answers = [ask(), ask()];
    if answers == [length as i64; 2] {
        report.pass(1);
        return;
    }
    report.fail(Kind::DirectedLibrary, title, &format!("answered {answers:?}"));
    exit(report.close());
}

fn state_length(report: &mut Report) {
    check_length("§1.2 rk_state_len", state::layout::LENGTH, ffi::state_len, report);
}

fn xics_length(report: &mut Report) {
    check_length("§14.2 rk_xics_len", xics::layout::LENGTH, ffi::xics_len, report);
}

/// The directed cases of parts 1 to 13.
fn guest_directed(report: &mut Report) {
    state_length(report);
    directed::run(report);
    random::states(report);
}

/// The directed cases of part 14.
fn xics_directed(report: &mut Report) {
    xics_length(report);
    directed::xics::run(report);
}

fn all_directed(report: &mut Report) {
    guest_directed(report);
    xics_directed(report);
}

/// The default budget, but sequences end with the first difference: for planted faults. None of part 14 concerns a guest.
fn hunt(part: &str, report: &mut Report) {
    if part == faults::XICS {
        xics_directed(report);
        xics::run(1, random::DEFAULT_CALLS, true, report);
    } else {
        guest_directed(report);
        random::run(1, random::DEFAULT_CALLS, true, report);
    }
}

/// Writes a trace of all sequences. One that was cut off, or in which library and model differ, is removed.
fn write_trace(path: &str, calls: u64, seed: u64, report: &mut Report) {
    if let Err(error) = trace::open(path, state::layout::LENGTH, xics::layout::LENGTH) {
        eprintln!("{path}: {error}");
        exit(1);
    }
    state_length(report);
    xics_length(report);
    directed::run_both(report);
    random::states(report);
    directed::xics::run_both(report);
    xics::run(seed, calls, false, report);
    random::run(seed, calls, false, report);
    let status = report.close();
    match trace::close() {
        Ok((calls, bytes)) if status == 0 => println!("trace: {calls} calls, {bytes} bytes"),
        result => {
            let _ = std::fs::remove_file(path);
            println!("no trace: {}", result.err().map_or("the library and the model differ".into(), |e| e.to_string()));
            exit(1);
        }
    }
    exit(0);
}

fn main() {
    let words: Vec<String> = std::env::args().skip(1).collect();
    let mut report = Report::default();
    match words.first().map_or("check", String::as_str) {
        "check" if words.len() <= 3 => {
            all_directed(&mut report);
            let (calls, seed) = (number(words.get(1), random::DEFAULT_CALLS), number(words.get(2), 1));
            xics::run(seed, calls, false, &mut report);
            random::run(seed, calls, false, &mut report);
        }
        "hunt" if words.len() == 2 => hunt(&words[1], &mut report),
        "directed" if words.len() == 1 => all_directed(&mut report),
        "trace" if (2..=4).contains(&words.len()) => {
            let calls = number(words.get(2), random::DEFAULT_CALLS);
            write_trace(&words[1], calls, number(words.get(3), 1), &mut report);
        }
        "xics" if words.len() == 1 => {
            xics_directed(&mut report);
            xics::run(1, random::DEFAULT_CALLS, false, &mut report);
        }
        "xics" if words.len() == 2 => xics::replay(number(words.get(1), 0), &mut report),
        "replay" if words.len() == 2 => random::replay(number(words.get(1), 0), &mut report),
        #[cfg(feature = "restore")]
        "show" if words.len() == 2 => exit(show::run(&words[1], show::text)),
        #[cfg(feature = "restore")]
        "explain" if words.len() == 2 => exit(show::run(&words[1], explain::text)),
        #[cfg(feature = "restore")]
        "images" if words.len() == 2 => exit(images::run(&words[1])),
        "faults" if words.len() >= 2 => exit(faults::run(&words[1], &words[2..])),
        _ => usage(),
    }
    exit(report.close());
}
