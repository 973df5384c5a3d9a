//! §1.3, §1.8: a state that is not sound is -22 whatever the call. For each clause of `LAYOUT.md` there are states that
//! break it and no other, which every call must refuse and leave, and beside each its nearest sound neighbour, which
//! must be taken. Over the rows stand the paragraphs that their clauses are from.

mod banks;
mod bases;
mod frames;
mod guest;
mod its;

use crate::model::Model;
use crate::random::{self, Pair};
use crate::report::{Kind, Report};
use crate::sides::Library;
use crate::state::decode;
use crate::state::layout::{Field, IRQS, IRQS_SET};
use crate::state::sound::{broken, CLAUSES};
use bases::{Base, BASES};

/// A number written into a state.
type Put = (Field, u64);

/// The clause's name, the sound state that is changed, what breaks the clause, and what does not.
struct Row(&'static str, Base, &'static [Put], &'static [Put]);

fn rows() -> impl Iterator<Item = &'static Row> {
    guest::ROWS.iter().chain(banks::ROWS).chain(frames::ROWS).chain(its::ROWS)
}

/// §1.7, §1.8: sound states in which bytes that nothing reads are changed, or what no rule is about.
fn free() -> impl Iterator<Item = &'static (&'static str, Base, &'static [Put])> {
    guest::FREE.iter().chain(banks::FREE).chain(its::FREE)
}

fn changed(bytes: &[u8], puts: &[Put]) -> Vec<u8> {
    let mut bytes = bytes.to_vec();
    puts.iter().for_each(|(field, number)| field.put(&mut bytes, *number));
    bytes
}

fn names(clauses: &[usize]) -> Vec<&'static str> {
    clauses.iter().map(|n| CLAUSES[*n].0).collect()
}

fn note(report: &mut Report, kind: Kind, title: &str, result: Result<u64, String>) {
    match result {
        Ok(_) => report.pass(1),
        Err(note) => report.fail(kind, title, &note),
    }
}

/// The judge says that these clauses are broken and no others.
fn judged(bytes: &[u8], want: &[&str]) -> Result<u64, String> {
    let found = names(&broken(bytes));
    match found == want {
        true => Ok(1),
        false => Err(format!("the judge finds {found:?} broken")),
    }
}

/// The model takes the guest over, and each kind of call, looked at closely, is the same on both sides.
fn taken(bytes: &[u8]) -> Result<u64, String> {
    let guest = decode::take_over(bytes).map_err(|clause| format!("the judge finds \"{clause}\" broken"))?;
    random::each_kind(7, guest, bytes)
}

/// Every kind of call on the bytes is -22, numbers being drawn as for the sound state `from`.
fn refused(from: &[u8], bytes: &[u8]) -> Result<u64, String> {
    let guest = decode::take_over(from).map_err(|clause| format!("the judge finds \"{clause}\" broken"))?;
    random::all_refused(&mut Pair::taken(7, guest, from), bytes)
}

fn sound(title: &str, bytes: &[u8], report: &mut Report) {
    note(report, Kind::DirectedModel, &format!("directed model: {title}"), judged(bytes, &[]));
    note(report, Kind::DirectedLibrary, &format!("directed library: {title}"), taken(bytes));
}

fn run_row(n: usize, row: &Row, from: &[u8], report: &mut Report) {
    let Row(clause, base, wrong, right) = row;
    let title = format!("§1.8 case {n}, \"{clause}\" broken in {base:?} by {wrong:x?}");
    let bytes = changed(from, wrong);
    note(report, Kind::DirectedModel, &format!("directed model: {title}"), judged(&bytes, &[clause]));
    note(report, Kind::DirectedLibrary, &format!("directed library: {title}"), refused(from, &bytes));
    sound(&format!("§1.8 case {n}, \"{clause}\" kept in {base:?} by {right:x?}"), &changed(from, right), report);
}

/// A case stands for each clause.
fn check_cases(report: &mut Report) {
    for (clause, _) in CLAUSES {
        let found = if rows().any(|row| row.0 == *clause) { Ok(1) } else { Err("no case breaks it".into()) };
        note(report, Kind::DirectedModel, &format!("directed model: §1.8 the clause \"{clause}\""), found);
    }
}

pub fn run(report: &mut Report) {
    check_cases(report);
    let mut states = Vec::new();
    for base in BASES {
        let built = bases::build(base);
        let title = format!("directed library: §1.8 the sound state {base:?}");
        note(report, Kind::DirectedLibrary, &title, built.as_ref().map(|_| 1).map_err(String::clone));
        let Ok(bytes) = built else { return };
        sound(&format!("§1.8 each kind of call leaves the sound state {base:?} sound"), &bytes, report);
        states.push(bytes);
    }
    for (n, row) in rows().enumerate() {
        run_row(n, row, &states[row.1 as usize], report);
    }
    for (what, base, puts) in free() {
        sound(&format!("{what}, in {base:?} by {puts:x?}"), &changed(&states[*base as usize], puts), report);
    }
    unset_counts(&states, report);
    set_ups(report);
    set_ups_over(&states, report);
}

/// §1.9, §1.17: where it was not set, each count that §3.14 takes is refused but 64 and 256; where it was, none is. Before
/// INIT and after it, in states in which all 31 shared banks stand.
fn unset_counts(states: &[Vec<u8>], report: &mut Report) {
    for base in [Base::Many, Base::Full] {
        let from = &states[base as usize];
        for count in (64..=1024).step_by(32) {
            let (unset, set) = ([(IRQS_SET, 0), (IRQS, count)], [(IRQS_SET, 1), (IRQS, count)]);
            match count {
                64 | 256 => sound(&format!("§1.17 {count} never set, in {base:?}"), &changed(from, &unset), report),
                _ => broken_count(base, from, &unset, &["count unset"], report),
            }
            sound(&format!("§1.9 {count} set, in {base:?}"), &changed(from, &set), report);
        }
        for (count, clause) in BAD_COUNTS {
            broken_count(base, from, &[(IRQS_SET, 0), (IRQS, count)], &[clause, "count unset"], report);
        }
    }
}

/// Not set, and no number that §3.14 takes, though its low bits or those around them are.
const BAD_COUNTS: [(u64, &str); 10] = [
    (0, "count least"),
    (32, "count least"),
    (1056, "count most"),
    (1 << 32, "count most"),
    ((1 << 32) + 64, "count most"),
    ((1 << 32) + 256, "count most"),
    ((1 << 63) + 256, "count most"),
    (65, "count step"),
    (255, "count step"),
    (257, "count step"),
];

fn broken_count(base: Base, from: &[u8], puts: &[Put], clauses: &[&str], report: &mut Report) {
    let (title, bytes) = (format!("§1.9 {clauses:?} broken in {base:?} by {puts:x?}"), changed(from, puts));
    note(report, Kind::DirectedModel, &format!("directed model: {title}"), judged(&bytes, clauses));
    note(report, Kind::DirectedLibrary, &format!("directed library: {title}"), refused(from, &bytes));
}

/// §1.4, §1.5, §1.17: over each of the states a set-up makes a fresh guest.
fn set_ups_over(states: &[Vec<u8>], report: &mut Report) {
    for (base, state) in BASES.into_iter().zip(states) {
        let (mut model, mut library) = (Model::default(), Library::new(state));
        let call = crate::call::Call::Setup { width: 41, start: 0x8000_0000, length: 0x3000 };
        let made = random::compare(&mut model, &mut library, &call, vec![]).map(|_| 1);
        note(report, Kind::DirectedLibrary, &format!("directed library: §1.5 set-up over {base:?}"), made);
        sound(&format!("§1.5 the fresh bytes over {base:?}"), library.state.content(), report);
    }
}

/// §1.4, §1.5: a fresh guest's bytes are sound and hold it, at each bound of set-up and whatever they held before.
fn set_ups(report: &mut Report) {
    let top = |width: u64, length: u64| (1u64 << width) - length;
    let limits = [(36, 0, 4096), (36, top(36, 1 << 30), 1 << 30), (52, top(52, 4096), 4096), (52, 0, 1 << 30)];
    for (width, start, length) in limits {
        for before in [0, 0xff, 0x5a] {
            let (mut model, mut library) = (Model::default(), Library::new(&vec![before; Library::len()]));
            let call = crate::call::Call::Setup { width, start, length };
            let made = random::compare(&mut model, &mut library, &call, vec![]).map(|_| 1);
            note(report, Kind::DirectedLibrary, &format!("directed library: §1.5 fresh bytes of {call:x?}"), made);
            sound(&format!("§1.5 the fresh bytes of {call:x?}"), library.state.content(), report);
        }
    }
}
