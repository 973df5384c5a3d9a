//! §14.3, §14.12: bytes that are not sound are -22 whatever the call. For each clause there are bytes that break it and no
//! other, which every call must refuse and leave, and beside each its nearest sound neighbour, which must be taken. Places
//! and numbers are written out from §14.2.

use super::case::{with, Case, Put};
use super::note;
use crate::report::{Kind, Report};
use crate::xics::sides::{Both, Library, Model};
use crate::xics::sound::{broken, CLAUSES};
use crate::xics::{each_kind, Call};

/// The sound bytes that are changed.
#[derive(Clone, Copy, Debug, PartialEq)]
enum Base {
    /// 4 servers (7, 0, 2^32 - 1 and 9, to which nothing goes) and 3 sources (5, 0, 2^20 - 1), with other bytes behind.
    Some,
    /// 64 servers from 100 on and 64 sources from 200 on, each to the server of its row.
    Full,
}
use Base::{Full, Some as Few};

fn some() -> Vec<u8> {
    let servers = [(16, 7), (32, 0), (48, 0xffff_ffff), (64, 9)];
    let server_words = [(24, 0xffff_0000), (40, 0x0500_0000_00ff_0000), (56, 0xff10_0000_11fe_0000), (72, 0xffff_0000)];
    let sources = [(1040, 5), (1056, 0), (1072, 0xf_ffff)];
    let source_words = [(1048, 0x2ff_0000_0007), (1064, 0x404_0000_0000), (1080, 0x7ff_ffff_ffff)];
    let rows = [&servers[..], &server_words, &sources, &source_words, &[(0, 4), (8, 3)]].concat();
    with(&[0x5a; 2064], &rows)
}

fn full() -> Vec<u8> {
    let row = |n: usize| {
        let number = n as u64;
        let (server, source) = (16 + 16 * n, 1040 + 16 * n);
        [(server, 100 + number), (server + 8, 0xffff_0000), (source, 200 + number), (source + 8, 100 + number)]
    };
    let rows: Vec<Put> = (0..64).flat_map(row).collect();
    with(&with(&[0x5a; 2064], &rows), &[(0, 64), (8, 64)])
}

impl Base {
    fn bytes(self) -> Vec<u8> {
        if self == Full {
            full()
        } else {
            some()
        }
    }

    /// A server and a source that are registered.
    fn numbers(self) -> (u64, u64) {
        if self == Full {
            (100, 200)
        } else {
            (7, 5)
        }
    }
}

/// The clause's name, the sound bytes that are changed, what breaks the clause, and what does not.
struct Row(&'static str, Base, &'static [Put], &'static [Put]);

const ROWS: &[Row] = &[
    Row("servers most", Full, &[(0, 65)], &[(0, 64)]),
    Row("servers most", Full, &[(0, 128)], &[(0, 64), (8, 0)]),
    Row("servers most", Full, &[(0, (1 << 32) + 64)], &[(0, 63), (8, 63)]),
    Row("servers most", Full, &[(0, (1 << 63) + 64)], &[(0, 1), (8, 1)]),
    Row("servers most", Full, &[(0, u64::MAX)], &[(0, 0), (8, 0)]),
    Row("sources most", Full, &[(8, 65)], &[(8, 64)]),
    Row("sources most", Full, &[(8, 128)], &[(8, 63)]),
    Row("sources most", Full, &[(8, (1 << 32) + 64)], &[(8, 1)]),
    Row("sources most", Full, &[(8, (1 << 63) + 64)], &[(8, 0)]),
    Row("server number", Few, &[(64, 1 << 32)], &[(64, 0xffff_fffe)]),
    Row("server number", Few, &[(64, (1 << 32) + 9)], &[(64, 0x8000_0009)]),
    Row("server number", Few, &[(64, (1 << 63) + 7)], &[(64, 8)]),
    Row("server number", Few, &[(64, u64::MAX)], &[(64, 1 << 20)]),
    Row("server number", Full, &[(1024, 1 << 32), (2056, 100)], &[(1024, 1), (2056, 100)]),
    Row("source number", Few, &[(1072, 1 << 20)], &[(1072, 0xf_fffe)]),
    Row("source number", Few, &[(1072, (1 << 20) + 5)], &[(1072, 6)]),
    Row("source number", Few, &[(1040, (1 << 32) + 5)], &[(1040, 7)]),
    Row("source number", Few, &[(1056, u64::MAX)], &[(1056, 1)]),
    Row("source number", Full, &[(2048, 1 << 20)], &[(2048, 0xf_ffff)]),
    Row("server twice", Few, &[(64, 7)], &[(64, 8)]),
    Row("server twice", Few, &[(64, 0xffff_ffff)], &[(64, 0x7fff_ffff)]),
    Row("server twice", Few, &[(64, 0), (72, 0x0500_0000_00ff_0000)], &[(64, 1), (72, 0x0500_0000_00ff_0000)]),
    Row("server twice", Full, &[(1024, 100), (2056, 100)], &[(1024, 99), (2056, 100)]),
    Row("server twice", Full, &[(1024, 162), (2056, 100)], &[(1024, 164), (2056, 164)]),
    Row("source twice", Few, &[(1072, 5)], &[(1072, 4)]),
    Row("source twice", Few, &[(1056, 5)], &[(1056, 7)]),
    Row("source twice", Few, &[(1072, 0)], &[(1072, 9)]),
    Row("source twice", Full, &[(2048, 200)], &[(2048, 199)]),
    Row("source twice", Full, &[(1040, 263)], &[(1040, 100)]),
    Row("source bits", Few, &[(1048, 0x800_0000_0007)], &[(1048, 0x7ff_0000_0007)]),
    Row("source bits", Few, &[(1080, 0xfff_ffff_ffff)], &[(1080, 0x3ff_ffff_ffff)]),
    Row("source bits", Few, &[(1064, 0x8000_0000_0000_0000)], &[(1064, 0x400_0000_0000)]),
    Row("source bits", Few, &[(1064, 0x0000_1000_0000_0000)], &[(1064, 0x200_0000_0000)]),
    Row("source bits", Full, &[(2056, 0x0001_0000_0000_00a3)], &[(2056, 0x100_0000_00a3)]),
    Row("source destination", Few, &[(1048, 0x2ff_0000_0008)], &[(1048, 0x2ff_0000_0009)]),
    Row("source destination", Few, &[(1048, 0x2ff_0000_0005)], &[(1048, 0x2ff_0000_0000)]),
    Row("source destination", Few, &[(1080, 0x7ff_7fff_ffff)], &[(1080, 0x7ff_ffff_ffff)]),
    Row("source destination", Few, &[(1064, 0x404_8000_0000)], &[(1064, 0x404_0000_0007)]),
    Row("source destination", Few, &[(48, 0xffff_fffe)], &[(48, 0xffff_fffe), (1080, 0x7ff_ffff_fffe)]),
    Row("source destination", Few, &[(1048, 9), (0, 3)], &[(1048, 9), (0, 4)]),
    Row("source destination", Full, &[(0, 63)], &[(0, 63), (8, 63)]),
    Row("source destination", Full, &[(2056, 164)], &[(2056, 162)]),
    Row("source destination", Full, &[(0, 0)], &[(0, 0), (8, 0)]),
    Row("server without a source", Few, &[(24, 0xfffe_0000)], &[(24, 0xffff_0000)]),
    Row("server without a source", Few, &[(24, 0)], &[(24, 0x1_0000_0000)]),
    Row("server without a source", Few, &[(40, 0x0500_0000_007f_0000)], &[(40, 0x0500_0002_007f_0000)]),
    Row("server without a source", Few, &[(56, 0xff00_0000_11fe_0000)], &[(56, 0xff00_0000_11ff_0000)]),
    Row("server without a source", Full, &[(1032, 0xff00_0000)], &[(1032, 0x0080_0000_ff00_0000)]),
    Row("server with a source", Few, &[(24, 0x1_ffff_0000)], &[(24, 0x1_fffe_0000)]),
    Row("server with a source", Few, &[(24, 0x0080_0000_ffff_0000)], &[(24, 0x0080_0000_ff7f_0000)]),
    Row("server with a source", Few, &[(56, 0xff10_0000_11ff_0000)], &[(56, 0xff00_0000_11ff_0000)]),
    Row("server with a source", Full, &[(1032, 0x00ff_ffff_00ff_0000)], &[(1032, 0x00ff_ffff_0000_0000)]),
    Row("server low bits", Few, &[(24, 0xffff_0001)], &[(24, 0xffff_0000)]),
    Row("server low bits", Few, &[(40, 0x0500_0000_00ff_8000)], &[(40, 0x0500_0000_01ff_0000)]),
    Row("server low bits", Few, &[(56, 0xff10_0000_11fe_ffff)], &[(56, 0xff10_0000_11fe_0000)]),
    Row("server low bits", Few, &[(72, 0xffff_00ff)], &[(72, 0x0100_0000_ffff_0000)]),
    Row("server low bits", Full, &[(1032, 0xffff_0100)], &[(1032, 0xffff_0000)]),
];

/// Changes that no rule forbids.
const FREE: &[(&str, Base, &[Put])] = &[
    ("§14.12 as it stands", Few, &[]),
    ("§14.12 as it stands", Full, &[]),
    ("§14.2 a server behind the last, repeated", Few, &[(80, 7), (88, u64::MAX)]),
    ("§14.2 a source behind the last, repeated", Few, &[(1088, 5), (1096, u64::MAX)]),
    ("§14.2 numbers behind the last that are too large", Few, &[(80, u64::MAX), (1088, u64::MAX)]),
    ("§14.2 the last row of either", Few, &[(1024, 7), (1032, 1), (2048, 5), (2056, u64::MAX)]),
    ("§14.12 a source and a server of one number", Few, &[(64, 5), (1072, 7)]),
    ("§14.12 all sources go to one server", Few, &[(1048, 7), (1064, 7), (1080, 7)]),
    ("§14.12 a source number that is not registered", Few, &[(24, 0xff_fffe_0000_0000)]),
    ("§14.12 rows need not rise", Full, &[(16, 163), (1024, 100), (1040, 263), (2048, 200)]),
    ("§14.12 no source at all", Few, &[(8, 0)]),
];

/// The judge says that these clauses are broken and no others.
fn judged(bytes: &[u8], want: &[&str]) -> Result<(), String> {
    let found: Vec<&str> = broken(bytes).into_iter().map(|n| CLAUSES[n].0).collect();
    match found == want {
        true => Ok(()),
        false => Err(format!("the judge finds {found:?} broken")),
    }
}

/// Every kind of call on the bytes is -22 and changes nothing, on each side; set-up is done.
fn refused(c: &mut Case, base: Base, bytes: &[u8]) {
    let (server, source) = base.numbers();
    c.lend(bytes);
    each_kind(server, source).into_iter().for_each(|(call, value)| c.refuse(call, &value, -22));
    c.setup();
}

/// Every kind of call on the bytes is the same on both sides, each on a copy, and none finds a rule broken: asking whether
/// a source from 2^20 on is deliverable is -2.
fn taken(base: Base, bytes: &[u8]) -> Result<(), String> {
    let (server, source) = base.numbers();
    for (call, value) in each_kind(server, source) {
        Both::new(bytes).compare(&call, &value)?;
    }
    match Both::new(bytes).compare(&Call::Deliverable { source: 1 << 20 }, &[])?.0 {
        -2 => Ok(()),
        answer => Err(format!("asking about a source that is not there answers {answer}")),
    }
}

fn sound(title: &str, base: Base, bytes: &[u8], report: &mut Report) {
    note(report, Kind::DirectedModel, title, judged(bytes, &[]));
    note(report, Kind::DirectedLibrary, title, taken(base, bytes));
}

/// A row, with the calls on the library and on the model apart.
fn run_row(n: usize, row: &Row, both: bool, report: &mut Report) {
    let Row(clause, base, wrong, right) = row;
    let title = format!("§14.12 case {n}, \"{clause}\" broken in {base:?} by {wrong:x?}");
    let bytes = with(&base.bytes(), wrong);
    note(report, Kind::DirectedModel, &title, judged(&bytes, &[clause]));
    let body = |c: &mut Case| refused(c, *base, &bytes);
    if both {
        super::run_one(&mut Both::new(&bytes), Kind::DirectedLibrary, &title, &body, report);
    } else {
        super::run_one(&mut Library::new(&bytes), Kind::DirectedLibrary, &title, &body, report);
        super::run_one(&mut Model::new(&bytes), Kind::DirectedModel, &title, &body, report);
    }
    let title = format!("§14.12 case {n}, \"{clause}\" kept in {base:?} by {right:x?}");
    sound(&title, *base, &with(&base.bytes(), right), report);
}

/// A case stands for each clause.
fn check_cases(report: &mut Report) {
    for (clause, _) in CLAUSES {
        let found = if ROWS.iter().any(|row| row.0 == *clause) { Ok(()) } else { Err("no case breaks it".into()) };
        note(report, Kind::DirectedModel, &format!("§14.12 the clause \"{clause}\""), found);
    }
}

fn run_free(report: &mut Report) {
    for (what, base, puts) in FREE {
        let title = format!("{what}, in {base:?} by {puts:x?}");
        sound(&title, *base, &with(&base.bytes(), puts), report);
    }
}

pub fn run(both: bool, report: &mut Report) {
    check_cases(report);
    for (n, row) in ROWS.iter().enumerate() {
        run_row(n, row, both, report);
    }
    run_free(report);
}
