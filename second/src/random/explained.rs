//! What explain answered before the restores of the sequences: told at the end, so that it is seen if a fault is no
//! longer the first one often enough.

use crate::report::{Kind, Report};

/// Each kind of answer (§13.2 to §13.6) and its bits 63:32: the number of the fault and that of the table.
const KINDS: [(&str, i64); 14] = [
    ("before any table", -1),
    ("described", 0),
    ("pe", 0x0101),
    ("repeat", 0x0201),
    ("17th", 0x0301),
    ("next of a device", 0x0402),
    ("size", 0x0502),
    ("33rd", 0x0602),
    ("outside", 0x0702),
    ("overlap", 0x0802),
    ("LPI", 0x0903),
    ("next of an event", 0x0403),
    ("ICID", 0x0a03),
    ("1,025th", 0x0b03),
];

/// At the default budget each kind must have been met so often.
const FEW: u64 = 5;

/// How often each kind was met.
#[derive(Default)]
pub struct Explained([u64; KINDS.len()]);

impl Explained {
    pub fn count(&mut self, explained: i64) {
        if let Some(n) = KINDS.iter().position(|kind| kind.1 == explained >> 32) {
            self.0[n] += 1;
        }
    }

    pub fn add(&mut self, other: &Explained) {
        self.0.iter_mut().zip(other.0).for_each(|(ours, theirs)| *ours += theirs);
    }

    pub fn tell(&self) {
        let told: Vec<String> = KINDS.iter().zip(self.0).map(|(kind, count)| format!("{} {count}", kind.0)).collect();
        println!("random: explained: {}", told.join(", "));
    }

    pub fn check(&self, report: &mut Report) {
        let rare: Vec<&str> = KINDS.iter().zip(self.0).filter(|(_, n)| *n < FEW).map(|(kind, _)| kind.0).collect();
        match rare.is_empty() {
            true => report.pass(1),
            false => report.fail(Kind::Random, "explained", &format!("not named often enough: {}", rare.join(", "))),
        }
    }
}
