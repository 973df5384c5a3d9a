//! INTIDs 1,020 to 1,023, and the words of the bank from 992 on (§4.17), in guests with 1,024 interrupts: told at the
//! end, so that it is seen if accepted calls no longer come there often enough.

use crate::call::{Call, Device};
use crate::model::Model;
use crate::report::{Kind, Report};

/// The calls that name one of the four. Then the words of their bank: a set counts where one of bits 31:28 is up in it.
const KINDS: [&str; 12] = [
    "pending",
    "set",
    "clear",
    "activate",
    "line up",
    "line down",
    "trigger by one of the four",
    "trigger by another INTID",
    "latch word set",
    "latch word got",
    "level word set",
    "level word got",
];

/// At the default budget each kind must have been met so often.
const FEW: u64 = 20;

/// How often each kind was met.
#[derive(Default)]
pub struct Reach([u64; KINDS.len()]);

/// Which of the kinds a call is, if it is accepted and there are 1,024 interrupts.
pub fn kind(call: &Call, lent: &[u8]) -> Option<usize> {
    match *call {
        Call::Pending { intid, .. } => four(intid, 0),
        Call::SetPending { intid, .. } => four(intid, 1),
        Call::ClearPending { intid, .. } => four(intid, 2),
        Call::Activate { intid, .. } => four(intid, 3),
        Call::Line { intid, level, .. } => four(intid, if level == 1 { 4 } else { 5 }),
        Call::Trigger { intid: 1020..=1023, word, .. } if high(word) => Some(6),
        Call::Trigger { intid: 992..=1019, word, .. } if high(word) => Some(7),
        Call::Set { device: Device::Vgic, group, attribute } => set_word(group, attribute, lent),
        Call::Get { device: Device::Vgic, group, attribute } => word(group, attribute).map(|first| first + 1),
        _ => None,
    }
}

fn four(intid: u64, kind: usize) -> Option<usize> {
    (1020..=1023).contains(&intid).then_some(kind)
}

fn high(word: u32) -> bool {
    word >> 28 != 0
}

/// §4.11, §4.15: the kind of a set of the last bank's word that the attribute names; that of a get follows it.
fn word(group: u64, attribute: u64) -> Option<usize> {
    match group {
        1 if attribute as u32 == 0x27c => Some(8),
        7 if attribute as u32 == 992 => Some(10),
        _ => None,
    }
}

fn set_word(group: u64, attribute: u64, lent: &[u8]) -> Option<usize> {
    let stored = u32::from_le_bytes(lent.try_into().ok()?);
    word(group, attribute).filter(|_| high(stored))
}

impl Reach {
    pub fn count(&mut self, kind: Option<usize>, answer: i64, model: &Model) {
        let wide = model.guest.as_ref().is_some_and(|guest| guest.count == 1024);
        if let (Some(n), true) = (kind, answer >= 0 && wide) {
            self.0[n] += 1;
        }
    }

    pub fn add(&mut self, other: &Reach) {
        self.0.iter_mut().zip(other.0).for_each(|(ours, theirs)| *ours += theirs);
    }

    pub fn tell(&self) {
        let told: Vec<String> = KINDS.iter().zip(self.0).map(|(kind, count)| format!("{kind} {count}")).collect();
        println!("random: INTIDs 1,020 to 1,023 of 1,024: {}", told.join(", "));
    }

    pub fn check(&self, report: &mut Report) {
        let rare: Vec<&str> = KINDS.iter().zip(self.0).filter(|(_, n)| *n < FEW).map(|(kind, _)| *kind).collect();
        match rare.is_empty() {
            true => report.pass(1),
            false => report.fail(Kind::Random, "special", &format!("not met often enough: {}", rare.join(", "))),
        }
    }
}
