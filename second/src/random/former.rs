//! Guests with 256 interrupts that were never set (§1.17): some lives go on from the bytes of one. How far they got, and
//! with which counts INIT was done, is told at the end, so that it is seen if one of them is no longer met often enough.

use super::calls;
use super::pair::Pair;
use crate::call::{Call, Device};
use crate::model::guest::{FORMER_COUNT, FRESH_COUNT};
use crate::model::Model;
#[cfg(feature = "restore")]
use crate::report::{Kind, Report};

/// After set-up one guest in three was kept from earlier. A third of these go on as they are. With the others comes first
/// what the plan of a life would seldom do: another set-up (§1.4), or a set of the count, taken or refused (§3.14).
pub fn begin(pair: &mut Pair) {
    if !pair.rng.one_in(3) {
        return;
    }
    pair.become_former();
    match pair.rng.below(6) {
        0 => {
            let call = calls::good_setup(pair);
            pair.make(call, vec![]);
        }
        1 => set_count(pair, FRESH_COUNT),
        2 => set_count(pair, FORMER_COUNT),
        3 => {
            let number = pair.rng.pick(&[0, 32, 63, 65, 255, 257, 1056, u32::MAX]);
            set_count(pair, number);
        }
        _ => {}
    }
}

fn set_count(pair: &mut Pair, number: u32) {
    pair.make(Call::Set { device: Device::Vgic, group: 3, attribute: 0 }, number.to_le_bytes().to_vec());
}

/// Past INIT one more in twelve is found to be such a guest, whatever its count was, with its banks as they stand.
pub fn found(pair: &mut Pair) {
    if pair.stands() && pair.guest().initialised && pair.rng.one_in(12) {
        pair.become_former();
    }
}

/// Calls on a guest with 256 that were never set, accepted but where they are said to be refused; then the counts with
/// which INIT was done.
const KINDS: [&str; 18] = [
    "calls before INIT",
    "calls after INIT",
    "to INTIDs 32 to 63",
    "to INTIDs 64 to 255",
    "to INTIDs from 256 on",
    "count read",
    "count set to 64",
    "count set to 256",
    "count set to another",
    "count refused before INIT",
    "count refused after INIT",
    "set-up over one",
    "INIT with 256 never set",
    "INIT with 64 never set",
    "INIT with 64 set",
    "INIT with 256 set",
    "INIT with another count",
    "INTIDs from 64 on of 64 never set",
];

/// The same of the ITS.
#[cfg(feature = "its")]
const ITS_KINDS: [&str; 5] = ["commands", "lookups", "saves", "restores", "RESETs"];

/// At the default budget each kind must have been met so often.
#[cfg(feature = "restore")]
const FEW: u64 = 20;

/// How often each kind was met.
#[derive(Default)]
pub struct Reach {
    met: [u64; KINDS.len()],
    #[cfg(feature = "its")]
    its: [u64; ITS_KINDS.len()],
}

/// A guest's count as it stands before a call.
#[derive(Clone, Copy)]
pub struct Count {
    count: u32,
    set: bool,
    initialised: bool,
}

impl Count {
    pub fn of(model: &Model) -> Option<Count> {
        let guest = model.guest.as_ref()?;
        Some(Count { count: guest.count, set: guest.count_set, initialised: guest.initialised })
    }

    pub fn former(&self) -> bool {
        self.count == FORMER_COUNT && !self.set
    }

    /// The kind of an accepted INIT.
    fn at_init(&self) -> usize {
        match (self.count, self.set) {
            (FORMER_COUNT, false) => 12,
            (FRESH_COUNT, false) => 13,
            (FRESH_COUNT, true) => 14,
            (FORMER_COUNT, true) => 15,
            _ => 16,
        }
    }
}

/// The INTID that a call names, if it does.
fn intid_of(call: &Call) -> Option<u64> {
    match *call {
        Call::Pending { intid, .. }
        | Call::SetPending { intid, .. }
        | Call::ClearPending { intid, .. }
        | Call::Activate { intid, .. }
        | Call::Line { intid, .. }
        | Call::Trigger { intid, .. } => Some(intid),
        _ => None,
    }
}

/// The kind of an accepted set of the count.
fn set_kind(lent: &[u8]) -> usize {
    match u32::from_le_bytes(lent.try_into().expect("4 bytes")) {
        FRESH_COUNT => 6,
        FORMER_COUNT => 7,
        _ => 8,
    }
}

impl Reach {
    pub fn count(&mut self, before: Option<Count>, call: &Call, lent: &[u8], answer: i64) {
        let Some(before) = before else { return };
        if before.former() {
            self.count_former(before, call, lent, answer);
        }
        let init = matches!(call, Call::Set { device: Device::Vgic, group: 4, .. });
        if answer == 0 && init && !before.initialised {
            self.met[before.at_init()] += 1;
        }
        let absent = intid_of(call).is_some_and(|intid| intid >= FRESH_COUNT as u64);
        if answer >= 0 && absent && before.count == FRESH_COUNT && !before.set {
            self.met[17] += 1;
        }
    }

    fn count_former(&mut self, before: Count, call: &Call, lent: &[u8], answer: i64) {
        let count = matches!(call, Call::Set { device: Device::Vgic, group: 3, attribute: 0 });
        if answer < 0 {
            if count {
                self.met[if before.initialised { 10 } else { 9 }] += 1;
            }
            return;
        }
        self.met[before.initialised as usize] += 1;
        match *call {
            Call::Set { device: Device::Vgic, group: 3, .. } => self.met[set_kind(lent)] += 1,
            Call::Get { device: Device::Vgic, group: 3, .. } => self.met[5] += 1,
            Call::Setup { .. } => self.met[11] += 1,
            _ => {}
        }
        match intid_of(call) {
            Some(32..=63) => self.met[2] += 1,
            Some(64..=255) => self.met[3] += 1,
            Some(256..) => self.met[4] += 1,
            _ => {}
        }
        #[cfg(feature = "its")]
        self.count_its(call);
    }

    #[cfg(feature = "its")]
    fn count_its(&mut self, call: &Call) {
        match call {
            Call::Lookup { .. } => self.its[1] += 1,
            Call::Save => self.its[2] += 1,
            #[cfg(feature = "restore")]
            Call::Restore => self.its[3] += 1,
            Call::Set { device: Device::Its, group: 4, attribute: 4 } => self.its[4] += 1,
            Call::MapDevice { .. }
            | Call::UnmapDevice { .. }
            | Call::MapCollection { .. }
            | Call::UnmapCollection { .. }
            | Call::MapEvent { .. }
            | Call::Discard { .. }
            | Call::Move { .. } => self.its[0] += 1,
            _ => {}
        }
    }

    pub fn add(&mut self, other: &Reach) {
        self.met.iter_mut().zip(other.met).for_each(|(ours, theirs)| *ours += theirs);
        #[cfg(feature = "its")]
        self.its.iter_mut().zip(other.its).for_each(|(ours, theirs)| *ours += theirs);
    }

    /// Each kind and how often it was met.
    fn all(&self) -> Vec<(&'static str, u64)> {
        let all = KINDS.into_iter().zip(self.met);
        #[cfg(feature = "its")]
        let all = all.chain(ITS_KINDS.into_iter().zip(self.its));
        all.collect()
    }

    pub fn tell(&self) {
        let told: Vec<String> = self.all().iter().map(|(kind, count)| format!("{kind} {count}")).collect();
        println!("random: 256 never set, and counts at INIT: {}", told.join(", "));
    }

    #[cfg(feature = "restore")]
    pub fn check(&self, report: &mut Report) {
        let rare: Vec<&str> = self.all().iter().filter(|(_, n)| *n < FEW).map(|(kind, _)| *kind).collect();
        match rare.is_empty() {
            true => report.pass(1),
            false => report.fail(Kind::Random, "256 never set", &format!("not met often enough: {}", rare.join(", "))),
        }
    }
}
