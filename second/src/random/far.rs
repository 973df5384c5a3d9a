//! Events that are far apart: in an ITT a next is the distance itself (§7.2), and one of 16,383 or 65,535 leads where
//! any other does (§9.6). Elsewhere they are rare, so mappings are made for them here, and images in `long`.

use super::its::good_device;
use super::pair::Pair;
use crate::call::Call;
use crate::model::its::Mapping;

/// §7.2: the cap in the device table; in an ITT a number like others.
pub const DEVICE_CAP: u64 = 16_383;

/// How often they were met: saves and accepted restores of events more than 16,383 apart; nexts that a restore judged,
/// of 16,383, of 65,535 and between these, each to an event, onto a blank entry and past the ITT's end.
#[derive(Default)]
pub struct Reach {
    pub saved: u64,
    pub restored: u64,
    pub nexts: [[u64; 3]; 3],
}

impl Reach {
    pub fn add(&mut self, other: &Reach) {
        self.saved += other.saved;
        self.restored += other.restored;
        let theirs = other.nexts.iter().flatten();
        self.nexts.iter_mut().flatten().zip(theirs).for_each(|(ours, theirs)| *ours += theirs);
    }

    pub fn tell(&self) {
        let told =
            |[event, blank, past]: [u64; 3]| format!("{event} to an event, {blank} onto a blank, {past} past the end");
        println!("random: events over 16,383 apart: saves {}, restores accepted {}", self.saved, self.restored);
        let [cap, widest, between] = self.nexts.map(told);
        println!("random: nexts in ITTs: 16,383: {cap}; 65,535: {widest}; between: {between}");
    }

    /// At the default budget all of it must have been met.
    #[cfg(feature = "restore")]
    pub fn check(&self, report: &mut crate::report::Report) {
        let met = self.nexts.iter().flatten().chain([&self.saved, &self.restored]).all(|count| *count > 0);
        match met {
            true => report.pass(1),
            false => report.fail(crate::report::Kind::Random, "events far apart", "not all of it was met"),
        }
    }
}

/// Whether two neighbouring events of a device are more than 16,383 apart.
pub fn apart(mapping: &Mapping) -> bool {
    let keys: Vec<&(u64, u64)> = mapping.events.keys().collect();
    keys.windows(2).any(|pair| pair[0].0 == pair[1].0 && pair[1].1 - pair[0].1 > DEVICE_CAP)
}

/// A device with a large ITT, if there is room for one, and a few events in it.
pub fn map(pair: &mut Pair) {
    let bits = pair.rng.pick(&[15, 16, 16]);
    good_device(pair, bits);
    let large = pair.guest().its.mapping.devices.iter().find(|(_, device)| device.bits == bits);
    let Some(device) = large.map(|(id, _)| *id) else { return };
    pair.make(Call::MapCollection { icid: 5, pe: 0 }, vec![]);
    let last = (1 << bits) - 1;
    let mut events = vec![0, last];
    if pair.rng.one_in(2) {
        let any = pair.rng.below(1 << bits);
        events = (0..4).map(|_| pair.rng.pick(&[0, 1, DEVICE_CAP, DEVICE_CAP + 1, 20_000, last, any])).collect();
    }
    for event in events {
        pair.make(Call::MapEvent { device, event, lpi: 8192 + event % 50_000, icid: 5 }, vec![]);
    }
}
