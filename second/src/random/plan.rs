//! What a sequence means to set up before INIT, drawn so that most of them get past it.

use super::pair::Pair;
use super::pick;
use super::{attributes, calls, former};
use crate::call::{Call, Device};
use crate::model::guest::Area;

#[derive(Clone, Copy)]
enum Step {
    Vcpu,
    Count,
    Distributor,
    Single,
    Region(u64),
    Its,
}

const K64: u64 = 0x1_0000;
const K128: u64 = 0x2_0000;

pub struct Plan {
    steps: Vec<Step>,
    vcpus: u64,
    /// Keeps room for the whole single run, so that INIT finds it.
    careful: bool,
    /// One call in so many is not of the plan.
    noise: u64,
}

impl Plan {
    pub fn draw(pair: &mut Pair) -> Plan {
        let rng = &mut pair.rng;
        let vcpus = match rng.below(20) {
            0..=3 => 1,
            4..=11 => rng.between(2, 4),
            12..=15 => rng.between(5, 16),
            16 => rng.between(17, 63),
            17..=18 => 64,
            _ => 66,
        };
        let mut steps = vec![Step::Vcpu; vcpus as usize];
        steps.extend(draw_places(pair, vcpus));
        let unset = if former::Count::of(&pair.model).is_some_and(|guest| guest.former()) { 2 } else { 3 };
        let rng = &mut pair.rng;
        if rng.one_in(2) {
            steps.push(Step::Its);
        }
        // So that enough of both go to INIT: 64 are left unset by one plan in three, 256 by one in two.
        if !rng.one_in(unset) {
            steps.push(Step::Count);
        }
        if rng.one_in(2) {
            rng.shuffle(&mut steps);
        }
        let noise = rng.pick(&[2, 4, 8, 30]);
        Plan { steps, vcpus: vcpus.min(64), careful: !rng.one_in(4), noise }
    }

    /// Makes the steps, other calls between them, and INIT at the end, repaired where it is refused.
    pub fn make(&self, pair: &mut Pair) {
        for step in &self.steps {
            while pair.rng.one_in(self.noise) {
                let (call, lent) = calls::any(pair);
                pair.make(call, lent);
            }
            self.make_step(*step, pair);
        }
        for _ in 0..4 {
            init(pair);
            if pair.guest().initialised || !pair.stands() {
                return;
            }
            self.repair(pair);
        }
    }

    fn make_step(&self, step: Step, pair: &mut Pair) {
        match step {
            Step::Vcpu => {
                let affinity = fresh_affinity(pair);
                pair.make(Call::VcpuAdd { affinity }, vec![]);
            }
            Step::Count => set_count(pair),
            Step::Distributor => self.set_base(pair, Device::Vgic, 2, K64),
            Step::Single => {
                let size = if self.careful { self.vcpus * K128 } else { K128 };
                self.set_base(pair, Device::Vgic, 3, size);
            }
            Step::Its => self.set_base(pair, Device::Its, 4, K128),
            Step::Region(count) => self.add_region(pair, count),
        }
    }

    /// A base that is free; where the plan is careful, with room for the whole single run.
    fn find_base(&self, pair: &mut Pair, size: u64) -> u64 {
        for _ in 0..20 {
            let Some(base) = pick::free_base(pair, size) else { break };
            let whole = pair.guest().frames.single.map(|single| Area::new(single, (self.vcpus * K128) as u128));
            let meets = whole.is_some_and(|whole| whole.overlaps(&Area::new(base, size as u128)));
            if !self.careful || !meets {
                return base;
            }
        }
        pick::base(pair, size)
    }

    fn set_base(&self, pair: &mut Pair, device: Device, attribute: u64, size: u64) {
        let base = self.find_base(pair, size);
        pair.make(Call::Set { device, group: 0, attribute }, base.to_le_bytes().to_vec());
    }

    fn add_region(&self, pair: &mut Pair, count: u64) {
        let index = pair.guest().frames.regions.len() as u64;
        let base = self.find_base(pair, count * K128) & 0x000f_ffff_ffff_0000;
        let word = count << 52 | base | index;
        pair.make(Call::Set { device: Device::Vgic, group: 0, attribute: 5 }, word.to_le_bytes().to_vec());
    }

    /// INIT was refused: gives it what it misses, one thing at a time.
    fn repair(&self, pair: &mut Pair) {
        let guest = pair.guest();
        let sum: u64 = guest.frames.regions.iter().map(|region| region.count).sum();
        let missing = (guest.vcpus.len() as u64).saturating_sub(sum);
        if guest.vcpus.is_empty() {
            self.make_step(Step::Vcpu, pair);
        } else if guest.frames.distributor.is_none() {
            self.set_base(pair, Device::Vgic, 2, K64);
        } else if guest.frames.single.is_none() && missing > 0 {
            self.add_region(pair, missing);
        }
    }
}

/// Where the redistributors go: the single run, or regions whose counts sum to about the VCPUs.
fn draw_places(pair: &mut Pair, vcpus: u64) -> Vec<Step> {
    let rng = &mut pair.rng;
    let mut steps = vec![Step::Distributor];
    match rng.below(10) {
        0..=4 => steps.push(Step::Single),
        5 => steps.extend((0..33).map(|_| Step::Region(1 + vcpus / 32))),
        6 => steps.push(Step::Region(rng.between(vcpus, 4095))),
        _ => {
            let mut left = vcpus;
            while left > 0 {
                let count = rng.between(1, left);
                steps.push(Step::Region(count));
                left -= count;
            }
        }
    }
    if rng.one_in(2) {
        rng.shuffle(&mut steps);
    }
    steps
}

/// An affinity that no VCPU has: close to the others or far.
fn fresh_affinity(pair: &mut Pair) -> u32 {
    loop {
        let affinity = match pair.rng.below(3) {
            0 => pair.guest().vcpus.len() as u32,
            1 => pair.rng.below(256) as u32 | (pair.rng.below(256) as u32) << 24,
            _ => pair.rng.word(),
        };
        if pair.guest().vcpu_of(affinity).is_none() {
            return affinity;
        }
    }
}

/// Counts at a border: the smallest, which a fresh guest has unset; 256, which it had once (§1.17); the largest (§4.17).
fn set_count(pair: &mut Pair) {
    let number = pair.rng.pick(&[64, 64, 96, 128, 256, 256, 256, 288, 512, 992, 1024, 1024, 1024, 1024, 1024, 1024]);
    let number = if pair.rng.one_in(3) { 32 * pair.rng.between(2, 32) } else { number } as u32;
    pair.make(Call::Set { device: Device::Vgic, group: 3, attribute: 0 }, number.to_le_bytes().to_vec());
}

pub fn init(pair: &mut Pair) {
    pair.make(Call::Set { device: Device::Vgic, group: 4, attribute: 0 }, vec![]);
}

/// A frame set after INIT, when the single run counts whole.
pub fn late_frame(pair: &mut Pair) {
    let (call, lent) = attributes::addresses(pair);
    pair.make(call, lent);
}
