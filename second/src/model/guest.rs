//! Part 1: the guest, its limits and set-up. Of part 3 the VCPUs.

use super::answer::{refuse_if, Refusal};
use super::banks::{fresh_private, fresh_shared, Irq};
use super::frames::Frames;

/// §1.4, §5.4.
pub const PAGE: u64 = 4096;
/// §1.6.
pub const VCPU_LIMIT: usize = 64;
/// §1.6.
pub const REGION_LIMIT: usize = 32;
/// §1.5.
pub const FRESH_COUNT: u32 = 64;
/// §1.17: what a fresh guest had once. A guest may still have it without having set it.
pub const FORMER_COUNT: u32 = 256;

/// Bytes from `start` up to, not with, `end`. In wide numbers no sum wraps (§2.10).
#[derive(Clone, Copy, Debug, PartialEq, Eq)]
pub struct Area {
    pub start: u128,
    pub end: u128,
}

impl Area {
    pub fn new(start: u64, length: u128) -> Area {
        Area { start: start as u128, end: start as u128 + length }
    }

    /// §3.4.
    pub fn overlaps(&self, other: &Area) -> bool {
        self.start < other.end && other.start < self.end
    }

    /// §2.10: an end at its bound is inside.
    pub fn inside(&self, other: &Area) -> bool {
        other.start <= self.start && self.end <= other.end
    }
}

/// §3.1: affinity, bank and STATUSR.
#[derive(Clone, PartialEq, Debug)]
pub struct Vcpu {
    pub affinity: u32,
    pub irqs: [Irq; 32],
    pub status: u32,
}

/// §1.1: one guest. What its bytes hold (§1.7), in a form of its own.
#[derive(Clone, PartialEq, Debug)]
pub struct Guest {
    pub width: u32,
    pub memory: Area,
    /// As they were added (§3.1).
    pub vcpus: Vec<Vcpu>,
    pub frames: Frames,
    pub initialised: bool,
    pub running: bool,
    pub count: u32,
    pub count_set: bool,
    /// The shared banks, that of INTID 32 first, each with its interrupts (§4.2, §4.17).
    pub shared: Vec<Vec<Irq>>,
    pub status: u32,
    #[cfg(feature = "its")]
    pub its: super::its::Its,
}

impl Guest {
    /// §1.4. The guest that comes out is fresh (§1.5).
    pub fn set_up(width: u64, start: u64, length: u64) -> Result<Guest, Refusal> {
        refuse_if(width < 36 || width > 52, Refusal::Invalid)?;
        refuse_if(start % PAGE != 0, Refusal::Invalid)?;
        refuse_if(length % PAGE != 0, Refusal::Invalid)?;
        refuse_if(length < PAGE || length > 1 << 30, Refusal::Invalid)?;
        let memory = Area::new(start, length as u128);
        refuse_if(memory.end > 1 << width, Refusal::Invalid)?;
        Ok(Guest {
            width: width as u32,
            memory,
            vcpus: Vec::new(),
            frames: Frames::default(),
            initialised: false,
            running: false,
            count: FRESH_COUNT,
            count_set: false,
            shared: fresh_shared(FRESH_COUNT),
            status: 0,
            #[cfg(feature = "its")]
            its: Default::default(),
        })
    }

    /// §1.17: the guest as one that was kept from earlier, with 256 interrupts that were never set. No call does this, so
    /// that the cases need a way. Banks that it had stay as they are, and those that it had not are fresh.
    pub fn become_former(&mut self) {
        let mut banks = fresh_shared(FORMER_COUNT);
        banks.iter_mut().zip(&self.shared).for_each(|(new, old)| new.clone_from(old));
        self.shared = banks;
        self.count = FORMER_COUNT;
        self.count_set = false;
    }

    /// §3.1.
    pub fn add_vcpu(&mut self, affinity: u32) -> super::answer::Answer {
        refuse_if(self.initialised, Refusal::Busy)?;
        refuse_if(self.vcpu_of(affinity).is_some(), Refusal::Invalid)?;
        refuse_if(self.vcpus.len() >= VCPU_LIMIT, Refusal::Limit)?;
        self.vcpus.push(Vcpu { affinity, irqs: fresh_private(), status: 0 });
        Ok(0)
    }

    /// The number of the VCPU with this affinity: there is one at most (§1.12).
    pub fn vcpu_of(&self, affinity: u32) -> Option<usize> {
        self.vcpus.iter().position(|vcpu| vcpu.affinity == affinity)
    }

    /// §3.2.
    pub fn set_running(&mut self, running: bool) -> super::answer::Answer {
        refuse_if(!self.initialised, Refusal::NotReady)?;
        self.running = running;
        Ok(0)
    }

    /// 2^p.
    pub fn top(&self) -> u128 {
        1 << self.width
    }
}
