//! What a call answers: §2.1 to §2.3.

/// §2.3: the number that is asked for, or 0. A refusal keeps its name up to the very end.
pub type Answer = Result<u64, Refusal>;

/// §2.2, by the reason.
#[derive(Clone, Copy, Debug, PartialEq, Eq)]
pub enum Refusal {
    /// Something named that is not there.
    Missing,
    /// A name that nobody knows (§2.6).
    Unknown,
    /// The guest is not ready for the call.
    NotReady,
    /// A frame's end is above 2^p.
    AboveTop,
    /// One over a limit (§1.6).
    Limit,
    /// Another length than the right one (§2.8, §7.1); an area that leaves memory.
    Outside,
    /// The guest runs, or this is fixed.
    Busy,
    /// Set or mapped before.
    Exists,
    /// VGIC INIT without a VCPU (§3.11); group 0 of the ITS (§2.6).
    NoDevice,
    /// All the rest.
    Invalid,
}

impl Refusal {
    /// §2.2.
    pub fn number(self) -> i64 {
        match self {
            Refusal::Missing => -2,
            Refusal::Unknown => -6,
            Refusal::NotReady => -6,
            Refusal::AboveTop => -7,
            Refusal::Limit => -12,
            Refusal::Outside => -14,
            Refusal::Busy => -16,
            Refusal::Exists => -17,
            Refusal::NoDevice => -19,
            Refusal::Invalid => -22,
        }
    }
}

/// §2.1.
pub fn number(answer: Answer) -> i64 {
    match answer {
        Ok(asked) => asked as i64,
        Err(refusal) => refusal.number(),
    }
}

/// Refuses if the fault is there. Where several stand below each other, the first that applies is the answer (§2.5).
pub fn refuse_if(fault: bool, refusal: Refusal) -> Result<(), Refusal> {
    if fault {
        Err(refusal)
    } else {
        Ok(())
    }
}
