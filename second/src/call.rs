//! One call of the interface with its numbers. The lent value or memory travels beside it.

#[derive(Clone, Copy, Debug, PartialEq, Eq)]
pub enum Device {
    Vgic,
    Its,
}

#[derive(Clone, Debug, PartialEq, Eq)]
pub enum Call {
    Setup {
        width: u64,
        start: u64,
        length: u64,
    },
    VcpuAdd {
        affinity: u32,
    },
    Start,
    Stop,
    Set {
        device: Device,
        group: u64,
        attribute: u64,
    },
    Get {
        device: Device,
        group: u64,
        attribute: u64,
    },
    RedistBase {
        vcpu: u64,
    },
    Pending {
        vcpu: u64,
        intid: u64,
    },
    SetPending {
        vcpu: u64,
        intid: u64,
    },
    ClearPending {
        vcpu: u64,
        intid: u64,
    },
    Activate {
        vcpu: u64,
        intid: u64,
    },
    Line {
        vcpu: u64,
        intid: u64,
        level: u64,
    },
    Trigger {
        vcpu: u64,
        intid: u64,
        word: u32,
    },
    #[cfg(feature = "its")]
    Place {
        device_start: u64,
        device_pages: u64,
        collection_start: u64,
        collection_pages: u64,
    },
    #[cfg(feature = "its")]
    MapDevice {
        device: u64,
        itt: u64,
        bits: u64,
    },
    #[cfg(feature = "its")]
    UnmapDevice {
        device: u64,
    },
    #[cfg(feature = "its")]
    MapCollection {
        icid: u64,
        pe: u64,
    },
    #[cfg(feature = "its")]
    UnmapCollection {
        icid: u64,
    },
    #[cfg(feature = "its")]
    MapEvent {
        device: u64,
        event: u64,
        lpi: u64,
        icid: u64,
    },
    #[cfg(feature = "its")]
    Discard {
        device: u64,
        event: u64,
    },
    #[cfg(feature = "its")]
    Move {
        device: u64,
        event: u64,
        icid: u64,
    },
    #[cfg(feature = "its")]
    Lookup {
        device: u64,
        event: u64,
    },
    #[cfg(feature = "its")]
    Save,
    #[cfg(feature = "restore")]
    Restore,
    #[cfg(feature = "restore")]
    Explain,
}

impl Call {
    /// Calls that only read the state.
    pub fn keeps_state(&self) -> bool {
        match self {
            Call::Get { .. } | Call::RedistBase { .. } | Call::Pending { .. } => true,
            #[cfg(feature = "its")]
            Call::Lookup { .. } | Call::Save => true,
            #[cfg(feature = "restore")]
            Call::Explain => true,
            _ => false,
        }
    }

    /// Calls that may write what is lent to them: a get its value (§2.8), a save its memory (§7.6).
    pub fn writes_lent(&self) -> bool {
        match self {
            Call::Get { .. } => true,
            #[cfg(feature = "its")]
            Call::Save => true,
            _ => false,
        }
    }

    /// §2.3, §13.3: calls that answer the number that they are asked for; the others answer 0.
    pub fn asks_number(&self) -> bool {
        match self {
            Call::RedistBase { .. } | Call::Pending { .. } => true,
            #[cfg(feature = "its")]
            Call::Lookup { .. } => true,
            #[cfg(feature = "restore")]
            Call::Explain => true,
            _ => false,
        }
    }

    /// ITS INIT and RESET with the empty value: the library may not have them yet.
    pub fn is_its_step(&self, lent: &[u8]) -> bool {
        matches!(self, Call::Set { device: Device::Its, group: 4, attribute: 0 | 4 }) && lent.is_empty()
    }
}

/// Whether ITS INIT and RESET are compared.
pub const ITS_STEPS: bool = cfg!(feature = "its");

/// §2.2.
pub const REFUSALS: [i64; 9] = [-2, -6, -7, -12, -14, -16, -17, -19, -22];

/// §13.4: by a fault's number in a code, less one, what a restore answers that meets it first, and the tables that it
/// can be in (§13.8).
#[cfg(feature = "restore")]
const NAMED: [(i64, &[i64]); 11] = [
    (-22, &[1]),
    (-22, &[1]),
    (-12, &[1]),
    (-22, &[2, 3]),
    (-22, &[2]),
    (-12, &[2]),
    (-14, &[2]),
    (-22, &[2]),
    (-22, &[3]),
    (-22, &[3]),
    (-12, &[3]),
];

/// What a restore must answer where explain has answered this: the same refusal (§13.2), 0 (§13.3), or the number of the
/// fault that the code names (§13.4). None if it is no code of §13.6.
#[cfg(feature = "restore")]
pub fn restore_answer(explained: i64) -> Option<i64> {
    if explained <= 0 {
        return Some(explained);
    }
    let (table, device) = (explained >> 32 & 0xff, explained >> 16 & 0xffff);
    let row = NAMED.get((explained >> 40) as usize - 1)?;
    (row.1.contains(&table) && (table == 3 || device == 0)).then_some(row.0)
}
