//! One call of part 14 with its numbers. The lent XICS and the lent value travel beside it.

#[derive(Clone, Copy, Debug, PartialEq, Eq)]
pub enum Call {
    Setup,
    AddServer { server: u64 },
    AddSource { source: u64, server: u64 },
    SetSource { source: u64 },
    SetServer { server: u64 },
    GetSource { source: u64 },
    GetServer { server: u64 },
    Deliverable { source: u64 },
}

impl Call {
    /// §14.15: getting and asking only read the XICS.
    pub fn keeps_xics(&self) -> bool {
        matches!(self, Call::GetSource { .. } | Call::GetServer { .. } | Call::Deliverable { .. })
    }

    /// §14.11: a get writes its value.
    pub fn writes_value(&self) -> bool {
        matches!(self, Call::GetSource { .. } | Call::GetServer { .. })
    }

    /// §14.9 to §14.11: whether a value is lent.
    pub fn has_value(&self) -> bool {
        self.writes_value() || matches!(self, Call::SetSource { .. } | Call::SetServer { .. })
    }
}
