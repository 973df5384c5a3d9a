//! The model of docs/DEFINITION.md: parts 1 to 9 and 13, with no thought for speed and with its own way of holding the state.
//! Every rule names its paragraph. The test of the state (§1.3) is not here, but in `state` and `random`: the model has
//! no bytes.

pub mod answer;
pub mod attributes;
pub mod banks;
#[cfg(feature = "restore")]
pub mod described;
#[cfg(feature = "restore")]
pub mod explain;
pub mod frames;
pub mod guest;
#[cfg(feature = "its")]
pub mod its;
#[cfg(feature = "restore")]
pub mod readings;
#[cfg(feature = "restore")]
pub mod restore;
#[cfg(feature = "its")]
pub mod tables;

use crate::call::Call;
use answer::{number, Answer};
pub use guest::Guest;

/// A guest, once it has been set up.
#[derive(Clone, PartialEq, Debug, Default)]
pub struct Model {
    pub guest: Option<Guest>,
}

impl Model {
    /// Makes one call. A call before the first accepted set-up has no meaning here and must not be made.
    pub fn call(&mut self, call: &Call, lent: &mut [u8]) -> i64 {
        if let Call::Setup { width, start, length } = *call {
            return number(Guest::set_up(width, start, length).map(|fresh| {
                self.guest = Some(fresh);
                0
            }));
        }
        let guest = self.guest.as_mut().expect("set-up comes first");
        number(guest.call(call, lent))
    }

    pub fn guest(&self) -> &Guest {
        self.guest.as_ref().expect("set-up comes first")
    }
}

impl Guest {
    fn call(&mut self, call: &Call, lent: &mut [u8]) -> Answer {
        match *call {
            Call::Setup { .. } => unreachable!("set-up makes the guest"),
            Call::VcpuAdd { affinity } => self.add_vcpu(affinity),
            Call::Start => self.set_running(true),
            Call::Stop => self.set_running(false),
            Call::Set { device, group, attribute } => self.set(device, group, attribute, lent),
            Call::Get { device, group, attribute } => self.get(device, group, attribute, lent),
            Call::RedistBase { vcpu } => self.redist_base(vcpu),
            Call::Pending { vcpu, intid } => self.pending(vcpu, intid),
            Call::SetPending { vcpu, intid } => self.set_latch(vcpu, intid, true),
            Call::ClearPending { vcpu, intid } => self.set_latch(vcpu, intid, false),
            Call::Activate { vcpu, intid } => self.set_latch(vcpu, intid, false),
            Call::Line { vcpu, intid, level } => self.line(vcpu, intid, level),
            Call::Trigger { vcpu, intid, word } => self.trigger(vcpu, intid, word),
            #[cfg(feature = "its")]
            _ => self.its_call(call, lent),
        }
    }
}
