//! The two sides of the comparison behind one face: the library with its real bytes, and the model.
//! Both watch what holds around any call: a refusal changes nothing (§2.4), a reader leaves the state.

#[cfg(feature = "restore")]
use crate::call::restore_answer;
use crate::call::{Call, REFUSALS};
use crate::ffi;
#[cfg(feature = "restore")]
use crate::model::readings;
use crate::model::{Guest, Model};
use crate::random;
use crate::state::{decode, former};

pub trait Side {
    /// Makes the call; complaints about broken promises are added to the list.
    fn call(&mut self, call: &Call, lent: &mut [u8], complaints: &mut Vec<String>) -> i64;

    /// All that the side holds now.
    fn held(&self) -> Held;

    /// The guest becomes one with 256 interrupts that were never set (§1.17). No call does this.
    fn become_former(&mut self);
}

/// The library's bytes, the model's guest: what one has not is empty.
pub type Held = (Vec<u8>, Option<Guest>);

/// Bytes with a margin on both sides, so that a write next to them is seen.
#[derive(Clone)]
pub struct Guarded {
    bytes: Vec<u8>,
}

const MARGIN: usize = 64;
const MARGIN_BYTE: u8 = 0xa5;

impl Guarded {
    pub fn new(content: &[u8]) -> Guarded {
        let mut bytes = vec![MARGIN_BYTE; content.len() + 2 * MARGIN];
        bytes[MARGIN..MARGIN + content.len()].copy_from_slice(content);
        Guarded { bytes }
    }

    pub fn content(&self) -> &[u8] {
        &self.bytes[MARGIN..self.bytes.len() - MARGIN]
    }

    pub fn content_mut(&mut self) -> &mut [u8] {
        let end = self.bytes.len() - MARGIN;
        &mut self.bytes[MARGIN..end]
    }

    pub fn margins_stand(&self) -> bool {
        let end = self.bytes.len() - MARGIN;
        self.bytes[..MARGIN].iter().chain(&self.bytes[end..]).all(|byte| *byte == MARGIN_BYTE)
    }
}

/// The library on one lent state.
#[derive(Clone)]
pub struct Library {
    pub state: Guarded,
}

impl Library {
    pub fn new(state: &[u8]) -> Library {
        Library { state: Guarded::new(state) }
    }

    pub fn len() -> usize {
        ffi::state_len().max(0) as usize
    }
}

/// What must hold around a call whatever the state was: an answer of §2.2, §2.3 or §13.6, and nothing changed where
/// nothing may be (§2.4, §2.8, §13.1).
fn around(call: &Call, answer: i64, same_state: bool, same_lent: bool, complaints: &mut Vec<String>) {
    if answer < 0 && !REFUSALS.contains(&answer) {
        complaints.push(format!("answer {answer} is no listed number"));
    }
    if answer > 0 && !call.asks_number() {
        complaints.push(format!("answer {answer} where success is 0"));
    }
    #[cfg(feature = "restore")]
    if *call == Call::Explain && restore_answer(answer).is_none() {
        complaints.push(format!("answer {answer:#x} is no code of a fault"));
    }
    if answer < 0 && !same_state {
        complaints.push("the refusal changed the state".into());
    }
    if answer < 0 && !same_lent {
        complaints.push("the refusal changed the lent bytes".into());
    }
    if call.keeps_state() && !same_state {
        complaints.push("a call that only reads changed the state".into());
    }
    if !call.writes_lent() && !same_lent {
        complaints.push("a call that only reads the lent bytes changed them".into());
    }
}

impl Side for Library {
    fn call(&mut self, call: &Call, lent: &mut [u8], complaints: &mut Vec<String>) -> i64 {
        let state_before = self.state.content().to_vec();
        let mut value = Guarded::new(lent);
        let answer = ffi::call(call, self.state.content_mut(), value.content_mut());
        let same_state = self.state.content() == state_before;
        let same_lent = value.content() == lent;
        around(call, answer, same_state, same_lent, complaints);
        if !self.state.margins_stand() || !value.margins_stand() {
            complaints.push("bytes next to the lent ones were written".into());
        }
        lent.copy_from_slice(value.content());
        answer
    }

    fn held(&self) -> Held {
        (self.state.content().to_vec(), None)
    }

    fn become_former(&mut self) {
        former::make(self.state.content_mut());
    }
}

/// Both at once: answers what they agree on. A difference is a complaint.
pub struct Both {
    pub library: Library,
    pub model: Model,
}

impl Side for Both {
    fn call(&mut self, call: &Call, lent: &mut [u8], complaints: &mut Vec<String>) -> i64 {
        match random::compare(&mut self.model, &mut self.library, call, lent.to_vec()) {
            Ok((answer, after)) => {
                lent.copy_from_slice(&after);
                answer
            }
            Err(note) => {
                complaints.push(note);
                0
            }
        }
    }

    fn held(&self) -> Held {
        (self.library.held().0, self.model.held().1)
    }

    /// From the library's bytes the model takes the guest over. Where it cannot, the two differ from here on.
    fn become_former(&mut self) {
        self.library.become_former();
        if let Ok(guest) = decode::take_over(self.library.state.content()) {
            self.model.guest = Some(guest);
        }
    }
}

impl Side for Model {
    fn call(&mut self, call: &Call, lent: &mut [u8], complaints: &mut Vec<String>) -> i64 {
        let state_before = self.clone();
        let lent_before = lent.to_vec();
        #[cfg(feature = "restore")]
        if *call == Call::Restore {
            complaints.extend(readings::agree(self.guest(), lent).err());
        }
        let answer = Model::call(self, call, lent);
        around(call, answer, *self == state_before, *lent == *lent_before, complaints);
        answer
    }

    fn held(&self) -> Held {
        (Vec::new(), self.guest.clone())
    }

    fn become_former(&mut self) {
        self.guest.as_mut().expect("set-up comes first").become_former();
    }
}
