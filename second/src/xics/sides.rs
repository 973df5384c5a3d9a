//! The two sides of the comparison behind one face: the library on lent bytes, and the model with bytes of its own. Around
//! every call §14.14 is watched: the answer is a listed one, and nothing changes where nothing may.

use super::call::Call;
use super::layout::{self, LENGTH};
use super::model::Xics;
use super::sound::broken;
use crate::ffi;
use crate::model::answer::{number, refuse_if, Answer, Refusal};
use crate::sides::Guarded;
use crate::trace;

pub trait Side {
    /// Makes the call; complaints about broken promises are added to the list.
    fn call(&mut self, call: &Call, value: &mut [u8], complaints: &mut Vec<String>) -> i64;
    /// The lent bytes.
    fn bytes(&self) -> &[u8];
    /// Other bytes are lent from now on.
    fn lend(&mut self, bytes: &[u8]);
}

/// §14.14.
const REFUSALS: [i64; 5] = [-2, -12, -14, -17, -22];

/// What must hold around a call, whatever was lent.
fn around(call: &Call, answer: i64, same_xics: bool, same_value: bool, complaints: &mut Vec<String>) {
    let most = matches!(call, Call::Deliverable { .. }) as i64;
    if answer > most || (answer < 0 && !REFUSALS.contains(&answer)) {
        complaints.push(format!("answer {answer} is no listed number"));
    }
    if (answer < 0 || call.keeps_xics()) && !same_xics {
        complaints.push("a refusal, or a call that only reads, changed the XICS".into());
    }
    if (answer < 0 || !call.writes_value()) && !same_value {
        complaints.push("a refusal, or a call that only reads the value, changed it".into());
    }
}

/// The library on one lent XICS.
pub struct Library {
    xics: Guarded,
}

impl Library {
    pub fn new(bytes: &[u8]) -> Library {
        Library { xics: Guarded::new(bytes) }
    }
}

impl Side for Library {
    fn call(&mut self, call: &Call, value: &mut [u8], complaints: &mut Vec<String>) -> i64 {
        let before = self.xics.content().to_vec();
        let mut lent = Guarded::new(value);
        let answer = ffi::xics_call(call, self.xics.content_mut(), lent.content_mut());
        around(call, answer, self.xics.content() == before, lent.content() == value, complaints);
        if !self.xics.margins_stand() || !lent.margins_stand() {
            complaints.push("bytes next to the lent ones were written".into());
        }
        value.copy_from_slice(lent.content());
        answer
    }

    fn bytes(&self) -> &[u8] {
        self.xics.content()
    }

    fn lend(&mut self, bytes: &[u8]) {
        self.xics = Guarded::new(bytes);
    }
}

/// The model: lent bytes, and the XICS that they hold or the refusal that every call on them gives but set-up.
#[derive(Clone)]
pub struct Model {
    bytes: Vec<u8>,
    pub xics: Result<Xics, Refusal>,
}

/// §14.3: the length, then soundness.
fn taken(bytes: &[u8]) -> Result<Xics, Refusal> {
    refuse_if(bytes.len() != LENGTH, Refusal::Outside)?;
    refuse_if(!broken(bytes).is_empty(), Refusal::Invalid)?;
    Ok(layout::decode(bytes))
}

impl Model {
    pub fn new(bytes: &[u8]) -> Model {
        Model { bytes: bytes.to_vec(), xics: taken(bytes) }
    }

    /// The XICS, where one is known to stand.
    pub fn xics(&self) -> &Xics {
        self.xics.as_ref().expect("a sound XICS")
    }

    /// §14.4. What there is behind the last rows, which is all but the two counts, stays (§14.2).
    fn set_up(&mut self) -> Answer {
        refuse_if(self.bytes.len() != LENGTH, Refusal::Outside)?;
        let none = Xics::default();
        layout::encode(&none, &mut self.bytes);
        self.xics = Ok(none);
        Ok(0)
    }

    fn answer(&mut self, call: &Call, value: &mut [u8]) -> Answer {
        if *call == Call::Setup {
            return self.set_up();
        }
        let xics = self.xics.as_mut().map_err(|refusal| *refusal)?;
        let answer = xics.call(call, value);
        layout::encode(xics, &mut self.bytes);
        answer
    }
}

impl Side for Model {
    fn call(&mut self, call: &Call, value: &mut [u8], complaints: &mut Vec<String>) -> i64 {
        let (bytes, lent) = (self.bytes.clone(), value.to_vec());
        let answer = number(self.answer(call, value));
        around(call, answer, self.bytes == bytes, *value == *lent, complaints);
        answer
    }

    fn bytes(&self) -> &[u8] {
        &self.bytes
    }

    fn lend(&mut self, bytes: &[u8]) {
        *self = Model::new(bytes);
    }
}

/// Both at once: answers what they agree on. A difference is a complaint.
pub struct Both {
    pub library: Library,
    pub model: Model,
}

impl Both {
    pub fn new(bytes: &[u8]) -> Both {
        Both { library: Library::new(bytes), model: Model::new(bytes) }
    }

    /// One call on both; the answer and the value after it, or what differs.
    pub fn compare(&mut self, call: &Call, value: &[u8]) -> Result<(i64, Vec<u8>), String> {
        let (mut ours, mut theirs, mut complaints) = (value.to_vec(), value.to_vec(), Vec::new());
        trace::asked_xics(self.library.bytes(), call, value);
        let want = self.model.call(call, &mut ours, &mut complaints);
        if let Some(complaint) = complaints.first() {
            return Err(format!("{call:x?}: the model: {complaint}"));
        }
        let answer = self.library.call(call, &mut theirs, &mut complaints);
        if answer != want {
            return Err(format!("{call:x?} lent {value:02x?}: library {answer}, model {want}"));
        }
        if let Some(complaint) = complaints.first() {
            return Err(format!("{call:x?}: {complaint}"));
        }
        if ours != theirs {
            return Err(format!("{call:x?}: value after it: library {theirs:02x?}, model {ours:02x?}"));
        }
        self.same_bytes().map_err(|note| format!("after {call:x?} lent {value:02x?}: {note}"))?;
        trace::expected(want, &ours, self.library.bytes());
        Ok((answer, theirs))
    }

    /// All lent bytes are the same, and what they hold is what the model has.
    fn same_bytes(&self) -> Result<(), String> {
        let (theirs, ours) = (self.library.bytes(), self.model.bytes());
        if let Some(at) = (0..theirs.len()).find(|at| theirs[*at] != ours[*at]) {
            return Err(format!("byte {at}: library {:#x}, model {:#x}", theirs[at], ours[at]));
        }
        match taken(theirs) == self.model.xics {
            true => Ok(()),
            false => Err("the bytes do not hold the model's XICS".into()),
        }
    }
}

impl Side for Both {
    fn call(&mut self, call: &Call, value: &mut [u8], complaints: &mut Vec<String>) -> i64 {
        match self.compare(call, value) {
            Ok((answer, after)) => {
                value.copy_from_slice(&after);
                answer
            }
            Err(note) => {
                complaints.push(note);
                0
            }
        }
    }

    fn bytes(&self) -> &[u8] {
        self.library.bytes()
    }

    fn lend(&mut self, bytes: &[u8]) {
        *self = Both::new(bytes);
    }
}
