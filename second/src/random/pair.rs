//! The library and the model side by side. A sequence stops at the first difference.

use super::damage::{agree, Tally};
#[cfg(feature = "restore")]
use super::explained::Explained;
#[cfg(feature = "its")]
use super::far;
use super::{former, special};
#[cfg(feature = "restore")]
use crate::call::restore_answer;
use crate::call::{Call, ITS_STEPS};
use crate::model::{Guest, Model};
use crate::rng::Rng;
use crate::sides::{Library, Side};
use crate::state::{decode, layout};
use crate::trace;

pub struct Pair {
    pub rng: Rng,
    pub model: Model,
    pub library: Library,
    /// Calls compared so far.
    pub step: u64,
    pub difference: Option<String>,
    /// INTIDs and VCPUs that this sequence comes back to, so that calls meet.
    pub intids: Vec<u64>,
    pub vcpus: Vec<u64>,
    /// What came of the damaged states.
    pub tally: Tally,
    /// INTIDs 1,020 to 1,023 and the words of their bank.
    pub special: special::Reach,
    /// Guests with 256 interrupts that were never set.
    pub former: former::Reach,
    /// The guest's memory, as the last save left it.
    #[cfg(feature = "its")]
    pub memory: Vec<u8>,
    /// Accepted saves and restores, and refused restores that were ready.
    #[cfg(feature = "its")]
    pub tables: [u64; 3],
    /// Whether collections, devices and events were at their limits at some step.
    #[cfg(feature = "its")]
    pub full: [bool; 3],
    /// Events that are far apart.
    #[cfg(feature = "its")]
    pub far: far::Reach,
    /// What explain answered.
    #[cfg(feature = "restore")]
    pub explained: Explained,
    tell: bool,
}

impl Pair {
    pub fn new(seed: u64, tell: bool) -> Pair {
        let mut rng = Rng::new(seed);
        let mut state = vec![0; Library::len()];
        // §1.4: set-up does not look at what the bytes hold.
        match rng.below(4) {
            0 => {}
            1 => state.fill(0xff),
            _ => rng.fill(&mut state),
        }
        Pair::of(rng, Model::default(), &state, tell)
    }

    /// A guest that is there already: the model has taken it over from its bytes.
    pub fn taken(seed: u64, guest: Guest, state: &[u8]) -> Pair {
        let mut pair = Pair::of(Rng::new(seed), Model { guest: Some(guest) }, state, false);
        super::life::draw_focus(&mut pair);
        pair
    }

    fn of(rng: Rng, model: Model, state: &[u8], tell: bool) -> Pair {
        Pair {
            rng,
            model,
            library: Library::new(state),
            step: 0,
            difference: None,
            intids: Vec::new(),
            vcpus: Vec::new(),
            tally: Tally::default(),
            special: special::Reach::default(),
            former: former::Reach::default(),
            #[cfg(feature = "its")]
            memory: Vec::new(),
            #[cfg(feature = "its")]
            tables: [0; 3],
            #[cfg(feature = "its")]
            full: [false; 3],
            #[cfg(feature = "its")]
            far: far::Reach::default(),
            #[cfg(feature = "restore")]
            explained: Explained::default(),
            tell,
        }
    }

    pub fn guest(&self) -> &Guest {
        self.model.guest()
    }

    pub fn stands(&self) -> bool {
        self.difference.is_none()
    }

    /// Makes the call on both sides and compares the answers and the lent bytes. Hands back both where they agree.
    pub fn make(&mut self, call: Call, lent: Vec<u8>) -> Option<(i64, Vec<u8>)> {
        if !self.stands() || (call.is_its_step(&lent) && !ITS_STEPS) {
            return None;
        }
        #[cfg(feature = "restore")]
        if call == Call::Restore {
            return self.explain_and_restore(lent);
        }
        self.make_one(call, lent)
    }

    /// §13.1: no restore without explain right before it, on the same state and memory. What it names must be what the
    /// restore is then refused with (§13.2 to §13.4).
    #[cfg(feature = "restore")]
    fn explain_and_restore(&mut self, memory: Vec<u8>) -> Option<(i64, Vec<u8>)> {
        let (explained, memory) = self.make_one(Call::Explain, memory)?;
        let (restored, memory) = self.make_one(Call::Restore, memory)?;
        self.explained.count(explained);
        if restore_answer(explained) != Some(restored) {
            self.differ(&format!("explain answers {explained:#x}, and the restore behind it {restored}"));
        }
        Some((restored, memory))
    }

    /// The library's state becomes that of a guest with 256 interrupts that were never set (§1.17), and the model takes
    /// the guest over from its bytes.
    pub fn become_former(&mut self) {
        self.library.become_former();
        if self.tell {
            println!("      from here on 256 interrupts, never set");
        }
        match decode::take_over(self.library.state.content()) {
            Ok(guest) => self.model.guest = Some(guest),
            Err(clause) => self.differ(&format!("256 interrupts that were never set: \"{clause}\" is broken")),
        }
    }

    fn make_one(&mut self, call: Call, lent: Vec<u8>) -> Option<(i64, Vec<u8>)> {
        self.step += 1;
        let lent_before = short(&lent);
        let (kind, before) = (special::kind(&call, &lent), former::Count::of(&self.model));
        let result = compare(&mut self.model, &mut self.library, &call, lent);
        if self.tell {
            println!("{:5} {call:x?} lent {lent_before} -> {}", self.step, told(&result));
        }
        #[cfg(feature = "its")]
        self.see_limits();
        match result {
            Ok(agreed) => {
                self.special.count(kind, agreed.0, &self.model);
                self.former.count(before, &call, &agreed.1, agreed.0);
                Some(agreed)
            }
            Err(note) => {
                self.differ(&note);
                None
            }
        }
    }

    #[cfg(feature = "its")]
    fn see_limits(&mut self) {
        let Some(mapping) = self.model.guest.as_ref().map(|guest| &guest.its.mapping) else { return };
        self.full[0] |= mapping.collections.len() == 16;
        self.full[1] |= mapping.devices.len() == 32;
        self.full[2] |= mapping.events.len() == 1024;
    }

    pub fn differ(&mut self, note: &str) {
        if self.stands() {
            self.difference = Some(note.into());
        }
    }

    /// The live state is sound, by the judge and by the library, and holds the model's guest.
    pub fn probe(&mut self) {
        let bytes = self.library.state.content();
        if let Err(note) = agree(bytes, None).and_then(|()| decode::holds(bytes, self.guest())) {
            self.differ(&format!("the live state: {note}"));
        }
    }
}

/// One call on both; the answer and the lent bytes after it, or what differs. After a call that may have changed the
/// state, its bytes must be sound (§1.8) and hold the model's guest, and those behind the last rows must stand (§1.7).
pub fn compare(model: &mut Model, library: &mut Library, call: &Call, lent: Vec<u8>) -> Result<(i64, Vec<u8>), String> {
    trace::asked(library.state.content(), call, &lent);
    let (mut ours, mut theirs) = (lent.clone(), lent);
    let (mut complaints, before) = (Vec::new(), library.state.content().to_vec());
    let want = Side::call(model, call, &mut ours, &mut complaints);
    if let Some(complaint) = complaints.first() {
        return Err(format!("{call:x?}: the model: {complaint}"));
    }
    let answer = library.call(call, &mut theirs, &mut complaints);
    if answer != want {
        return Err(format!("{call:x?} lent {}: library {answer}, model {want}", short(&theirs)));
    }
    if let Some(complaint) = complaints.first() {
        return Err(format!("{call:x?}: {complaint}"));
    }
    if ours != theirs {
        return Err(format!("{call:x?}: lent bytes after it: {}", first_difference(&theirs, &ours)));
    }
    if let (true, Some(guest)) = (answer >= 0 && !call.keeps_state(), &model.guest) {
        let (after, set_up) = (library.state.content(), matches!(call, Call::Setup { .. }));
        decode::holds(after, guest).map_err(|note| format!("after {call:x?}: {note}"))?;
        if !layout::idle_stand(&before, after, set_up) {
            return Err(format!("{call:x?} wrote bytes past the rows in use"));
        }
    }
    trace::expected(want, &ours, library.state.content());
    Ok((answer, theirs))
}

fn told(result: &Result<(i64, Vec<u8>), String>) -> String {
    match result {
        Ok((answer, lent)) => format!("{answer}, lent {}", short(lent)),
        Err(note) => note.clone(),
    }
}

fn short(bytes: &[u8]) -> String {
    if bytes.len() <= 16 {
        format!("{bytes:02x?}")
    } else {
        format!("{} bytes", bytes.len())
    }
}

fn first_difference(library: &[u8], model: &[u8]) -> String {
    let at = library.iter().zip(model).position(|(a, b)| a != b).unwrap_or(0);
    let start = at & !7;
    let end = (start + 8).min(library.len());
    format!("at {start:#x} library {:02x?}, model {:02x?}", &library[start..end], &model[start..end])
}
