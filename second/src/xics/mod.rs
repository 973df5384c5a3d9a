//! Part 14, XICS words: a model of it, the judge of its bytes, and seeded sequences in which both are held against the
//! library. An XICS has nothing to do with a state (§14.1), so that all of it stands apart from the guest's parts. The
//! directed cases are in `directed`.

mod call;
mod carry;
mod damage;
mod each;
pub mod layout;
mod life;
mod model;
mod pick;
mod reach;
pub mod sides;
pub mod sound;
mod spoil;

use crate::report::{Kind, Report};
pub use call::Call;
use damage::Tally;
pub use each::each_kind;
use life::Life;
use reach::Reach;

/// Calls on an XICS for so many calls on a guest.
const FOR_CALLS: u64 = 6;

/// How far the sequences got: told at the end, so that it is seen if they stop going deep.
#[derive(Default)]
struct Depth {
    sequences: u64,
    calls: u64,
    full_servers: u64,
    full_sources: u64,
    full_both: u64,
    carried: u64,
    reach: Reach,
    tally: Tally,
}

impl Depth {
    fn count(&mut self, life: &Life) {
        self.sequences += 1;
        self.calls += life.step;
        self.carried += life.carried;
        self.reach.add(&life.reach);
        self.tally.add(&life.tally);
        let (servers, sources) = life.full;
        self.full_servers += servers as u64;
        self.full_sources += sources as u64;
        self.full_both += (servers && sources) as u64;
    }

    fn tell(&self, seed: u64) {
        println!(
            "xics: {} calls in {} sequences from seed {seed}; with 64 servers {}, 64 sources {}, both {}; carried over {}",
            self.calls, self.sequences, self.full_servers, self.full_sources, self.full_both, self.carried
        );
        self.reach.tell();
        self.tally.tell();
    }

    /// At the default budget all of it must have been met: otherwise the sequences have lost their aim.
    fn check(&self, report: &mut Report) {
        let full = (self.full_both == 0).then_some("64 of both");
        let carried = (self.carried == 0).then_some("carried over");
        let rare: Vec<&str> =
            self.reach.rare().into_iter().chain(self.tally.rare()).chain(full).chain(carried).collect();
        match rare.is_empty() {
            true => report.pass(1),
            false => report.fail(Kind::Random, "xics", &format!("not reached often enough: {}", rare.join(", "))),
        }
    }
}

/// Runs sequences from `seed` on, as many as go with `calls` calls on guests; a hunt ends with the first difference.
pub fn run(seed: u64, calls: u64, hunt: bool, report: &mut Report) {
    let mut depth = Depth::default();
    while depth.calls < calls / FOR_CALLS && !(hunt && report.differs(Kind::Random)) {
        let number = seed + depth.sequences;
        depth.count(&one(number, false, report));
    }
    depth.tell(seed);
    if calls >= crate::random::DEFAULT_CALLS && !hunt {
        depth.check(report);
    }
}

/// Runs one sequence again, telling of each step.
pub fn replay(seed: u64, report: &mut Report) {
    one(seed, true, report);
}

/// The sequence of one seed.
fn one(seed: u64, tell: bool, report: &mut Report) -> Life {
    let mut life = Life::new(seed, tell);
    life::live(&mut life);
    let compared = life.step + life.aside + life.tally.judged();
    match &life.difference {
        None => report.pass(compared),
        Some(note) => {
            report.pass(compared.saturating_sub(1));
            let title = format!("xics seed {seed} step {} (second xics {seed})", life.step);
            report.fail(Kind::Random, &title, note);
        }
    }
    life
}
