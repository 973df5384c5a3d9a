//! Seeded sequences: each is one guest's life, made on the library and on the model side by side.

#[cfg(feature = "restore")]
mod aim;
mod attributes;
mod calls;
mod damage;
#[cfg(feature = "restore")]
mod explained;
#[cfg(feature = "its")]
mod far;
mod former;
#[cfg(feature = "its")]
mod its;
mod lengths;
mod life;
#[cfg(feature = "restore")]
mod long;
#[cfg(feature = "restore")]
mod memory;
mod observe;
mod pair;
mod pick;
mod plan;
mod special;
mod spoil;
mod taken;

use crate::report::{Kind, Report};
use crate::sides::Library;
use crate::state::sound::CLAUSES;
#[cfg(feature = "its")]
pub use damage::all_refused;
use damage::Tally;
pub use pair::compare;
pub use pair::Pair;
#[cfg(feature = "its")]
pub use taken::each_kind;

/// The default number of calls in sequences.
pub const DEFAULT_CALLS: u64 = 250_000;

/// How far the sequences got: told at the end, so that it is seen if they stop going deep.
#[derive(Default)]
struct Depth {
    sequences: u64,
    calls: u64,
    initialised: u64,
    full_vcpus: u64,
    full_regions: u64,
    tally: Tally,
    special: special::Reach,
    former: former::Reach,
    #[cfg(feature = "its")]
    tables: [u64; 3],
    #[cfg(feature = "its")]
    full_mappings: [u64; 3],
    #[cfg(feature = "its")]
    far: far::Reach,
    #[cfg(feature = "restore")]
    explained: explained::Explained,
}

impl Depth {
    fn count(&mut self, pair: &Pair) {
        self.sequences += 1;
        self.calls += pair.step;
        self.tally.add(&pair.tally);
        self.special.add(&pair.special);
        self.former.add(&pair.former);
        // A difference at the very first set-up leaves no guest.
        let Some(guest) = &pair.model.guest else { return };
        self.initialised += guest.initialised as u64;
        self.full_vcpus += (guest.vcpus.len() == 64) as u64;
        self.full_regions += (guest.frames.regions.len() == 32) as u64;
        #[cfg(feature = "its")]
        self.count_its(pair);
    }

    #[cfg(feature = "its")]
    fn count_its(&mut self, pair: &Pair) {
        for n in 0..3 {
            self.tables[n] += pair.tables[n];
            self.full_mappings[n] += pair.full[n] as u64;
        }
        self.far.add(&pair.far);
        #[cfg(feature = "restore")]
        self.explained.add(&pair.explained);
    }

    fn tell(&self, seed: u64) {
        println!(
            "random: {} calls in {} sequences from seed {seed}; past INIT {}, with 64 VCPUs {}, with 32 regions {}",
            self.calls, self.sequences, self.initialised, self.full_vcpus, self.full_regions
        );
        self.special.tell();
        self.former.tell();
        #[cfg(feature = "its")]
        println!(
            "random: saves {}, restores accepted {} and refused {}; full collections {}, devices {}, events {}",
            self.tables[0],
            self.tables[1],
            self.tables[2],
            self.full_mappings[0],
            self.full_mappings[1],
            self.full_mappings[2]
        );
        #[cfg(feature = "its")]
        self.far.tell();
        #[cfg(feature = "restore")]
        self.explained.tell();
        self.tally.tell();
    }
}

/// Runs sequences from `seed` on until they have made `calls` calls; a hunt ends with the first difference.
pub fn run(seed: u64, calls: u64, hunt: bool, report: &mut Report) {
    let mut depth = Depth::default();
    while depth.calls < calls && !(hunt && report.differs(Kind::Random)) {
        let number = seed + depth.sequences;
        depth.count(&one(number, false, report));
    }
    depth.tell(seed);
    if cfg!(feature = "its") && calls >= DEFAULT_CALLS && !hunt {
        check_reach(&depth.tally, report);
        depth.special.check(report);
        #[cfg(feature = "restore")]
        depth.former.check(report);
        #[cfg(feature = "restore")]
        depth.far.check(report);
        #[cfg(feature = "restore")]
        depth.explained.check(report);
    }
}

/// At the default budget every clause must have been the first broken one, and both verdicts must be common: otherwise the
/// damage has lost its aim.
fn check_reach(tally: &Tally, report: &mut Report) {
    let never = CLAUSES.iter().zip(tally.first).filter(|(_, count)| *count == 0).map(|(clause, _)| clause.0);
    let (sound, all) = (tally.sound, tally.sound + tally.unsound());
    let few = (5 * sound.min(all - sound) < all).then_some("one of the two verdicts");
    let missed: Vec<&str> = never.chain(few).collect();
    match missed.is_empty() {
        true => report.pass(1),
        false => report.fail(Kind::Random, "damage", &format!("not reached often enough: {}", missed.join(", "))),
    }
}

/// Runs one sequence again, telling of each step.
pub fn replay(seed: u64, report: &mut Report) {
    one(seed, true, report);
}

/// The sequence of one seed.
fn one(seed: u64, tell: bool, report: &mut Report) -> Pair {
    let mut pair = Pair::new(seed, tell);
    life::live(&mut pair);
    let damage = pair.tally.sound + pair.tally.unsound() + pair.tally.calls;
    match &pair.difference {
        None => report.pass(pair.step + damage),
        Some(note) => {
            report.pass((pair.step + damage).saturating_sub(1));
            let title = format!("random seed {seed} step {} (second replay {seed})", pair.step);
            report.fail(Kind::Random, &title, note);
        }
    }
    pair
}

/// The guest of `states`: a life of common length, and of a seed that no run comes to.
const STATES: u64 = u64::MAX;

/// §1.3, §1.4: directed cases about the state's bytes, for the library alone: the model has none.
pub fn states(report: &mut Report) {
    let mut pair = one(STATES, false, report);
    if !pair.stands() {
        return;
    }
    let mut note = |title: &str, pair: &mut Pair| match pair.difference.take() {
        None => report.pass(1),
        Some(note) => report.fail(Kind::DirectedLibrary, &format!("directed library: {title}"), &note),
    };
    lengths::every_length(&mut pair);
    note("§1.3, §1.4 a state of the wrong length is -14, and nothing is tested before", &mut pair);
    let live = std::mem::replace(&mut pair.library, Library::new(&vec![0xff; Library::len()]));
    lengths::every_length(&mut pair);
    pair.library = live;
    note("§1.3 the wrong length of a state that is not sound is -14", &mut pair);
    damage::plain_junk(&mut pair);
    note("§1.3, §1.4 a state that is not sound is -22, but set-up does not look at it", &mut pair);
}
