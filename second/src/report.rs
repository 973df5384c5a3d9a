//! Counts what passed and what failed, and prints the first differences.

/// More than this many of a kind are counted, but not printed.
const PRINTED: u64 = 10;

/// Which part of the program saw a difference.
#[derive(Clone, Copy, PartialEq, Eq)]
pub enum Kind {
    DirectedLibrary,
    DirectedModel,
    Random,
}

#[derive(Default)]
pub struct Report {
    passed: u64,
    failed: [u64; 3],
}

impl Report {
    pub fn pass(&mut self, count: u64) {
        self.passed += count;
    }

    pub fn fail(&mut self, kind: Kind, title: &str, note: &str) {
        let failed = &mut self.failed[kind as usize];
        *failed += 1;
        if *failed <= PRINTED {
            println!("difference: {title}\n  {note}");
        }
    }

    pub fn differs(&self, kind: Kind) -> bool {
        self.failed[kind as usize] > 0
    }

    /// The last lines of every run, and its exit status.
    pub fn close(&self) -> i32 {
        let [library, model, random] = self.failed;
        let failed = library + model + random;
        if failed > 0 {
            println!("differences: {library} directed library, {model} directed model, {random} random");
        }
        println!("second: {} passed, {failed} failed", self.passed);
        (failed > 0) as i32
    }
}
