//! Images for the showing and the explaining program (§11.1, §13.11), always the same, named by what they are. Beside
//! each stands what docs/DEFINITION.md says of it; the paragraphs are named over the functions.
//!
//! A device table of one page has 512 entries and an ITT inside 65,536 bytes at most 4,096, so no chain here can be one
//! that the cap of §7.2 shortens: a next of 16,383 always leaves its table, and so does one of 65,535 in an ITT. What
//! can be reached stands in `devices` and `events`: those values as damage, and the largest distances that fit (511 and
//! 4,095).

mod collections;
mod damage;
mod devices;
mod events;
mod faults;
mod image;
mod lengths;
mod order;
mod places;
mod random;

use crate::{explain, show};
use image::Image;
use std::fs;
use std::io::{Error, Result, Write};
use std::path::Path;

/// What is expected of an image.
enum Want {
    /// §11.2: how many collections, devices and events are shown.
    Counts([usize; 3]),
    /// §11.3.
    Refused(i64),
    /// §11.2: all that is shown.
    Whole(String),
    /// §13.11: the line that explains it.
    Line(String),
    /// Damage at random: nobody wrote the answer out.
    Open,
}

struct Row {
    kind: &'static str,
    name: String,
    bytes: Vec<u8>,
    want: Want,
}

/// The images in the order of their making, and the kind that is being added to.
#[derive(Default)]
struct Set {
    kind: &'static str,
    rows: Vec<Row>,
}

impl Set {
    fn begin(&mut self, kind: &'static str) {
        self.kind = kind;
    }

    fn add(&mut self, name: &str, image: Image, want: Want) {
        self.rows.push(Row { kind: self.kind, name: name.into(), bytes: image.bytes, want });
    }

    fn shown(&mut self, name: &str, image: Image, counts: [usize; 3]) {
        self.add(name, image, Want::Counts(counts));
    }

    fn refused(&mut self, name: &str, image: Image, number: i64) {
        self.add(name, image, Want::Refused(number));
    }

    fn explained(&mut self, name: &str, image: Image, line: &str) {
        self.add(name, image, Want::Line(line.into()));
    }
}

impl Row {
    /// The model must say of the image what is expected: none stands under a wrong name.
    fn agrees(&self) -> bool {
        let text = show::text(&self.bytes);
        let has = |title: &str, count: &usize| text.lines().any(|line| line == format!("{title} {count}"));
        match &self.want {
            Want::Counts(counts) => ["collections", "devices", "events"].iter().zip(counts).all(|(t, n)| has(t, n)),
            Want::Refused(number) => text == format!("refused {number}\n"),
            Want::Whole(whole) => text == *whole,
            Want::Line(line) => explain::text(&self.bytes) == format!("{line}\n"),
            Want::Open => true,
        }
    }

    /// §13.10: what is shown is `described`, and of another image both lines begin with the same refusal.
    fn both_programs_agree(&self) -> bool {
        let (shown, explained) = (show::text(&self.bytes), explain::text(&self.bytes));
        match shown.strip_suffix('\n').filter(|line| line.starts_with("refused ")) {
            Some(refused) => explained.starts_with(&format!("{refused}: ")),
            None => explained == "described\n",
        }
    }

    /// A name that is there already is a fault of the set: one of the two images would be lost.
    fn write(&self, folder: &Path) -> Result<()> {
        let file = format!("{}-{}", self.kind, self.name);
        if !self.agrees() || !self.both_programs_agree() {
            return Err(Error::other(format!("{file}: the model says something else than what is expected")));
        }
        let created = fs::File::create_new(folder.join(&file));
        created.and_then(|mut image| image.write_all(&self.bytes)).map_err(|error| Error::new(error.kind(), file))
    }
}

fn all() -> Set {
    let mut set = Set::default();
    lengths::add(&mut set);
    collections::add(&mut set);
    devices::add(&mut set);
    places::add(&mut set);
    events::add(&mut set);
    order::add(&mut set);
    faults::add(&mut set);
    random::add(&mut set);
    set
}

/// How many images of each kind there are, in the order of their making.
fn tell(set: &Set) {
    let mut kinds: Vec<(&str, usize)> = Vec::new();
    for row in &set.rows {
        match kinds.last_mut() {
            Some((kind, count)) if *kind == row.kind => *count += 1,
            _ => kinds.push((row.kind, 1)),
        }
    }
    let kinds: Vec<String> = kinds.iter().map(|(kind, count)| format!("{kind} {count}")).collect();
    println!("images: {} ({})", set.rows.len(), kinds.join(", "));
}

/// The folder must be a new one, so that no image of another set lies in it.
fn write_all(set: &Set, folder: &Path) -> Result<()> {
    fs::create_dir(folder)?;
    set.rows.iter().try_for_each(|row| row.write(folder))
}

/// Writes the set; the exit status is 0 if all of it was written.
pub fn run(folder: &str) -> i32 {
    let set = all();
    match write_all(&set, Path::new(folder)) {
        Ok(()) => {
            tell(&set);
            0
        }
        Err(error) => {
            eprintln!("{folder}: {error}");
            1
        }
    }
}
