//! Images for restore with one long next in an ITT. Nothing else in them is a fault, so the answer is known (§9.6): 0
//! where the next leads to an event, else -22.

use super::far::DEVICE_CAP;
use super::its::free_starts;
use super::memory::Image;
use super::pair::Pair;
use crate::model::guest::Area;
use crate::model::its::Tables;

/// The next by its row and column in `Reach::nexts`.
pub struct Long {
    next: usize,
    landing: usize,
}

const EVENT: usize = 0;
const BLANK: usize = 1;
const PAST: usize = 2;

impl Long {
    pub fn check(&self, pair: &mut Pair, answer: i64) {
        pair.far.nexts[self.next][self.landing] += 1;
        if answer != if self.landing == EVENT { 0 } else { -22 } {
            pair.differ("a long next in an ITT has another answer than the page gives");
        }
    }
}

/// One device with an ITT of 15 or 16 bits, if there is room for it, and the one next.
pub fn write_out(pair: &mut Pair, image: &mut Image) -> Option<Long> {
    let areas = [image.tables.devices.area(), image.tables.collections.area()];
    let memory = pair.guest().memory;
    let wish = pair.rng.pick(&[15, 16, 16, 16]);
    let room = |bits: u64| free_starts(memory, &areas, bits);
    let bits = if room(wish).is_empty() { 15 } else { wish };
    let starts = room(bits);
    if starts.is_empty() {
        return None;
    }
    let itt = pair.rng.pick(&starts);
    image.clear_tables();
    image.clear(itt, 1 << bits);
    image.put(image.tables.collections.start, 0, 1 << 63 | 7);
    let id = pair.rng.below(image.tables.devices.entries());
    image.put(image.tables.devices.start, id, 1 << 63 | itt >> 8 << 5 | (bits - 1));
    Some(write_events(pair, image, itt, bits))
}

fn write_events(pair: &mut Pair, image: &mut Image, itt: u64, bits: u64) -> Long {
    let entries = 1 << bits;
    // Nothing but event 0 of 16 bits has room for 65,535.
    let row = if bits == 16 { pair.rng.pick(&[0, 1, 1, 2]) } else { pair.rng.pick(&[0, 0, 1, 2, 2]) };
    let next = [DEVICE_CAP, 65_535, pair.rng.between(DEVICE_CAP + 1, entries - 2)][row];
    // From so many entries the next stays in the ITT.
    let inner = entries.saturating_sub(next);
    let landing = if inner == 0 { PAST } else { pair.rng.pick(&[EVENT, EVENT, BLANK, BLANK, PAST]) };
    let number = match landing {
        PAST => pair.rng.between(inner, entries - 1),
        _ => pair.rng.below(inner) * pair.rng.below(2),
    };
    put_event(pair, image, itt, number, next);
    if number > 0 && pair.rng.one_in(2) {
        let first = pair.rng.below(number);
        put_event(pair, image, itt, first, number - first);
    }
    match landing {
        EVENT => put_event(pair, image, itt, number + next, 0),
        BLANK => image.put(itt, number + next, pair.rng.pick(&[0, 0xffff_0000_0000_ffff])),
        _ => {}
    }
    spoil_unread(pair, image, itt, [number, number + next, entries]);
    Long { next: row, landing }
}

/// Valid entries where none is read (§8.8): jumped over, behind the landing, and behind the ITT, but in no table.
fn spoil_unread(pair: &mut Pair, image: &mut Image, itt: u64, [number, landing, entries]: [u64; 3]) {
    for (from, to) in [(number + 1, landing.min(entries)), (landing + 1, entries)] {
        if from < to && !pair.rng.one_in(3) {
            let between = from + pair.rng.below(to - from);
            put_event(pair, image, itt, between, 0);
        }
    }
    let Tables { devices, collections } = image.tables;
    for index in [entries, landing.max(entries)] {
        let area = Area::new(itt + 8 * index, 8);
        if !devices.area().overlaps(&area) && !collections.area().overlaps(&area) {
            put_event(pair, image, itt, index, 0);
        }
    }
}

fn put_event(pair: &mut Pair, image: &mut Image, itt: u64, number: u64, next: u64) {
    let lpi = pair.rng.between(8192, 65_535);
    image.put(itt, number, next << 48 | lpi << 16 | 7);
}
