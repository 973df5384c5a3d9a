//! Images that the model's save (§7.6) made of random mappings: as they are, with other bytes where nothing is read
//! (§8.8), and damaged.

use super::damage::{spoil_bit, spoil_entry, spoil_field, spoil_unread};
use super::image::{Image, ROOM};
use super::{Set, Want};
use crate::call::Call;
use crate::model::guest::PAGE;
use crate::model::its::Mapping;
use crate::model::Model;
use crate::rng::Rng;
use crate::show::{self, START};

/// How many images of each kind there are.
const SAVED: u64 = 40;
const UNREAD: u64 = 30;
const BITS: u64 = 60;
const FIELDS: u64 = 60;
const ENTRIES: u64 = 30;

/// An image and the mapping whose save made it.
pub struct Saved {
    pub image: Image,
    pub mapping: Mapping,
}

type Spoil = fn(&mut Rng, &mut Saved);

pub fn add(set: &mut Set) {
    spoilt(set, "random-saved", SAVED, 1000, |_, _| (), whole);
    spoilt(set, "random-unread", UNREAD, 2000, spoil_unread, whole);
    spoilt(set, "random-bit", BITS, 3000, spoil_bit, |_| Want::Open);
    spoilt(set, "random-field", FIELDS, 4000, spoil_field, |_| Want::Open);
    spoilt(set, "random-entry", ENTRIES, 5000, spoil_entry, |_| Want::Open);
}

/// §10.8: what was saved is shown, whatever stands where nothing is read.
fn whole(saved: &Saved) -> Want {
    Want::Whole(show::rows(&saved.mapping))
}

fn spoilt(set: &mut Set, kind: &'static str, count: u64, seed: u64, spoil: Spoil, want: fn(&Saved) -> Want) {
    set.begin(kind);
    for n in 0..count {
        let mut rng = Rng::new(seed + n);
        let mut saved = make(&mut rng);
        spoil(&mut rng, &mut saved);
        let want = want(&saved);
        set.add(&format!("{n:03}"), saved.image, want);
    }
}

/// A command that must be accepted: the maker asks for nothing else.
fn command(model: &mut Model, call: Call) {
    let answer = model.call(&call, &mut []);
    assert_eq!(answer, 0, "{call:x?} is refused");
}

/// Most images are short. What a save leaves alone (§7.6) is junk now and then.
fn make(rng: &mut Rng) -> Saved {
    let pages = rng.pick(&[3, 3, 3, 3, 3, 3, 3, 3, 4, 4, 5]);
    let mut model = show::placed(pages * PAGE);
    map_collections(rng, &mut model);
    map_devices(rng, &mut model, pages);
    map_events(rng, &mut model);
    let mut image = Image::blank(pages);
    if rng.one_in(3) {
        rng.fill(&mut image.bytes);
    }
    assert_eq!(model.call(&Call::Save, &mut image.bytes), 0, "save is refused");
    Saved { image, mapping: model.guest().its.mapping.clone() }
}

/// One that is mapped takes the new pe (§5.8), so that fewer than asked for may come out.
fn map_collections(rng: &mut Rng, model: &mut Model) {
    for _ in 0..rng.pick(&[1, 2, 3, 5, 10, 16]) {
        let icid = if rng.one_in(2) { rng.below(65_536) } else { rng.below(40) };
        let pe = rng.below(4);
        command(model, Call::MapCollection { icid, pe });
    }
}

/// Distinct IDs: close together, or anywhere in the page.
fn device_ids(rng: &mut Rng) -> Vec<u64> {
    let count = rng.pick(&[1, 2, 2, 3, 5, 8, 16, 32]);
    let span = rng.pick(&[count, count + 5, 100, 512]).max(count);
    let first = rng.below(512 - span + 1);
    let mut ids: Vec<u64> = (first..first + span).collect();
    rng.shuffle(&mut ids);
    ids.truncate(count as usize);
    ids
}

/// ITTs rise in an order that is not the IDs', up to the first that does not fit any more.
fn map_devices(rng: &mut Rng, model: &mut Model, pages: u64) {
    let ids = device_ids(rng);
    let largest = if ids.len() > 8 { 5 } else { 8 };
    let mut itt = ROOM + 0x100 * rng.below(2);
    for device in ids {
        let bits = rng.between(1, largest);
        let after = (itt + (8 << bits)).next_multiple_of(0x100);
        if after > START + pages * PAGE {
            return;
        }
        command(model, Call::MapDevice { device, itt, bits });
        itt = after + 0x100 * rng.pick(&[0, 0, 0, 1]);
    }
}

fn map_events(rng: &mut Rng, model: &mut Model) {
    let devices = model.guest().its.mapping.devices.clone();
    for (id, device) in devices {
        map_events_of(rng, model, id, device.bits);
    }
}

/// Few events or a full ITT; 32 devices of at most 32 events, or 8 of at most 128 in three to five pages, stay in the limit.
fn map_events_of(rng: &mut Rng, model: &mut Model, device: u64, bits: u64) {
    let icids: Vec<u64> = model.guest().its.mapping.collections.keys().copied().collect();
    let mut numbers: Vec<u64> = (0..1 << bits).collect();
    rng.shuffle(&mut numbers);
    numbers.truncate(rng.pick(&[0, 1, 1, 2, 4, 8, 32, 128]));
    for event in numbers {
        let lpi = rng.between(8192, 65_535);
        let icid = rng.pick(&icids);
        command(model, Call::MapEvent { device, event, lpi, icid });
    }
}
