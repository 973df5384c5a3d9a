//! The second program's own explaining program (§13.11), from the model alone: no call of the library is made here.

use crate::model::explain::{Named, Place};
use crate::show;

/// §13.11: the table and the index in it.
fn table(place: Place) -> (String, u64) {
    match place {
        Place::Collection(index) => ("collection table".into(), index),
        Place::Device(id) => ("device table".into(), id),
        Place::Event { device, number } => (format!("ITT of device {device}"), number),
    }
}

/// §13.11: a fault, behind the answer of a restore.
fn line(Named { place, fault }: Named) -> String {
    let (table, index) = table(place);
    format!("refused {}: {table}, entry {index}: {}", fault.refusal().number(), fault.name())
}

/// §13.11: everything that is written for an image.
pub fn text(image: &[u8]) -> String {
    if !show::length_fits(image.len()) {
        return "refused -14: before any table is read\n".into();
    }
    let model = show::guest_of(image);
    let first = model.guest().first_fault(image).expect("the guest is ready");
    first.map_or("described".into(), line) + "\n"
}
