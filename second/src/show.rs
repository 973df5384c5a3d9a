//! The second program's own showing program (part 11), from the model alone: no call of the library is made here.

use crate::call::{Call, Device};
use crate::model::guest::PAGE;
use crate::model::its::{Event, Mapping};
use crate::model::{readings, Model};
use std::io::Write;

/// §11.1: where the image lies. Its first page is the device table, its second the collection table.
pub const START: u64 = 0x4000_0000;

/// §11.1.
const VCPUS: u32 = 4;

fn set(device: Device, group: u64, attribute: u64, value: &[u8]) -> (Call, Vec<u8>) {
    (Call::Set { device, group, attribute }, value.to_vec())
}

/// The calls up to placed tables. The frames may lie anywhere: nothing that is shown depends on them.
fn steps(length: u64) -> Vec<(Call, Vec<u8>)> {
    let mut steps = vec![(Call::Setup { width: 40, start: START, length }, vec![])];
    steps.extend((0..VCPUS).map(|affinity| (Call::VcpuAdd { affinity }, vec![])));
    steps.push(set(Device::Vgic, 0, 2, &0x0800_0000u64.to_le_bytes()));
    steps.push(set(Device::Vgic, 0, 3, &0x080a_0000u64.to_le_bytes()));
    steps.push(set(Device::Vgic, 4, 0, &[]));
    steps.push(set(Device::Its, 0, 4, &0x0900_0000u64.to_le_bytes()));
    steps.push(set(Device::Its, 4, 0, &[]));
    let place =
        Call::Place { device_start: START, device_pages: 1, collection_start: START + PAGE, collection_pages: 1 };
    steps.push((place, vec![]));
    steps
}

/// §11.1: the guest, stopped, with its tables placed and nothing mapped.
pub fn placed(length: u64) -> Model {
    let mut model = Model::default();
    for (call, mut value) in steps(length) {
        let answer = model.call(&call, &mut value);
        assert_eq!(answer, 0, "{call:x?} is refused");
    }
    model
}

/// The guest of an image that is read. The model reads bytes in three ways: where they differ, none of them can be held
/// against anything.
pub fn guest_of(image: &[u8]) -> Model {
    let model = placed(image.len() as u64);
    if let Err(note) = readings::agree(model.guest(), image) {
        panic!("the model's readings of the image differ: {note}");
    }
    model
}

/// What restore leaves, or its refusal.
fn restored(image: &[u8]) -> Result<Mapping, i64> {
    let mut model = guest_of(image);
    let answer = model.call(&Call::Restore, &mut image.to_vec());
    if answer == 0 {
        Ok(model.guest().its.mapping.clone())
    } else {
        Err(answer)
    }
}

/// §11.2.
pub fn rows(mapping: &Mapping) -> String {
    let mut lines = vec![format!("collections {}", mapping.collections.len())];
    lines.extend(mapping.collections.iter().map(|(icid, pe)| format!("{icid} {pe}")));
    lines.push(format!("devices {}", mapping.devices.len()));
    lines.extend(mapping.devices.iter().map(|(id, device)| format!("{id} {:x} {}", device.itt, device.bits)));
    lines.push(format!("events {}", mapping.events.len()));
    let row = |((id, number), event): (&(u64, u64), &Event)| format!("{id} {number} {} {}", event.lpi, event.icid);
    lines.extend(mapping.events.iter().map(row));
    lines.join("\n") + "\n"
}

/// §11.1: any other length is refused before a byte is read.
pub fn length_fits(length: usize) -> bool {
    (8192..=65_536).contains(&length) && length % 4096 == 0
}

/// §11.2, §11.3: everything that is written for an image.
pub fn text(image: &[u8]) -> String {
    let shown = if length_fits(image.len()) { restored(image) } else { Err(-14) };
    match shown {
        Ok(mapping) => rows(&mapping),
        Err(number) => format!("refused {number}\n"),
    }
}

/// Writes the text of one file, this program's or that of `explain`. The exit status is 0 for a refused image too, as in
/// §11.5. Other than there it is 1 for a file that cannot be read, so that the scripts see it.
pub fn run(file: &str, text: fn(&[u8]) -> String) -> i32 {
    let written = std::fs::read(file).and_then(|image| std::io::stdout().write_all(text(&image).as_bytes()));
    match written {
        Ok(()) => 0,
        Err(error) => {
            eprintln!("{file}: {error}");
            1
        }
    }
}
