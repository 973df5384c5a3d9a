//! Whatever the state's bytes say: here all that can be asked is asked of both sides, on copies.

use super::pair::{compare, Pair};
use crate::call::{Call, Device};
use crate::model::Model;
use crate::sides::Library;

type Question = (Call, Vec<u8>);

/// Asks about everything (`deep`), or about what the sequence comes back to.
pub fn look(pair: &mut Pair, deep: bool) {
    if !pair.stands() {
        return;
    }
    let (mut model, mut library) = (pair.model.clone(), pair.library.clone());
    let mut questions = frames(pair);
    questions.extend(marks(pair));
    if pair.guest().initialised {
        // Groups 1 and 5 answer only when stopped (§4.10).
        questions.push((Call::Stop, vec![]));
        let (vcpus, banks) = extent(pair, deep);
        questions.extend(redist_bases(pair));
        for vcpu in &vcpus {
            questions.extend(private_bank(pair, *vcpu, deep));
        }
        for bank in banks {
            questions.extend(shared_bank(pair, bank, deep));
        }
        questions.extend(status_words(pair, &vcpus));
    }
    #[cfg(feature = "its")]
    questions.extend(super::its::questions(pair));
    ask(pair, &mut model, &mut library, questions);
}

fn ask(pair: &mut Pair, model: &mut Model, library: &mut Library, questions: Vec<Question>) {
    for (call, lent) in questions {
        if let Err(note) = compare(model, library, &call, lent) {
            pair.differ(&format!("looking after this step, {note}"));
            return;
        }
    }
}

fn extent(pair: &mut Pair, deep: bool) -> (Vec<u64>, Vec<u64>) {
    if deep {
        // Up to eight VCPUs, each as likely as the others: a bank costs some 45 calls.
        let mut vcpus: Vec<u64> = (0..pair.guest().vcpus.len() as u64).collect();
        pair.rng.shuffle(&mut vcpus);
        vcpus.truncate(8);
        return (vcpus, (1..32).collect());
    }
    let banks = pair.intids.iter().map(|intid| intid / 32).filter(|bank| *bank > 0).take(1).collect();
    // A set-up in between may have left fewer VCPUs than the focus was drawn from.
    (vec![pair.vcpus[0] % pair.guest().vcpus.len() as u64], banks)
}

fn get(device: Device, group: u64, attribute: u64, preset: u64, width: usize) -> Question {
    (Call::Get { device, group, attribute }, preset.to_le_bytes()[..width].to_vec())
}

fn put(group: u64, attribute: u64, word: u32) -> Question {
    (Call::Set { device: Device::Vgic, group, attribute }, word.to_le_bytes().to_vec())
}

fn frames(pair: &Pair) -> Vec<Question> {
    let mut list = vec![
        get(Device::Vgic, 0, 2, 0, 8),
        get(Device::Vgic, 0, 3, 0, 8),
        get(Device::Its, 0, 4, 0, 8),
        get(Device::Vgic, 3, 0, 0, 4),
    ];
    let regions = pair.guest().frames.regions.len() as u64;
    list.extend((0..regions + 1).map(|index| get(Device::Vgic, 0, 5, index, 8)));
    list
}

/// Running, INIT and "set before" show in what these answer. The sides are copies, so the calls do no harm.
fn marks(pair: &Pair) -> Vec<Question> {
    let mut list = vec![get(Device::Vgic, 1, 0x10, 0, 4)];
    if !pair.guest().initialised {
        list.push(put(3, 0, 256));
    }
    list
}

fn redist_bases(pair: &Pair) -> Vec<Question> {
    (0..pair.guest().vcpus.len() as u64 + 1).map(|vcpu| (Call::RedistBase { vcpu }, vec![])).collect()
}

fn status_words(pair: &Pair, vcpus: &[u64]) -> Vec<Question> {
    let affinity = |vcpu: &u64| (pair.guest().vcpus[*vcpu as usize].affinity as u64) << 32;
    vcpus.iter().map(|vcpu| get(Device::Vgic, 5, affinity(vcpu) | 0x10, 0, 4)).collect()
}

/// The banks' words are asked for whole; interrupts one by one, all 32 or every fifth from a place drawn.
fn some_of(pair: &mut Pair, vcpu: u64, first: u64, all: bool) -> Vec<Question> {
    let step = if all { 1 } else { 5 };
    let from = pair.rng.below(step);
    (first + from..first + 32).step_by(step as usize).map(|intid| (Call::Pending { vcpu, intid }, vec![])).collect()
}

/// Latch, level and pending of a bank, then its trigger bits: with every level up and no latch, level interrupts alone
/// are pending.
fn bank_questions(pair: &mut Pair, vcpu: u64, first: u64, latch: (u64, u64), level: u64, deep: bool) -> Vec<Question> {
    let (group, latch) = latch;
    let mut list = vec![get(Device::Vgic, group, latch, 0x55, 4), get(Device::Vgic, 7, level, 0x55, 4)];
    list.extend(some_of(pair, vcpu, first, false));
    list.push(put(group, latch, 0));
    list.push(put(7, level, u32::MAX));
    list.extend(some_of(pair, vcpu, first, deep));
    list
}

fn private_bank(pair: &mut Pair, vcpu: u64, deep: bool) -> Vec<Question> {
    let affinity = (pair.guest().vcpus[vcpu as usize].affinity as u64) << 32;
    bank_questions(pair, vcpu, 0, (5, affinity | 0x10200), affinity, deep)
}

fn shared_bank(pair: &mut Pair, bank: u64, deep: bool) -> Vec<Question> {
    bank_questions(pair, 0, 32 * bank, (1, 0x200 + 4 * bank), 32 * bank, deep)
}
