//! An XICS carried over by the calls: what a get reads of one is set in a second one in which the same numbers are
//! registered, and then both answer the same.

use super::layout::LENGTH;
use super::life::{questions, Life};
use super::sides::Both;
use super::Call;

/// A call on the second XICS, which must be accepted.
fn accepted(life: &mut Life, second: &mut Both, call: Call, value: &[u8]) -> Result<(), String> {
    life.aside += 1;
    match second.compare(&call, value)?.0 {
        0 => Ok(()),
        answer => Err(format!("{call:x?} lent {value:02x?} is {answer} in the second XICS")),
    }
}

/// What both must answer alike, by the library and by the model.
fn alike(life: &mut Life, second: &mut Both, call: Call, value: &[u8]) -> Result<(), String> {
    life.aside += 2;
    let (first, other) = (life.both.compare(&call, value)?, second.compare(&call, value)?);
    match first == other {
        true => Ok(()),
        false => Err(format!("{call:x?} gives {first:x?}, and {other:x?} in the second XICS")),
    }
}

/// §14.9, §14.10: the word that a get reads of the first is one that a set takes in the second.
fn word(life: &mut Life, second: &mut Both, get: Call, set: Call) -> Result<(), String> {
    life.aside += 1;
    let (answer, value) = life.both.compare(&get, &[0x77; 8])?;
    match answer {
        0 => accepted(life, second, set, &value),
        _ => Err(format!("{get:x?} is {answer}")),
    }
}

/// The servers, then the sources, in the order of the first or in any other, each source with any server.
fn registering(life: &mut Life) -> Vec<Call> {
    let mut servers: Vec<u64> = life.xics().servers.iter().map(|row| row.0).collect();
    let mut sources: Vec<u64> = life.xics().sources.iter().map(|row| row.0).collect();
    let rng = &mut life.rng;
    if rng.one_in(2) {
        rng.shuffle(&mut servers);
        rng.shuffle(&mut sources);
    }
    let mut calls: Vec<Call> = servers.iter().map(|server| Call::AddServer { server: *server }).collect();
    calls.extend(sources.into_iter().map(|source| Call::AddSource { source, server: rng.pick(&servers) }));
    calls
}

fn register(life: &mut Life, second: &mut Both) -> Result<(), String> {
    for call in registering(life) {
        accepted(life, second, call, &[])?;
    }
    Ok(())
}

/// Every word, in any order: a source's word does not ask what its server's word is (§14.9).
fn words(life: &mut Life, second: &mut Both) -> Result<(), String> {
    let xics = life.xics();
    let sources = xics.sources.iter().map(|row| (Call::GetSource { source: row.0 }, Call::SetSource { source: row.0 }));
    let servers = xics.servers.iter().map(|row| (Call::GetServer { server: row.0 }, Call::SetServer { server: row.0 }));
    let mut list: Vec<(Call, Call)> = sources.chain(servers).collect();
    life.rng.shuffle(&mut list);
    for (get, set) in list {
        word(life, second, get, set)?;
    }
    Ok(())
}

fn asked(life: &mut Life, second: &mut Both) -> Result<(), String> {
    for call in questions(life.xics()) {
        alike(life, second, call, if call.has_value() { &[0x77; 8] } else { &[] })?;
    }
    Ok(())
}

fn carried(life: &mut Life) -> Result<(), String> {
    let mut bytes = vec![0; LENGTH];
    life.rng.fill(&mut bytes);
    let mut second = Both::new(&bytes);
    accepted(life, &mut second, Call::Setup, &[])?;
    register(life, &mut second)?;
    words(life, &mut second)?;
    asked(life, &mut second)
}

pub fn over(life: &mut Life) {
    match carried(life) {
        Ok(()) => life.carried += 1,
        Err(note) => life.differ(&format!("carried over: {note}")),
    }
}
