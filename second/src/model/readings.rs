//! The model reads the bytes of a restore in three ways: by the rules of part 8, by the walk of part 9 and by the faults
//! of part 13. None of the three calls another, and here they are held against each other (§10.6, §13.10).

use super::described::described;
use super::guest::Guest;

/// Before any table is read explain must refuse as restore does (§13.2); behind that all three must say the same.
pub fn agree(guest: &Guest, memory: &[u8]) -> Result<(), String> {
    let mut after = guest.clone();
    let restored = after.restore(memory);
    let first = guest.first_fault(memory);
    let by_faults = first.and_then(|first| first.map_or(Ok(0), |named| Err(named.fault.refusal())));
    if restored != by_faults {
        return Err(format!("a restore gives {restored:?}, but the first fault is {first:?}"));
    }
    let Ok(tables) = guest.check_tables(memory.len()) else { return Ok(()) };
    if described(&guest.world(tables, memory)) != restored.ok().map(|_| after.its.mapping) {
        return Err(format!("a restore gives {restored:?}, but the bytes describe something else"));
    }
    Ok(())
}
