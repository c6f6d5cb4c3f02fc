//! Stored rules, one that answers as the standard one does and one that refuses memory, and tables of them.

use play_meaning::ActionNow;
use standard_rules::{HostAnswer, HostCall, HostRule, HostTable, standard};
use std::alloc::{AllocError, Global};
use std::test::Fail;
use world_store::World;

/// The stored rule of a number that answers as the standard one does.
pub(crate) fn stored(alloc: Global, id: u8) -> Result<HostRule, AllocError> {
    let call: HostCall = Box::new(
        alloc,
        move |alloc: Global, world: &World, now: &ActionNow| -> Result<HostAnswer, AllocError> {
            standard(alloc, id, world, now)
        },
    )?;
    Ok(HostRule::new(id, call))
}

/// The stored rule of a number that always answers want of memory.
pub(crate) fn refused(alloc: Global, id: u8) -> Result<HostRule, AllocError> {
    let call: HostCall = Box::new(
        alloc,
        |_alloc: Global, world: &World, now: &ActionNow| -> Result<HostAnswer, AllocError> {
            Err(AllocError)
        },
    )?;
    Ok(HostRule::new(id, call))
}

/// A table of the first rules, so many.
pub(crate) fn table_of(alloc: Global, count: u8) -> Result<HostTable, Fail> {
    let mut table = HostTable::new(alloc);
    for number in 0..count {
        let rule = stored(alloc, number + 1)?;
        table.add(rule)?;
    }
    Ok(table)
}

/// A table of all rules, of which that of a number refuses memory.
pub(crate) fn table_refusing(alloc: Global, refusing: u8) -> Result<HostTable, Fail> {
    let mut table = HostTable::new(alloc);
    for id in 1..62u8 {
        let rule = if id == refusing {
            refused(alloc, id)?
        } else {
            stored(alloc, id)?
        };
        table.add(rule)?;
    }
    Ok(table)
}
