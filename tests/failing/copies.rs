//! Copies of a store of which one allocation is refused: first the first one, then the second,
//! until a copy makes no more.

use crate::memory::{must_be_refused, refusals_begin, refusals_end};
use crate::opened::{InMemory, Script, Shown, new_engine, opened};
use memory_store::open_in_memory;
use period_core::Refusal;
use std::alloc::Global;
use std::test::Fail;

// Copies a store with the N-th allocation refused. The store is as it was, and a copy that is not
// refused opens and shows the same. Whether an allocation was refused.
fn copy_refused(
    alloc: Global,
    engine: &mut InMemory,
    wanted: &Shown,
    first: u64,
) -> Result<bool, Fail> {
    let mut copy = open_in_memory(alloc)?;
    refusals_begin(first, 1, 1);
    let result = engine.copy_into(alloc, &mut copy);
    let refused = refusals_end();
    if !Shown::of(alloc, engine)?.is(wanted) {
        return Err("a copy changes its store")?;
    }
    match result {
        Ok(()) => {
            let mut other = opened(alloc, copy)?;
            if !Shown::of(alloc, &mut other)?.is(wanted) {
                return Err("a copy shows something else")?;
            }
        }
        Err(Refusal::Memory) if refused > 0 => {}
        Err(_) => return Err("a copy is refused otherwise")?,
    }
    Ok(refused > 0)
}

/// Copies of the store that a script leaves, and one over a copy, which is refused.
pub fn copies(rt: &HostRuntime, text: &str) -> Result<(), Fail> {
    let alloc = rt.alloc();
    let script = Script::of(alloc, text)?;
    let mut engine = new_engine(alloc)?;
    script.execute_first(alloc, &mut engine, script.len());
    let wanted = Shown::of(alloc, &mut engine)?;
    let mut first = 1;
    while copy_refused(alloc, &mut engine, &wanted, first)? {
        first += 1;
    }
    must_be_refused(first - 1)?;
    println!(rt; "ok copy: {first} tries")?;
    let mut copy = open_in_memory(alloc)?;
    engine.copy_into(alloc, &mut copy)?;
    if !matches!(engine.copy_into(alloc, &mut copy), Err(Refusal::Store)) {
        return Err("a copy over a store is not refused with 62")?;
    }
    println!(rt; "ok copy over a store: 62")?;
    Ok(())
}
