//! A kernel over memory with one frontend, and work on it late in its journal.
use crate::failure::fail;
use crate::shell::{Shell, Work};
use anyhow::Result;
use std::alloc::{AllocError, Global};

// Does units of a work after others. How much the last ones gave.
fn make_after(
    alloc: Global,
    shell: &mut Shell,
    work: Work,
    before: u64,
    count: u64,
) -> Result<u64, AllocError> {
    shell.prepare(alloc, work)?;
    shell.units(alloc, work, before)?;
    shell.units(alloc, work, count)
}

fn make(alloc: Global, work: Work, before: u64, count: u64) -> Result<u64, AllocError> {
    let mut shell = Shell::new(alloc)?;
    let made = make_after(alloc, &mut shell, work, before, count);
    drop(shell);
    made
}

// One more round of so many units, and how much it gave.
fn round<P: Print>(rt: &P, alloc: Global, shell: &mut Shell, work: Work, units: u64) -> Result<()> {
    let made = shell.units(alloc, work, units)?;
    rt.println(made)?;
    Ok(())
}

fn rounds_by<P: Print>(
    rt: &P,
    alloc: Global,
    shell: &mut Shell,
    work: Work,
    units: u64,
    count: u64,
) -> Result<()> {
    shell.prepare(alloc, work)?;
    for _ in 0..count {
        round(rt, alloc, shell, work, units)?;
    }
    Ok(())
}

/// Does so many rounds of so many units of the work of this name on one kernel, and prints after each how
/// much it gave: who times the lines sees how the rate changes as the journal grows.
pub fn rounds<P: Print>(rt: &P, alloc: Global, word: &str, units: u64, count: u64) -> Result<()> {
    let Some(work) = Work::from_name(word) else {
        return fail("there is no such work");
    };
    let mut shell = Shell::new(alloc)?;
    let done = rounds_by(rt, alloc, &mut shell, work, units, count);
    drop(shell);
    done
}

/// Does so many units of the work of this name, after so many others. How many frames, posts or slices they
/// gave.
pub fn work(alloc: Global, word: &str, before: u64, count: u64) -> Result<u64> {
    match Work::from_name(word) {
        Some(work) => Ok(make(alloc, work, before, count)?),
        None => fail("there is no such work"),
    }
}
