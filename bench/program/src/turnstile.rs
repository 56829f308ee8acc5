//! Turns of several threads on a turnstile.
ghost use Rattle.std.specs.Prelude.{◌≡◌, ◌<◌, ◌≤◌};

use crate::failure::fail;
use anyhow::Result;
use lab_turn::pass::Pass;
use lab_turn::turnstile::Turnstile;
use lab_turn_tests::Counter;
use std::alloc::Global;
use std::sync::Wait;
use std::thread;
use std::thread::Threads;

// Makes turns with one pass.
fn turns<R: Wait>(
    rt: &R,
    desk: &Turnstile<Counter>,
    mut pass: Pass<Counter>,
    count: u32,
) -> Pass<Counter>
    requires { pass.turnstile ≡ desk.now }
    ensures { result.turnstile ≡ desk.now }
{
    for mark in 0..count {
        let _ = desk.turn(rt, &mut pass, mark);
    }
    pass
}

// Each thread makes so many turns on one counter. How many calls it has counted then.
fn count_turns<R: Threads + Wait + Sync>(
    rt: &R,
    alloc: Global,
    threads: u32,
    count: u32,
) -> Result<u64>
    requires some { 0 < threads }
    requires few { threads ≤ 1024 }
{
    let (desk, passes) = Turnstile::open(alloc, Counter::new(alloc, u64::MAX), threads)?;
    let shared = &desk;
    let passes = thread::map_vec(
        rt,
        passes,
        &|pass: Pass<Counter>| -> Pass<Counter>
            requires { pass.turnstile ≡ shared.now }
            ensures { result.turnstile ≡ shared.entry.now }
        { turns(rt, shared, pass, count) },
    )?;
    Ok(desk.close(passes)?.value())
}

/// So many threads make so many turns each, at most 1,024 threads. How many turns that is.
pub fn work<R: Threads + Wait + Sync>(
    rt: &R,
    alloc: Global,
    threads: u64,
    count: u64,
) -> Result<u64> {
    if threads == 0 || threads > 1024 || count > 1_000_000_000 {
        return fail("there are too many threads or turns, or none");
    }
    count_turns(rt, alloc, threads as u32, count as u32)
}
