//! Loads of a cell with many rows, in rising and in falling addresses.
ghost use Rattle.std.specs.Prelude.{IfOk};
ghost use Rattle.lab_core.specs.Events.{Fits};

use crate::board::{is_accepted, load_event};
use anyhow::Result;
use lab_core::event::Event;
use lab_core::lab::Lab;
use std::alloc::{AllocError, Global};

// A row of one byte at every other address, from the first or from the last on.
fn rows(alloc: Global, count: u64, is_falling: bool) -> Result<String, AllocError> {
    let mut text = String::new(alloc);
    for number in 0..count {
        let place = if is_falling {
            count.saturating_sub(number).saturating_sub(1)
        } else {
            number
        };
        write!(text, "ORG {}\nDB 1\n", place.saturating_mul(2))?;
    }
    Ok(text)
}

fn rows_event(alloc: Global, count: u64, is_falling: bool) -> Result<Event, AllocError>
    ensures { IfOk result (λ event. Fits event) }
{
    let text = rows(alloc, count, is_falling)?;
    let load = load_event(alloc, text.as_str());
    drop(text);
    load
}

// Makes a load so often, each after a reset. How many were accepted.
fn repeat_load(lab: &mut Lab, load: &Event, rounds: u64) -> u64
    requires { Fits load.now }
{
    let mut count = 0u64;
    for _ in 0..rounds {
        is_accepted(lab, &Event::Reset);
        if is_accepted(lab, load) {
            count = count.saturating_add(1);
        }
    }
    count
}

fn load_often(alloc: Global, load: &Event, rounds: u64) -> Result<u64, AllocError>
    requires { Fits load.now }
{
    let mut lab = Lab::new(alloc)?;
    let count = repeat_load(&mut lab, load, rounds);
    drop(lab);
    Ok(count)
}

/// Loads so many rows, so often. How many loads are accepted.
pub fn work(alloc: Global, is_falling: bool, count: u64, rounds: u64) -> Result<u64> {
    let load = rows_event(alloc, count, is_falling)?;
    let accepted = load_often(alloc, &load, rounds);
    drop(load);
    Ok(accepted?)
}
