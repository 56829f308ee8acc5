// Does what is timed of lab80's parts, and prints what it came to: `bench WORD SIZE COUNT` so much of a work,
// `bench core WORKLOAD COUNT` so many instructions on the machine, `bench plain WORKLOAD COUNT` and `bench
// attached WORKLOAD COUNT` on a board, without a debugger and with one; `bench rounds WORD UNITS COUNT` so
// many rounds of so many units on one kernel, with a line after each. The scripts in bench/ time it. With no
// word it does a little of each, which the gate compares.
#![tactic(auto)]

mod assembler;
mod board;
mod calls;
mod cells;
mod failure;
mod frames;
mod kernel;
mod listing;
mod loads;
mod shell;
mod slot;
mod turnstile;
mod workloads;

use crate::failure::fail;
use anyhow::Result;
use std::alloc::Global;
use std::env;
use std::rt::Env;
use std::sync::Wait;
use std::thread::Threads;

/// What is done with no word, of each work a little.
const FEW: &[(&str, u64, u64)] = &[
    ("opcodes", 1, 2),
    ("assembler", 1000, 1),
    ("listing", 1000, 1),
    ("reassembly", 1000, 1),
    ("turns", 2, 100),
    ("streams", 300, 5),
    ("bytes", 300, 5),
    ("pieces", 300, 5),
    ("blocks", 300, 5),
    ("rising", 100, 2),
    ("falling", 100, 2),
    ("requests", 0, 10),
    ("executions", 0, 10),
    ("fetches", 0, 10),
    ("slices", 0, 10),
    ("waits", 0, 10),
    ("idle", 0, 10),
];

/// The workloads that are run with no word, for ten thousand instructions each.
const RUNS: &[(&str, &str)] = &[
    ("core", "loop"),
    ("core", "sort"),
    ("core", "calls"),
    ("plain", "loop"),
    ("attached", "loop"),
    ("plain", "sort"),
    ("attached", "sort"),
    ("plain", "calls"),
    ("attached", "calls"),
    ("plain", "jump"),
];

// Does a work, and answers how much it gave.
fn amount<R: Threads + Wait + Sync>(
    rt: &R,
    alloc: Global,
    word: &str,
    size: u64,
    count: u64,
) -> Result<u64> {
    match word {
        "opcodes" => Ok(workloads::repeat_all(alloc, size, count)?),
        "assembler" => assembler::work(alloc, size, count),
        "listing" => listing::work(alloc, size, count),
        "reassembly" => listing::work_back(alloc, size, count),
        "turns" => turnstile::work(rt, alloc, size, count),
        "streams" => frames::make(alloc, size, count),
        "bytes" => frames::work(alloc, 1, size, count),
        "pieces" => frames::work(alloc, 64, size, count),
        "blocks" => frames::work(alloc, 65_536, size, count),
        "rising" => loads::work(alloc, false, size, count),
        "falling" => loads::work(alloc, true, size, count),
        _ => kernel::work(alloc, word, size, count),
    }
}

fn print_amount(rt: &impl Print, word: &str, size: u64, count: u64, made: u64) -> Result<()> {
    println!(rt; "{word} {size} {count}: {made}")?;
    Ok(())
}

// Runs a workload, and prints where it came to.
fn run(rt: &impl Print, alloc: Global, word: &str, name: &str, count: u64) -> Result<()> {
    let regs = match word {
        "core" => workloads::work(alloc, name, count)?,
        _ => board::work(alloc, name, word == "attached", count)?,
    };
    board::print_registers(rt, name, regs)
}

/// What the words ask for.
#[derive(Clone, Copy)]
enum Task<'a> {
    /// A workload, and how many instructions of it, on what the first word says.
    Run(&'a str, &'a str, u64),
    /// A work, its size, and how often.
    Amount(&'a str, u64, u64),
    /// A work on one kernel, how many units of it a round has, and how many rounds.
    Rounds(&'a str, u64, u64),
}

// Does what is asked for, and prints what it came to.
fn perform<R: Threads + Wait + Sync + Print>(rt: &R, alloc: Global, task: Task<'_>) -> Result<()> {
    match task {
        Task::Run(word, name, count) => run(rt, alloc, word, name, count),
        Task::Amount(word, size, count) => {
            let made = amount(rt, alloc, word, size, count)?;
            print_amount(rt, word, size, count, made)
        }
        Task::Rounds(word, units, count) => kernel::rounds(rt, alloc, word, units, count),
    }
}

fn check<R: Threads + Wait + Sync + Print>(rt: &R, alloc: Global) -> Result<()> {
    for (word, name) in RUNS {
        run(rt, alloc, word, name, 10_000)?;
    }
    for (word, size, count) in FEW {
        perform(rt, alloc, Task::Amount(word, *size, *count))?;
    }
    kernel::rounds(rt, alloc, "fetches", 3, 2)
}

const USAGE: &str =
    "usage: bench [WORD SIZE COUNT | core|plain|attached WORKLOAD COUNT | rounds WORD UNITS COUNT]";

fn number(word: &str) -> Result<u64> {
    Ok(word.parse()?)
}

fn task_of<'a>(word: &'a str, size: &'a str, count: &str) -> Result<Task<'a>> {
    let count = number(count)?;
    match word {
        "core" | "plain" | "attached" => Ok(Task::Run(word, size, count)),
        _ => Ok(Task::Amount(word, number(size)?, count)),
    }
}

// What words ask for; None where there is none.
fn task_in<'a>(words: &'a [String]) -> Result<Option<Task<'a>>> {
    match words {
        [] => Ok(None),
        [word, size, count] => Ok(Some(task_of(word.as_str(), size.as_str(), count.as_str())?)),
        [first, work, units, count] if first.as_str() == "rounds" => {
            let units = number(units.as_str())?;
            Ok(Some(Task::Rounds(work.as_str(), units, number(count.as_str())?)))
        }
        _ => fail(USAGE),
    }
}

fn words_of<R: Env + AllocGlobal>(rt: &R) -> Result<Vec<String>> {
    Ok(env::args(rt)?.skip(1).collect(rt.alloc())?)
}

fn main(rt: HostRuntime) -> Result<()> {
    let words = words_of(&rt)?;
    let done = match task_in(words.as_slice()) {
        Ok(Some(task)) => perform(&rt, rt.alloc(), task),
        Ok(None) => check(&rt, rt.alloc()),
        Err(error) => Err(error),
    };
    drop(words);
    done
}
