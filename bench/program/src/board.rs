//! Workloads run on a board, by its events.
ghost use Rattle.std.specs.Prelude.{◌≤◌, IfOk};
ghost use Rattle.lab_core.specs.Events.{Fits};

use crate::cells::{Workload, workload_named};
use crate::failure::fail;
use anyhow::Result;
use base_text::sequence::Sequence;
use base_text::text::Text;
use i80_exec::registers::Registers;
use lab_core::answer::Answer;
use lab_core::event::Event;
use lab_core::fault::EventFault;
use lab_core::lab::Lab;
use std::alloc::{AllocError, Global};

/// The steps of a slice, as many as one turn of the kernel makes.
const SLICE: u16 = 4096;

// Whether an event is accepted.
pub fn is_accepted(lab: &mut Lab, event: &Event) -> bool
    requires { Fits event.now }
{
    let answer = lab.apply(event);
    let is_accepted = answer.is_ok();
    drop(answer);
    is_accepted
}

// Whether an event is accepted that isn't made again.
fn accepts(lab: &mut Lab, event: Event) -> bool
    requires { Fits event }
{
    let is_accepted = is_accepted(lab, &event);
    drop(event);
    is_accepted
}

pub fn load_event(alloc: Global, text: &str) -> Result<Event, AllocError>
    ensures { IfOk result (λ event. Fits event) }
{
    let path = Text::copy_of(alloc, "workload")?;
    let text = Text::copy_of(alloc, text)?;
    Ok(Event::Load { path, text })
}

// A breakpoint on one line.
fn breakpoint_event(alloc: Global, line: u32) -> Result<Event, AllocError>
    ensures { IfOk result (λ event. Fits event) }
{
    let path = Text::copy_of(alloc, "workload")?;
    let lines = Sequence::from(Vec::from_slice(alloc, &[line])?);
    Ok(Event::SetBreakpoints { path, lines })
}

fn load(alloc: Global, lab: &mut Lab, text: &str) -> Result<bool, AllocError> {
    Ok(accepts(lab, load_event(alloc, text)?))
}

// Attaches a debugger with a breakpoint on a line. Whether it was accepted.
fn watch(alloc: Global, lab: &mut Lab, line: u32) -> Result<bool, AllocError> {
    if !accepts(lab, Event::Attach) {
        return Ok(false);
    }
    Ok(accepts(lab, breakpoint_event(alloc, line)?))
}

fn steps_of(answer: &Result<Answer, EventFault>) -> Option<u16> {
    match answer {
        Ok(Answer::Sliced { executed, .. }) => Some(*executed),
        _ => None,
    }
}

/// Makes at most so many steps, and answers how many were made, or that the slice was refused.
fn slice(lab: &mut Lab, n: u16) -> Option<u16>
    requires some { 1 ≤ n }
    requires few { n ≤ 4096 }
{
    let answer = lab.apply(&Event::Slice(n));
    let steps = steps_of(&answer);
    drop(answer);
    steps
}

// Whether a slice of so many steps makes them all.
fn is_whole(lab: &mut Lab, n: u16) -> bool
    requires some { 1 ≤ n }
    requires few { n ≤ 4096 }
{
    slice(lab, n) == Some(n)
}

// Whether so many slices are whole.
fn are_whole(lab: &mut Lab, count: u64) -> bool {
    for _ in 0..count {
        if !is_whole(lab, SLICE) {
            return false;
        }
    }
    true
}

// Makes so many steps, in slices. Whether they were made.
fn run(lab: &mut Lab, count: u64) -> bool {
    let last = (count % 4096) as u16;
    are_whole(lab, count / 4096) && (last == 0 || is_whole(lab, last))
}

// Loads a workload and makes so many steps of it; attached, with a breakpoint that isn't met, or not
// attached. Whether all was accepted.
fn is_run(
    alloc: Global,
    lab: &mut Lab,
    workload: Workload,
    is_attached: bool,
    count: u64,
) -> Result<bool, AllocError> {
    if !load(alloc, lab, workload.text)? {
        return Ok(false);
    }
    if is_attached && !watch(alloc, lab, workload.last_line)? {
        return Ok(false);
    }
    Ok(accepts(lab, Event::Start(0)) && run(lab, count))
}

// What the registers come to, where all was accepted.
fn registers_after(
    alloc: Global,
    workload: Workload,
    is_attached: bool,
    count: u64,
) -> Result<Option<Registers>, AllocError> {
    let mut lab = Lab::new(alloc)?;
    let is_done = is_run(alloc, &mut lab, workload, is_attached, count);
    let regs = lab.regs();
    drop(lab);
    Ok(if is_done? { Some(regs) } else { None })
}

fn bytes_in(regs: Registers) -> [(&'static str, u8); 8] {
    [
        ("A", regs.a),
        ("F", regs.flags.to_byte()),
        ("B", regs.b),
        ("C", regs.c),
        ("D", regs.d),
        ("E", regs.e),
        ("H", regs.h),
        ("L", regs.l),
    ]
}

fn print_bytes(rt: &impl Print, bytes: &[(&str, u8)]) -> Result<()> {
    for (name, byte) in bytes {
        print!(rt; " {name}={byte:02X}")?;
    }
    Ok(())
}

/// Prints where a workload came to.
pub fn print_registers(rt: &impl Print, name: &str, regs: Registers) -> Result<()> {
    print!(rt; "{name} PC={:04X}", regs.pc)?;
    print_bytes(rt, &bytes_in(regs))?;
    println!(rt; " SP={:04X}", regs.sp)?;
    Ok(())
}

/// Runs a workload for so many instructions, with a debugger whose breakpoint isn't met, or without one. Its
/// registers then.
pub fn work(alloc: Global, name: &str, is_attached: bool, count: u64) -> Result<Registers> {
    let Some(workload) = workload_named(name) else {
        return fail("the workloads are loop, sort, calls and jump");
    };
    match registers_after(alloc, workload, is_attached, count)? {
        Some(regs) => Ok(regs),
        None => fail("the board didn't take the workload"),
    }
}
