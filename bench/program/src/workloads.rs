//! Endless workloads on the machine: three that `bench/core` times beside a plain switch interpreter in C,
//! and a jump to itself, as `bench/kernel` has it in a cell.
ghost use Rattle.std.specs.Prelude.{◌≤◌};

use crate::failure::fail;
use crate::slot::Slot;
use anyhow::Result;
use i80_exec::machine::Machine;
use i80_exec::registers::{Registers, Stepped};
use std::alloc::{AllocError, Global};

/// Two nested counters, counted down.
const LOOP: &[u8] = &[
    0x06, 0, 0x0e, 0, 0x0d, 0xc2, 4, 0, 0x05, 0xc2, 4, 0, 0xc3, 0, 0,
];

/// A page of bytes, made anew and sorted by exchanges.
const SORT: &[u8] = &[
    0x31, 0, 0x30, 0x21, 0, 0x20, 0x78, 0x07, 0x80, 0xc6, 0x3b, 0x47, 0x77, 0x2c, 0xc2, 6, 0, 0x21,
    0, 0x20, 0x0e, 0, 0x16, 0xff, 0x7e, 0x23, 0xbe, 0xda, 0x28, 0, 0xca, 0x28, 0, 0x5e, 0x77, 0x2b,
    0x73, 0x23, 0x0e, 1, 0x15, 0xc2, 0x18, 0, 0x79, 0xb7, 0xc2, 0x11, 0, 0x04, 0xc3, 3, 0,
];

/// Arithmetic and logic in a subroutine that calls another.
const CALLS: &[u8] = &[
    0x31, 0, 0x40, 0x3e, 1, 0xcd, 0x10, 0, 0x3c, 0xc2, 5, 0, 0xc3, 3, 0, 0, 0xc5, 0x47, 0x87, 0xa8,
    0xe6, 0x3f, 0x88, 0x17, 0x94, 0xde, 5, 0x27, 0x2f, 0x6f, 0xcd, 0x24, 0, 0x78, 0xc1, 0xc9, 0xb0,
    0x3f, 0xd0, 0x67, 0xc9,
];

/// A jump to itself.
const JUMP: &[u8] = &[0xc3, 0, 0];

fn machine_with(alloc: Global, code: &[u8]) -> Result<Machine, AllocError> {
    let mut machine = Machine::new(alloc)?;
    let mut address = 0u16;
    for byte in code {
        machine.poke(address, *byte);
        address = address.wrapping_add(1);
    }
    Ok(machine)
}

/// Steps until HLT, at most so often. The machine is a local one, so that its registers can be kept
/// in the processor's own.
#[inline(never)]
fn run(given: Machine, ports: &mut Slot, count: u64) -> Machine {
    let mut machine = given;
    for _ in 0..count {
        ports.clear();
        if let Stepped::Halted = machine.step(ports) {
            break;
        }
    }
    machine
}

/// Runs a workload for so many instructions. Its registers then.
pub fn work(alloc: Global, name: &str, count: u64) -> Result<Registers> {
    let code = match name {
        "loop" => LOOP,
        "sort" => SORT,
        "calls" => CALLS,
        "jump" => JUMP,
        _ => return fail("the workloads are loop, sort, calls and jump"),
    };
    let machine = run(machine_with(alloc, code)?, &mut Slot::new(), count);
    let regs = machine.regs();
    drop(machine);
    Ok(regs)
}

/// HLT, which can't be repeated.
const HLT: u8 = 0x76;

// A machine whose memory has this opcode everywhere.
fn machine_full_of(alloc: Global, opcode: u8) -> Result<Machine, AllocError> {
    let mut machine = Machine::new(alloc)?;
    for address in 0..=u16::MAX {
        machine.poke(address, opcode);
    }
    Ok(machine)
}

fn repeat(alloc: Global, opcode: u8, count: u64) -> Result<(), AllocError> {
    let machine = run(machine_full_of(alloc, opcode)?, &mut Slot::new(), count);
    drop(machine);
    Ok(())
}

/// Repeats each opcode but HLT so often on a machine of its own, and then so often on another:
/// `bench/opcodes` counts the instructions of each run.
pub fn repeat_all(alloc: Global, few: u64, many: u64) -> Result<u64, AllocError> {
    for opcode in 0..=u8::MAX {
        if opcode != HLT {
            repeat(alloc, opcode, few)?;
            repeat(alloc, opcode, many)?;
        }
    }
    Ok(few.saturating_add(many))
}
