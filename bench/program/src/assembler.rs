//! The assembler on a mixed program.
use crate::failure::fail;
use anyhow::Result;
use asm_build::built::Built;
use asm_build::cell::build;
use asm_build::symbols::Symbols;
use asm_text::statements::statements;
use std::alloc::{AllocError, Global};

/// Ten lines: a comment, an EQU with an expression, a label, an IF with two parts, a jump back. `#` stands
/// for the block's number.
static BLOCK: &str = "\
; block #
V# EQU #*2+1 AND 0FFH
L#: MOV A,B
 MVI C,V# AND 7FH
 IF V# GT 100
 INR A
 ELSE
 DCR A
 ENDIF
 JMP L#
";

fn push_block(text: &mut String, number: u64) -> Result<(), AllocError> {
    for (place, part) in BLOCK.split('#').enumerate() {
        if place > 0 {
            write!(text, "{number}")?;
        }
        text.push_str(part)?;
    }
    Ok(())
}

fn program(alloc: Global, lines: u64) -> Result<String, AllocError> {
    let mut text = String::new(alloc);
    for number in 0..lines / 10 {
        push_block(&mut text, number)?;
    }
    Ok(text)
}

// What a text is assembled to, if it isn't refused.
fn build_text(alloc: Global, text: &str) -> Option<Built> {
    let all = statements(alloc, text).ok()?;
    let none = Symbols::new(alloc);
    let built = build(alloc, &all, &none).ok();
    drop(none);
    drop(all);
    built
}

// How many bytes a text gives.
fn assemble(alloc: Global, text: &str) -> Result<u64> {
    match build_text(alloc, text) {
        Some(built) => {
            let count = built.image.len() as u64;
            drop(built);
            Ok(count)
        }
        None => fail("the text is refused"),
    }
}

/// How many bytes a text gives that is assembled so often.
pub fn assemble_often(alloc: Global, text: &str, rounds: u64) -> Result<u64> {
    let mut bytes = 0;
    for _ in 0..rounds {
        bytes = assemble(alloc, text)?;
    }
    Ok(bytes)
}

/// Assembles a program of so many lines, so often. How many bytes it gives.
pub fn work(alloc: Global, lines: u64, rounds: u64) -> Result<u64> {
    let text = program(alloc, lines)?;
    let bytes = assemble_often(alloc, text.as_str(), rounds);
    drop(text);
    bytes
}
