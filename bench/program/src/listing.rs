//! The disassembler on mixed bytes, and the assembler on what it lists.
use crate::assembler::assemble_often;
use crate::failure::fail;
use anyhow::Result;
use i80_base::memory::MEMORY_SIZE;
use i80_dis::listing::listing;
use std::alloc::{AllocError, Global};

// Bytes of all values, mixed by a linear congruence.
fn mixed_bytes(alloc: Global, count: u64) -> Result<Vec<u8>, AllocError> {
    let mut bytes = Vec::new(alloc);
    let mut state = 1u32;
    for _ in 0..count {
        state = state.wrapping_mul(1_664_525).wrapping_add(1_013_904_223);
        bytes.push((state >> 24) as u8)?;
    }
    Ok(bytes)
}

fn listing_of(alloc: Global, bytes: &[u8]) -> Result<String> {
    if bytes.len() > MEMORY_SIZE {
        return fail("there are more bytes than memory has");
    }
    Ok(listing(alloc, 0, bytes)?)
}

// How many bytes of text bytes give.
fn listing_size(alloc: Global, bytes: &[u8]) -> Result<u64> {
    let text = listing_of(alloc, bytes)?;
    let size = text.len() as u64;
    drop(text);
    Ok(size)
}

fn list_often(alloc: Global, bytes: &[u8], rounds: u64) -> Result<u64> {
    let mut size = 0;
    for _ in 0..rounds {
        size = listing_size(alloc, bytes)?;
    }
    Ok(size)
}

/// Lists so many mixed bytes, so often. How many bytes of text that gives.
pub fn work(alloc: Global, count: u64, rounds: u64) -> Result<u64> {
    let bytes = mixed_bytes(alloc, count)?;
    let size = list_often(alloc, &bytes, rounds);
    drop(bytes);
    size
}

fn mixed_listing(alloc: Global, count: u64) -> Result<String> {
    let bytes = mixed_bytes(alloc, count)?;
    let text = listing_of(alloc, &bytes);
    drop(bytes);
    text
}

/// Assembles the listing of so many mixed bytes, so often. How many bytes come back.
pub fn work_back(alloc: Global, count: u64, rounds: u64) -> Result<u64> {
    let text = mixed_listing(alloc, count)?;
    let size = assemble_often(alloc, text.as_str(), rounds);
    drop(text);
    size
}
