//! The reading of ZMTP streams that come in pieces.
use crate::failure::fail;
use anyhow::Result;
use base_text::sequence::Bytes;
use std::alloc::{AllocError, Global};
use zmtp_wire::decoder::Decoder;
use zmtp_wire::role::Role;
use zmtp_wire::writing::{greeting, put_message, ready};

// A frame of so many bytes.
fn frame(alloc: Global, size: u64) -> Result<Bytes, AllocError> {
    let mut frame = Vec::new(alloc);
    for _ in 0..size {
        frame.push(b'x')?;
    }
    Ok(Bytes::from(frame))
}

// A message of one frame of so many bytes.
fn message(alloc: Global, frame_size: u64) -> Result<Bytes, AllocError> {
    let frames = [frame(alloc, frame_size)?];
    let message = put_message(alloc, &frames);
    drop(frames);
    message
}

// Adds a DEALER's handshake, and then a message so often.
fn put_stream(stream: &mut Vec<u8>, message: &[u8], messages: u64) -> Result<(), AllocError> {
    stream.extend_from_slice(greeting())?;
    stream.extend_from_slice(ready(Role::Dealer))?;
    for _ in 0..messages {
        stream.extend_from_slice(message)?;
    }
    Ok(())
}

// A DEALER's handshake, and then so many messages.
fn stream_of(alloc: Global, frame_size: u64, messages: u64) -> Result<Vec<u8>, AllocError> {
    let message = message(alloc, frame_size)?;
    let mut stream = Vec::new(alloc);
    let put = put_stream(&mut stream, message.as_slice(), messages);
    drop(message);
    put?;
    Ok(stream)
}

// How many messages come with a piece, if the stream goes on.
fn feed(alloc: Global, decoder: &mut Decoder, piece: &[u8]) -> Option<u64> {
    let answer = decoder.feed(alloc, piece);
    let count = match &answer {
        Ok(messages) => Some(messages.as_slice().len() as u64),
        Err(_) => None,
    };
    drop(answer);
    count
}

fn feed_all(alloc: Global, decoder: &mut Decoder, stream: &[u8], piece_size: usize) -> Option<u64> {
    let mut count = 0u64;
    for piece in stream.chunks(piece_size.max(1)) {
        count = count.saturating_add(feed(alloc, decoder, piece)?);
    }
    Some(count)
}

// How many messages a side reads that is fed the stream in pieces of this size.
fn count(alloc: Global, stream: &[u8], piece_size: usize) -> Option<u64> {
    let mut decoder = Decoder::new(alloc, Role::Router);
    let count = feed_all(alloc, &mut decoder, stream, piece_size);
    drop(decoder);
    count
}

/// Makes a stream of so many messages of one frame of a size. How many bytes it has.
pub fn make(alloc: Global, frame_size: u64, messages: u64) -> Result<u64> {
    Ok(stream_of(alloc, frame_size, messages)?.len() as u64)
}

/// Reads so many messages of one frame of a size, in pieces of another. How many messages that gives.
pub fn work(alloc: Global, piece_size: usize, frame_size: u64, messages: u64) -> Result<u64> {
    let stream = stream_of(alloc, frame_size, messages)?;
    match count(alloc, stream.as_slice(), piece_size) {
        Some(count) => Ok(count),
        None => fail("the stream is broken"),
    }
}
