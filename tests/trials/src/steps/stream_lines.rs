//! What is printed of a node, and of what it answers.

use crate::steps::stream_node::{Node, stream_id};
use anyhow::Result;
use bus::{Piece, Sync, SyncAnswer};
use byte_string::ByteString;
use repl_stream::{OfferFault, Stream, StreamFault};
use std::io;

/// Prints where the node is, and the strings at `a` and `x`.
pub fn show<T: Stream + Drop, R: Print>(rt: &R, name: &str, node: &Node<T>) -> Result<()> {
    let id = node.replica.id();
    let (offset, received) = (node.replica.offset(), node.replica.received());
    let (a, x) = (string_in(node, b'a'), string_in(node, b'x'));
    println!(rt;
        "{name}: stream {}.{}, offset {offset}, received {received}, a {a}, x {x}",
        id.node.get(),
        id.epoch.get()
    )?;
    Ok(())
}

fn string_in<T: Stream + Drop>(node: &Node<T>, key: u8) -> &str {
    match node.string_at(key) {
        Some(bytes) => std::str::from_utf8(bytes).unwrap_or("?"),
        None => "none",
    }
}

/// Prints why a piece was refused, or that it was taken.
pub fn show_offer<R: Print>(rt: &R, name: &str, said: Result<(), OfferFault>) -> Result<()> {
    match said {
        Ok(()) => println!(rt; "{name}: taken")?,
        Err(fault) => println!(rt; "{name}: {fault}")?,
    }
    Ok(())
}

/// Prints what the node answers to a replica that received so much of that stream.
pub fn show_answer<T: Stream + Drop, R: AllocGlobal + Print>(
    rt: &R,
    node: &Node<T>,
    id: (u8, u64),
    received: u64,
) -> Result<()> {
    print!(rt; "{}.{} at {received}: ", id.0, id.1)?;
    let stream = stream_id(id)?;
    show_sync(rt, node, &Sync { stream, received })
}

fn show_sync<T: Stream + Drop, R: AllocGlobal + Print>(
    rt: &R,
    node: &Node<T>,
    sync: &Sync,
) -> Result<()> {
    let answer = node.replica.answer(rt.alloc(), sync)?;
    let shown = show_what_comes(rt, &answer);
    drop(answer);
    Ok(shown?)
}

fn show_what_comes<R: Print>(rt: &R, answer: &SyncAnswer) -> io::Result<()> {
    match answer {
        SyncAnswer::UpToDate => println!(rt; "nothing"),
        SyncAnswer::Snapshot => println!(rt; "a snapshot"),
        SyncAnswer::Piece(piece) => show_piece(rt, piece),
    }
}

fn show_piece<R: Print>(rt: &R, piece: &Piece) -> io::Result<()> {
    println!(rt; "{} bytes from {}", piece.bytes().len(), piece.from())
}

/// Prints a part of a stream, each line of it behind a blank, or why there is none.
pub fn show_part<R: Print>(
    rt: &R,
    name: &str,
    part: Result<ByteString, StreamFault>,
) -> Result<()> {
    match part {
        Ok(bytes) => show_bytes(rt, name, bytes.as_slice())?,
        Err(fault) => println!(rt; "{name}: {fault}")?,
    }
    Ok(())
}

fn show_bytes<R: Print>(rt: &R, name: &str, bytes: &[u8]) -> io::Result<()> {
    let text = std::str::from_utf8(bytes).unwrap_or("?");
    println!(rt; "{name}: {text:?}")
}
