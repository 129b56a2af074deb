//! A conversation that is held in turns.

use listener::{Came, ConnFault, Farewell, Left, Next, Rest, Talk};
use node_gate::{Answered, NodeGate};
use resp2::Counting;
use std::alloc::Global;
use std::io::{Read, Write};

// A conversation of these trials takes fewer turns, and fewer writes.
const MANY: u32 = 1_000_000;

// So many bytes are read at once.
const READ_SIZE: usize = 512;

/// Holds a conversation in turns of one request each, and says how it ended.
pub fn converse_in_turns<S, G, R, W>(
    alloc: Global,
    gate: &mut G,
    reader: &mut Counting<R>,
    writer: &mut Counting<W>,
) -> Result<(), ConnFault>
where
    S: Answered + Drop,
    G: NodeGate<Answer = S>,
    R: Read,
    W: Write,
{
    match Talk::begin(alloc, gate) {
        Ok(talk) => converse(talk, gate, reader, writer),
        Err(fault) => {
            gate.release();
            part(Farewell::<S>::to_refused(alloc, fault), writer)?;
            Err(fault)
        }
    }
}

fn converse<S, G, R, W>(
    mut talk: Talk<S>,
    gate: &mut G,
    reader: &mut Counting<R>,
    writer: &mut Counting<W>,
) -> Result<(), ConnFault>
where
    S: Answered + Drop,
    G: NodeGate<Answer = S>,
    R: Read,
    W: Write,
{
    let ended = take_turns(&mut talk, gate, reader, writer);
    let farewell = talk.end(gate, ended);
    gate.release();
    // A writer that failed is written to no more.
    if ended != Err(ConnFault::Writer) {
        part(farewell, writer)?;
    }
    ended?;
    Ok(())
}

fn take_turns<S, G, R, W>(
    talk: &mut Talk<S>,
    gate: &mut G,
    reader: &mut Counting<R>,
    writer: &mut Counting<W>,
) -> Result<Rest, ConnFault>
where
    S: Answered + Drop,
    G: NodeGate<Answer = S>,
    R: Read,
    W: Write,
{
    for _ in 0..MANY {
        if !reads_some(talk, reader)? {
            return Ok(Rest::Unfinished);
        }
        if answer_all(talk, gate, writer)? == Rest::BadByte {
            return Ok(Rest::BadByte);
        }
    }
    Err(ConnFault::Endless)
}

// Reads once, and says whether more may come.
fn reads_some<S: Answered + Drop, R: Read>(
    talk: &mut Talk<S>,
    reader: &mut Counting<R>,
) -> Result<bool, ConnFault> {
    let mut room = [0u8; READ_SIZE];
    Ok(talk.read_once(reader, &mut room)? != Came::End)
}

// Has all requests answered that came, and says what is behind them.
fn answer_all<S, G, W>(
    talk: &mut Talk<S>,
    gate: &mut G,
    writer: &mut Counting<W>,
) -> Result<Rest, ConnFault>
where
    S: Answered + Drop,
    G: NodeGate<Answer = S>,
    W: Write,
{
    for _ in 0..MANY {
        let next = talk.answer(gate, 1)?;
        write_all(talk, writer)?;
        match next {
            Next::Read => return Ok(Rest::Unfinished),
            Next::BadByte => return Ok(Rest::BadByte),
            // Nobody carries the messages of the node, so no reply comes later.
            Next::Hear => return Err(ConnFault::Unanswered),
            Next::Write => {}
            Next::Answer => {}
        }
    }
    Err(ConnFault::Endless)
}

fn write_all<S: Answered + Drop, W: Write>(
    talk: &mut Talk<S>,
    writer: &mut Counting<W>,
) -> Result<(), ConnFault> {
    for _ in 0..MANY {
        if talk.finish(writer)? == Left::Nothing {
            return Ok(());
        }
    }
    Err(ConnFault::Writer)
}

// Writes what is left, until the writer fails.
fn part<S: Answered + Drop, W: Write>(
    mut farewell: Farewell<S>,
    writer: &mut Counting<W>,
) -> Result<(), ConnFault> {
    for _ in 0..MANY {
        if farewell.finish(writer)? == Left::Nothing {
            return Ok(());
        }
    }
    Err(ConnFault::Writer)
}
