//! What is asked of a node, and what comes of it as text.

use anyhow::{Context, Result};
use bus::{Body, ElectionBody, Replaced, SlotsBody, StreamBody, Suspects};
use byte_string::ByteString;
use itoa::Buffer;
use node_core::{Conn, Event, Outputs, Response};
use resp2::{Words, append_reply};
use slot_table::Epoch;
use std::alloc::{AllocError, Global};

/// What is asked of a node. Its connections are numbered from 0 on, in the order in which they were opened.
#[derive(Clone, Copy)]
pub enum Act<'a> {
    /// A connection is opened.
    Open,
    /// A connection is closed.
    Close(usize),
    /// These words are asked on a connection. `#1` stands for the id of node 1.
    Ask(usize, &'a str),
    /// A tick.
    Tick,
}

impl Act<'_> {
    /// The event of this act.
    pub fn event(self, alloc: Global) -> Result<Event> {
        match self {
            Act::Open => Ok(Event::Open),
            Act::Close(key) => Ok(Event::Close(conn_of(key))),
            Act::Ask(key, words) => Ok(Event::Request(conn_of(key), words_of(alloc, words)?)),
            Act::Tick => Ok(Event::Tick),
        }
    }
}

/// The connection of this number. Each is the first of its place.
pub fn conn_of(key: usize) -> Conn {
    Conn { key, generation: 0 }
}

/// The request of words with one blank between them. `*9` stands for a word of 9 letters.
pub fn words_of(alloc: Global, text: &str) -> Result<Words> {
    let mut words = Vec::new(alloc);
    for word in text.split(' ') {
        words.push(word_of(alloc, word)?)?;
    }
    Words::new(words).context("the words are no request")
}

fn word_of(alloc: Global, text: &str) -> Result<ByteString> {
    match text.strip_prefix("*") {
        Some(len) => letters(alloc, len.parse::<usize>()?),
        None => Ok(ByteString::copy_from_slice(alloc, bytes_of(text))?),
    }
}

fn letters(alloc: Global, len: usize) -> Result<ByteString> {
    let bytes = vec![in alloc; b'v'; len]?;
    Ok(ByteString::copy_from_slice(alloc, bytes.as_slice())?)
}

fn bytes_of(word: &str) -> &[u8] {
    match word {
        "#0" => b"0000000000000000000000000000000000000000",
        "#1" => b"0000000000000000000000000000000000000001",
        "#2" => b"0000000000000000000000000000000000000002",
        _ => word.as_bytes(),
    }
}

/// Puts all that came out of a step behind the text: replies as their bytes, a word for each message, and `promoted` with the epoch and the
/// offset, and `planned` where the master handed over, where the node took the place of its master.
///
/// Behind the word of a message stands what part of a stream it brings or asks for, whose place its sender took, whom it suspects, or the
/// epoch of an election.
pub fn push_outputs(text: &mut Vec<u8>, outputs: &Outputs) -> Result<(), AllocError> {
    push_response(text, &outputs.response)?;
    for release in outputs.released.as_slice() {
        append_reply(&release.reply, text)?;
    }
    for message in outputs.sent.as_slice() {
        push_body(text, &message.body)?;
    }
    match outputs.promoted.get() {
        Some(promotion) => {
            push_promotion(text, promotion.epoch, promotion.offset)?;
            push_mark(text, promotion.planned)
        }
        None => Ok(()),
    }
}

fn push_promotion(text: &mut Vec<u8>, epoch: Epoch, offset: u64) -> Result<(), AllocError> {
    text.extend_from_slice(b"promoted ")?;
    push_number(text, epoch.get(), b" ")?;
    push_number(text, offset, b" ")
}

// The master handed over.
fn push_mark(text: &mut Vec<u8>, planned: bool) -> Result<(), AllocError> {
    text.extend_from_slice(if planned { b"planned " } else { b"" })
}

fn push_body(text: &mut Vec<u8>, body: &Body) -> Result<(), AllocError> {
    text.extend_from_slice(name_of(body))?;
    match body {
        Body::Slots(SlotsBody::Claim(_, Some(replaced))) => push_replaced(text, *replaced),
        Body::Slots(_) => Ok(()),
        Body::Stream(body) => push_of_stream(text, body),
        Body::Election(body) => push_of_election(text, body),
        Body::Report(suspects) => push_suspects(text, suspects),
    }
}

fn push_of_stream(text: &mut Vec<u8>, body: &StreamBody) -> Result<(), AllocError> {
    match body {
        StreamBody::Sync(sync) => push_number(text, sync.received, b" "),
        StreamBody::Piece(piece) => {
            push_number(text, piece.from(), b"+")?;
            push_number(text, piece.bytes().len() as u64, b" ")
        }
        StreamBody::Snapshot(snapshot) => {
            push_number(text, snapshot.offset, b" ")?;
            push_number(text, snapshot.pairs.as_slice().len() as u64, b" ")
        }
    }
}

fn push_of_election(text: &mut Vec<u8>, body: &ElectionBody) -> Result<(), AllocError> {
    match body {
        ElectionBody::Candidacy(request) => push_number(text, request.epoch.get(), b" "),
        ElectionBody::Grant(epoch) => push_number(text, epoch.get(), b" "),
        ElectionBody::Pause(_) => Ok(()),
        ElectionBody::Paused(handing) => push_number(text, handing.offset, b" "),
    }
}

// The number of the former master.
fn push_replaced(text: &mut Vec<u8>, replaced: Replaced) -> Result<(), AllocError> {
    push_number(text, u64::from(replaced.master.get()), b" ")
}

// The numbers of those that are suspected.
fn push_suspects(text: &mut Vec<u8>, suspects: &Suspects) -> Result<(), AllocError> {
    for (number, is_suspected) in suspects.as_slice().iter().enumerate() {
        if *is_suspected {
            push_number(text, number as u64, b" ")?;
        }
    }
    Ok(())
}

fn push_number(text: &mut Vec<u8>, number: u64, behind: &[u8]) -> Result<(), AllocError> {
    text.extend_from_slice(Buffer::new().format(number).as_bytes())?;
    text.extend_from_slice(behind)
}

/// Puts what the sender of an event got back behind the text.
pub fn push_response(text: &mut Vec<u8>, response: &Response) -> Result<(), AllocError> {
    match response {
        Response::Replied(answer) => append_reply(&answer.reply, text),
        Response::Parked => text.extend_from_slice(b"parked "),
        Response::Opened(_) | Response::Nothing => Ok(()),
    }
}

fn name_of(body: &Body) -> &'static [u8] {
    match body {
        Body::Slots(SlotsBody::Copy { .. }) => b"copy ",
        Body::Slots(SlotsBody::Ack(_)) => b"ack ",
        Body::Slots(SlotsBody::Drained { .. }) => b"drained ",
        Body::Slots(SlotsBody::Claim(_, _)) => b"claim ",
        Body::Report(_) => b"report ",
        Body::Election(ElectionBody::Candidacy(_)) => b"request ",
        Body::Election(ElectionBody::Grant(_)) => b"grant ",
        Body::Stream(StreamBody::Sync(_)) => b"sync ",
        Body::Stream(StreamBody::Piece(_)) => b"piece ",
        Body::Stream(StreamBody::Snapshot(_)) => b"snapshot ",
        Body::Election(ElectionBody::Pause(_)) => b"pause ",
        Body::Election(ElectionBody::Paused(_)) => b"paused ",
    }
}
