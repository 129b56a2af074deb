//! A conversation over memory with a node of the cluster, and what it leaves of the node.

use crate::conversations::in_memory::{Failing, Pieces, Written};
use crate::conversations::turns::converse_in_turns;
use crate::shared::{cell_of, deal_one, push_response, words_of};
use anyhow::{Result, bail};
use cluster_config::Config;
use key_slot::Slot;
use listener::{ConnFault, serve_conn};
use node_cell::{Admission, Asks, Deployment, Entry, Journal, NodeCell};
use node_core::{Conn, Core, Event, Response};
use resp2::Counting;
use shared_node::{Gate, SharedNode};
use std::alloc::{AllocError, Global};
use std::marker::Brand;
use std::sync::Wait;
use tickets::Seat;

/// The node that a client talks to.
#[derive(Clone, Copy)]
pub enum Place {
    /// The second one, which has the slot of `c`.
    Second,
    /// The third one, which has the slots of `a`, `foo`, `h` and `x`.
    Third,
}

/// Who serves a client.
#[derive(Clone, Copy)]
pub enum Manner {
    /// A thread of its own.
    Thread,
    /// A thread that serves others, too, in turns of one request each.
    Turns,
}

/// A client: what it sends, piece by piece, and what then happens to its connection.
#[derive(Clone, Copy)]
pub struct Client<'a> {
    /// Whom it talks to, and who serves it there.
    pub place: Place,
    pub manner: Manner,
    /// The bytes, read by read.
    pub pieces: &'a [&'a [u8]],
    /// Whether the reader fails in place of its end.
    pub reader_fails: bool,
    /// How many bytes the writer takes before it fails.
    pub room: usize,
    /// How many bytes it takes by one call at most.
    pub few: usize,
    /// Whether it takes nothing at every other call.
    pub waits: bool,
    /// How many bytes it takes without an allocation.
    pub reserved: usize,
    /// At which of its calls the reader fails, or the writer.
    pub reading: Option<Failing>,
    pub writing: Option<Failing>,
    /// What the node is asked once the conversation is over.
    pub asked: &'a [&'a str],
}

impl<'a> Client<'a> {
    /// A client of the third node that sends these pieces, with a thread of its own, and whose connection doesn't fail.
    pub fn new(pieces: &'a [&'a [u8]]) -> Client<'a> {
        Client {
            place: Place::Third,
            manner: Manner::Thread,
            pieces,
            reader_fails: false,
            room: usize::MAX,
            few: usize::MAX,
            waits: false,
            reserved: 0,
            reading: None,
            writing: None,
            asked: &[],
        }
    }
}

/// A conversation that was held.
#[derive(Drop)]
pub struct Held {
    /// How it ended.
    pub ended: Result<(), ConnFault>,
    /// How many calls of the reader failed, and of the writer.
    pub reader_failures: u64,
    pub writer_failures: u64,
    /// What was written.
    pub written: Written,
    /// What it left of the node.
    pub after: After,
}

/// A node behind a conversation.
#[derive(Drop)]
pub struct After {
    /// What it answered to what it was asked then.
    pub answers: Vec<u8>,
    /// How many keys it has.
    pub keys: usize,
    /// Its journal.
    pub journal: Vec<Entry>,
}

/// Holds a conversation with the client. Nobody carries the messages of its node, so no reply comes later.
pub fn hold<R: Wait + Drop>(
    rt: R,
    alloc: Global,
    config: &Config,
    client: Client<'_>,
) -> Result<Held> {
    let seat = deal_one(alloc)?;
    let writer = Written {
        bytes: Vec::with_capacity(alloc, client.reserved)?,
        calls: 0,
        room: client.room,
        few: client.few,
        waits: client.waits,
        failing: client.writing,
        held: None,
    };
    hold_at::<Brand, R>(rt, alloc, config, seat, client, writer)
}

fn hold_at<K: Deployment, R: Wait + Drop>(
    rt: R,
    alloc: Global,
    config: &Config,
    seat: Seat,
    client: Client<'_>,
    writer: Written,
) -> Result<Held> {
    let node = SharedNode::new(cell_at::<K>(alloc, config, client.place, seat)?);
    node.close(&rt);
    let asks = Admission::<K>::new(config).begin();
    let mut reader = Counting::new(reader_of(client));
    let mut writer = Counting::new(writer);
    let ended = match client.manner {
        Manner::Thread => converse(rt, alloc, &node, asks, &mut reader, &mut writer),
        Manner::Turns => take_turns(rt, alloc, &node, asks, &mut reader, &mut writer),
    };
    let asks = Admission::<K>::new(config).begin();
    let after = look_after(alloc, node.into_cell(), asks, client.asked)?;
    Ok(Held {
        ended,
        reader_failures: reader.failures(),
        writer_failures: writer.failures(),
        written: writer.into_inner(),
        after,
    })
}

fn cell_at<K: Deployment>(
    alloc: Global,
    config: &Config,
    place: Place,
    seat: Seat,
) -> Result<NodeCell<K, Journal>, AllocError> {
    match place {
        Place::Second => cell_of(alloc, config, 1, seat),
        Place::Third => cell_of(alloc, config, 2, seat),
    }
}

fn reader_of(client: Client<'_>) -> Pieces<'_> {
    Pieces {
        pieces: client.pieces,
        at: 0,
        given: 0,
        fails: client.reader_fails,
        calls: 0,
        failing: client.reading,
    }
}

fn converse<K: Deployment, R: Wait + Drop>(
    rt: R,
    alloc: Global,
    node: &SharedNode<NodeCell<K, Journal>>,
    asks: Asks<K>,
    reader: &mut Counting<Pieces<'_>>,
    writer: &mut Counting<Written>,
) -> Result<(), ConnFault> {
    let mut gate = Gate::new(rt, node, asks);
    let ended = serve_conn(alloc, &mut gate, reader, writer);
    drop(gate);
    ended
}

fn take_turns<K: Deployment, R: Wait + Drop>(
    rt: R,
    alloc: Global,
    node: &SharedNode<NodeCell<K, Journal>>,
    asks: Asks<K>,
    reader: &mut Counting<Pieces<'_>>,
    writer: &mut Counting<Written>,
) -> Result<(), ConnFault> {
    let mut gate = Gate::new(rt, node, asks);
    let ended = converse_in_turns(alloc, &mut gate, reader, writer);
    drop(gate);
    ended
}

// What the node answers then, and what is left of it.
fn look_after<K: Deployment>(
    alloc: Global,
    mut cell: NodeCell<K, Journal>,
    asks: Asks<K>,
    words: &[&str],
) -> Result<After> {
    let answers = answers_of(alloc, &mut cell, asks, words)?;
    let keys = count_keys(cell.core());
    let (_config, _node, log, _seat) = cell.finish();
    Ok(After {
        answers,
        keys,
        journal: log.into_entries(),
    })
}

// What the node answers on a new connection. Where it is asked nothing, none is opened.
fn answers_of<K: Deployment>(
    alloc: Global,
    cell: &mut NodeCell<K, Journal>,
    mut asks: Asks<K>,
    words: &[&str],
) -> Result<Vec<u8>> {
    let mut answers = Vec::new(alloc);
    if words.is_empty() {
        return Ok(answers);
    }
    let conn = open(cell, &mut asks)?;
    for text in words {
        ask(alloc, cell, &mut asks, conn, text, &mut answers)?;
    }
    Ok(answers)
}

fn open<K: Deployment>(cell: &mut NodeCell<K, Journal>, asks: &mut Asks<K>) -> Result<Conn> {
    let entered = asks.ask_node(cell, Event::Open)?;
    match entered.response() {
        Response::Opened(conn) => Ok(*conn),
        _ => bail!("no connection"),
    }
}

fn ask<K: Deployment>(
    alloc: Global,
    cell: &mut NodeCell<K, Journal>,
    asks: &mut Asks<K>,
    conn: Conn,
    text: &str,
    answers: &mut Vec<u8>,
) -> Result<()> {
    let words = words_of(alloc, text)?;
    let entered = asks.ask_node(cell, Event::Request(conn, words))?;
    Ok(push_response(answers, entered.response())?)
}

// How many keys the node has, in all slots.
fn count_keys(node: &Core) -> usize {
    let mut count = 0usize;
    for number in 0..Slot::COUNT as u16 {
        if let Some(slot) = Slot::new(number) {
            count = count.saturating_add(node.count_in_slot(slot));
        }
    }
    count
}
