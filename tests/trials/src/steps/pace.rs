//! How fast a replica takes what its master sends: pieces, one behind the other, and all keys at once. It prints times, so it is run by
//! hand.

use crate::shared::{conn_of, with_replicas, words_of};
use crate::steps::rows::{open_node, outputs_of};
use anyhow::Result;
use bus::Message;
use cluster_config::Config;
use node_core::{Core, Event};
use std::alloc::Global;
use std::rt::Clock;
use std::time::Instant;

// The master, and its replica.
const MASTER: u8 = 2;

const REPLICA: u8 = 5;

// How many keys there are, and how many bytes each value has.
const KEYS: u32 = 100_000;

const LENGTH: usize = 1_000;

/// Says how long a replica takes for all pieces, and another one from its sync to the end of the snapshot.
pub fn measure<R: AllocGlobal + Print + Clock>(rt: &R) -> Result<()> {
    let config = with_replicas(rt.alloc())?;
    let mut master = open_node(rt.alloc(), &config, MASTER)?;
    measure_at(rt, &config, &mut master)
}

fn measure_at<R: AllocGlobal + Print + Clock>(
    rt: &R,
    config: &Config,
    master: &mut Core,
) -> Result<()> {
    measure_pieces(rt, config, master)?;
    measure_snapshot(rt, config, master)
}

fn measure_pieces<R: AllocGlobal + Print + Clock>(
    rt: &R,
    config: &Config,
    master: &mut Core,
) -> Result<()> {
    let mut replica = open_node(rt.alloc(), config, REPLICA)?;
    let taken = time_of_pieces(rt, &mut replica, master)?;
    Ok(println!(rt; "{KEYS} pieces with values of {LENGTH} bytes: {taken} ms")?)
}

fn time_of_pieces<R: AllocGlobal + Clock>(
    rt: &R,
    replica: &mut Core,
    master: &mut Core,
) -> Result<u128> {
    let pieces = write_all(rt.alloc(), master)?;
    let begun = Instant::now(rt)?;
    take_all(replica, pieces)?;
    Ok(begun.elapsed(rt)?.as_millis())
}

fn measure_snapshot<R: AllocGlobal + Print + Clock>(
    rt: &R,
    config: &Config,
    master: &mut Core,
) -> Result<()> {
    let mut replica = open_node(rt.alloc(), config, REPLICA)?;
    let taken = time_of_snapshot(rt, &mut replica, master)?;
    Ok(println!(rt; "a snapshot of them, from the sync on: {taken} ms")?)
}

fn time_of_snapshot<R: Clock>(rt: &R, replica: &mut Core, master: &mut Core) -> Result<u128> {
    let begun = Instant::now(rt)?;
    catch_up(replica, master)?;
    Ok(begun.elapsed(rt)?.as_millis())
}

// The pieces of writes at the master.
fn write_all(alloc: Global, master: &mut Core) -> Result<Vec<Message>> {
    let value = "v".repeat(alloc, LENGTH)?;
    let mut pieces = Vec::with_capacity(alloc, KEYS as usize)?;
    for number in 0..KEYS {
        let text = format!(in alloc; "SET {{a}}{number} {value}")?;
        let event = Event::Request(conn_of(0), words_of(alloc, text.as_str())?);
        add_messages(master, &event, &mut pieces)?;
    }
    Ok(pieces)
}

fn add_messages(node: &mut Core, event: &Event, messages: &mut Vec<Message>) -> Result<()> {
    let outputs = outputs_of(node, event)?;
    for message in outputs.sent.as_slice() {
        messages.push(message.clone()?)?;
    }
    Ok(())
}

fn take_all(node: &mut Core, messages: Vec<Message>) -> Result<()> {
    for message in messages {
        let _nothing = outputs_of(node, &Event::Deliver(message))?;
    }
    Ok(())
}

// A replica says how far it is, and takes what its master answers.
fn catch_up(replica: &mut Core, master: &mut Core) -> Result<()> {
    let told = outputs_of(replica, &Event::Tick)?;
    for message in told.sent.as_slice() {
        let answer = outputs_of(master, &Event::Deliver(message.clone()?))?;
        take_answer(replica, answer.sent.as_slice())?;
    }
    Ok(())
}

fn take_answer(replica: &mut Core, messages: &[Message]) -> Result<()> {
    for message in messages {
        let _nothing = outputs_of(replica, &Event::Deliver(message.clone()?))?;
    }
    Ok(())
}
