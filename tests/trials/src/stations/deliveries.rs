//! Many messages that come to a node, with memory at hand.

use crate::pairs::{Both, both_cells, step};
use crate::shared::{Two, conn_of, deal_two, one_replica, say, words_of};
use anyhow::{Context, Result};
use cluster_config::Config;
use node_cell::{Admission, Asks, Deployment, Entry, Journal, NodeCell};
use node_core::Event;
use std::alloc::Global;
use std::marker::Brand;
use tickets::Seat;

// How many messages come to a replica, a write each.
const MESSAGES: usize = 1000;

/// Says whether each message that comes makes a step, and none is skipped.
pub fn try_out<R: AllocGlobal + Print>(rt: &R) -> Result<()> {
    let config = one_replica(rt.alloc())?;
    let are_taken = are_taken(rt.alloc(), &config)?;
    Ok(say(rt, "each of 1,000 messages makes a step", are_taken)?)
}

fn are_taken(alloc: Global, config: &Config) -> Result<bool> {
    let Two {
        table: _,
        first,
        second,
    } = deal_two(alloc)?;
    are_taken_at::<Brand>(alloc, config, first, second)
}

fn are_taken_at<K: Deployment>(
    alloc: Global,
    config: &Config,
    first: Seat,
    second: Seat,
) -> Result<bool> {
    let mut cells = both_cells::<K>(alloc, config, first, second)?;
    write_all(alloc, &mut Admission::new(config).begin(), &mut cells)?;
    let mut list = cells.into_list(alloc)?;
    let replica = list.pop().context("there is no replica")?;
    let (_config, _node, journal, _seat) = replica.finish();
    let entries = journal.into_entries();
    Ok(are_steps(entries.as_slice()))
}

// The master executes writes, and the message of each is delivered to its replica.
fn write_all<K: Deployment>(
    alloc: Global,
    asks: &mut Asks<K>,
    cells: &mut Both<NodeCell<K, Journal>>,
) -> Result<()> {
    step(asks, &mut cells.first, Event::Open)?;
    for _ in 0..MESSAGES {
        let event = Event::Request(conn_of(0), words_of(alloc, "SET a 0123456789")?);
        step(asks, &mut cells.first, event)?;
        deliver(cells)?;
    }
    Ok(())
}

// Delivers the messages of the master's step, whatever comes of it.
fn deliver<K: Deployment>(cells: &mut Both<NodeCell<K, Journal>>) -> Result<()> {
    let sending = cells.first.take_sent().context("no message was sent")?;
    for posted in sending {
        drop(cells.second.deliver(posted));
    }
    Ok(())
}

// Whether there is an entry for each message, and each is a step.
fn are_steps(entries: &[Entry]) -> bool {
    entries.len() == MESSAGES && entries.iter().all(|entry| is_step(entry))
}

fn is_step(entry: &Entry) -> bool {
    match entry {
        Entry::Step {
            event: _,
            outputs: _,
        } => true,
        Entry::Skipped { ticket: _ } => false,
    }
}
