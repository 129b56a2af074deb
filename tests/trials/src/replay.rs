//! What the commands of a journal leave where one after the other is executed on a map, with no node round it.

use command::{Command, parse};
use key_commands::exec;
use keyspace::TreeStore;
use node_cell::Entry;
use node_core::{Event, Outputs, Response, Why};
use resp2::{Reply, Words};
use std::alloc::{AllocError, Global};

/// Whether each command that the journal says was executed has the reply there that the map gives, and the map has so many keys in the end.
pub fn is_replayed(alloc: Global, journal: &[Entry], keys: usize) -> Result<bool, AllocError> {
    let mut store = TreeStore::new(alloc);
    for entry in journal {
        if !is_repeated(alloc, &mut store, entry)? {
            return Ok(false);
        }
    }
    Ok(store.len() == keys)
}

fn is_repeated(alloc: Global, store: &mut TreeStore, entry: &Entry) -> Result<bool, AllocError> {
    match entry {
        Entry::Step { event, outputs } => is_repeated_step(alloc, store, event, outputs),
        Entry::Skipped { ticket: _ } => Ok(true),
    }
}

// A step that executed no command leaves the map as it is.
fn is_repeated_step(
    alloc: Global,
    store: &mut TreeStore,
    event: &Event,
    outputs: &Outputs,
) -> Result<bool, AllocError> {
    match (event, &outputs.response) {
        (Event::Request(_, words), Response::Replied(answer)) if was_executed(answer.why) => {
            is_reply_of(alloc, store, words, &answer.reply)
        }
        _ => Ok(true),
    }
}

fn was_executed(why: Why) -> bool {
    match why {
        Why::Decided(decision) => decision.is_served(),
        _ => false,
    }
}

// Executes the command.
fn is_reply_of(
    alloc: Global,
    store: &mut TreeStore,
    words: &Words,
    reply: &Reply,
) -> Result<bool, AllocError> {
    match parse(words) {
        Ok(Command::Data(command)) => {
            let given = exec(alloc, store, &command)?;
            Ok(given == *reply)
        }
        _ => Ok(false),
    }
}
