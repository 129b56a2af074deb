//! A link that is full.

use crate::shared::say;
use anyhow::Result;
use bus::Link;
use link_ends::{LinkEnd, MOST_MESSAGES, link};
use std::alloc::{AllocError, Global};
use std::sync::Wait;

// One message more than there is room for.
const ALL: usize = MOST_MESSAGES + 1;

// What was seen of a link.
#[derive(Clone, Copy)]
struct Seen {
    // The message for which there is no room is handed back.
    is_handed_back: bool,
    // It is taken once another one was received.
    is_taken: bool,
    // All come in order, each once.
    are_in_order: bool,
}

/// Says what becomes of the messages of a link on which there is no room for one more.
pub fn try_out<R: AllocGlobal + Print + Wait + Copy + Drop>(rt: R) -> Result<()> {
    let mut end = end_of(rt.alloc(), rt)?;
    let seen = fill(&mut end);
    say(
        &rt,
        "the 1,025th message on a link is handed back",
        seen.is_handed_back,
    )?;
    say(&rt, "it is taken once one is received", seen.is_taken)?;
    Ok(say(&rt, "all come in order, each once", seen.are_in_order)?)
}

// An end that sends to itself.
fn end_of<R: Wait + Copy + Drop>(alloc: Global, rt: R) -> Result<LinkEnd<usize, R>, AllocError> {
    let (sender, receiver) = link(alloc)?;
    Ok(LinkEnd::new(rt, sender, receiver))
}

// Sends as many messages as there is room for, and one more, and receives all.
fn fill<L: Link<Carried = usize>>(end: &mut L) -> Seen {
    let are_sent = are_sent(end, MOST_MESSAGES);
    let is_handed_back = are_sent && end.send(MOST_MESSAGES) == Err(MOST_MESSAGES);
    let is_first = end.try_receive() == Some(0);
    let is_taken = is_first && end.send(MOST_MESSAGES).is_ok();
    Seen {
        is_handed_back,
        is_taken,
        are_in_order: are_received(end, 1, ALL) && end.try_receive().is_none(),
    }
}

// Whether there is room for so many messages, the numbers from 0 on.
fn are_sent<L: Link<Carried = usize>>(end: &mut L, count: usize) -> bool {
    for number in 0..count {
        if end.send(number).is_err() {
            return false;
        }
    }
    true
}

// Whether the numbers come from the first one on, one after the other, up to that in front of `behind_last`.
fn are_received<L: Link<Carried = usize>>(end: &mut L, first: usize, behind_last: usize) -> bool {
    for number in first..behind_last {
        if end.try_receive() != Some(number) {
            return false;
        }
    }
    true
}
