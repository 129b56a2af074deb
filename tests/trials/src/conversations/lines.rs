//! Nodes in memory as a client's connections reach them, and what passed there.

use crate::conversations::in_memory::{Failing, fails};
use std::cell::Cell;

/// A request on a connection, and what comes back.
#[derive(Clone, Copy)]
pub struct Exchange {
    /// The request.
    pub request: &'static [u8],
    /// The reply. Where it is empty, the connection ends.
    pub reply: &'static [u8],
    /// Whether the request is the command of the call.
    pub is_command: bool,
}

/// A connection that the client makes.
#[derive(Clone, Copy)]
pub struct Line {
    /// The port that it leads to.
    pub port: u16,
    /// What passes there, in order.
    pub exchanges: &'static [Exchange],
}

// A call makes so many connections at most.
const MOST_LINES: usize = 2;

/// How many bytes of requests were handed over on a connection, and how many of replies came there.
#[derive(Clone, Copy)]
pub struct Passed {
    pub handed: usize,
    pub given: usize,
}

/// What is done with a connection.
#[derive(Clone, Copy, PartialEq, Eq)]
pub enum Deed {
    Connect,
    Read,
    Write,
    Flush,
}

/// What passed on all connections of a call.
#[derive(Clone, Copy)]
pub struct Seen {
    /// What passed on each, in the order in which they were made.
    pub passed: [Passed; MOST_LINES],
    /// How many deeds of the kind that fails were done, and how many failed.
    pub deeds: usize,
    pub failures: usize,
    /// Whether something else was sent than has to be, or a connection was made to another node.
    pub is_strange: bool,
}

/// What the ends of all connections of a call share.
#[derive(Drop)]
pub struct Desk {
    /// The deed that fails, and when.
    failing: Option<(Deed, Failing)>,
    seen: Cell<Seen>,
}

impl Desk {
    /// Nothing passed yet.
    pub fn new(failing: Option<(Deed, Failing)>) -> Desk {
        let nothing = Passed {
            handed: 0,
            given: 0,
        };
        Desk {
            failing,
            seen: Cell::new(Seen {
                passed: [nothing; MOST_LINES],
                deeds: 0,
                failures: 0,
                is_strange: false,
            }),
        }
    }

    /// What passed.
    pub fn seen(&self) -> Seen {
        self.seen.get()
    }

    /// Whether the deed fails, which is counted.
    pub fn fails(&self, deed: Deed) -> bool {
        match self.failing {
            Some((kind, failing)) if kind == deed => self.note_deed(failing),
            _ => false,
        }
    }

    fn note_deed(&self, failing: Failing) -> bool {
        let mut seen = self.seen.get();
        let has_failed = fails(Some(failing), seen.deeds);
        seen.deeds = seen.deeds.saturating_add(1);
        if has_failed {
            seen.failures = seen.failures.saturating_add(1);
        }
        self.seen.set(seen);
        has_failed
    }

    /// Notes that something else was done than has to be.
    pub fn note_strange(&self) {
        let mut seen = self.seen.get();
        seen.is_strange = true;
        self.seen.set(seen);
    }

    /// Takes bytes of requests on a connection.
    pub fn take(&self, line: &Line, place: usize, bytes: &[u8]) {
        let mut seen = self.seen.get();
        if let Some(passed) = seen.passed.get_mut(place) {
            if !wanted(line, *passed).starts_with(bytes) {
                seen.is_strange = true;
            }
            passed.handed = passed.handed.saturating_add(bytes.len());
        }
        self.seen.set(seen);
    }

    /// What comes next on a connection.
    pub fn coming(&self, line: &Line, place: usize) -> &'static [u8] {
        match self.seen().passed.get(place) {
            Some(passed) => rest_of_reply(line, *passed),
            None => b"",
        }
    }

    /// Notes how many bytes came on a connection.
    pub fn note_given(&self, place: usize, count: usize) {
        let mut seen = self.seen.get();
        if let Some(passed) = seen.passed.get_mut(place) {
            passed.given = passed.given.saturating_add(count);
        }
        self.seen.set(seen);
    }
}

// The first exchange of a connection that isn't over, and what passed of it.
fn current(line: &Line, passed: Passed) -> Option<(Exchange, Passed)> {
    let mut rest = passed;
    for exchange in line.exchanges {
        if !is_over(*exchange, rest) {
            return Some((*exchange, rest));
        }
        rest = rest_behind(*exchange, rest);
    }
    None
}

fn is_over(exchange: Exchange, passed: Passed) -> bool {
    !exchange.reply.is_empty() && passed.given >= exchange.reply.len()
}

// What passed behind the exchange.
fn rest_behind(exchange: Exchange, passed: Passed) -> Passed {
    Passed {
        handed: passed.handed.saturating_sub(exchange.request.len()),
        given: passed.given.saturating_sub(exchange.reply.len()),
    }
}

// What the client has to send next.
fn wanted(line: &Line, passed: Passed) -> &'static [u8] {
    match current(line, passed) {
        Some((exchange, rest)) => exchange.request.get(rest.handed..).unwrap_or(b""),
        None => b"",
    }
}

// What is left of the reply to a request that was handed over as a whole.
fn rest_of_reply(line: &Line, passed: Passed) -> &'static [u8] {
    match current(line, passed) {
        Some((exchange, rest)) if rest.handed >= exchange.request.len() => {
            exchange.reply.get(rest.given..).unwrap_or(b"")
        }
        _ => b"",
    }
}

/// The last request of which a byte was handed over.
#[derive(Clone, Copy)]
pub struct Last {
    /// It, and what comes back.
    pub exchange: Exchange,
    /// Whether all of that came.
    pub is_answered: bool,
}

/// The last request of which a byte was handed over, on any connection.
pub fn last_handed(lines: &[Line], seen: Seen) -> Option<Last> {
    let mut last = None;
    for (line, passed) in lines.iter().zip(&seen.passed) {
        last = last_on(line, *passed, last);
    }
    last
}

// The last one on the connection, or the one before.
fn last_on(line: &Line, passed: Passed, before: Option<Last>) -> Option<Last> {
    let mut last = before;
    let mut rest = passed;
    for exchange in line.exchanges {
        if rest.handed > 0 {
            last = Some(Last {
                exchange: *exchange,
                is_answered: is_over(*exchange, rest),
            });
        }
        rest = rest_behind(*exchange, rest);
    }
    last
}
