//! Readers and writers that fail at each of their calls in turn, once and for good: of conversations, and of a client's calls.

use crate::conversations::calls::{CALLS, Call, is_usual, make, may_come};
use crate::conversations::conversation::{Client, Held, Manner, hold};
use crate::conversations::in_memory::Failing;
use crate::conversations::lines::Deed;
use crate::conversations::writes::{Reads, replies, requests};
use crate::shared::{tell_count, three_masters};
use anyhow::Result;
use cluster_config::Config;
use listener::ConnFault;
use std::alloc::Global;
use std::sync::Wait;

// The requests, each read on its own, and a bad byte behind them.
const PIECES: [&[u8]; 8] = [
    b"*3\r\n$3\r\nSET\r\n$1\r\na\r\n$1\r\n1\r\n",
    b"*2\r\n$3\r\nget\r\n$1\r\na\r\n",
    b"*3\r\n$4\r\nMGET\r\n$1\r\na\r\n$4\r\n{a}1\r\n",
    b"*6\r\n$4\r\nHSET\r\n$4\r\n{a}h\r\n$1\r\nf\r\n$1\r\n1\r\n$1\r\ng\r\n$1\r\n2\r\n",
    b"*2\r\n$7\r\nHGETALL\r\n$4\r\n{a}h\r\n",
    b"*2\r\n$3\r\nGET\r\n$1\r\nb\r\n",
    b"*1\r\n$4\r\nPING\r\n",
    b"PING\r\n",
];

const REPLIES: [&[u8]; 8] = [
    b"+OK\r\n",
    b"$1\r\n1\r\n",
    b"*2\r\n$1\r\n1\r\n$-1\r\n",
    b":2\r\n",
    b"*4\r\n$1\r\nf\r\n$1\r\n1\r\n$1\r\ng\r\n$1\r\n2\r\n",
    b"-MOVED 3300 127.0.0.1:7000\r\n",
    b"+PONG\r\n",
    b"-ERR Protocol error\r\n",
];

// So many bytes of them are taken at once.
const FEW: usize = 5;

// A value that is written from where it stands, and so many bytes of it that are taken at once.
const LONG: Reads = Reads {
    len: 16_385,
    times: 2,
    twice: true,
};

const SOME: usize = 3_000;

// No device of these trials is called so often.
const MANY: usize = 1_000;

// A conversation, and which end of it fails.
#[derive(Clone, Copy)]
struct Course<'a> {
    name: &'static str,
    manner: Manner,
    // Whether the reader fails, and not the writer.
    reads: bool,
    pieces: &'a [&'a [u8]],
    // What is written for each piece.
    replies: &'a [&'a [u8]],
    few: usize,
}

impl<'a> Course<'a> {
    // The client whose device fails so.
    fn client(&self, failing: Failing) -> Client<'a> {
        let client = Client {
            manner: self.manner,
            few: self.few,
            ..Client::new(self.pieces)
        };
        if self.reads {
            Client {
                reading: Some(failing),
                ..client
            }
        } else {
            Client {
                writing: Some(failing),
                ..client
            }
        }
    }

    // Whether the conversation ended where its device failed, and nothing was written behind that.
    fn ended_there(&self, held: &Held, after: usize) -> bool {
        if self.reads {
            failed_to_read(held) && wrote_all(held, self.replies, after) && steps(held) == after
        } else {
            failed_to_write(held) && wrote_some(held, self.replies)
        }
    }

    // How many calls failed, if the conversation ended as it has to.
    fn judged(&self, held: &Held, after: usize) -> Option<u64> {
        let failures = held.reader_failures.saturating_add(held.writer_failures);
        let is_right = if failures == 0 {
            self.ended_well(held)
        } else {
            self.ended_there(held, after)
        };
        if is_right { Some(failures) } else { None }
    }

    // Whether it ended as it does where nothing fails.
    fn ended_well(&self, held: &Held) -> bool {
        held.ended.is_ok() && wrote_all(held, self.replies, self.replies.len())
    }
}

// The fault is the reader's, as its count says.
fn failed_to_read(held: &Held) -> bool {
    held.ended == Err(ConnFault::Reader) && held.reader_failures == 1 && held.writer_failures == 0
}

// The fault is the writer's, as its count says, and it took nothing more.
fn failed_to_write(held: &Held) -> bool {
    held.ended == Err(ConnFault::Writer)
        && held.reader_failures == 0
        && held.writer_failures == 1
        && held.written.held == Some(held.written.bytes.len())
}

// How many requests the node answered: its other steps open the connection and close it.
fn steps(held: &Held) -> usize {
    held.after.journal.len().saturating_sub(2)
}

// Whether so many of the replies were written, and nothing else.
fn wrote_all(held: &Held, replies: &[&[u8]], count: usize) -> bool {
    let mut rest = held.written.bytes.as_slice();
    for reply in replies.iter().take(count) {
        match rest.strip_prefix(*reply) {
            Some(behind) => rest = behind,
            None => return false,
        }
    }
    rest.is_empty()
}

// Whether a beginning of the replies was written.
fn wrote_some(held: &Held, replies: &[&[u8]]) -> bool {
    let mut rest = held.written.bytes.as_slice();
    for reply in replies {
        match rest.strip_prefix(*reply) {
            Some(behind) => rest = behind,
            None => return reply.starts_with(rest),
        }
    }
    rest.is_empty()
}

/// Says of each device how many of its calls failed in turn, or that something else came than has to.
pub fn try_out<R: Wait + AllocGlobal + Print + Copy + Drop>(rt: R) -> Result<()> {
    let config = three_masters(rt.alloc())?;
    converse_all(rt, &config)?;
    call_all(&rt)
}

fn converse_all<R: Wait + AllocGlobal + Print + Copy + Drop>(rt: R, config: &Config) -> Result<()> {
    for course in &SHORT {
        show(rt, config, course)?;
    }
    let piece = requests(rt.alloc(), LONG)?;
    let replied = replies(rt.alloc(), LONG)?;
    show_long(rt, config, piece.as_slice(), replied.as_slice())
}

const SHORT: [Course<'static>; 4] = [
    Course {
        name: "reader of a conversation in a thread",
        manner: Manner::Thread,
        reads: true,
        pieces: &PIECES,
        replies: &REPLIES,
        few: FEW,
    },
    Course {
        name: "reader of a conversation in turns",
        manner: Manner::Turns,
        reads: true,
        pieces: &PIECES,
        replies: &REPLIES,
        few: FEW,
    },
    Course {
        name: "writer of a conversation in a thread",
        manner: Manner::Thread,
        reads: false,
        pieces: &PIECES,
        replies: &REPLIES,
        few: FEW,
    },
    Course {
        name: "writer of a conversation in turns",
        manner: Manner::Turns,
        reads: false,
        pieces: &PIECES,
        replies: &REPLIES,
        few: FEW,
    },
];

fn show_long<R: Wait + AllocGlobal + Print + Copy + Drop>(
    rt: R,
    config: &Config,
    piece: &[u8],
    replied: &[u8],
) -> Result<()> {
    let course = Course {
        name: "writer of long values in a thread",
        manner: Manner::Thread,
        reads: false,
        pieces: &[piece],
        replies: &[replied],
        few: SOME,
    };
    show(rt, config, &course)?;
    let in_turns = Course {
        name: "writer of long values in turns",
        manner: Manner::Turns,
        ..course
    };
    show(rt, config, &in_turns)
}

fn show<R: Wait + AllocGlobal + Print + Copy + Drop>(
    rt: R,
    config: &Config,
    course: &Course<'_>,
) -> Result<()> {
    let swept = sweep(rt, config, course)?;
    Ok(tell_count(&rt, course.name, swept)?)
}

// How many calls failed in turn, if each conversation ended as it has to.
fn sweep<R: Wait + AllocGlobal + Copy + Drop>(
    rt: R,
    config: &Config,
    course: &Course<'_>,
) -> Result<Option<usize>> {
    for after in 0..MANY {
        match failures_in(rt, config, course, Failing { after, once: false })? {
            None => return Ok(None),
            Some(0) => return Ok(Some(after)),
            Some(_) => {}
        }
        let again = failures_in(rt, config, course, Failing { after, once: true })?;
        if again.is_none() {
            return Ok(None);
        }
    }
    Ok(None)
}

// How many calls of its device failed, if the conversation ended as it has to.
fn failures_in<R: Wait + AllocGlobal + Copy + Drop>(
    rt: R,
    config: &Config,
    course: &Course<'_>,
    failing: Failing,
) -> Result<Option<u64>> {
    let held = hold(rt, rt.alloc(), config, course.client(failing))?;
    Ok(course.judged(&held, failing.after))
}

// What a client does with its connections.
const DEEDS: [(&str, Deed); 4] = [
    ("connections of calls", Deed::Connect),
    ("readers of calls", Deed::Read),
    ("writers of calls", Deed::Write),
    ("flushes of calls", Deed::Flush),
];

fn call_all<R: AllocGlobal + Print>(rt: &R) -> Result<()> {
    for (name, deed) in &DEEDS {
        let swept = sweep_calls(rt.alloc(), *deed)?;
        tell_count(rt, name, swept)?;
    }
    Ok(())
}

// How many such deeds failed in turn in all calls, if each was answered as it has to be.
fn sweep_calls(alloc: Global, deed: Deed) -> Result<Option<usize>> {
    let mut count = 0usize;
    for call in &CALLS {
        match sweep_call(alloc, call, deed)? {
            Some(swept) => count = count.saturating_add(swept),
            None => return Ok(None),
        }
    }
    Ok(Some(count))
}

fn sweep_call(alloc: Global, call: &Call, deed: Deed) -> Result<Option<usize>> {
    for after in 0..MANY {
        match failures_of(alloc, call, deed, Failing { after, once: false })? {
            None => return Ok(None),
            Some(0) => return Ok(Some(after)),
            Some(_) => {}
        }
        let again = failures_of(alloc, call, deed, Failing { after, once: true })?;
        if again.is_none() {
            return Ok(None);
        }
    }
    Ok(None)
}

// How many deeds failed, if the call was answered as it has to be.
fn failures_of(alloc: Global, call: &Call, deed: Deed, failing: Failing) -> Result<Option<usize>> {
    let made = make(alloc, call, Some((deed, failing)))?;
    let is_right = may_come(alloc, call, &made)?
        && (made.seen.failures > 0 || is_usual(call, &made));
    Ok(if is_right {
        Some(made.seen.failures)
    } else {
        None
    })
}
