//! Connections that fail, and how often a conversation writes.

use crate::conversations::conversation::{Client, Held, Manner, hold};
use crate::conversations::in_memory::Failing;
use crate::shared::{say, three_masters};
use anyhow::Result;
use cluster_config::Config;
use listener::ConnFault;
use node_cell::Entry;
use node_core::Event;
use std::alloc::{AllocError, Global};
use std::sync::Wait;

const PING: &[u8] = b"*1\r\n$4\r\nPING\r\n";

const SET: &[u8] = b"*3\r\n$3\r\nSET\r\n$1\r\na\r\n$1\r\n1\r\n";

const GET: &[u8] = b"*2\r\n$3\r\nGET\r\n$1\r\na\r\n";

const MGET: &[u8] = b"*3\r\n$4\r\nMGET\r\n$1\r\na\r\n$1\r\na\r\n";

const SET_AND_GET: &[u8] =
    b"*3\r\n$3\r\nSET\r\n$1\r\na\r\n$1\r\n1\r\n*2\r\n$3\r\nGET\r\n$1\r\na\r\n";

const SET_AND_HALF: &[u8] =
    b"*3\r\n$3\r\nSET\r\n$1\r\na\r\n$1\r\n1\r\n*3\r\n$3\r\nSET\r\n$1\r\na\r\n$1\r\n";

const SET_FOO: &[u8] = b"*3\r\n$3\r\nSET\r\n$3\r\nfoo\r\n$1\r\nv\r\n";

const BAD_BYTE: &[u8] = b"PING\r\n";

const NEVER_COPIED: &[u8] = b"*3\r\n$3\r\nSET\r\n$1\r\nx\r\n$1\r\n1\r\n\
*5\r\n$7\r\nCLUSTER\r\n$7\r\nSETSLOT\r\n$5\r\n16287\r\n$9\r\nMIGRATING\r\n$40\r\n0000000000000000000000000000000000000001\r\n\
*6\r\n$7\r\nMIGRATE\r\n$9\r\n127.0.0.1\r\n$4\r\n7001\r\n$1\r\nx\r\n$1\r\n0\r\n$1\r\n2\r\n\
*1\r\n$4\r\nPING\r\n";

const MANY: usize = usize::MAX;

// A connection that fails: what the client sends and takes, and what comes of it.
struct Broken {
    pieces: &'static [&'static [u8]],
    reader_fails: bool,
    room: usize,
    written: &'static [u8],
    ended: ConnFault,
    failures: u64,
    steps: usize,
}

const BROKEN: [Broken; 7] = [
    // A reader that fails ends the conversation, and what came before is answered.
    Broken {
        pieces: &[SET, GET],
        reader_fails: true,
        room: MANY,
        written: b"+OK\r\n$1\r\n1\r\n",
        ended: ConnFault::Reader,
        failures: 1,
        steps: 4,
    },
    // It fails within a request, which isn't made.
    Broken {
        pieces: &[SET_AND_HALF],
        reader_fails: true,
        room: MANY,
        written: b"+OK\r\n",
        ended: ConnFault::Reader,
        failures: 1,
        steps: 3,
    },
    // It fails at once.
    Broken {
        pieces: &[],
        reader_fails: true,
        room: MANY,
        written: b"",
        ended: ConnFault::Reader,
        failures: 1,
        steps: 2,
    },
    // A writer that fails within a reply is written to no more, and nothing more is read.
    Broken {
        pieces: &[SET_AND_GET, PING],
        reader_fails: false,
        room: 7,
        written: b"+OK\r\n$1",
        ended: ConnFault::Writer,
        failures: 1,
        steps: 4,
    },
    // It fails later: what was written is whole.
    Broken {
        pieces: &[PING, PING, SET],
        reader_fails: false,
        room: 7,
        written: b"+PONG\r\n",
        ended: ConnFault::Writer,
        failures: 1,
        steps: 4,
    },
    // It takes nothing, and is not told of a bad byte.
    Broken {
        pieces: &[BAD_BYTE],
        reader_fails: false,
        room: 0,
        written: b"",
        ended: ConnFault::Writer,
        failures: 1,
        steps: 2,
    },
    // A request waits for a copy, at a node that ends before one is acknowledged: nothing is replied to it.
    Broken {
        pieces: &[NEVER_COPIED],
        reader_fails: false,
        room: MANY,
        written: b"+OK\r\n+OK\r\n",
        ended: ConnFault::Unanswered,
        failures: 0,
        steps: 5,
    },
];

/// A value that is set, and read by requests of the same piece.
#[derive(Clone, Copy)]
pub struct Reads {
    /// How long the value is.
    pub len: usize,
    /// How often it is read.
    pub times: usize,
    /// Whether it is read twice by each request, in an array.
    pub twice: bool,
}

// Replies of less than 64 KiB are written together.
const TOGETHER: [Reads; 3] = [
    Reads {
        len: 1,
        times: 16,
        twice: false,
    },
    Reads {
        len: 16_384,
        times: 1,
        twice: false,
    },
    Reads {
        len: 16_000,
        times: 4,
        twice: false,
    },
];

// Replies of more than 64 KiB are not, and neither is a value of more than 16 KiB, alone or in an array.
const APART: [Reads; 3] = [
    Reads {
        len: 16_000,
        times: 7,
        twice: false,
    },
    Reads {
        len: 16_385,
        times: 1,
        twice: false,
    },
    Reads {
        len: 16_385,
        times: 1,
        twice: true,
    },
];

// The writer fails within this value.
const LONG: Reads = Reads {
    len: 100_000,
    times: 1,
    twice: false,
};

const ROOM: usize = 50_014;

/// Says of each kind of connection whether all came as it has to.
pub fn try_out<R: Wait + AllocGlobal + Print + Copy + Drop>(rt: R) -> Result<()> {
    let config = three_masters(rt.alloc())?;
    judge(rt, &config)
}

fn judge<R: Wait + AllocGlobal + Print + Copy + Drop>(rt: R, config: &Config) -> Result<()> {
    say(
        &rt,
        "broken connections end as they have to",
        all_break(rt, config)?,
    )?;
    say(
        &rt,
        "a value that is cut off isn't begun again",
        is_cut(rt, config)?,
    )?;
    judge_cut_requests(rt, config)?;
    judge_writes(rt, config)
}

fn judge_cut_requests<R: Wait + AllocGlobal + Print + Copy + Drop>(
    rt: R,
    config: &Config,
) -> Result<()> {
    say(
        &rt,
        "beginnings of a request are neither answered nor executed",
        are_silent(rt, config)?,
    )?;
    let is_executed = is_executed(rt, config)?;
    Ok(say(
        &rt,
        "a request whose reply can't be written is executed",
        is_executed,
    )?)
}

fn judge_writes<R: Wait + AllocGlobal + Print + Copy + Drop>(rt: R, config: &Config) -> Result<()> {
    let together = all_written(rt, config, &TOGETHER, true)?;
    say(&rt, "replies of one read are one write", together)?;
    let apart = all_written(rt, config, &APART, false)?;
    Ok(say(&rt, "long replies are several writes", apart)?)
}

fn all_break<R: Wait + AllocGlobal + Copy + Drop>(rt: R, config: &Config) -> Result<bool> {
    for row in &BROKEN {
        let client = Client {
            reader_fails: row.reader_fails,
            room: row.room,
            ..Client::new(row.pieces)
        };
        let held = hold(rt, rt.alloc(), config, client)?;
        if !came(row, &held) {
            return Ok(false);
        }
    }
    Ok(true)
}

fn came(row: &Broken, held: &Held) -> bool {
    held.ended == Err(row.ended)
        && held.written.bytes.as_slice() == row.written
        && held.reader_failures.saturating_add(held.writer_failures) == row.failures
        && held.after.journal.len() == row.steps
}

// Each shorter beginning of a request, and then the end of what the client sends.
fn are_silent<R: Wait + AllocGlobal + Copy + Drop>(rt: R, config: &Config) -> Result<bool> {
    for len in 0..SET_FOO.len() {
        for manner in [Manner::Thread, Manner::Turns] {
            let pieces = [SET_FOO.get(..len).unwrap_or(SET_FOO)];
            let client = Client {
                manner,
                ..Client::new(&pieces)
            };
            let held = hold(rt, rt.alloc(), config, client)?;
            if !is_silent(&held) {
                return Ok(false);
            }
        }
    }
    Ok(true)
}

// Nothing was written, and the connection was opened and closed, and nothing else.
fn is_silent(held: &Held) -> bool {
    held.ended == Ok(()) && held.written.calls == 0 && is_unused(held.after.journal.as_slice())
}

fn is_unused(journal: &[Entry]) -> bool {
    match journal {
        [
            Entry::Step {
                event: first,
                outputs: _,
            },
            Entry::Step {
                event: last,
                outputs: _,
            },
        ] => { matches!(first, Event::Open) && matches!(last, Event::Close(_)) }
        _ => false,
    }
}

// The writer fails at its first call, and the key is set.
fn is_executed<R: Wait + AllocGlobal + Copy + Drop>(rt: R, config: &Config) -> Result<bool> {
    let client = Client {
        writing: Some(Failing {
            after: 0,
            once: true,
        }),
        asked: &["GET foo"],
        ..Client::new(&[SET_FOO])
    };
    let held = hold(rt, rt.alloc(), config, client)?;
    Ok(
        held.ended == Err(ConnFault::Writer)
            && held.written.calls == 1
            && held.written.bytes.is_empty()
            && held.after.answers.as_slice() == b"$1\r\nv\r\n".as_slice(),
    )
}

fn all_written<R: Wait + AllocGlobal + Copy + Drop>(
    rt: R,
    config: &Config,
    rows: &[Reads],
    at_once: bool,
) -> Result<bool> {
    for row in rows {
        let held = read(rt, config, *row, MANY)?;
        let answer = replies(rt.alloc(), *row)?;
        if held.written.bytes != answer || (held.written.calls == 1) != at_once {
            return Ok(false);
        }
    }
    Ok(true)
}

// What was written of a long value ends where the writer fails, and isn't begun again.
fn is_cut<R: Wait + AllocGlobal + Copy + Drop>(rt: R, config: &Config) -> Result<bool> {
    let held = read(rt, config, LONG, ROOM)?;
    let answer = replies(rt.alloc(), LONG)?;
    Ok(
        held.ended == Err(ConnFault::Writer)
            && held.written.bytes.len() == ROOM
            && answer.as_slice().starts_with(held.written.bytes.as_slice()),
    )
}

fn read<R: Wait + AllocGlobal + Copy + Drop>(
    rt: R,
    config: &Config,
    reads: Reads,
    room: usize,
) -> Result<Held> {
    let piece = requests(rt.alloc(), reads)?;
    let pieces = [piece.as_slice()];
    let client = Client {
        room,
        ..Client::new(&pieces)
    };
    hold(rt, rt.alloc(), config, client)
}

/// The requests.
pub fn requests(alloc: Global, reads: Reads) -> Result<Vec<u8>, AllocError> {
    let mut bytes = Vec::from_slice(alloc, b"*3\r\n$3\r\nSET\r\n$1\r\na\r\n")?;
    push_value(&mut bytes, reads.len)?;
    for _ in 0..reads.times {
        bytes.extend_from_slice(if reads.twice { MGET } else { GET })?;
    }
    Ok(bytes)
}

/// The replies to them.
pub fn replies(alloc: Global, reads: Reads) -> Result<Vec<u8>, AllocError> {
    let mut bytes = Vec::from_slice(alloc, b"+OK\r\n")?;
    for _ in 0..reads.times {
        if reads.twice {
            bytes.extend_from_slice(b"*2\r\n")?;
            push_value(&mut bytes, reads.len)?;
        }
        push_value(&mut bytes, reads.len)?;
    }
    Ok(bytes)
}

// The value as a bulk string.
fn push_value(bytes: &mut Vec<u8>, len: usize) -> Result<(), AllocError> {
    let head = format!(in *bytes.allocator(); "${len}\r\n")?;
    bytes.extend_from_slice(head.as_bytes())?;
    for _ in 0..len {
        bytes.push(b'v')?;
    }
    bytes.extend_from_slice(b"\r\n")
}
