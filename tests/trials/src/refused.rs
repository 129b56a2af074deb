//! Conversations and calls that judge themselves. Whichever allocation is refused, the client reads what it would read otherwise, up to
//! the line that tells of refused memory, or to the end of the connection, and the node's keys are those that its journal leaves. A call
//! is answered as what passed for it allows.

use crate::conversations::{CALLS, Client, Held, Manner, Place, hold, make, may_come};
use crate::growth::{hash_is_unchanged, map_is_unchanged};
use crate::replay::is_replayed;
use crate::second_tries::{buffer_is_unchanged, reader_loses_nothing};
use crate::shared::{tell, three_masters};
use anyhow::{Result, bail};
use cluster_config::Config;
use std::alloc::{AllocError, Global};
use std::sync::Wait;

// A conversation, and what its client reads where memory is ample.
struct Conversation {
    place: Place,
    pieces: &'static [&'static [u8]],
    replies: &'static [&'static [u8]],
    // What the node is asked then: all its keys are among these.
    asked: &'static [&'static str],
}

const CONVERSATIONS: [Conversation; 4] = [
    // Commands of all kinds.
    Conversation {
        place: Place::Third,
        pieces: &[REQUESTS],
        replies: &REPLIES,
        asked: &["GET a", "GET {a}1", "HGETALL {a}h"],
    },
    // A request that is cut behind each of its bytes.
    Conversation {
        place: Place::Third,
        pieces: &[
            b"*", b"1", b"\r", b"\n", b"$", b"4", b"\r", b"\n", b"P", b"I", b"N", b"G", b"\r",
            b"\n",
        ],
        replies: &[b"+PONG\r\n"],
        asked: &[],
    },
    // Numbers that can't be counted up.
    Conversation {
        place: Place::Second,
        pieces: &[
            b"*3\r\n$3\r\nSET\r\n$1\r\nc\r\n$19\r\n9223372036854775807\r\n",
            b"*2\r\n$4\r\nINCR\r\n$1\r\nc\r\n",
            b"*2\r\n$3\r\nGET\r\n$1\r\nc\r\n",
            b"*3\r\n$3\r\nSET\r\n$1\r\nc\r\n$2\r\n01\r\n",
            b"*2\r\n$4\r\nINCR\r\n$1\r\nc\r\n",
        ],
        replies: &[
            b"+OK\r\n",
            b"-ERR increment or decrement would overflow\r\n",
            b"$19\r\n9223372036854775807\r\n",
            b"+OK\r\n",
            b"-ERR value is not an integer or out of range\r\n",
        ],
        asked: &["GET c"],
    },
    // A key that is set once, though twice is asked for it.
    Conversation {
        place: Place::Third,
        pieces: &[
            b"*4\r\n$3\r\nSET\r\n$1\r\nx\r\n$1\r\n1\r\n$2\r\nNX\r\n",
            b"*4\r\n$3\r\nSET\r\n$1\r\nx\r\n$1\r\n1\r\n$2\r\nNX\r\n",
            b"*3\r\n$6\r\nEXISTS\r\n$1\r\nx\r\n$1\r\nx\r\n",
            b"*3\r\n$3\r\nDEL\r\n$1\r\nx\r\n$1\r\nx\r\n",
        ],
        replies: &[b"+OK\r\n", b"$-1\r\n", b":2\r\n", b":1\r\n"],
        asked: &["GET x"],
    },
];

const REQUESTS: &[u8] = b"*3\r\n$3\r\nSET\r\n$1\r\na\r\n$1\r\n1\r\n\
*2\r\n$3\r\nget\r\n$1\r\na\r\n\
*3\r\n$4\r\nMGET\r\n$1\r\na\r\n$4\r\n{a}1\r\n\
*6\r\n$4\r\nHSET\r\n$4\r\n{a}h\r\n$1\r\nf\r\n$1\r\n1\r\n$1\r\ng\r\n$1\r\n2\r\n\
*4\r\n$7\r\nHINCRBY\r\n$4\r\n{a}h\r\n$1\r\nf\r\n$1\r\n1\r\n\
*3\r\n$4\r\nHDEL\r\n$4\r\n{a}h\r\n$1\r\ng\r\n\
*2\r\n$7\r\nHGETALL\r\n$4\r\n{a}h\r\n\
*2\r\n$3\r\nGET\r\n$1\r\nb\r\n\
*2\r\n$7\r\nCLUSTER\r\n$5\r\nSLOTS\r\n";

// What a client reads where memory is ample.
const REPLIES: [&[u8]; 9] = [
    b"+OK\r\n",
    b"$1\r\n1\r\n",
    b"*2\r\n$1\r\n1\r\n$-1\r\n",
    b":2\r\n",
    b":2\r\n",
    b":1\r\n",
    b"*2\r\n$1\r\nf\r\n$1\r\n2\r\n",
    b"-MOVED 3300 127.0.0.1:7000\r\n",
    b"*3\r\n\
*3\r\n:0\r\n:5460\r\n*3\r\n$9\r\n127.0.0.1\r\n:7000\r\n$40\r\n0000000000000000000000000000000000000000\r\n\
*3\r\n:5461\r\n:10922\r\n*3\r\n$9\r\n127.0.0.1\r\n:7001\r\n$40\r\n0000000000000000000000000000000000000001\r\n\
*3\r\n:10923\r\n:16383\r\n*3\r\n$9\r\n127.0.0.1\r\n:7002\r\n$40\r\n0000000000000000000000000000000000000002\r\n",
];

const OUT_OF_MEMORY: &[u8] = b"-OOM out of memory\r\n";

// What the client takes is no allocation of the program.
const RESERVED: usize = 1024;

// So many bytes are taken at once from a client that is served in turns.
const FEW: usize = 7;

/// Says whether another answer came than the replies or the memory line. What was refused once succeeds at a second try.
pub fn try_out<R: Wait + AllocGlobal + Print + Copy + Drop>(rt: R) -> Result<()> {
    let other = other_answer(rt)?;
    Ok(tell(&rt, "refused", other)?)
}

fn other_answer<R: Wait + AllocGlobal + Copy + Drop>(rt: R) -> Result<Option<String>> {
    try_again(rt.alloc())?;
    // Nothing is read where memory is refused before.
    let config = three_masters(rt.alloc())?;
    match other_in_conversations(rt, &config)? {
        None => other_of_calls(rt.alloc()),
        other => Ok(other),
    }
}

// What was refused once succeeds at a second try.
fn try_again(alloc: Global) -> Result<()> {
    if !reader_loses_nothing(alloc) {
        bail!("a reader lost a request");
    }
    if matches!(buffer_is_unchanged(alloc), Ok(false)) {
        bail!("a reply that was refused changed a buffer");
    }
    if matches!(hash_is_unchanged(alloc), Ok(false)) {
        bail!("a field that was refused changed a hash");
    }
    if matches!(map_is_unchanged(alloc), Ok(false)) {
        bail!("a key that was refused changed a map");
    }
    Ok(())
}

fn other_in_conversations<R: Wait + AllocGlobal + Copy + Drop>(
    rt: R,
    config: &Config,
) -> Result<Option<String>> {
    for conversation in &CONVERSATIONS {
        for manner in [Manner::Thread, Manner::Turns] {
            let held = hold(rt, rt.alloc(), config, client_of(conversation, manner))?;
            let other = judged(rt.alloc(), conversation, held)?;
            if other.is_some() {
                return Ok(other);
            }
        }
    }
    Ok(None)
}

// A client that is served in turns takes a few bytes at a time.
fn client_of(conversation: &Conversation, manner: Manner) -> Client<'static> {
    let client = Client {
        place: conversation.place,
        manner,
        reserved: RESERVED,
        asked: conversation.asked,
        ..Client::new(conversation.pieces)
    };
    match manner {
        Manner::Thread => client,
        Manner::Turns => Client {
            few: FEW,
            waits: true,
            ..client
        },
    }
}

// The answers, where they are others than the client may read, or that the node's keys are others than its journal leaves.
fn judged(alloc: Global, conversation: &Conversation, held: Held) -> Result<Option<String>> {
    if !may_be_read(held.written.bytes.as_slice(), conversation.replies) {
        return Ok(Some(String::from_utf8(held.written.bytes)?));
    }
    if is_replayed(alloc, held.after.journal.as_slice(), held.after.keys)? {
        return Ok(None);
    }
    Ok(Some(text_of(alloc, "the keys are not those that the journal leaves")?))
}

fn text_of(alloc: Global, text: &str) -> Result<String, AllocError> {
    format!(in alloc; "{text}")
}

// Whether the bytes are the first replies, perhaps with the line behind them that tells of refused memory.
fn may_be_read(bytes: &[u8], replies: &[&[u8]]) -> bool {
    let mut rest = bytes;
    for reply in replies {
        match rest.strip_prefix(*reply) {
            Some(behind) => rest = behind,
            None => return rest.is_empty() || rest == OUT_OF_MEMORY,
        }
    }
    rest.is_empty() || rest == OUT_OF_MEMORY
}

// The first call that is answered otherwise than what passed for it allows.
fn other_of_calls(alloc: Global) -> Result<Option<String>> {
    for call in &CALLS {
        let made = make(alloc, call, None)?;
        if !may_come(alloc, call, &made)? {
            return Ok(Some(format!(in alloc; "{:?} of a call", made.answer)?));
        }
    }
    Ok(None)
}
