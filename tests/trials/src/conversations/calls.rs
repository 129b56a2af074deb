//! Calls of a client over memory. What a call answers is judged by what passed on its connections.

use crate::conversations::in_memory::Failing;
use crate::conversations::lines::{Deed, Desk, Exchange, Last, Line, Seen, last_handed};
use crate::conversations::memory_nodes::Nodes;
use crate::shared::words_of;
use anyhow::{Context, Result};
use redirection::Address;
use resp2::{Reply, append_reply};
use smart_client::{Client, ClientFault, Connections};
use std::alloc::{AllocError, Global};

/// A call, and what passes for it.
#[derive(Clone, Copy)]
pub struct Call {
    /// The words of the command.
    command: &'static str,
    /// The connections, in the order in which they are made.
    lines: &'static [Line],
    /// What is answered. Where it is empty, the reply never comes.
    answer: &'static [u8],
}

const START: &[u8] = b"127.0.0.1:7000";

// A call begins again so often at most.
const LIMIT: u64 = 3;

const NUMBERED: Exchange = Exchange {
    request: b"*2\r\n$7\r\nCLUSTER\r\n$8\r\nNUMBERED\r\n",
    reply: b"+OK\r\n",
    is_command: false,
};

const ASKING: Exchange = Exchange {
    request: b"*2\r\n$6\r\nASKING\r\n$1\r\n7\r\n",
    reply: b"+OK\r\n",
    is_command: false,
};

const SET: &[u8] = b"*3\r\n$3\r\nSET\r\n$3\r\nfoo\r\n$1\r\nv\r\n";

const INCR: &[u8] = b"*2\r\n$4\r\nINCR\r\n$3\r\nfoo\r\n";

const MGET: &[u8] = b"*3\r\n$4\r\nMGET\r\n$6\r\n{foo}1\r\n$6\r\n{foo}2\r\n";

/// A call that is redirected to the owner, one that is asked for at the target of a move, one that is begun again, and one whose
/// connection ends behind all bytes of the command.
pub const CALLS: [Call; 4] = [
    Call {
        command: "SET foo v",
        lines: &[
            Line {
                port: 7000,
                exchanges: &[
                    NUMBERED,
                    Exchange {
                        request: SET,
                        reply: b"-MOVED 12182 127.0.0.1:7002\r\n",
                        is_command: true,
                    },
                ],
            },
            Line {
                port: 7002,
                exchanges: &[
                    NUMBERED,
                    Exchange {
                        request: SET,
                        reply: b"+OK\r\n",
                        is_command: true,
                    },
                ],
            },
        ],
        answer: b"+OK\r\n",
    },
    Call {
        command: "INCR foo",
        lines: &[
            Line {
                port: 7000,
                exchanges: &[
                    NUMBERED,
                    Exchange {
                        request: INCR,
                        reply: b"-ASK 12182 127.0.0.1:7001 7\r\n",
                        is_command: true,
                    },
                ],
            },
            Line {
                port: 7001,
                exchanges: &[
                    NUMBERED,
                    ASKING,
                    Exchange {
                        request: INCR,
                        reply: b":6\r\n",
                        is_command: true,
                    },
                ],
            },
        ],
        answer: b":6\r\n",
    },
    Call {
        command: "MGET {foo}1 {foo}2",
        lines: &[Line {
            port: 7000,
            exchanges: &[
                NUMBERED,
                Exchange {
                    request: MGET,
                    reply: b"-TRYAGAIN Key is being moved\r\n",
                    is_command: true,
                },
                Exchange {
                    request: MGET,
                    reply: b"*2\r\n$40\r\n0123456789012345678901234567890123456789\r\n$-1\r\n",
                    is_command: true,
                },
            ],
        }],
        answer: b"*2\r\n$40\r\n0123456789012345678901234567890123456789\r\n$-1\r\n",
    },
    Call {
        command: "SET foo v",
        lines: &[Line {
            port: 7000,
            exchanges: &[
                NUMBERED,
                Exchange {
                    request: SET,
                    reply: b"",
                    is_command: true,
                },
            ],
        }],
        answer: b"",
    },
];

/// A call that was made.
#[derive(Drop)]
pub struct Made {
    /// What was answered.
    pub answer: Result<Reply, ClientFault>,
    /// What passed for it.
    pub seen: Seen,
}

/// Makes the call with a new client, where that deed fails.
pub fn make(alloc: Global, call: &Call, failing: Option<(Deed, Failing)>) -> Result<Made> {
    let desk = Desk::new(failing);
    let answer = answer_over(alloc, call, &desk)?;
    Ok(Made {
        answer,
        seen: desk.seen(),
    })
}

fn answer_over(alloc: Global, call: &Call, desk: &Desk) -> Result<Result<Reply, ClientFault>> {
    let words = words_of(alloc, call.command)?;
    let start = Address::read(alloc, START)?.context("no address")?;
    let connections = Connections::new(alloc, Nodes::new(desk, call.lines));
    let mut client = Client::new(alloc, connections, start, LIMIT)?;
    let answer = client.call(words);
    drop(client);
    Ok(answer)
}

/// Whether the answer is one that may come where this passed: the reply where nothing failed, and otherwise the fault that says no more
/// and no less of the command than is known.
pub fn may_come(alloc: Global, call: &Call, made: &Made) -> Result<bool, AllocError> {
    let seen = made.seen;
    if seen.is_strange {
        return Ok(false);
    }
    match &made.answer {
        Ok(reply) => Ok(seen.failures == 0 && is_answer(alloc, call, reply)?),
        Err(fault) if seen.failures > 0 => Ok(may_come_of_failure(call, seen, *fault)),
        Err(fault) => Ok(may_come_without(call, seen, *fault)),
    }
}

fn is_answer(alloc: Global, call: &Call, reply: &Reply) -> Result<bool, AllocError> {
    let mut bytes = Vec::new(alloc);
    append_reply(reply, &mut bytes)?;
    Ok(bytes.as_slice() == call.answer)
}

// A deed failed.
fn may_come_of_failure(call: &Call, seen: Seen, fault: ClientFault) -> bool {
    let is_open = is_unanswered(last_handed(call.lines, seen));
    match fault {
        ClientFault::Lost => is_open,
        ClientFault::NotConnected => !is_open,
        _ => false,
    }
}

// No deed failed: memory was refused, or the connection ended.
fn may_come_without(call: &Call, seen: Seen, fault: ClientFault) -> bool {
    let last = last_handed(call.lines, seen);
    match fault {
        ClientFault::Lost => is_of_command(last),
        ClientFault::Memory => !is_unanswered(last) && !is_final(call, last),
        _ => false,
    }
}

// The last bytes that were handed over are of the command. A client that has no memory to read the reply to it doesn't know the reply, though
// all of it came.
fn is_of_command(last: Option<Last>) -> bool {
    match last {
        Some(last) => last.exchange.is_command,
        None => false,
    }
}

// They are, and not all of the reply to it came.
fn is_unanswered(last: Option<Last>) -> bool {
    match last {
        Some(last) => last.exchange.is_command && !last.is_answered,
        None => false,
    }
}

// The reply came that ends the call.
fn is_final(call: &Call, last: Option<Last>) -> bool {
    match last {
        Some(last) => is_command_answered(last) && last.exchange.reply == call.answer,
        None => false,
    }
}

fn is_command_answered(last: Last) -> bool {
    last.exchange.is_command && last.is_answered
}

/// Whether the call was answered as it is where nothing fails.
pub fn is_usual(call: &Call, made: &Made) -> bool {
    match &made.answer {
        Ok(_) => !call.answer.is_empty(),
        Err(fault) => call.answer.is_empty() && *fault == ClientFault::Lost,
    }
}
