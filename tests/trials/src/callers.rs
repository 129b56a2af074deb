//! The short callers of the libraries.

use crate::shared::{cell_of, deal_one, push_response, say, three_masters};
use anyhow::Result;
use byte_string::ByteString;
use cluster_config::Config;
use keyspace::{Store, TreeStore, Value};
use node_cell::{Admission, Asks, Deployment, Entered, Journal, NodeCell};
use node_core::StepFault;
use std::alloc::{AllocError, Global};
use std::marker::Brand;
use tickets::Seat;
use uses::{all_requests, exact_answers, set_both, set_then_get, shared_slot, turn_about};

// Two requests, and the beginning of one.
const REQUESTS: &[u8] = b"*1\r\n$4\r\nPING\r\n*2\r\n$3\r\nGET\r\n$1\r\na\r\n*1\r\n$4";

const TWO: &[u8] = b"*1\r\n$4\r\nPING\r\n*2\r\n$3\r\nGET\r\n$1\r\na\r\n";

const ONE_AND_A_BAD_BYTE: &[u8] = b"*1\r\n$4\r\nPING\r\nPING\r\n";

// The slot of `foo`, by the specification.
const FOO: u16 = 12182;

/// Says of each caller whether it gave what it has to.
pub fn try_out<R: AllocGlobal + Print>(rt: &R) -> Result<()> {
    say(rt, "all_requests", reads(rt.alloc())?)?;
    say(rt, "exact_answers", answers(rt.alloc())?)?;
    say(rt, "set_both", sets(rt.alloc())?)?;
    try_others(rt)
}

fn try_others<R: AllocGlobal + Print>(rt: &R) -> Result<()> {
    say(rt, "set_then_get", gets(rt)?)?;
    say(rt, "turn_about", takes_turns(rt.alloc())?)?;
    Ok(say(rt, "shared_slot", shares())?)
}

// Requests are read up to the beginning of one.
fn reads(alloc: Global) -> Result<bool> {
    let requests = all_requests(alloc, REQUESTS)?;
    Ok(match requests.as_slice() {
        [ping, get] => are(ping.as_slice(), &[b"PING"]) && are(get.as_slice(), &[b"GET", b"a"]),
        _ => false,
    })
}

fn are(words: &[ByteString], wanted: &[&[u8]]) -> bool {
    words.len() == wanted.len()
        && words
            .iter()
            .zip(wanted)
            .all(|(word, wanted)| word.as_slice() == *wanted)
}

// Each request is answered once.
fn answers(alloc: Global) -> Result<bool> {
    let two = exact_answers(alloc, TWO)?;
    let one = exact_answers(alloc, ONE_AND_A_BAD_BYTE)?;
    Ok(
        two.as_slice() == b"+PONG\r\n+PONG\r\n".as_slice()
            && one.as_slice() == b"+PONG\r\n-ERR Protocol error\r\n".as_slice(),
    )
}

// Both keys are set, and no other.
fn sets(alloc: Global) -> Result<bool> {
    let mut store = TreeStore::new(alloc);
    put_both(alloc, &mut store)?;
    Ok(has(&store, b'a', b"1") && has(&store, b'b', b"2") && !is_there(&store, b'c'))
}

fn put_both<S: Store>(alloc: Global, store: &mut S) -> Result<(), AllocError> {
    let first = (ByteString::inline(b"a"), ByteString::inline(b"1"));
    let second = (ByteString::inline(b"b"), ByteString::inline(b"2"));
    set_both(alloc, store, &first, &second)
}

fn is_there<S: Store>(store: &S, key: u8) -> bool {
    store.get(&ByteString::inline(&[key])).is_some()
}

fn has<S: Store>(store: &S, key: u8, value: &[u8]) -> bool {
    match store.get(&ByteString::inline(&[key])) {
        Some(Value::Str(bytes)) => bytes.as_slice() == value,
        _ => false,
    }
}

// What was set is got in the third step.
fn gets<R: AllocGlobal>(rt: &R) -> Result<bool> {
    let config = three_masters(rt.alloc())?;
    let seat = deal_one(rt.alloc())?;
    gets_at::<Brand>(rt.alloc(), &config, seat)
}

fn gets_at<K: Deployment>(alloc: Global, config: &Config, seat: Seat) -> Result<bool> {
    let mut cell = cell_of::<K, Journal>(alloc, config, 2, seat)?;
    let mut asks = Admission::<K>::new(config).begin();
    got_of(alloc, &mut asks, &mut cell)
}

fn got_of<K: Deployment>(
    alloc: Global,
    asks: &mut Asks<K>,
    cell: &mut NodeCell<K, Journal>,
) -> Result<bool> {
    let entered = entered_by(alloc, asks, cell)?;
    Ok(is_third(alloc, &entered)?)
}

fn entered_by<K: Deployment>(
    alloc: Global,
    asks: &mut Asks<K>,
    cell: &mut NodeCell<K, Journal>,
) -> Result<Entered<K>, StepFault> {
    let key = ByteString::inline(b"a");
    let value = ByteString::inline(b"1");
    set_then_get(alloc, asks, cell, &key, &value)
}

fn is_third<K: Deployment>(alloc: Global, entered: &Entered<K>) -> Result<bool, AllocError> {
    let mut answer = Vec::new(alloc);
    push_response(&mut answer, entered.response())?;
    Ok(entered.ticket() == 2 && answer.as_slice() == b"$1\r\n1\r\n".as_slice())
}

// Seats draw in turn.
fn takes_turns(alloc: Global) -> Result<bool> {
    let turns = turn_about(alloc)?;
    Ok(turns.first == (0, 2) && turns.second == (1, 3) && turns.word == 4)
}

// Keys with one tag are in one slot.
fn shares() -> bool {
    matches!(shared_slot(b"{foo}.following", b"{foo}.followers"), Some(slot) if slot.get() == FOO)
        && shared_slot(b"foo", b"bar").is_none()
}
