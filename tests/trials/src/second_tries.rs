//! What refused memory leaves: a reader that loses nothing, and a buffer as it was, so that a second try succeeds.
use byte_string::ByteString;
use resp2::{Array, Fault, Reader, Reply, Words, append_reply};
use std::alloc::{AllocError, Global};

const REQUEST: &[u8] = b"*2\r\n$3\r\nGET\r\n$3\r\nfoo\r\n";

const BEFORE: &[u8] = b"+OK\r\n";

const SLOTS: &[u8] = b"*1\r\n*3\r\n:0\r\n:5460\r\n*3\r\n$9\r\n127.0.0.1\r\n:7000\r\n$1\r\n0\r\n";

/// Whether a reader hands out the request that it is fed, and nothing else, where each call that is refused memory is made
/// once more.
pub fn reader_loses_nothing(alloc: Global) -> bool {
    let mut reader = Reader::new(alloc);
    let fed = match reader.feed(REQUEST) {
        Err(Fault::Memory) => reader.feed(REQUEST),
        fed => fed,
    };
    let taken = match reader.next() {
        Err(Fault::Memory) => reader.next(),
        taken => taken,
    };
    fed.is_ok()
        && matches!(&taken, Ok(Some(words)) if is_request(words))
        && matches!(reader.next(), Ok(None))
}

fn is_request(words: &Words) -> bool {
    match words.as_slice() {
        [name, key] => name.as_slice() == b"GET".as_slice() && key.as_slice() == b"foo".as_slice(),
        _ => false,
    }
}

/// Whether a buffer is as it was where an array is refused, and has it behind that once the call succeeds.
///
/// Before the array is made, memory may be refused.
pub fn buffer_is_unchanged(alloc: Global) -> Result<bool, AllocError> {
    let slots = slots(alloc)?;
    let mut out = Vec::from_slice(alloc, BEFORE)?;
    Ok(is_unchanged(&slots, &mut out))
}

fn is_unchanged(slots: &Reply, out: &mut Vec<u8>) -> bool {
    let refused = append_reply(slots, out).is_err();
    if refused && (out.as_slice() != BEFORE || append_reply(slots, out).is_err()) {
        return false;
    }
    out.as_slice().strip_prefix(BEFORE) == Some(SLOTS)
}

// The first and the last slot of a node, and where it is reached.
fn slots(alloc: Global) -> Result<Reply, AllocError> {
    let node = array(vec![in alloc;
        Reply::Bulk(ByteString::inline(b"127.0.0.1")),
        Reply::Integer(7000),
        Reply::Bulk(ByteString::inline(b"0")),
    ]?)?;
    let entry = array(vec![in alloc; Reply::Integer(0), Reply::Integer(5460), node]?)?;
    array(vec![in alloc; entry]?)
}

fn array(replies: Vec<Reply>) -> Result<Reply, AllocError> {
    let alloc = *replies.allocator();
    Ok(Reply::Array(Array::of(alloc, replies)?))
}
