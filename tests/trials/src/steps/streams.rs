//! Streams: what replicas and masters make of writes, pieces, snapshots and a promotion, over both bodies of a stream.

use crate::shared::words_of;
use crate::steps::stream_lines::{show, show_answer, show_offer, show_part};
use crate::steps::stream_node::{Node, Offered, snapshot, stream_id};
use anyhow::Result;
use repl_stream::{Backlog, NodeStream, Stream, WholeStream, Written};

// The requests, of 27 bytes each.
const A_IS_1: &str = "SET a 1";

const A_IS_2: &str = "SET a 2";

const A_IS_3: &str = "SET a 3";

const X_IS_2: &str = "SET x 2";

const X_IS_3: &str = "SET x 3";

// The first write of the one that was promoted.
const OF_PROMOTED: Offered = Offered {
    id: (5, 4),
    from: 27,
    write: X_IS_3,
    base_end: Some(27),
};

// Bytes of a stream that nobody knows.
const STRANGE: Offered = Offered {
    id: (9, 9),
    from: 27,
    write: A_IS_2,
    base_end: None,
};

// What is offered to a node, and in which order.
#[derive(Clone, Copy)]
enum Course {
    // A master with three writes, and what it answers to its replicas.
    Mastering,
    // A replica that received a write and a part of the next one: what changes nothing of it, and its promotion.
    Promoted,
    // Another one follows the one that was promoted.
    FollowsPromoted,
    // A third one gets the rest of the write, and a snapshot past it. Then the promoted one is no longer for it.
    GoesOn,
}

const COURSES: [Course; 4] = [
    Course::Mastering,
    Course::Promoted,
    Course::FollowsPromoted,
    Course::GoesOn,
];

/// Says what comes of each course where all bytes of a stream are kept, and where its last 64 are.
pub fn try_out<R: AllocGlobal + Print>(rt: &R) -> Result<()> {
    println!(rt; "all bytes are kept")?;
    for course in COURSES {
        play_whole(rt, course)?;
    }
    println!(rt; "the last 64 bytes are kept")?;
    for course in COURSES {
        play_last(rt, course)?;
    }
    show_parts(rt)?;
    show_counted(rt)
}

// How many of the last bytes are to be kept.
const LAST: usize = 64;

// Three writes of 27 bytes each.
const THREE_WRITES: &[u8] = b"*3\r\n$3\r\nSET\r\n$1\r\na\r\n$1\r\n1\r\n\
*3\r\n$3\r\nSET\r\n$1\r\na\r\n$1\r\n2\r\n\
*3\r\n$3\r\nSET\r\n$1\r\na\r\n$1\r\n3\r\n";

// Parts of a ring behind three writes: one that begins a byte too early, and one from the first byte on that is kept.
fn show_parts<R: AllocGlobal + Print>(rt: &R) -> Result<()> {
    let mut ring = Backlog::begin(rt.alloc(), stream_id((2, 0))?, LAST)?;
    ring.append(THREE_WRITES);
    println!(rt; "the ring holds {} to {}", ring.first(), ring.end())?;
    show_part(rt, "10 bytes from 16", ring.piece(rt.alloc(), 16, 10))?;
    show_part(rt, "10 bytes from 17", ring.piece(rt.alloc(), 17, 10))
}

// A master that keeps no byte of its stream counts those of a write.
fn show_counted<R: AllocGlobal + Print>(rt: &R) -> Result<()> {
    let mut stream = NodeStream::<Backlog>::begin(rt.alloc(), stream_id((2, 0))?, 0)?;
    let request = words_of(rt.alloc(), A_IS_1)?;
    let written = Written::counted(&request);
    stream.reserve(written.len())?;
    stream.append(&written);
    println!(rt;
        "a master that keeps nothing counts to {}",
        stream.received()
    )?;
    Ok(())
}

fn play_whole<R: AllocGlobal + Print>(rt: &R, course: Course) -> Result<()> {
    play::<WholeStream, R>(rt, course)
}

fn play_last<R: AllocGlobal + Print>(rt: &R, course: Course) -> Result<()> {
    play::<Backlog, R>(rt, course)
}

// Plays the course at a node with this body of a stream.
fn play<T: Stream + Drop, R: AllocGlobal + Print>(rt: &R, course: Course) -> Result<()> {
    let mut node = Node::<T>::new(rt.alloc(), LAST)?;
    let played = play_at(rt, &mut node, course);
    drop(node);
    played
}

fn play_at<T: Stream + Drop, R: AllocGlobal + Print>(
    rt: &R,
    node: &mut Node<T>,
    course: Course,
) -> Result<()> {
    match course {
        Course::Mastering => mastering(rt, node),
        Course::Promoted => promoted(rt, node),
        Course::FollowsPromoted => follows_promoted(rt, node),
        Course::GoesOn => goes_on(rt, node),
    }
}

fn mastering<T: Stream + Drop, R: AllocGlobal + Print>(rt: &R, master: &mut Node<T>) -> Result<()> {
    for write in [A_IS_1, A_IS_2, A_IS_3] {
        master.write(rt.alloc(), write)?;
    }
    show(rt, "master", master)?;
    answers(rt, master)
}

fn answers<T: Stream + Drop, R: AllocGlobal + Print>(rt: &R, master: &Node<T>) -> Result<()> {
    for received in [0u64, 17, 27, 81, 82] {
        show_answer(rt, master, (2, 0), received)?;
    }
    show_answer(rt, master, (9, 9), 27)
}

fn promoted<T: Stream + Drop, R: AllocGlobal + Print>(rt: &R, replica: &mut Node<T>) -> Result<()> {
    begin(rt, replica)?;
    nothing_new(rt, replica)?;
    promotion(rt, replica)?;
    writes_on(rt, replica)
}

fn follows_promoted<T: Stream + Drop, R: AllocGlobal + Print>(
    rt: &R,
    replica: &mut Node<T>,
) -> Result<()> {
    begin(rt, replica)?;
    offer(rt, "of 5.4 from 27", replica, &OF_PROMOTED)?;
    show(rt, "follower", replica)
}

fn goes_on<T: Stream + Drop, R: AllocGlobal + Print>(rt: &R, replica: &mut Node<T>) -> Result<()> {
    begin(rt, replica)?;
    offer(rt, "from 27", replica, &own(27, X_IS_2))?;
    show(rt, "replica", replica)?;
    restore(rt, replica, 81, b"2")?;
    offer(rt, "of 5.4 from 27", replica, &OF_PROMOTED)
}

// The replica gets a write and 10 bytes of the next one.
fn begin<T: Stream + Drop, R: AllocGlobal + Print>(rt: &R, replica: &mut Node<T>) -> Result<()> {
    let said = replica.begin(rt.alloc(), A_IS_1, b"*3\r\n$3\r\nSE")?;
    show_offer(rt, "a write and a part", said)?;
    show(rt, "replica", replica)
}

// Pieces and a snapshot that change nothing.
fn nothing_new<T: Stream + Drop, R: AllocGlobal + Print>(
    rt: &R,
    replica: &mut Node<T>,
) -> Result<()> {
    offer(rt, "from 0", replica, &own(0, A_IS_1))?;
    offer(rt, "from 54", replica, &own(54, A_IS_2))?;
    offer(rt, "of 9.9 from 27", replica, &STRANGE)?;
    restore(rt, replica, 27, b"9")
}

// It becomes a master, and answers.
fn promotion<T: Stream + Drop, R: AllocGlobal + Print>(
    rt: &R,
    replica: &mut Node<T>,
) -> Result<()> {
    replica.replica.promote(stream_id((5, 4))?);
    show(rt, "promoted", replica)?;
    for received in [27u64, 54] {
        show_answer(rt, replica, (2, 0), received)?;
    }
    show_answer(rt, replica, (5, 4), 27)
}

// It writes, and answers once more.
fn writes_on<T: Stream + Drop, R: AllocGlobal + Print>(
    rt: &R,
    replica: &mut Node<T>,
) -> Result<()> {
    replica.write(rt.alloc(), X_IS_3)?;
    show(rt, "master", replica)?;
    show_answer(rt, replica, (2, 0), 27)
}

// Bytes of the stream that the replica follows.
fn own(from: u64, write: &'static str) -> Offered {
    Offered {
        id: (2, 0),
        from,
        write,
        base_end: None,
    }
}

fn offer<T: Stream + Drop, R: AllocGlobal + Print>(
    rt: &R,
    name: &str,
    replica: &mut Node<T>,
    offered: &Offered,
) -> Result<()> {
    let said = replica.offer(rt.alloc(), offered)?;
    show_offer(rt, name, said)
}

// A snapshot of its stream comes, in which `a` has that value.
fn restore<T: Stream + Drop, R: AllocGlobal + Print>(
    rt: &R,
    replica: &mut Node<T>,
    offset: u64,
    value: &'static [u8],
) -> Result<()> {
    let snapshot = snapshot(rt.alloc(), offset, value)?;
    let restored = replica.restore(rt.alloc(), &snapshot);
    drop(snapshot);
    restored?;
    show(rt, "after a snapshot", replica)
}
