//! Masters that write their streams, and replicas that follow them. A node that is refused memory is as it was, so each step is made at
//! a second try.

use crate::shared::{tell, with_long_streams, with_replicas};
use crate::steps::rows::{Rows, other_answer};
use anyhow::Result;
use slot_store::SlotStore;

/// What is played.
pub const CASES: [Rows; 4] = [WHOLE_MOVE, LIST_OF_KEYS, SHORT_BACKLOG, LOST_PIECE];

// A key moves: its source writes its deletion, its target the request that makes it, and both replicas follow.
const WHOLE_MOVE: Rows = &[
    "2 HSET h b 1 a 2 | :2\r\npiece 0+49 ",
    "2 HDEL h b | :1\r\npiece 49+28 ",
    "2 HSET h b 3 | :1\r\npiece 77+35 ",
    "0 CLUSTER SETSLOT 11694 IMPORTING #2 | +OK\r\n",
    "2 CLUSTER SETSLOT 11694 MIGRATING #0 | +OK\r\n",
    "2 MIGRATE 127.0.0.1 7000 h 0 5 | parked copy ",
    "deliver 4 | ack piece 0+49 ",
    "deliver 1 | ",
    "deliver 3 | ",
    "5 CLUSTER COUNTKEYSINSLOT 11694 | :1\r\n",
    "5 tick | claim claim claim claim claim report report report report report sync 49 ",
    "deliver 17 | piece 49+63 ",
    "deliver 5 | +OK\r\ndrained piece 112+20 ",
    "deliver 20 | ",
    "5 tick | claim claim claim claim claim report report report report report sync 49 ",
    "deliver 18 | ",
    "5 tick | claim claim claim claim claim report report report report report sync 112 ",
    "deliver 20 | ",
    "5 tick | claim claim claim claim claim report report report report report sync 132 ",
    "5 CLUSTER COUNTKEYSINSLOT 11694 | :0\r\n",
    "deliver 6 | ",
    "3 CLUSTER GETKEYSINSLOT 11694 16 | *1\r\n$1\r\nh\r\n",
    "3 HGETALL h | -MOVED 11694 127.0.0.1:7002\r\n",
    "deliver 19 | ",
    "0 CLUSTER SETSLOT 11694 NODE #0 | +OK\r\nclaim claim claim claim claim ",
    "0 HGETALL h | *4\r\n$1\r\na\r\n$1\r\n2\r\n$1\r\nb\r\n$1\r\n3\r\n",
];

// Two keys move in one copy, in the order in which they were named first. The source writes a deletion of each.
const LIST_OF_KEYS: Rows = &[
    "2 SET {a}1 v | +OK\r\npiece 0+30 ",
    "2 HSET {a}2 f w | :1\r\npiece 30+38 ",
    "1 CLUSTER SETSLOT 15495 IMPORTING #2 3 | +OK\r\n",
    "2 CLUSTER SETSLOT 15495 MIGRATING #1 3 | +OK\r\n",
    "2 MIGRATE 127.0.0.1 7001  0 5 KEYS {a}2 {a}1 {a}2 {a}9 | parked copy ",
    "2 beside GET {a}1 | -TRYAGAIN Key is being moved\r\n",
    "2 beside GET {a}9 | -ASK 15495 127.0.0.1:7001\r\n",
    "2 beside MIGRATE 127.0.0.1 7001 {a}1 0 5 | -TRYAGAIN Another copy is outstanding\r\n",
    "deliver 3 | ack piece 0+68 ",
    "deliver 4 | +OK\r\ndrained piece 68+46 ",
    "deliver 1 | ",
    "deliver 2 | ",
    "5 CLUSTER GETKEYSINSLOT 15495 16 | *2\r\n$4\r\n{a}1\r\n$4\r\n{a}2\r\n",
    "deliver 7 | ",
    "5 CLUSTER COUNTKEYSINSLOT 15495 | :0\r\n",
    "deliver 5 | ",
    "4 CLUSTER GETKEYSINSLOT 15495 16 | *2\r\n$4\r\n{a}1\r\n$4\r\n{a}2\r\n",
    "deliver 6 | ",
    "1 CLUSTER SETSLOT 15495 NODE #1 | +OK\r\nclaim claim claim claim claim ",
    "1 GET {a}1 | $1\r\nv\r\n",
    "1 HGETALL {a}2 | *2\r\n$1\r\nf\r\n$1\r\nw\r\n",
];

// A backlog keeps the last 64 bytes. Who lacks bytes before them gets all that the master has.
const SHORT_BACKLOG: Rows = &[
    "5 tick | claim claim claim claim claim report report report report report sync 0 ",
    "2 SET a 1 | +OK\r\npiece 0+27 ",
    "2 SET a 2 | +OK\r\npiece 27+27 ",
    "2 SET a 3 | +OK\r\npiece 54+27 ",
    "deliver 11 | snapshot 81 1 ",
    "deliver 12 | ",
    "5 tick | claim claim claim claim claim report report report report report sync 27 ",
    "deliver 26 | piece 27+54 ",
    "deliver 27 | ",
    "5 tick | claim claim claim claim claim report report report report report sync 81 ",
    "deliver 38 | ",
    "2 SET {a}b 1 | +OK\r\npiece 81+30 ",
    "deliver 15 | ",
    "5 CLUSTER COUNTKEYSINSLOT 15495 | :1\r\n",
    "deliver 39 | ",
    "5 CLUSTER COUNTKEYSINSLOT 15495 | :2\r\n",
    "5 tick | claim claim claim claim claim report report report report report sync 111 ",
];

// Where a piece is lost, those behind it are no good, until the next tick brings what is missing. A snapshot that comes late is passed
// over.
const LOST_PIECE: Rows = &[
    "5 tick | claim claim claim claim claim report report report report report sync 0 ",
    "2 SET a 0123456789012345678901234567890123456789 | +OK\r\npiece 0+67 ",
    "deliver 11 | snapshot 67 1 ",
    "2 SET a 1 | +OK\r\npiece 67+27 ",
    "deliver 14 | ",
    "5 CLUSTER COUNTKEYSINSLOT 15495 | :0\r\n",
    "deliver 12 | ",
    "deliver 14 | ",
    "5 tick | claim claim claim claim claim report report report report report sync 94 ",
    "deliver 13 | ",
    "5 tick | claim claim claim claim claim report report report report report sync 94 ",
    "deliver 25 | ",
    "2 DEL a | :1\r\npiece 94+20 ",
    "deliver 37 | ",
    "5 CLUSTER COUNTKEYSINSLOT 15495 | :0\r\n",
];

// A write of 100,031 bytes, of which nothing comes: the replica asks for them, and gets two pieces.
const LONG_WRITE: Rows = &[
    "2 SET x *100000 | +OK\r\npiece 0+100031 ",
    "5 tick | claim claim claim claim claim report report report report report sync 0 ",
    "deliver 12 | piece 0+65536 ",
    "deliver 13 | ",
    "5 tick | claim claim claim claim claim report report report report report sync 65536 ",
    "deliver 24 | piece 65536+34495 ",
    "5 CLUSTER COUNTKEYSINSLOT 16287 | :0\r\n",
    "deliver 25 | ",
    "5 CLUSTER COUNTKEYSINSLOT 16287 | :1\r\n",
    "5 tick | claim claim claim claim claim report report report report report sync 100031 ",
];

/// Says whether another answer came of a step than without a refusal.
pub fn try_out<R: AllocGlobal + Print>(rt: &R) -> Result<()> {
    let config = with_replicas(rt.alloc())?;
    let other = other_answer::<SlotStore>(rt.alloc(), &config, &CASES)?;
    Ok(tell(rt, "following", other)?)
}

/// Says whether another answer came of a step where much is written at once.
pub fn try_long_write<R: AllocGlobal + Print>(rt: &R) -> Result<()> {
    let config = with_long_streams(rt.alloc())?;
    let other = other_answer::<SlotStore>(rt.alloc(), &config, &[LONG_WRITE])?;
    Ok(tell(rt, "long write", other)?)
}
