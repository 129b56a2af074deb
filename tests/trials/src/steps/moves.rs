//! Nodes that move slots. A node that is refused memory is as it was, so each step is made at a second try.

use crate::shared::{tell, three_masters};
use crate::steps::rows::{Rows, other_answer};
use anyhow::Result;
use slot_store::SlotStore;

/// What is played.
pub const CASES: [Rows; 6] = [WHOLE_MOVE, LISTS, LATE_COPY, LOST_COPY, REFUSALS, COMMANDS];

// A hash keeps the order of its fields.
const WHOLE_MOVE: Rows = &[
    "2 HSET h b 1 a 2 | :2\r\n",
    "2 HDEL h b | :1\r\n",
    "2 HSET h b 3 | :1\r\n",
    "0 CLUSTER SETSLOT 11694 IMPORTING #2 | +OK\r\n",
    "2 CLUSTER SETSLOT 11694 MIGRATING #0 | +OK\r\n",
    "2 CLUSTER GETKEYSINSLOT 11694 16 | *1\r\n$1\r\nh\r\n",
    "2 MIGRATE 127.0.0.1 7000 h 0 5 | parked copy ",
    "deliver 1 | ack ",
    "deliver 2 | +OK\r\ndrained ",
    "deliver 3 | ",
    "0 CLUSTER SETSLOT 11694 NODE #0 | +OK\r\nclaim claim ",
    "deliver 5 | ",
    "0 HGETALL h | *4\r\n$1\r\na\r\n$1\r\n2\r\n$1\r\nb\r\n$1\r\n3\r\n",
    "2 HGETALL h | -MOVED 11694 127.0.0.1:7000\r\n",
    "2 CLUSTER SETSLOT 11694 NODE #0 | +OK\r\n",
];

// Several keys move in one copy. It is sent again for those keys in any order, and not for others.
const LISTS: Rows = &[
    "2 SET {foo}1 1 | +OK\r\n",
    "2 SET {foo}2 2 | +OK\r\n",
    "2 HSET {foo}3 f 3 | :1\r\n",
    "2 SET {foo}4 4 | +OK\r\n",
    "1 CLUSTER SETSLOT 12182 IMPORTING #2 7 | +OK\r\n",
    "2 CLUSTER SETSLOT 12182 MIGRATING #1 7 | +OK\r\n",
    "2 MIGRATE 127.0.0.1 7001  0 5 KEYS {foo}8 {foo}9 | +NOKEY\r\n",
    "2 MIGRATE 127.0.0.1 7009  0 5 KEYS {foo}1 {bar}1 | -CROSSSLOT Keys in request don't hash to the same slot\r\n",
    "2 MIGRATE 127.0.0.1 7000  0 5 KEYS {foo}1 | -ERR slot is not migrating to that address\r\n",
    "2 MIGRATE 127.0.0.1 7001  0 5 KEYS {foo}9 {foo}3 {foo}1 {foo}3 {foo}2 | parked copy ",
    "2 beside MIGRATE 127.0.0.1 7001  0 5 KEYS {foo}1 {foo}2 | -TRYAGAIN Another copy is outstanding\r\n",
    "2 beside MIGRATE 127.0.0.1 7001  0 5 KEYS {foo}1 {foo}2 {foo}3 {foo}4 | -TRYAGAIN Another copy is outstanding\r\n",
    "2 beside MIGRATE 127.0.0.1 7001 {foo}1 0 5 | -TRYAGAIN Another copy is outstanding\r\n",
    "2 beside MGET {foo}4 {foo}1 | -TRYAGAIN Key is being moved\r\n",
    "2 beside GET {foo}4 | $1\r\n4\r\n",
    "2 beside MIGRATE 127.0.0.1 7001  0 5 KEYS {foo}1 {foo}2 {foo}9 {foo}3 {foo}1 | parked copy ",
    "deliver 1 | ack ",
    "deliver 2 | ack ",
    "1 CLUSTER COUNTKEYSINSLOT 12182 | :3\r\n",
    "deliver 3 | +OK\r\n+OK\r\n",
    "deliver 4 | ",
    "2 CLUSTER COUNTKEYSINSLOT 12182 | :1\r\n",
    "2 GET {foo}1 | -ASK 12182 127.0.0.1:7001\r\n",
    "2 MIGRATE 127.0.0.1 7001 {foo}4 0 5 | parked copy ",
    "deliver 5 | ack ",
    "deliver 6 | +OK\r\ndrained ",
    "deliver 7 | ",
    "1 CLUSTER SETSLOT 12182 NODE #1 | +OK\r\nclaim claim ",
    "1 MGET {foo}1 {foo}2 {foo}4 | *3\r\n$1\r\n1\r\n$1\r\n2\r\n$1\r\n4\r\n",
    "1 HGETALL {foo}3 | *2\r\n$1\r\nf\r\n$1\r\n3\r\n",
];

// A copy that comes again is not installed, and a slot with a key at its source is not taken.
const LATE_COPY: Rows = &[
    "2 SET foo 5 | +OK\r\n",
    "1 CLUSTER SETSLOT 12182 IMPORTING #2 7 | +OK\r\n",
    "2 CLUSTER SETSLOT 12182 MIGRATING #1 7 | +OK\r\n",
    "1 CLUSTER SETSLOT 12182 NODE #1 | -ERR slot is not drained\r\n",
    "2 MIGRATE 127.0.0.1 7001 foo 0 5 | parked copy ",
    "deliver 1 | ack ",
    "1 CLUSTER SETSLOT 12182 NODE #1 | -ERR slot is not drained\r\n",
    "deliver 2 | +OK\r\ndrained ",
    "1 ASKING 7 | +OK\r\n",
    "1 INCR foo | :6\r\n",
    "deliver 1 | ack ",
    "1 ASKING 7 | +OK\r\n",
    "1 GET foo | $1\r\n6\r\n",
    "deliver 3 | ",
    "1 CLUSTER SETSLOT 12182 NODE #1 | +OK\r\nclaim claim ",
    "1 CLUSTER SETSLOT 12182 NODE #1 | +OK\r\n",
    "1 GET foo | $1\r\n6\r\n",
];

// Where the copy is lost, its key is frozen, and the request fails at the fifth tick.
const LOST_COPY: Rows = &[
    "2 SET foo 5 | +OK\r\n",
    "2 CLUSTER SETSLOT 12182 MIGRATING #1 7 | +OK\r\n",
    "2 MIGRATE 127.0.0.1 7001 foo 0 5 | parked copy ",
    "2 tick | copy claim claim report report ",
    "2 tick | copy claim claim report report ",
    "2 tick | copy claim claim report report ",
    "2 tick | copy claim claim report report ",
    "2 beside GET foo | -TRYAGAIN Key is being moved\r\n",
    "2 tick | -IOERR copy not acknowledged\r\ncopy claim claim report report ",
    "2 GET foo | -TRYAGAIN Key is being moved\r\n",
    "2 CLUSTER SLOTSTATE 12182 | *6\r\n$9\r\nmigrating\r\n$40\r\n0000000000000000000000000000000000000001\r\n:7\r\n:7\r\n:1\r\n:0\r\n",
];

// What clients are told while a slot moves: an ASKING holds for one request of its move.
const REFUSALS: Rows = &[
    "2 SET {foo}1 1 | +OK\r\n",
    "1 CLUSTER SETSLOT 12182 IMPORTING #2 9 | +OK\r\n",
    "2 CLUSTER SETSLOT 12182 MIGRATING #1 9 | +OK\r\n",
    "2 MSET {foo}1 x {foo}2 y | -TRYAGAIN Multiple keys request during rehashing of slot\r\n",
    "2 GET {foo}1 | $1\r\n1\r\n",
    "2 GET foo | -ASK 12182 127.0.0.1:7001\r\n",
    "2 CLUSTER NUMBERED | +OK\r\n",
    "2 GET foo | -ASK 12182 127.0.0.1:7001 9\r\n",
    "1 ASKING 7 | +OK\r\n",
    "1 GET foo | -MOVED 12182 127.0.0.1:7002\r\n",
    "1 ASKING | +OK\r\n",
    "1 GET foo | $-1\r\n",
    "1 GET foo | -MOVED 12182 127.0.0.1:7002\r\n",
    "2 CLUSTER SETSLOT 16383 MIGRATING #1 | +OK\r\ndrained ",
    "2 CLUSTER SETSLOT 16383 MIGRATING #1 | +OK\r\n",
    "2 tick | drained claim claim report report ",
    "2 DEL {foo}1 | :1\r\ndrained ",
];

// What a command counts shows that it was executed once.
const COMMANDS: Rows = &[
    "2 SETNX a 1 | :1\r\n",
    "2 APPEND a 0123456789012345678901234567890123456789 | :41\r\n",
    "2 APPEND a 1 | :42\r\n",
    "2 MSET {a}1 x {a}2 y | +OK\r\n",
    "2 EXISTS {a}1 {a}2 | :2\r\n",
    "2 HSET {a}h f 1 g 2 | :2\r\n",
    "2 HSETNX {a}h k 3 | :1\r\n",
    "2 HINCRBY {a}h f 1 | :2\r\n",
    "2 HDEL {a}h g | :1\r\n",
    "2 HVALS {a}h | *2\r\n$1\r\n2\r\n$1\r\n3\r\n",
    "2 INCR {a}n | :1\r\n",
    "2 GETSET {a}1 z | $1\r\nx\r\n",
    "2 GETDEL {a}2 | $1\r\ny\r\n",
    "2 DEL a {a}1 {a}2 | :2\r\n",
];

/// Says whether another answer came of a step than without a refusal.
pub fn try_out<R: AllocGlobal + Print>(rt: &R) -> Result<()> {
    let config = three_masters(rt.alloc())?;
    let other = other_answer::<SlotStore>(rt.alloc(), &config, &CASES)?;
    Ok(tell(rt, "moves", other)?)
}
