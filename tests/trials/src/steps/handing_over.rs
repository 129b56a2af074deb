//! Masters that hand their slots over to replicas. A node that is refused memory is as it was, so each step is made at a second try.

use crate::shared::{tell, with_elections};
use crate::steps::rows::{Rows, other_answer};
use anyhow::Result;
use slot_store::SlotStore;

/// What is played.
pub const CASES: [Rows; 3] = [HANDOVER, ANOTHER_MASTER, MOVE];

// Node 0 serves nothing from its pause on. Node 2 lacks a write, so it asks for votes only once it has that. It takes the slots that node 0 named,
// and node 3 follows it.
const HANDOVER: Rows = &[
    "0 SET b 1 | +OK\r\npiece 0+27 piece 0+27 ",
    "deliver 1 | ",
    "0 SET b 2 | +OK\r\npiece 27+27 piece 27+27 ",
    "0 CLUSTER FAILOVER | -ERR node is not a replica\r\n",
    "2 CLUSTER FAILOVER | +OK\r\npause ",
    "deliver 5 | paused 54 ",
    "0 GET b | -TRYAGAIN Node is handing over\r\n",
    "0 MGET b {b}2 | -TRYAGAIN Node is handing over\r\n",
    "0 PING | +PONG\r\n",
    "0 CLUSTER SETSLOT 3300 MIGRATING #1 | -ERR node is handing over\r\n",
    "0 CLUSTER SETSLOT 16383 IMPORTING #1 | -ERR node is handing over\r\n",
    "deliver 6 | ",
    "2 tick | claim claim claim report 0 1 3 report 0 1 3 report 0 1 3 sync 27 ",
    "deliver 13 | piece 27+27 ",
    "deliver 14 | ",
    "2 tick | claim claim claim report 0 1 3 report 0 1 3 report 0 1 3 sync 54 request 2 request 2 request 2 ",
    "deliver 22 | grant 2 ",
    "deliver 23 | grant 2 ",
    "deliver 22 | ",
    "deliver 25 | ",
    "deliver 25 | ",
    "deliver 26 | claim 0 claim 0 claim 0 promoted 2 54 planned ",
    "2 GET b | $1\r\n2\r\n",
    "0 GET b | -TRYAGAIN Node is handing over\r\n",
    "0 tick | claim claim claim report 1 2 3 report 1 2 3 report 1 2 3 paused 54 ",
    "deliver 36 | ",
    "deliver 27 | ",
    "0 GET b | -MOVED 3300 127.0.0.1:7002\r\n",
    "0 CLUSTER COUNTKEYSINSLOT 3300 | :0\r\n",
    "0 tick | claim claim claim report 1 2 3 report 1 2 3 report 1 2 3 ",
    "deliver 29 | ",
    "3 tick | claim claim claim report 0 1 2 report 0 1 2 report 0 1 2 sync 0 ",
    "deliver 49 | piece 0+54 ",
    "deliver 50 | ",
    "3 CLUSTER COUNTKEYSINSLOT 3300 | :1\r\n",
];

// Node 0 hands over to node 3, and passes over what node 2 asks. Node 2 is elected in its place all the same, since most voters hold node 0 failed.
// So node 3 follows that, forgets what it noted, and begins no election. Asked anew, it takes over from node 2 once it has its stream.
const ANOTHER_MASTER: Rows = &[
    "3 CLUSTER FAILOVER | +OK\r\npause ",
    "2 CLUSTER FAILOVER | +OK\r\npause ",
    "deliver 1 | paused 0 ",
    "deliver 2 | ",
    "deliver 3 | ",
    "1 tick | claim claim claim report 0 2 3 report 0 2 3 report 0 2 3 ",
    "deliver 8 | ",
    "2 tick | claim claim claim report 0 1 3 report 0 1 3 report 0 1 3 sync 0 pause ",
    "2 tick | claim claim claim report 0 1 3 report 0 1 3 report 0 1 3 sync 0 pause request 2 request 2 request 2 ",
    "deliver 22 | ",
    "deliver 27 | grant 2 ",
    "deliver 28 | grant 2 ",
    "deliver 29 | ",
    "deliver 30 | claim 0 claim 0 claim 0 promoted 2 0 ",
    "deliver 33 | ",
    "3 tick | claim claim claim report 0 1 2 report 0 1 2 report 0 1 2 sync 0 ",
    "3 CLUSTER FAILOVER | +OK\r\npause ",
    "deliver 41 | ",
    "deliver 40 | piece 0+0 ",
    "deliver 42 | ",
    "3 tick | claim claim claim report 0 1 2 report 0 1 2 report 0 1 2 sync 0 pause ",
    "deliver 50 | paused 0 ",
    "deliver 51 | ",
    "3 tick | claim claim claim report 0 1 2 report 0 1 2 report 0 1 2 sync 0 request 3 request 3 request 3 ",
    "deliver 60 | ",
    "deliver 32 | ",
    "deliver 60 | grant 3 ",
    "deliver 61 | grant 3 ",
    "deliver 62 | ",
    "deliver 63 | claim 2 claim 2 claim 2 promoted 3 0 planned ",
];

// A slot leaves node 0, which hands nothing over until that is done. Node 2 then takes what node 0 named, and not the slot that left, though it
// hasn't heard of that.
const MOVE: Rows = &[
    "0 CLUSTER SETSLOT 3300 MIGRATING #1 | +OK\r\ndrained ",
    "2 CLUSTER FAILOVER | +OK\r\npause ",
    "deliver 2 | ",
    "0 GET b | -ASK 3300 127.0.0.1:7001\r\n",
    "0 SET bar 1 | +OK\r\npiece 0+29 piece 0+29 ",
    "1 CLUSTER SETSLOT 3300 IMPORTING #0 | +OK\r\n",
    "deliver 1 | ",
    "1 CLUSTER SETSLOT 3300 NODE #1 | +OK\r\nclaim claim claim ",
    "deliver 5 | ",
    "2 tick | claim claim claim report 0 1 3 report 0 1 3 report 0 1 3 sync 0 pause ",
    "deliver 15 | paused 29 ",
    "deliver 16 | ",
    "2 tick | claim claim claim report 0 1 3 report 0 1 3 report 0 1 3 sync 0 ",
    "deliver 3 | ",
    "2 tick | claim claim claim report 0 1 3 report 0 1 3 report 0 1 3 sync 29 request 3 request 3 request 3 ",
    "deliver 31 | grant 3 ",
    "deliver 33 | grant 3 ",
    "deliver 34 | ",
    "deliver 35 | claim 0 claim 0 claim 0 promoted 3 29 planned ",
    "2 CLUSTER SLOTSTATE 3300 | *6\r\n$7\r\nforeign\r\n$40\r\n0000000000000000000000000000000000000000\r\n:0\r\n:0\r\n:0\r\n:0\r\n",
    "2 GET bar | $1\r\n1\r\n",
];

/// Says whether another answer came of a step than without a refusal.
pub fn try_out<R: AllocGlobal + Print>(rt: &R) -> Result<()> {
    let config = with_elections(rt.alloc())?;
    let other = other_answer::<SlotStore>(rt.alloc(), &config, &CASES)?;
    Ok(tell(rt, "handovers", other)?)
}
