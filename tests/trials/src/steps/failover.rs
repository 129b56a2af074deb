//! A master that is silent, and replicas that are elected in its place. A node that is refused memory is as it was, so each step is made at
//! a second try.

use crate::shared::{tell, with_elections};
use crate::steps::rows::{Rows, other_answer};
use anyhow::Result;
use slot_store::SlotStore;

/// What is played.
pub const CASES: [Rows; 4] = [ELECTION, SIGN_OF_LIFE, ONE_VOTE, AHEAD];

// Node 0 is silent. Most voters suspect it once nodes 1 and 2 do. Node 2 begins an election at the tick behind that, and node 1 votes once it
// holds node 0 failed, too. A vote counts once. Node 3 then follows node 2 from the end of what it has, and takes nothing of node 0 any more.
const ELECTION: Rows = &[
    "0 SET b 1 | +OK\r\npiece 0+27 piece 0+27 ",
    "deliver 1 | ",
    "deliver 2 | ",
    "1 tick | claim claim claim report 0 2 3 report 0 2 3 report 0 2 3 ",
    "2 tick | claim claim claim report 0 1 3 report 0 1 3 report 0 1 3 sync 27 ",
    "deliver 7 | ",
    "2 tick | claim claim claim report 0 1 3 report 0 1 3 report 0 1 3 sync 27 request 2 request 2 request 2 ",
    "deliver 25 | grant 2 ",
    "deliver 24 | ",
    "deliver 20 | ",
    "deliver 24 | grant 2 ",
    "deliver 24 | ",
    "deliver 26 | ",
    "deliver 26 | ",
    "2 GET b | -MOVED 3300 127.0.0.1:7000\r\n",
    "deliver 27 | claim 0 claim 0 claim 0 promoted 2 27 ",
    "deliver 27 | ",
    "2 GET b | $1\r\n1\r\n",
    "1 GET b | -MOVED 3300 127.0.0.1:7000\r\n",
    "deliver 29 | ",
    "1 GET b | -MOVED 3300 127.0.0.1:7002\r\n",
    "deliver 30 | ",
    "3 tick | claim claim claim report 0 1 2 report 0 1 2 report 0 1 2 sync 27 ",
    "deliver 37 | piece 27+0 ",
    "2 SET b 2 | +OK\r\npiece 27+27 ",
    "deliver 39 | ",
    "deliver 38 | ",
    "deliver 39 | ",
    "3 tick | claim claim claim report 0 1 2 report 0 1 2 report 0 1 2 sync 54 ",
    "0 SET b 3 | +OK\r\npiece 27+27 piece 27+27 ",
    "deliver 47 | ",
    "deliver 48 | ",
    "deliver 28 | ",
    "0 GET b | -MOVED 3300 127.0.0.1:7002\r\n",
    "2 GET b | $1\r\n2\r\n",
    "2 tick | claim 0 claim 0 claim 0 report 0 1 3 report 0 1 3 report 0 1 3 ",
];

// A message of node 0 comes before the election begins, so it is held failed no more: what node 1 reported of it before counts no longer.
// Once node 1 reports it again the election begins.
const SIGN_OF_LIFE: Rows = &[
    "1 tick | claim claim claim report 0 2 3 report 0 2 3 report 0 2 3 ",
    "2 tick | claim claim claim report 0 1 3 report 0 1 3 report 0 1 3 sync 0 ",
    "deliver 5 | ",
    "0 tick | claim claim claim report 1 2 3 report 1 2 3 report 1 2 3 ",
    "deliver 15 | ",
    "2 tick | claim claim claim report 0 1 3 report 0 1 3 report 0 1 3 sync 0 ",
    "2 tick | claim claim claim report 0 1 3 report 0 1 3 report 0 1 3 sync 0 ",
    "deliver 5 | ",
    "2 tick | claim claim claim report 0 1 3 report 0 1 3 report 0 1 3 sync 0 request 2 request 2 request 2 ",
];

// Node 3, which waits for a tick more since node 2 stands before it, and node 2 begin elections in epoch 2. Node 1 votes for the one and node 2
// for the other, so nobody is elected. Node 2 begins anew in epoch 3, and a vote of epoch 2 counts no more.
const ONE_VOTE: Rows = &[
    "1 tick | claim claim claim report 0 2 3 report 0 2 3 report 0 2 3 ",
    "2 tick | claim claim claim report 0 1 3 report 0 1 3 report 0 1 3 sync 0 ",
    "3 tick | claim claim claim report 0 1 2 report 0 1 2 report 0 1 2 sync 0 ",
    "deliver 6 | ",
    "deliver 12 | ",
    "3 tick | claim claim claim report 0 1 2 report 0 1 2 report 0 1 2 sync 0 ",
    "3 tick | claim claim claim report 0 1 2 report 0 1 2 report 0 1 2 sync 0 request 2 request 2 request 2 ",
    "deliver 5 | ",
    "2 tick | claim claim claim report 0 1 3 report 0 1 3 report 0 1 3 sync 0 request 2 request 2 request 2 ",
    "deliver 11 | ",
    "deliver 36 | grant 2 ",
    "deliver 46 | ",
    "deliver 47 | grant 2 ",
    "deliver 37 | ",
    "deliver 49 | ",
    "deliver 48 | ",
    "deliver 5 | ",
    "2 tick | claim claim claim report 0 1 3 report 0 1 3 report 0 1 3 sync 0 ",
    "2 tick | claim claim claim report 0 1 3 report 0 1 3 report 0 1 3 sync 0 request 3 request 3 request 3 ",
    "deliver 65 | grant 3 ",
    "deliver 66 | grant 3 ",
    "deliver 49 | ",
    "deliver 67 | ",
    "deliver 68 | claim 0 claim 0 claim 0 promoted 3 0 ",
    "deliver 71 | ",
    "deliver 48 | ",
    "3 tick | claim claim claim report 0 1 2 report 0 1 2 report 0 1 2 sync 0 ",
];

// Node 3 has more of the stream than node 2, which is elected. So it gets all keys of node 2 in place of its own.
const AHEAD: Rows = &[
    "0 SET b 1 | +OK\r\npiece 0+27 piece 0+27 ",
    "deliver 1 | ",
    "deliver 2 | ",
    "0 SET {b}2 2 | +OK\r\npiece 27+30 piece 27+30 ",
    "deliver 4 | ",
    "1 tick | claim claim claim report 0 2 3 report 0 2 3 report 0 2 3 ",
    "deliver 9 | ",
    "2 tick | claim claim claim report 0 1 3 report 0 1 3 report 0 1 3 sync 27 ",
    "2 tick | claim claim claim report 0 1 3 report 0 1 3 report 0 1 3 sync 27 request 2 request 2 request 2 ",
    "deliver 27 | grant 2 ",
    "deliver 15 | ",
    "deliver 26 | grant 2 ",
    "deliver 28 | ",
    "deliver 29 | claim 0 claim 0 claim 0 promoted 2 27 ",
    "deliver 32 | ",
    "3 CLUSTER COUNTKEYSINSLOT 3300 | :2\r\n",
    "3 tick | claim claim claim report 0 1 2 report 0 1 2 report 0 1 2 sync 57 ",
    "deliver 39 | snapshot 27 1 ",
    "deliver 40 | ",
    "3 CLUSTER COUNTKEYSINSLOT 3300 | :1\r\n",
    "2 SET {b}3 3 | +OK\r\npiece 27+30 ",
    "deliver 41 | ",
    "3 CLUSTER GETKEYSINSLOT 3300 16 | *2\r\n$1\r\nb\r\n$4\r\n{b}3\r\n",
    "3 tick | claim claim claim report 0 1 2 report 0 1 2 report 0 1 2 sync 57 ",
];

/// Says whether another answer came of a step than without a refusal.
pub fn try_out<R: AllocGlobal + Print>(rt: &R) -> Result<()> {
    let config = with_elections(rt.alloc())?;
    let other = other_answer::<SlotStore>(rt.alloc(), &config, &CASES)?;
    Ok(tell(rt, "failover", other)?)
}
