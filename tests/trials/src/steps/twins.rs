//! The rows of other trials, played by nodes over the plain store. They have to give what nodes give over the store in use.

use crate::shared::{tell, three_masters, with_elections, with_replicas};
use crate::steps::plain_store::PlainStore;
use crate::steps::rows::other_answer;
use crate::steps::{failover, following, handing_over, moves};
use anyhow::Result;
use std::alloc::Global;

/// Says whether another answer came of a step than over the store in use.
pub fn try_out<R: AllocGlobal + Print>(rt: &R) -> Result<()> {
    let other = any_other_answer(rt.alloc())?;
    Ok(tell(rt, "twins", other)?)
}

fn any_other_answer(alloc: Global) -> Result<Option<String>> {
    let played = [
        (three_masters(alloc)?, &moves::CASES[..]),
        (with_replicas(alloc)?, &following::CASES[..]),
        (with_elections(alloc)?, &failover::CASES[..]),
        (with_elections(alloc)?, &handing_over::CASES[..]),
    ];
    for (config, cases) in &played {
        let other = other_answer::<PlainStore>(alloc, config, cases)?;
        if other.is_some() {
            return Ok(other);
        }
    }
    Ok(None)
}
