//! What carries messages from one node to another.

use anyhow::Result;
use link_ends::PortEnd;
use links::{Station, Web};
use node_cell::{Deployment, Journal, Posted};

/// Sends what one node has for the other, which takes all that comes.
pub fn carry<K: Deployment, W: Web, E: PortEnd<Carried = Posted<K>>>(
    rt: &E::Handle,
    from: &mut Station<K, W, Journal, E>,
    to: &mut Station<K, W, Journal, E>,
) -> Result<()> {
    let _has_sent = from.send_out(rt, to.number().index())?;
    for _ in 0..u64::MAX {
        match to.receive(from.number().index()) {
            Some(received) => drop(received),
            None => break,
        }
    }
    Ok(())
}
