//! The cells of two nodes, between which a key moved, as they are given to the audit.

use crate::audited::audits::{Given, choose};
use crate::pairs::{Both, both_cells};
use crate::shared::{Two, deal_two};
use anyhow::{Context, Result};
use audit::{AuditFault, gather};
use cluster_config::Config;
use node_cell::{Admission, Asks, Deployment, Journal, NodeCell, Posted};
use std::alloc::Global;
use std::marker::Brand;
use tickets::{Seat, Table};

/// What the audit says of these cells.
pub fn said_of_cells(
    alloc: Global,
    config: &Config,
    given: Given,
) -> Result<Result<u64, AuditFault>> {
    let Two {
        table,
        first,
        second,
    } = deal_two(alloc)?;
    said_at::<Brand>(alloc, config, &table, first, second, given)
}

fn said_at<K: Deployment>(
    alloc: Global,
    config: &Config,
    table: &Table,
    first: Seat,
    second: Seat,
    given: Given,
) -> Result<Result<u64, AuditFault>> {
    let mut cells = both_cells::<K>(alloc, config, first, second)?;
    move_a_key(alloc, &mut Admission::new(config).begin(), &mut cells)?;
    let mut list = cells.into_list(alloc)?;
    choose(&mut list, given);
    Ok(gather(alloc, table, list).map(|run| run.steps()))
}

// A key moves from the first node to the second, which makes eight steps of both: six that begin it, and the arrivals of the copy and of
// its acknowledgement.
fn move_a_key<K: Deployment>(
    alloc: Global,
    asks: &mut Asks<K>,
    cells: &mut Both<NodeCell<K, Journal>>,
) -> Result<()> {
    cells.begin_move(alloc, asks)?;
    carry(&mut cells.first, &mut cells.second)?;
    carry(&mut cells.second, &mut cells.first)
}

// Delivers the messages of a step of one node to the other.
fn carry<K: Deployment>(
    from: &mut NodeCell<K, Journal>,
    to: &mut NodeCell<K, Journal>,
) -> Result<()> {
    let sending = from.take_sent().context("no message was sent")?;
    for posted in sending {
        deliver(to, posted)?;
    }
    Ok(())
}

fn deliver<K: Deployment>(to: &mut NodeCell<K, Journal>, posted: Posted<K>) -> Result<()> {
    drop(to.deliver(posted)?);
    Ok(())
}
