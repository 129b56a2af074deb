//! The stations of two nodes, between which a key moved over their links, as they are given to the audit.

use crate::audited::audits::{Given, choose};
use crate::pairs::{Both, both_stations};
use crate::shared::{Two, deal_two};
use anyhow::{Context, Result};
use audit::{AuditFault, gather_stations};
use cluster_config::Config;
use link_ends::{LinkEnd, PortEnd, PortEnds, link_ports};
use links::{Station, Web};
use node_cell::{Admission, Asks, Deployment, Journal, Posted};
use std::alloc::Global;
use std::marker::Brand;
use std::sync::Wait;
use tickets::{Seat, Table};

/// What the audit says of these stations.
pub fn said_of_stations<R: AllocGlobal + Wait + Copy + Drop>(
    rt: R,
    config: &Config,
    given: Given,
) -> Result<Result<u64, AuditFault>> {
    let Two {
        table,
        first,
        second,
    } = deal_two(rt.alloc())?;
    said_at::<Brand, R>(rt, config, &table, first, second, given)
}

fn said_at<K: Deployment, R: AllocGlobal + Wait + Copy + Drop>(
    rt: R,
    config: &Config,
    table: &Table,
    first: Seat,
    second: Seat,
    given: Given,
) -> Result<Result<u64, AuditFault>> {
    let ends = link_ports::<Posted<K>, R>(rt.alloc(), rt, 2)?;
    said_linked::<K, Brand, LinkEnd<Posted<K>, R>>(
        &rt,
        rt.alloc(),
        config,
        table,
        first,
        second,
        ends,
        given,
    )
}

// What the audit says, where the nodes have these ends of the links.
fn said_linked<K: Deployment, W: Web, E: PortEnd<Carried = Posted<K>>>(
    rt: &E::Handle,
    alloc: Global,
    config: &Config,
    table: &Table,
    first: Seat,
    second: Seat,
    ends: Vec<PortEnds<E>>,
    given: Given,
) -> Result<Result<u64, AuditFault>> {
    let mut stations = both_stations::<K, W, E>(alloc, config, first, second, ends)?;
    move_a_key(
        rt,
        alloc,
        &mut Admission::new(config).begin(),
        &mut stations,
    )?;
    let mut list = stations.into_list(alloc)?;
    choose(&mut list, given);
    Ok(gather_stations(alloc, table, list).map(|run| run.steps()))
}

// A key moves from the first node to the second, by the steps that cells make for it.
fn move_a_key<K: Deployment, W: Web, E: PortEnd<Carried = Posted<K>>>(
    rt: &E::Handle,
    alloc: Global,
    asks: &mut Asks<K>,
    stations: &mut Both<Station<K, W, Journal, E>>,
) -> Result<()> {
    stations.begin_move(alloc, asks)?;
    carry(rt, &mut stations.first, &mut stations.second)?;
    carry(rt, &mut stations.second, &mut stations.first)
}

// Sends what one node has for the other, which takes the first message that comes.
fn carry<K: Deployment, W: Web, E: PortEnd<Carried = Posted<K>>>(
    rt: &E::Handle,
    from: &mut Station<K, W, Journal, E>,
    to: &mut Station<K, W, Journal, E>,
) -> Result<()> {
    let _has_sent = from.send_out(rt, to.number().index())?;
    let delivered = to.receive(from.number().index());
    drop(delivered.context("no message has come")??);
    Ok(())
}
