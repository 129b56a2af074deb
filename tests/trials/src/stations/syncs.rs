//! A replica that says how much of its master's stream it has, while what it lacks is on its way to it, and once that was lost.

use crate::pairs::{Both, both_stations, step};
use crate::shared::{Two, conn_of, deal_two, one_replica, say, words_of};
use anyhow::Result;
use cluster_config::Config;
use key_slot::Slot;
use link_ends::{LinkEnd, PortEnd, PortEnds, link_ports};
use links::{NotTaken, Station, Web};
use node_cell::{Admission, Asks, Deployment, HoldsCell, Journal, Posted};
use node_core::Event;
use std::alloc::Global;
use std::marker::Brand;
use std::sync::Wait;
use tickets::Seat;

// The slot of all keys, whose tag is `a`.
const SLOT: u16 = 15495;

// How many writes are on their way to a replica that is held, far more bytes than its master keeps of the stream.
const WRITES: u64 = 40;

// What was seen.
#[derive(Clone, Copy)]
struct Seen {
    // All syncs of a replica that takes no message are lost.
    are_lost: bool,
    // It has all once it takes what waited, and nothing else comes.
    has_all: bool,
    // After how many syncs a piece that was lost had come once more.
    syncs: u64,
}

/// Says which syncs of a replica its master answers.
pub fn try_out<R: AllocGlobal + Print + Wait + Copy + Drop>(rt: R) -> Result<()> {
    let config = one_replica(rt.alloc())?;
    let seen = seen_of(rt, &config)?;
    say(
        &rt,
        "syncs of a replica that is held are lost",
        seen.are_lost,
    )?;
    say(
        &rt,
        "it has all once it takes what waited, and nothing else comes",
        seen.has_all,
    )?;
    Ok(println!(rt;
        "a piece that was lost has come again after so many syncs: {}",
        seen.syncs
    )?)
}

fn seen_of<R: AllocGlobal + Wait + Copy + Drop>(rt: R, config: &Config) -> Result<Seen> {
    let Two {
        table: _,
        first,
        second,
    } = deal_two(rt.alloc())?;
    seen_at::<Brand, R>(rt, config, first, second)
}

fn seen_at<K: Deployment, R: AllocGlobal + Wait + Copy + Drop>(
    rt: R,
    config: &Config,
    first: Seat,
    second: Seat,
) -> Result<Seen> {
    let ends = link_ports::<Posted<K>, R>(rt.alloc(), rt, 2)?;
    seen_linked::<K, Brand, LinkEnd<Posted<K>, R>>(&rt, rt.alloc(), config, first, second, ends)
}

// What is seen where the nodes have these ends of the links.
fn seen_linked<K: Deployment, W: Web, E: PortEnd<Carried = Posted<K>>>(
    rt: &E::Handle,
    alloc: Global,
    config: &Config,
    first: Seat,
    second: Seat,
    ends: Vec<PortEnds<E>>,
) -> Result<Seen> {
    let mut nodes = both_stations::<K, W, E>(alloc, config, first, second, ends)?;
    see(rt, alloc, &mut Admission::new(config).begin(), &mut nodes)
}

fn see<K: Deployment, W: Web, E: PortEnd<Carried = Posted<K>>>(
    rt: &E::Handle,
    alloc: Global,
    asks: &mut Asks<K>,
    nodes: &mut Both<Station<K, W, Journal, E>>,
) -> Result<Seen> {
    step(asks, &mut nodes.first, Event::Open)?;
    for _ in 0..WRITES {
        write(rt, alloc, asks, nodes, "SET a 0123456789")?;
    }
    let are_lost = !is_heard(rt, asks, nodes)? && !is_heard(rt, asks, nodes)?;
    let has_all = take_all(&mut nodes.second, 0).all == WRITES && keys_at(&nodes.second) == 1;
    write(rt, alloc, asks, nodes, "SET {a}b 1")?;
    drop(nodes.second.lose(0));
    Ok(Seen {
        are_lost,
        has_all,
        syncs: syncs_until_two(rt, asks, nodes)?,
    })
}

// The master executes the words, and sends what comes of them.
fn write<K: Deployment, W: Web, E: PortEnd<Carried = Posted<K>>>(
    rt: &E::Handle,
    alloc: Global,
    asks: &mut Asks<K>,
    nodes: &mut Both<Station<K, W, Journal, E>>,
    words: &str,
) -> Result<()> {
    let event = Event::Request(conn_of(0), words_of(alloc, words)?);
    step(asks, &mut nodes.first, event)?;
    let _has_sent = nodes.first.send_out(rt, 1)?;
    Ok(())
}

// After how many syncs the replica has two keys. It gives up after ten.
fn syncs_until_two<K: Deployment, W: Web, E: PortEnd<Carried = Posted<K>>>(
    rt: &E::Handle,
    asks: &mut Asks<K>,
    nodes: &mut Both<Station<K, W, Journal, E>>,
) -> Result<u64> {
    for syncs in 0..10 {
        if keys_at(&nodes.second) == 2 {
            return Ok(syncs);
        }
        let _is_heard = is_heard(rt, asks, nodes)?;
        let _taken = take_all(&mut nodes.second, 0);
    }
    Ok(10)
}

// A tick passes at the replica, whose master takes what it tells. It gives whether the sync was delivered there.
fn is_heard<K: Deployment, W: Web, E: PortEnd<Carried = Posted<K>>>(
    rt: &E::Handle,
    asks: &mut Asks<K>,
    nodes: &mut Both<Station<K, W, Journal, E>>,
) -> Result<bool> {
    step(asks, &mut nodes.second, Event::Tick)?;
    let _has_sent = nodes.second.send_out(rt, 0)?;
    let taken = take_all(&mut nodes.first, 1);
    let _has_answered = nodes.first.send_out(rt, 1)?;
    Ok(taken.needless == 0)
}

// How many messages a node took off a link, and how many of them were syncs that need no answer.
#[derive(Clone, Copy)]
struct Taken {
    all: u64,
    needless: u64,
}

// The node takes all messages that came from the other one.
fn take_all<K: Deployment, W: Web, E: PortEnd<Carried = Posted<K>>>(
    node: &mut Station<K, W, Journal, E>,
    from: usize,
) -> Taken {
    let mut taken = Taken {
        all: 0,
        needless: 0,
    };
    for all in 1..u64::MAX {
        let Some(is_needless) = take_next(node, from) else {
            break;
        };
        taken.all = all;
        taken.needless = taken.needless.saturating_add(u64::from(is_needless));
    }
    taken
}

// Whether the next message is needless, if one has come.
fn take_next<K: Deployment, W: Web, E: PortEnd<Carried = Posted<K>>>(
    node: &mut Station<K, W, Journal, E>,
    from: usize,
) -> Option<bool> {
    let received = node.receive(from)?;
    let is_needless = matches!(&received, Err(NotTaken::Needless));
    drop(received);
    Some(is_needless)
}

fn keys_at<C: HoldsCell>(node: &C) -> usize {
    match Slot::new(SLOT) {
        Some(slot) => node.core().count_in_slot(slot),
        None => 0,
    }
}
