//! Two nodes, of which the first one sends a key to the second.

use crate::shared::{conn_of, words_of};
use anyhow::Result;
use node_cell::{Asks, HoldsCell};
use node_core::Event;
use std::alloc::{AllocError, Global};

// What the first client of each node asks: the key `b` and its slot go from node 0 to node 1.
const SET: &str = "SET b 1";

const IMPORT: &str = "CLUSTER SETSLOT 3300 IMPORTING #0 1";

const MIGRATE_SLOT: &str = "CLUSTER SETSLOT 3300 MIGRATING #1 1";

const MIGRATE_KEY: &str = "MIGRATE 127.0.0.1 7001 b 0 10";

/// The cells, or the stations, of nodes 0 and 1.
pub struct Both<C> {
    /// Node 0.
    pub first: C,
    /// Node 1.
    pub second: C,
}

// It does what the derive would. Written out it is one call wherever both are let go.
impl<C: Drop> Drop for Both<C> {
    fn drop(self) {
        let Both {
            first: _,
            second: _,
        } = self;
    }
}

impl<C: HoldsCell> Both<C> {
    /// Asks of both what makes the first one send a copy of its key to the second, in six steps: two connections and four requests.
    pub fn begin_move(&mut self, alloc: Global, asks: &mut Asks<C::Cluster>) -> Result<()> {
        step(asks, &mut self.first, Event::Open)?;
        step(asks, &mut self.second, Event::Open)?;
        ask(alloc, asks, &mut self.first, SET)?;
        ask(alloc, asks, &mut self.second, IMPORT)?;
        ask(alloc, asks, &mut self.first, MIGRATE_SLOT)?;
        ask(alloc, asks, &mut self.first, MIGRATE_KEY)
    }
}

impl<C: Drop> Both<C> {
    /// Both, the first one in front.
    pub fn into_parts(self) -> (C, C) {
        let Both { first, second } = self;
        (first, second)
    }

    /// A list of both, the first one in front.
    pub fn into_list(self, alloc: Global) -> Result<Vec<C>, AllocError> {
        let (first, second) = self.into_parts();
        let mut list = Vec::with_capacity(alloc, 2)?;
        list.push(first).map_err(AllocError::from)?;
        list.push(second).map_err(AllocError::from)?;
        Ok(list)
    }
}

// Asks the words on the first connection of the node.
fn ask<C: HoldsCell>(
    alloc: Global,
    asks: &mut Asks<C::Cluster>,
    cell: &mut C,
    words: &str,
) -> Result<()> {
    step(
        asks,
        cell,
        Event::Request(conn_of(0), words_of(alloc, words)?),
    )
}

/// Has the node make its step for the event.
pub fn step<C: HoldsCell>(asks: &mut Asks<C::Cluster>, cell: &mut C, event: Event) -> Result<()> {
    drop(cell.ask(asks, event)?);
    Ok(())
}
