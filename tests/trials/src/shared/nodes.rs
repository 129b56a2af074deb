//! Nodes as they begin.

use cluster_config::Config;
use node_cell::{Deployment, GhostJournal, Log, NodeCell};
use shared_node::SharedNode;
use slot_table::NodeNo;
use std::alloc::{AllocError, Global};
use std::sync::Arc;
use tickets::Seat;

/// A node that threads share, without a journal in memory.
pub type Shared<K> = Arc<SharedNode<NodeCell<K, GhostJournal>>, Global>;

/// The cell of the node of that number.
pub fn cell_of<K: Deployment, L: Log>(
    alloc: Global,
    config: &Config,
    number: u8,
    seat: Seat,
) -> Result<NodeCell<K, L>, AllocError> {
    NodeCell::new(alloc, config, NodeNo::new(number).unwrap(), seat)
}

/// The node of that number, for several threads.
pub fn shared_node_of<K: Deployment>(
    alloc: Global,
    config: &Config,
    number: u8,
    seat: Seat,
) -> Result<Shared<K>, AllocError> {
    let cell = cell_of::<K, GhostJournal>(alloc, config, number, seat)?;
    Arc::new(alloc, SharedNode::new(cell)).map_err(AllocError::from)
}
