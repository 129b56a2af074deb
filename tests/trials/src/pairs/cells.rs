//! The cells of two nodes.

use crate::pairs::key_move::Both;
use crate::shared::cell_of;
use cluster_config::Config;
use node_cell::{Deployment, Journal, NodeCell};
use std::alloc::{AllocError, Global};
use tickets::Seat;

/// The cells of both nodes, as they begin.
pub fn both_cells<K: Deployment>(
    alloc: Global,
    config: &Config,
    first: Seat,
    second: Seat,
) -> Result<Both<NodeCell<K, Journal>>, AllocError> {
    let first = cell_of::<K, Journal>(alloc, config, 0, first)?;
    match cell_of(alloc, config, 1, second) {
        Ok(second) => Ok(Both { first, second }),
        Err(refused) => {
            drop(first);
            Err(refused)
        }
    }
}
