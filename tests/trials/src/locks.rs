//! Trials of the locks of nodes: a node answers while the lock of another one is held.

mod gates;
pub mod two_nodes;
