//! Trials of nodes and their streams, a row a step: what moves of slots, replicas, elections and handovers make of each message.

pub mod failover;
pub mod following;
pub mod handing_over;
pub mod moves;
pub mod pace;
mod plain_store;
pub mod race;
mod rows;
mod stream_lines;
mod stream_node;
pub mod streams;
pub mod twins;
