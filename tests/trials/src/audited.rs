//! Trials of the audit: what it says of the cells and of the stations of two nodes.

pub mod audits;
mod cells;
mod stations;
