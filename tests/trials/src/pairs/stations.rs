//! The stations of two nodes, at the ends of their links.

use crate::pairs::key_move::Both;
use crate::shared::cell_of;
use cluster_config::Config;
use link_ends::{PortEnd, PortEnds};
use links::{Station, Web};
use node_cell::{Deployment, Journal, Posted};
use std::alloc::{AllocError, Global};
use tickets::Seat;

/// The stations of both nodes as they begin.
pub fn both_stations<K: Deployment, W: Web, E: PortEnd<Carried = Posted<K>>>(
    alloc: Global,
    config: &Config,
    first: Seat,
    second: Seat,
    mut ends: Vec<PortEnds<E>>,
) -> Result<Both<Station<K, W, Journal, E>>, AllocError> {
    let second_ends = ends.pop().unwrap();
    let first_ends = ends.pop().unwrap();
    stations_at::<K, W, E>(alloc, config, first, first_ends, second, second_ends)
}

// The stations at these ends.
fn stations_at<K: Deployment, W: Web, E: PortEnd<Carried = Posted<K>>>(
    alloc: Global,
    config: &Config,
    first: Seat,
    first_ends: PortEnds<E>,
    second: Seat,
    second_ends: PortEnds<E>,
) -> Result<Both<Station<K, W, Journal, E>>, AllocError> {
    let first = station_at::<K, W, E>(alloc, config, 0, first, first_ends)?;
    match station_at(alloc, config, 1, second, second_ends) {
        Ok(second) => Ok(Both { first, second }),
        Err(refused) => {
            drop(first);
            Err(refused)
        }
    }
}

// A node as it begins.
fn station_at<K: Deployment, W: Web, E: PortEnd<Carried = Posted<K>>>(
    alloc: Global,
    config: &Config,
    number: u8,
    seat: Seat,
    ends: PortEnds<E>,
) -> Result<Station<K, W, Journal, E>, AllocError> {
    let cell = cell_of(alloc, config, number, seat)?;
    Station::new(alloc, cell, ends)
}
