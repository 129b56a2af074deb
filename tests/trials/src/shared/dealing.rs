//! Seats of new tables, which have drawn nothing.

use std::alloc::{AllocError, Global};
use tickets::{Seat, Table, open};

/// A table and its two seats.
#[derive(Drop)]
pub struct Two {
    /// The table.
    pub table: Table,
    /// The seats.
    pub first: Seat,
    pub second: Seat,
}

/// The only seat of a table.
pub fn deal_one(alloc: Global) -> Result<Seat, AllocError> {
    let (_table, mut seats) = open(alloc, 1)?;
    Ok(seats.pop().unwrap())
}

/// A table with two seats.
pub fn deal_two(alloc: Global) -> Result<Two, AllocError> {
    let (table, mut seats) = open(alloc, 2)?;
    let second = seats.pop().unwrap();
    let first = seats.pop().unwrap();
    Ok(Two {
        table,
        first,
        second,
    })
}
