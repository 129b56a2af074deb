//! What the trials of two nodes share: their cells or stations as they begin, and the steps by which a key moves from one to the other.

mod carrying;
mod cells;
mod key_move;
mod stations;

pub use carrying::carry;
pub use cells::both_cells;
pub use key_move::{Both, step};
pub use stations::both_stations;
