//! Trials of conversations and of a client's calls over memory, whose readers and writers fail.

mod calls;
mod conversation;
pub mod devices;
mod in_memory;
mod lines;
mod memory_nodes;
mod turns;
pub mod writes;

pub use calls::{CALLS, make, may_come};
pub use conversation::{Client, Held, Manner, Place, hold};
