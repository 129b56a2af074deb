//! Trials of stations and of the links between them: many messages, a link that is full, and syncs that need no answer.

pub mod deliveries;
pub mod full_link;
pub mod syncs;
