//! What the trials ask of the program's runtime.
use std::rt::Clock;
use std::sync::Wait;
use std::thread::Threads;

/// A runtime for all trials: it has memory, prints, tells the time, starts threads, and has them wait.
///
/// Whatever can do these is one.
pub trait Runtime: AllocGlobal
    + Print
    + Clock
    + Threads
    + Wait
    + Copy
    + Drop
    + Send
    + Sync
    + 'static {}

impl<R> Runtime for R
where
    R: AllocGlobal + Print + Clock + Threads + Wait + Copy + Drop + Send + Sync + 'static,
{}
