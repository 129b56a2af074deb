//! What trials say.

use std::io;

/// Says whether this holds.
pub fn say<R: Print>(rt: &R, what: &str, holds: bool) -> io::Result<()> {
    println!(rt; "{what}: {holds}")
}

/// Says which other answer came in a trial, if one came.
pub fn tell<R: Print>(rt: &R, trial: &str, other: Option<String>) -> io::Result<()> {
    match other {
        None => println!(rt; "{trial}: no other answer"),
        Some(given) => println!(rt; "{trial}: another answer: {given}"),
    }
}

/// Says how often that failed in turn, if it was always answered as it has to be.
pub fn tell_count<R: Print>(rt: &R, what: &str, count: Option<usize>) -> io::Result<()> {
    match count {
        Some(count) => println!(rt; "{what}: {count} failed in turn"),
        None => println!(rt; "{what}: another answer"),
    }
}
