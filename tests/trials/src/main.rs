//! Trials of nodes: what no clause says of them, and what no script and no client of the program reaches. A trial prints a line or
//! more. The words name the trials that are played; without a word all of them are.

mod audited;
mod callers;
mod conversations;
mod growth;
mod locks;
mod pairs;
mod refused;
mod replay;
mod second_tries;
mod shared;
mod stations;
mod steps;

use crate::audited::audits;
use crate::conversations::{devices, writes};
use crate::locks::two_nodes;
use crate::shared::Runtime;
use crate::stations::{deliveries, full_link, syncs};
use crate::steps::{failover, following, handing_over, moves, pace, race, streams, twins};
use anyhow::{Result, bail};
use std::env;
use std::rt::Clock;
use std::sync::Wait;
use std::thread::Threads;

// What a word names.
#[derive(Clone, Copy)]
enum Trial {
    Refused,
    Moves,
    Following,
    LongWrite,
    Failover,
    Race,
    Handovers,
    Writes,
    Devices,
    Deliveries,
    Callers,
    Locks,
    Links,
    Syncs,
    Streams,
    Twins,
    Audit,
    Pace,
}

// The words of the trials, in the order in which they are played.
const TRIALS: [(&str, Trial); 17] = [
    ("refused", Trial::Refused),
    ("moves", Trial::Moves),
    ("following", Trial::Following),
    ("long_write", Trial::LongWrite),
    ("failover", Trial::Failover),
    ("race", Trial::Race),
    ("handovers", Trial::Handovers),
    ("writes", Trial::Writes),
    ("devices", Trial::Devices),
    ("deliveries", Trial::Deliveries),
    ("callers", Trial::Callers),
    ("locks", Trial::Locks),
    ("links", Trial::Links),
    ("syncs", Trial::Syncs),
    ("streams", Trial::Streams),
    ("twins", Trial::Twins),
    ("audit", Trial::Audit),
];

// It measures, and is played by its word alone.
const PACE: &str = "pace";

fn main(rt: HostRuntime) -> Result<()> {
    let words: Vec<String> = env::args(&rt)?.collect(rt.alloc())?;
    play(rt, words.as_slice())
}

// Plays the trials that the words behind the program's name ask for, or all.
fn play<R>(rt: R, words: &[String]) -> Result<()>
where
    R: AllocGlobal + Print + Clock + Threads + Wait + Copy + Drop + Send + Sync + 'static,
{
    match words {
        [] | [_] => try_all(rt),
        [_, named @ ..] => try_named(rt, named),
    }
}

fn try_all<R: Runtime>(rt: R) -> Result<()> {
    for (_, trial) in &TRIALS {
        try_out(rt, *trial)?;
    }
    Ok(())
}

fn try_named<R: Runtime>(rt: R, words: &[String]) -> Result<()> {
    for word in words {
        let Some(trial) = trial_of(word.as_str()) else {
            bail!("no such trial");
        };
        try_out(rt, trial)?;
    }
    Ok(())
}

fn trial_of(word: &str) -> Option<Trial> {
    if word == PACE {
        return Some(Trial::Pace);
    }
    for (name, trial) in &TRIALS {
        if *name == word {
            return Some(*trial);
        }
    }
    None
}

fn try_out<R: Runtime>(rt: R, trial: Trial) -> Result<()> {
    match trial {
        Trial::Refused => refused::try_out(rt),
        Trial::Moves => moves::try_out(&rt),
        Trial::Following => following::try_out(&rt),
        Trial::LongWrite => following::try_long_write(&rt),
        Trial::Failover => failover::try_out(&rt),
        Trial::Race => race::try_out(&rt),
        Trial::Handovers => handing_over::try_out(&rt),
        Trial::Writes => writes::try_out(rt),
        Trial::Devices => devices::try_out(rt),
        Trial::Deliveries => deliveries::try_out(&rt),
        Trial::Callers => callers::try_out(&rt),
        Trial::Locks => two_nodes::try_out(rt),
        Trial::Links => full_link::try_out(rt),
        Trial::Syncs => syncs::try_out(rt),
        Trial::Streams => streams::try_out(&rt),
        Trial::Twins => twins::try_out(&rt),
        Trial::Audit => audits::try_out(rt),
        Trial::Pace => pace::measure(&rt),
    }
}
