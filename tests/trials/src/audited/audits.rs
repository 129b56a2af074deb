//! What the audit says of the cells and of the stations of two nodes, between which a key moved, and how many steps their run has.

use crate::audited::cells::said_of_cells;
use crate::audited::stations::said_of_stations;
use crate::shared::two_masters;
use anyhow::Result;
use audit::AuditFault;
use cluster_config::Config;
use std::io;
use std::sync::Wait;

// A trial.
struct Row {
    name: &'static str,
    given: Given,
}

/// Of which nodes the audit is given a cell, or a station.
#[derive(Clone, Copy)]
pub enum Given {
    /// None.
    Nobody,
    /// Node 0.
    First,
    /// Node 1.
    Second,
    /// Both, node 0 first.
    Both,
    /// Both, node 1 first.
    Turned,
}

static CELL_ROWS: [Row; 5] = [
    Row {
        name: "no cell",
        given: Given::Nobody,
    },
    Row {
        name: "the cell of node 0 alone",
        given: Given::First,
    },
    Row {
        name: "the cell of node 1 alone",
        given: Given::Second,
    },
    Row {
        name: "both cells",
        given: Given::Both,
    },
    Row {
        name: "both cells, that of node 1 first",
        given: Given::Turned,
    },
];

static STATION_ROWS: [Row; 3] = [
    Row {
        name: "the station of node 0 alone",
        given: Given::First,
    },
    Row {
        name: "both stations",
        given: Given::Both,
    },
    Row {
        name: "both stations, that of node 1 first",
        given: Given::Turned,
    },
];

/// Says what the audit says in each trial.
pub fn try_out<R: AllocGlobal + Print + Wait + Copy + Drop>(rt: R) -> Result<()> {
    let config = two_masters(rt.alloc())?;
    try_cells(&rt, &config)?;
    try_stations(rt, &config)
}

fn try_cells<R: AllocGlobal + Print>(rt: &R, config: &Config) -> Result<()> {
    for row in &CELL_ROWS {
        let said = said_of_cells(rt.alloc(), config, row.given)?;
        say(rt, row.name, said)?;
    }
    Ok(())
}

fn try_stations<R: AllocGlobal + Print + Wait + Copy + Drop>(rt: R, config: &Config) -> Result<()> {
    for row in &STATION_ROWS {
        let said = said_of_stations(rt, config, row.given)?;
        say(&rt, row.name, said)?;
    }
    Ok(())
}

fn say<R: Print>(rt: &R, name: &str, said: Result<u64, AuditFault>) -> io::Result<()> {
    match said {
        Ok(steps) => println!(rt; "{name}: ok {steps}"),
        Err(AuditFault::Stranger) => println!(rt; "{name}: stranger"),
        Err(AuditFault::Memory) => println!(rt; "{name}: memory"),
    }
}

/// Leaves what is given of the cells, or of the stations, of both nodes.
pub fn choose<T: Drop>(of_both: &mut Vec<T>, given: Given) {
    match given {
        Given::Nobody => of_both.clear(),
        Given::First => of_both.truncate(1),
        Given::Second => {
            of_both.as_mut_slice().reverse();
            of_both.truncate(1);
        }
        Given::Both => {}
        Given::Turned => of_both.as_mut_slice().reverse(),
    }
}
