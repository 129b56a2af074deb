//! Two replicas of one master ask five voters for their votes in one epoch, and each message comes twice.

use anyhow::{Context, Result};
use election::{Candidate, Health, Members, VoteRequest, Voter};
use slot_table::{Epoch, NodeNo};

// The node that all voters hold failed. Its replicas are the two nodes behind it.
const MASTER: u8 = 5;

// The candidates, by their places behind the master.
const P: usize = 0;

const Q: usize = 1;

// Whose request comes to which voter, in this order.
const REQUESTS: [(usize, usize); 7] = [(P, 0), (P, 1), (Q, 1), (Q, 2), (Q, 3), (P, 2), (Q, 4)];

// The greatest epoch that all know before.
const EPOCH: u64 = 3;

// How many ticks a node may be silent.
const NODE_TIMEOUT: u32 = 20;

// The nodes of the race.
#[derive(Drop)]
struct Race {
    voters: [NodeNo; 5],
    masters: [Option<NodeNo>; 8],
    candidates: [NodeNo; 2],
    health: Health,
    votes: [Voter; 5],
    elections: [Candidate; 2],
}

impl Race {
    // No one has voted, and all voters have reported the master.
    fn new() -> Result<Race> {
        let master = number(MASTER)?;
        let voters = [number(0)?, number(1)?, number(2)?, number(3)?, number(4)?];
        let of_master = Some(master);
        Ok(Race {
            voters,
            masters: [None, None, None, None, None, None, of_master, of_master],
            candidates: [number(6)?, number(7)?],
            health: reported_by(&voters),
            votes: [Voter::new(); 5],
            elections: [Candidate::new(); 2],
        })
    }

    // Both begin an election of the same epoch.
    fn begin(&mut self) -> Result<Epoch> {
        let mut epoch = Epoch::new(EPOCH);
        for election in &mut self.elections {
            epoch = election.start(Epoch::new(EPOCH)).context("no epoch")?;
        }
        Ok(epoch)
    }

    // Whether the voter votes for the candidate.
    fn votes(&mut self, candidate: usize, voter: usize, epoch: Epoch) -> Result<bool> {
        let request = VoteRequest {
            candidate: self.candidate(candidate)?,
            epoch,
            master: number(MASTER)?,
            planned: false,
        };
        let me = self.voter(voter)?;
        let members = Members::new(me, NODE_TIMEOUT, &self.voters, &self.masters);
        let vote = self.votes.get_mut(voter).context("no such voter")?;
        Ok(vote.on_request(&members, &self.health, Epoch::new(EPOCH), request))
    }

    // Whether the vote elects the candidate.
    fn elects(&mut self, candidate: usize, voter: usize, epoch: Epoch) -> Result<bool> {
        let from = self.voter(voter)?;
        let me = self.candidate(candidate)?;
        let members = Members::new(me, NODE_TIMEOUT, &self.voters, &self.masters);
        let election = self.elections.get_mut(candidate).context("no election")?;
        Ok(election.on_grant(&members, from, epoch).is_some())
    }

    fn candidate(&self, place: usize) -> Result<NodeNo> {
        Ok(*self.candidates.get(place).context("no such candidate")?)
    }

    fn voter(&self, place: usize) -> Result<NodeNo> {
        Ok(*self.voters.get(place).context("no such voter")?)
    }
}

fn number(number: u8) -> Result<NodeNo> {
    NodeNo::new(number).context("there is no such node")
}

// What a node knows once the voters have reported the master, each a moment ago.
fn reported_by(voters: &[NodeNo]) -> Health {
    let mut suspects = [false; 16];
    if let Some(suspected) = suspects.get_mut(usize::from(MASTER)) {
        *suspected = true;
    }
    let mut health = Health::new();
    for voter in voters {
        health.on_report(*voter, suspects);
    }
    health
}

/// Says who votes for whom, and who is elected.
pub fn try_out<R: Print>(rt: &R) -> Result<()> {
    let mut race = Race::new()?;
    let epoch = race.begin()?;
    // Each request comes once more behind the last one.
    for _ in 0..2 {
        for (candidate, voter) in &REQUESTS {
            request(rt, &mut race, *candidate, *voter, epoch)?;
        }
    }
    Ok(())
}

// A request comes to the voter, and its vote to the candidate, twice.
fn request<R: Print>(
    rt: &R,
    race: &mut Race,
    candidate: usize,
    voter: usize,
    epoch: Epoch,
) -> Result<()> {
    if !race.votes(candidate, voter, epoch)? {
        return Ok(());
    }
    let node = race.candidate(candidate)?.get();
    println!(rt; "node {voter} votes for node {node}")?;
    for _ in 0..2 {
        if race.elects(candidate, voter, epoch)? {
            println!(rt; "node {node} is elected in epoch {}", epoch.get())?;
        }
    }
    Ok(())
}
