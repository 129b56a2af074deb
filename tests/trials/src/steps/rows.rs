//! Steps of nodes, a row each, and what comes of them. A node that is refused memory is as it was, so each step is made at a second
//! try.

use crate::shared::{Act, push_outputs};
use anyhow::{Context, Result};
use bus::Message;
use cluster_config::Config;
use node_cell::Journal;
use node_core::{Event, NodeCore, Outputs, StepFault};
use repl_stream::{Backlog, Replaces, Stream};
use slot_store::SlotParts;
use slot_table::NodeNo;
use std::alloc::{AllocError, Global};

// How many connections each node has.
const CONNECTIONS: usize = 2;

/// A step and what comes of it: `NODE WORD.. | ..` asks the node on its first connection, `NODE beside WORD..` on its second one, and
/// `NODE tick` is a tick. `deliver MESSAGE` lets a message reach its node, now, again or for the first time; messages are counted from 1
/// on, in the order in which they were sent.
pub type Rows = &'static [&'static str];

/// A store of which a node begins with an empty one.
pub trait NodeStore: SlotParts + Replaces {}

impl<S: SlotParts + Replaces> NodeStore for S {}

/// What came in place of what had to come, if something did. The nodes begin anew with each case.
pub fn other_answer<S: NodeStore>(
    alloc: Global,
    config: &Config,
    cases: &[Rows],
) -> Result<Option<String>> {
    for rows in cases {
        let other = other_answer_in::<S>(alloc, config, rows)?;
        if other.is_some() {
            return Ok(other);
        }
    }
    Ok(None)
}

fn other_answer_in<S: NodeStore>(
    alloc: Global,
    config: &Config,
    rows: &[&str],
) -> Result<Option<String>> {
    let mut world = World::<S>::new(alloc);
    world.open_all(alloc, config)?;
    let other = other_answer_at(alloc, &mut world, rows);
    drop(world);
    other
}

fn other_answer_at<S: NodeStore>(
    alloc: Global,
    world: &mut World<S>,
    rows: &[&str],
) -> Result<Option<String>> {
    for row in rows {
        let (step, wanted) = row.split_once(" | ").context("a step without an answer")?;
        let given = world.make(alloc, step)?;
        if given.as_slice() != wanted.as_bytes() {
            return Ok(Some(String::from_utf8(given)?));
        }
    }
    Ok(None)
}

// Nodes, and the messages that they sent.
struct World<S: NodeStore> {
    nodes: Vec<NodeCore<S, Backlog>>,
    messages: Vec<Message>,
}

// It does what the derive would. Written out it is one call wherever a world is let go.
impl<S: NodeStore> Drop for World<S> {
    fn drop(self) {
        let World {
            nodes: _,
            messages: _,
        } = self;
    }
}

impl<S: NodeStore> World<S> {
    // No node yet, and no message.
    fn new(alloc: Global) -> World<S> {
        World {
            nodes: Vec::new(alloc),
            messages: Vec::new(alloc),
        }
    }

    // All nodes as they begin, each with its connections.
    fn open_all(&mut self, alloc: Global, config: &Config) -> Result<()> {
        for place in 0..config.nodes().len() {
            self.nodes.push(open_node(alloc, config, place as u8)?)?;
        }
        Ok(())
    }

    // What comes out of the step.
    fn make(&mut self, alloc: Global, step: &str) -> Result<Vec<u8>> {
        let (place, act) = step.split_once(' ').context("a step without an act")?;
        if place == "deliver" {
            return self.deliver(alloc, act.parse::<usize>()?);
        }
        self.ask_node(alloc, place.parse::<usize>()?, act)
    }

    fn ask_node(&mut self, alloc: Global, node: usize, act: &str) -> Result<Vec<u8>> {
        let event = act_of(act).event(alloc)?;
        let given = self.step(alloc, node, &event);
        drop(event);
        given
    }

    fn deliver(&mut self, alloc: Global, number: usize) -> Result<Vec<u8>> {
        let place = number.checked_sub(1).context("messages count from 1 on")?;
        let message = self
            .messages
            .get(place)
            .context("there is no such message")?;
        let node = usize::from(message.to.get());
        let event = Event::Deliver(message.clone()?);
        let given = self.step(alloc, node, &event);
        drop(event);
        given
    }

    fn step(&mut self, alloc: Global, node: usize, event: &Event) -> Result<Vec<u8>> {
        let node = self.nodes.get_mut(node).context("there is no such node")?;
        let outputs = outputs_of(node, event)?;
        let given = self.take_outputs(alloc, &outputs);
        drop(outputs);
        Ok(given?)
    }

    // Keeps the messages, and tells the outputs.
    fn take_outputs(&mut self, alloc: Global, outputs: &Outputs) -> Result<Vec<u8>, AllocError> {
        for message in outputs.sent.as_slice() {
            self.messages.push(message.clone()?)?;
        }
        let mut given = Vec::new(alloc);
        push_outputs(&mut given, outputs)?;
        Ok(given)
    }
}

fn act_of(text: &str) -> Act<'_> {
    if text == "tick" {
        return Act::Tick;
    }
    match text.strip_prefix("beside ") {
        Some(words) => Act::Ask(1, words),
        None => Act::Ask(0, text),
    }
}

/// A node with its connections.
pub fn open_node<S: NodeStore>(
    alloc: Global,
    config: &Config,
    number: u8,
) -> Result<NodeCore<S, Backlog>> {
    let number = NodeNo::new(number).context("there are too many nodes")?;
    let mut node = NodeCore::new(alloc, config.clone()?, number, S::empty(alloc)?)?;
    match open_connections(&mut node) {
        Ok(()) => Ok(node),
        Err(fault) => {
            drop(node);
            Err(fault.into())
        }
    }
}

fn open_connections<S: NodeStore>(node: &mut NodeCore<S, Backlog>) -> Result<(), StepFault> {
    for _ in 0..CONNECTIONS {
        drop(outputs_of(node, &Event::Open)?);
    }
    Ok(())
}

/// What comes of the event. The number of the step changes nothing.
pub fn outputs_of<S: NodeStore, T: Stream>(
    node: &mut NodeCore<S, T>,
    event: &Event,
) -> Result<Outputs, StepFault> {
    let outcome = match node.step::<Journal>(0, event) {
        Err(StepFault::Memory) => node.step::<Journal>(0, event),
        outcome => outcome,
    };
    let (outputs, recorded) = outcome?;
    drop(recorded);
    Ok(outputs)
}
