//! Gates that hold a request up, or that wait for one lock round all nodes.

use node_core::{Conn, Event, StepFault};
use node_gate::NodeGate;
use resp2::Reply;
use std::sync::atomic::{AtomicBool, Ordering};
use std::sync::{Mutex, Wait};
use std::thread::yield_now;

// How often a request that is held up looks whether it may go on.
const MOST_TURNS: u32 = 100_000;

/// What two conversations tell each other.
#[derive(Drop)]
pub struct Signals {
    /// The lock round all nodes, where there is one.
    pub all: Mutex<()>,
    /// The answer of the first node is held back, under the node's lock.
    pub is_held: AtomicBool,
    /// The request at the second node was answered.
    pub was_answered: AtomicBool,
    /// The answer of the first node was held back until the turns ran out.
    pub ran_out: AtomicBool,
}

impl Signals {
    /// Nothing happened yet.
    pub fn new() -> Signals {
        Signals {
            all: Mutex::new(()),
            is_held: AtomicBool::new(false),
            was_answered: AtomicBool::new(false),
            ran_out: AtomicBool::new(false),
        }
    }
}

// Waits until the flag is set, and tells whether it was before the turns ran out.
fn is_set_in_time(flag: &AtomicBool) -> bool {
    for _ in 0..MOST_TURNS {
        if flag.load(Ordering::SeqCst) {
            return true;
        }
        yield_now();
    }
    false
}

/// A gate that holds the answer to each request back, under the lock of its node and another one, until the other node answered
/// a request.
pub struct HoldingGate<'n, G, R> {
    /// The leave to wait for the other lock.
    pub rt: R,
    /// The way to the node, which keeps the node's lock after a step.
    pub gate: G,
    /// The other lock.
    pub lock: &'n Mutex<()>,
    /// What is told to the other conversation, and heard from it.
    pub signals: &'n Signals,
}

// Its parts are dropped in one place.
impl<'n, G: Drop, R: Drop> Drop for HoldingGate<'n, G, R> {
    fn drop(self) {
        let HoldingGate {
            rt: _,
            gate: _,
            lock: _,
            signals: _,
        } = self;
    }
}

impl<'n, G, R> HoldingGate<'n, G, R> {
    fn hold(&self) {
        self.signals.is_held.store(true, Ordering::SeqCst);
        if !is_set_in_time(&self.signals.was_answered) {
            self.signals.ran_out.store(true, Ordering::SeqCst);
        }
    }
}

impl<'n, G: NodeGate, R: Wait> NodeGate for HoldingGate<'n, G, R> {
    type Answer = G::Answer;

    ghost asked = { λ holding. G.asked holding.gate };

    ghost allowed = { G.allowed };

    fn step(&mut self, event: Event) -> Result<G::Answer, StepFault> {
        if !matches!(&event, Event::Request(_, _)) {
            return self.gate.step(event);
        }
        let _held = self.lock.lock(&self.rt);
        let step = self.gate.step(event);
        self.hold();
        step
    }

    fn wait(&mut self, conn: Conn) -> Option<Reply> {
        self.gate.wait(conn)
    }

    fn release(&mut self) {
        self.gate.release();
    }
}

/// A gate that asks once the other node's request is held up, and tells when it was answered.
pub struct TellingGate<'n, G> {
    /// The way to the node.
    pub gate: G,
    /// What is told to the other conversation, and heard from it.
    pub signals: &'n Signals,
}

// Its parts are dropped in one place.
impl<'n, G: Drop> Drop for TellingGate<'n, G> {
    fn drop(self) {
        let TellingGate {
            gate: _,
            signals: _,
        } = self;
    }
}

impl<'n, G: NodeGate> NodeGate for TellingGate<'n, G> {
    type Answer = G::Answer;

    ghost asked = { λ telling. G.asked telling.gate };

    ghost allowed = { G.allowed };

    fn step(&mut self, event: Event) -> Result<G::Answer, StepFault> {
        let is_request = matches!(&event, Event::Request(_, _));
        if is_request {
            let _held = is_set_in_time(&self.signals.is_held);
        }
        let step = self.gate.step(event);
        if is_request {
            self.signals.was_answered.store(true, Ordering::SeqCst);
        }
        step
    }

    fn wait(&mut self, conn: Conn) -> Option<Reply> {
        self.gate.wait(conn)
    }

    fn release(&mut self) {
        self.gate.release();
    }
}

/// A gate of a cluster with one lock round all nodes.
pub struct OneLockGate<'n, G, R> {
    /// The leave to wait for the lock.
    pub rt: R,
    /// The way to the node.
    pub gate: G,
    /// The lock round all nodes.
    pub lock: &'n Mutex<()>,
}

// Its parts are dropped in one place.
impl<'n, G: Drop, R: Drop> Drop for OneLockGate<'n, G, R> {
    fn drop(self) {
        let OneLockGate {
            rt: _,
            gate: _,
            lock: _,
        } = self;
    }
}

impl<'n, G: NodeGate, R: Wait> NodeGate for OneLockGate<'n, G, R> {
    type Answer = G::Answer;

    ghost asked = { λ one. G.asked one.gate };

    ghost allowed = { G.allowed };

    fn step(&mut self, event: Event) -> Result<G::Answer, StepFault> {
        let _all = self.lock.lock(&self.rt);
        self.gate.step(event)
    }

    fn wait(&mut self, conn: Conn) -> Option<Reply> {
        self.gate.wait(conn)
    }

    fn release(&mut self) {
        self.gate.release();
    }
}
