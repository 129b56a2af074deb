//! A request that is held up at one node, and one that is asked at another node meanwhile.

use crate::locks::gates::{HoldingGate, OneLockGate, Signals, TellingGate};
use crate::pairs::both_stations;
use crate::shared::{
    Runtime, Shared, Two, deal_two, say, shared_node_of, three_masters, two_masters,
};
use anyhow::Result;
use cluster_config::Config;
use link_ends::{Act, LinkEnd, PortEnd, PortEnds, Shim, link_shims};
use links::Web;
use listener::serve_conn;
use node_cell::{Admission, Asks, Deployment, HoldsCell, NodeGate, Posted};
use resp2::Counting;
use shared_node::{Gate, SharedNode};
use std::alloc::{AllocError, Global};
use std::marker::Brand;
use std::sync::atomic::Ordering;
use std::sync::{Arc, Mutex, Wait};
use std::thread;
use std::thread::JoinHandle;
use tickets::Seat;

// What is asked of the node whose answer is held up, and of the other one.
#[derive(Clone, Copy)]
struct Requests {
    held: &'static [u8],
    other: &'static [u8],
}

// For the second node of three, and for the third one.
const OF_THREE: Requests = Requests {
    held: b"*3\r\n$3\r\nSET\r\n$1\r\nc\r\n$1\r\n1\r\n",
    other: b"*3\r\n$3\r\nSET\r\n$1\r\nx\r\n$1\r\n1\r\n",
};

// For both of two nodes.
const OF_TWO: Requests = Requests {
    held: b"*3\r\n$3\r\nSET\r\n$1\r\nb\r\n$1\r\n1\r\n",
    other: b"*3\r\n$3\r\nSET\r\n$3\r\nfoo\r\n$1\r\n1\r\n",
};

// What a bad network does to the messages of each link.
static ACTS: [Act; 4] = [Act::Hold(1), Act::Repeat(1), Act::Lose, Act::Pass];

// Which locks the nodes have.
#[derive(Clone, Copy)]
enum Locks {
    // Each has its own, as in the program.
    Own,
    // One lock is round all of them.
    One,
}

/// Says whether a node answers a request while another node's lock is held, and whether it does where one lock is round both.
pub fn try_out<R: Runtime>(rt: R) -> Result<()> {
    let config = three_masters(rt.alloc())?;
    say(
        &rt,
        "locks of their own, answered meanwhile",
        answers(rt, &config, Locks::Own)?,
    )?;
    say(
        &rt,
        "one lock round both, answered meanwhile",
        answers(rt, &config, Locks::One)?,
    )?;
    let two = two_masters(rt.alloc())?;
    Ok(say(
        &rt,
        "over a bad network, answered meanwhile",
        answers_over_network(rt, &two)?,
    )?)
}

// Whether a node answers a request while another node's lock is held.
fn answers<R: Runtime>(rt: R, config: &Config, locks: Locks) -> Result<bool>
where
{
    let Two {
        table: _,
        first,
        second,
    } = deal_two(rt.alloc())?;
    Ok(answers_at::<Brand, R>(rt, config, first, second, locks)?)
}

// The seats are those of nodes 1 and 2.
fn answers_at<K: Deployment + Send + Sync + 'static, R: Runtime>(
    rt: R,
    config: &Config,
    first: Seat,
    second: Seat,
    locks: Locks,
) -> Result<bool, AllocError>
where
{
    let node = shared_node_of::<K>(rt.alloc(), config, 1, first)?;
    let answered = answers_beside(rt, config, &node, second, locks);
    drop(node);
    answered
}

// Whether node 2 answers while the request to this one is held up.
fn answers_beside<K: Deployment + Send + Sync + 'static, R: Runtime>(
    rt: R,
    config: &Config,
    node: &Shared<K>,
    seat: Seat,
    locks: Locks,
) -> Result<bool, AllocError>
where
{
    let other = shared_node_of::<K>(rt.alloc(), config, 2, seat)?;
    let admission = Admission::<K>::new(config);
    ask_both(rt, &admission, &**node, other, locks, OF_THREE)
}

// The same of two nodes, each with a lock of its own, which hear each other over a bad network.
fn answers_over_network<R: Runtime>(rt: R, config: &Config) -> Result<bool>
where
{
    let Two {
        table: _,
        first,
        second,
    } = deal_two(rt.alloc())?;
    answers_behind::<Brand, R>(rt, config, first, second)
}

fn answers_behind<K: Deployment + Send + Sync + 'static, R: Runtime>(
    rt: R,
    config: &Config,
    first: Seat,
    second: Seat,
) -> Result<bool>
where
{
    let acts = acts_of_links(rt.alloc())?;
    let ends = link_shims::<Posted<K>, R>(rt.alloc(), rt, 2, acts)?;
    answers_linked::<K, Brand, Shim<LinkEnd<Posted<K>, R>>>(rt, config, first, second, ends)
}

// The same acts for each of the four links of two nodes.
fn acts_of_links(alloc: Global) -> Result<Vec<Vec<Act>>, AllocError> {
    let mut acts = Vec::with_capacity(alloc, 4)?;
    for _ in 0..4 {
        let mut own = Vec::new(alloc);
        own.extend_from_slice(&ACTS)?;
        acts.push(own).map_err(AllocError::from)?;
    }
    Ok(acts)
}

fn answers_linked<
    K: Deployment + Send + Sync + 'static,
    W: Web + Send + 'static,
    E: PortEnd<Carried = Posted<K>> + Send + 'static,
>(rt: E::Handle, config: &Config, first: Seat, second: Seat, ends: Vec<PortEnds<E>>) -> Result<bool>
where
    E::Handle: Runtime,
{
    let alloc = rt.alloc();
    let both = both_stations::<K, W, E>(alloc, config, first, second, ends)?;
    let (first, second) = both.into_parts();
    let node = SharedNode::new(first);
    let other = Arc::new(alloc, SharedNode::new(second)).map_err(AllocError::from)?;
    let admission = Admission::<K>::new(config);
    Ok(ask_both(rt, &admission, &node, other, Locks::Own, OF_TWO)?)
}

// Two conversations at once: whether the second one was answered while the first was held up.
fn ask_both<C: HoldsCell + Drop + Send + 'static, R: Runtime>(
    rt: R,
    admission: &Admission<C::Cluster>,
    node: &SharedNode<C>,
    other: Arc<SharedNode<C>, Global>,
    locks: Locks,
    requests: Requests,
) -> Result<bool, AllocError>
where
    C::Cluster: Send + Sync + 'static,
{
    let signals = Arc::new(rt.alloc(), Signals::new())?;
    let theirs = Arc::try_clone(&signals)?;
    let asked = start_asking(rt, other, admission.begin(), theirs, locks, requests.other)?;
    hold_up(
        rt,
        rt.alloc(),
        node,
        admission.begin(),
        &*signals,
        locks,
        requests.held,
    );
    asked.join(&rt);
    Ok(!signals.ran_out.load(Ordering::SeqCst))
}

// Has a thread ask the other node.
fn start_asking<C: HoldsCell + Drop + Send + 'static, R: Runtime>(
    rt: R,
    node: Arc<SharedNode<C>, Global>,
    asks: Asks<C::Cluster>,
    signals: Arc<Signals, Global>,
    locks: Locks,
    request: &'static [u8],
) -> Result<JoinHandle<()>, AllocError>
where
    C::Cluster: Send + Sync + 'static,
{
    let started = thread::spawn(&rt, move || {
        ask_meanwhile(rt, rt.alloc(), &*node, asks, &*signals, locks, request);
    })?;
    Ok(started)
}

// A conversation whose request is held up at its node.
fn hold_up<C: HoldsCell + Drop, R: Wait + Copy + Drop>(
    rt: R,
    alloc: Global,
    node: &SharedNode<C>,
    asks: Asks<C::Cluster>,
    signals: &Signals,
    locks: Locks,
    request: &[u8],
) {
    let own = Mutex::new(());
    let lock = match locks {
        Locks::Own => &own,
        Locks::One => &signals.all,
    };
    let gate = Gate::new(rt, node, asks);
    let mut gate = HoldingGate {
        rt,
        gate,
        lock,
        signals,
    };
    converse(alloc, &mut gate, request);
}

// A conversation that asks its node meanwhile.
fn ask_meanwhile<C: HoldsCell + Drop, R: Wait + Copy + Drop>(
    rt: R,
    alloc: Global,
    node: &SharedNode<C>,
    asks: Asks<C::Cluster>,
    signals: &Signals,
    locks: Locks,
    request: &[u8],
) {
    let gate = Gate::new(rt, node, asks);
    match locks {
        Locks::Own => {
            let mut gate = TellingGate { gate, signals };
            converse(alloc, &mut gate, request);
        }
        Locks::One => {
            let gate = OneLockGate {
                rt,
                gate,
                lock: &signals.all,
            };
            let mut gate = TellingGate { gate, signals };
            converse(alloc, &mut gate, request);
        }
    }
}

// Serves a client that sends this request.
fn converse<G: NodeGate>(alloc: Global, gate: &mut G, request: &[u8]) {
    let mut reader = Counting::new(request);
    let mut writer = Counting::new(Vec::new(alloc));
    let _ended = serve_conn(alloc, gate, &mut reader, &mut writer);
}
