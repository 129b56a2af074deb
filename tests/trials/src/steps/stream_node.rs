//! A store with what it has of a stream.

use crate::shared::words_of;
use anyhow::{Context, Result};
use bus::{Base, Piece, Snapshot, StreamId};
use byte_string::ByteString;
use command::{Command, parse};
use key_commands::plan_command;
use keyspace::{Pair, Pairs, Plan, Store, TreeStore, Value, commit};
use repl_stream::{NodeStream, OfferFault, Stream, Written, block_of};
use slot_table::{Epoch, NodeNo};
use std::alloc::{AllocError, Global};

/// A node, as far as its stream goes.
pub struct Node<T: Stream + Drop> {
    /// What it has of the stream.
    pub replica: NodeStream<T>,
    /// Its keys.
    pub store: TreeStore,
}

/// What is offered to a node: a request of a stream, at an offset.
#[derive(Clone, Copy)]
pub struct Offered {
    /// The node and the epoch of the stream.
    pub id: (u8, u64),
    /// The offset.
    pub from: u64,
    /// The words of the request, with one blank between them.
    pub write: &'static str,
    /// Where the stream (2, 0) ended, if this one goes on from it.
    pub base_end: Option<u64>,
}

// It does what the derive would. Written out it is one call wherever a node is let go.
impl<T: Stream + Drop> Drop for Node<T> {
    fn drop(self) {
        let Node {
            replica: _,
            store: _,
        } = self;
    }
}

impl<T: Stream + Drop> Node<T> {
    /// A node with nothing of the stream (2, 0), which is to keep so many of its last bytes.
    pub fn new(alloc: Global, kept: usize) -> Result<Node<T>> {
        Ok(Node {
            replica: NodeStream::begin(alloc, stream_id((2, 0))?, kept)?,
            store: TreeStore::new(alloc),
        })
    }

    /// A write, as a master makes it.
    pub fn write(&mut self, alloc: Global, write: &str) -> Result<()> {
        let mut bytes = Vec::new(alloc);
        bytes.extend_from_slice(request(alloc, write)?.as_slice())?;
        let written = Written::spelled(bytes)?;
        self.replica.reserve(written.len())?;
        execute(alloc, &mut self.store, write)?;
        self.replica.append(&written);
        Ok(())
    }

    /// The first write of the stream comes, with a part of the next one.
    pub fn begin(
        &mut self,
        alloc: Global,
        write: &str,
        part: &'static [u8],
    ) -> Result<Result<(), OfferFault>> {
        let mut bytes = request(alloc, write)?;
        bytes.append(alloc, part)?;
        self.take(alloc, piece_of(stream_id((2, 0))?, 0, bytes, None)?)
    }

    /// Bytes of a stream come.
    pub fn offer(&mut self, alloc: Global, offered: &Offered) -> Result<Result<(), OfferFault>> {
        let base = base_of(offered.base_end)?;
        let bytes = request(alloc, offered.write)?;
        self.take(
            alloc,
            piece_of(stream_id(offered.id)?, offered.from, bytes, base)?,
        )
    }

    fn take(&mut self, alloc: Global, piece: Piece) -> Result<Result<(), OfferFault>> {
        Ok(self.replica.offer(alloc, &mut self.store, &piece))
    }

    /// A snapshot comes.
    pub fn restore(&mut self, alloc: Global, snapshot: &Snapshot) -> Result<(), AllocError> {
        self.replica.snapshot(alloc, &mut self.store, snapshot)
    }

    /// The string at a key of one byte.
    pub fn string_at(&self, key: u8) -> Option<&[u8]> {
        match self.store.get(&ByteString::inline(&[key])) {
            Some(Value::Str(bytes)) => Some(bytes.as_slice()),
            _ => None,
        }
    }
}

/// The stream of that node and epoch.
pub fn stream_id(id: (u8, u64)) -> Result<StreamId> {
    Ok(StreamId {
        node: NodeNo::new(id.0).context("there is no such node")?,
        epoch: Epoch::new(id.1),
    })
}

/// A snapshot of the stream (2, 0), in which `a` has that value.
pub fn snapshot(alloc: Global, offset: u64, value: &'static [u8]) -> Result<Snapshot> {
    let pair = Pair::new(
        ByteString::inline(b"a"),
        Value::Str(ByteString::copy_from_slice(alloc, value)?),
    );
    Ok(Snapshot {
        stream: stream_id((2, 0))?,
        offset,
        pairs: Pairs::new(alloc, vec![in alloc; pair]?)?,
    })
}

fn base_of(end: Option<u64>) -> Result<Option<Base>> {
    let Some(end) = end else {
        return Ok(None);
    };
    let stream = stream_id((2, 0))?;
    Ok(Some(Base { stream, end }))
}

fn piece_of(stream: StreamId, from: u64, bytes: ByteString, base: Option<Base>) -> Result<Piece> {
    Piece::new(stream, from, bytes, base).context("there is no such offset")
}

// Executes the request.
fn execute(alloc: Global, store: &mut TreeStore, write: &str) -> Result<()> {
    let plan = planned(alloc, store, write)?;
    Ok(commit(alloc, store, plan)?)
}

fn planned(alloc: Global, store: &TreeStore, write: &str) -> Result<Plan> {
    let words = words_of(alloc, write)?;
    let mut plan = Plan::new(alloc);
    if let Ok(Command::Data(command)) = parse(&words) {
        let _reply = plan_command(alloc, store, &mut plan, &command)?;
    }
    Ok(plan)
}

// The bytes of a request.
fn request(alloc: Global, write: &str) -> Result<ByteString> {
    let words = words_of(alloc, write)?;
    Ok(block_of(alloc, vec![in alloc; words]?.as_slice())?)
}
