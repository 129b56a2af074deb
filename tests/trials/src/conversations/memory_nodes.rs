//! A client's connections to nodes in memory. They take and give a few bytes at a time, and fail where a trial wants it.

use crate::conversations::lines::{Deed, Desk, Line};
use redirection::Address;
use smart_client::{Connect, ConnectFault, Reaches};
use std::io;
use std::io::{ErrorKind, Read, Write};
use std::snapshot::Snapshot;

// How many bytes one call takes or gives at most.
const FEW: usize = 7;

const HOST: &[u8] = b"127.0.0.1";

/// An end of a connection. The address stands here for proofs alone.
#[derive(Drop)]
pub struct End<'a> {
    desk: &'a Desk,
    line: Line,
    // The connections of a call are numbered from 0 on.
    place: usize,
    address: Snapshot<Address>,
}

impl<'a> End<'a> {
    fn new(desk: &'a Desk, line: Line, place: usize, address: &Address) -> End<'a> {
        End {
            desk,
            line,
            place,
            address: Snapshot::of(address),
        }
    }
}

impl Reaches for End<'_> {
    ghost place = { λ end. end.address.value };
}

impl Read for End<'_> {
    fn read(&mut self, buf: &mut [u8]) -> io::Result<usize> {
        if self.desk.fails(Deed::Read) {
            return Err(io::Error::from(ErrorKind::ConnectionReset));
        }
        let reply = self.desk.coming(&self.line, self.place);
        let mut few = reply.get(..FEW.min(reply.len())).unwrap_or(b"");
        let count = few.read(buf)?;
        self.desk.note_given(self.place, count);
        Ok(count)
    }
}

impl Write for End<'_> {
    fn write(&mut self, buf: &[u8]) -> io::Result<usize> {
        if self.desk.fails(Deed::Write) {
            return Err(io::Error::from(ErrorKind::BrokenPipe));
        }
        let count = FEW.min(buf.len());
        self.desk.take(&self.line, self.place, &buf[..count]);
        Ok(count)
    }

    fn flush(&mut self) -> io::Result<()> {
        if self.desk.fails(Deed::Flush) {
            return Err(io::Error::from(ErrorKind::BrokenPipe));
        }
        Ok(())
    }
}

/// The nodes that a call reaches, one connection after the other.
#[derive(Drop)]
pub struct Nodes<'a> {
    desk: &'a Desk,
    lines: &'static [Line],
    // How many connections were made.
    made: usize,
    // How often no node was reached.
    failures: u64,
}

impl<'a> Nodes<'a> {
    /// No connection yet.
    pub fn new(desk: &'a Desk, lines: &'static [Line]) -> Nodes<'a> {
        Nodes {
            desk,
            lines,
            made: 0,
            failures: 0,
        }
    }

    // The next connection, which has to lead to that address.
    fn next(&self, address: &Address) -> Option<Line> {
        if self.desk.fails(Deed::Connect) {
            return None;
        }
        match self.lines.get(self.made) {
            Some(line) if address.port() == line.port && address.host().as_slice() == HOST => {
                Some(*line)
            }
            _ => {
                self.desk.note_strange();
                None
            }
        }
    }
}

impl<'a> Connect for Nodes<'a> {
    type Reader = End<'a>;

    type Writer = End<'a>;

    ghost failures = { λ nodes. nodes.failures };

    fn connect(&mut self, address: &Address) -> Result<(End<'a>, End<'a>), ConnectFault> {
        match self.next(address) {
            Some(line) => {
                let place = self.made;
                self.made = place.saturating_add(1);
                Ok((
                    End::new(self.desk, line, place, address),
                    End::new(self.desk, line, place, address),
                ))
            }
            None => {
                self.failures = self.failures.saturating_add(1);
                Err(ConnectFault::NotReached)
            }
        }
    }
}
