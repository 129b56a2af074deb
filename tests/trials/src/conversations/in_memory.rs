//! Connections in memory, which fail where a trial wants it.
use std::io;
use std::io::{ErrorKind, Read, Write};

/// At which of its calls a reader or a writer fails.
#[derive(Clone, Copy)]
pub struct Failing {
    /// So many calls go well before it.
    pub after: usize,
    /// Whether those behind it go well again.
    pub once: bool,
}

/// Whether a call fails before which so many were made.
pub fn fails(failing: Option<Failing>, before: usize) -> bool {
    match failing {
        None => false,
        Some(Failing { after, once: true }) => before == after,
        Some(Failing { after, once: false }) => before >= after,
    }
}

/// Gives one piece after another, each to a read of its own, and then ends or fails.
#[derive(Drop)]
pub struct Pieces<'a> {
    /// The pieces. An empty one is an end, too.
    pub pieces: &'a [&'a [u8]],
    /// Which piece is being read, and how much of it was given.
    pub at: usize,
    pub given: usize,
    /// Whether it fails behind the last one.
    pub fails: bool,
    /// How often it was called.
    pub calls: usize,
    /// At which of its calls it fails.
    pub failing: Option<Failing>,
}

impl Read for Pieces<'_> {
    fn read(&mut self, buf: &mut [u8]) -> io::Result<usize> {
        let before = self.calls;
        self.calls = before.saturating_add(1);
        if fails(self.failing, before) {
            return Err(io::Error::from(ErrorKind::ConnectionReset));
        }
        let Some(piece) = self.pieces.get(self.at) else {
            return if self.fails {
                Err(io::Error::from(ErrorKind::ConnectionReset))
            } else {
                Ok(0)
            };
        };
        let mut rest = piece.get(self.given..).unwrap_or(b"");
        let count = rest.read(buf)?;
        self.given = self.given.saturating_add(count);
        if self.given >= piece.len() {
            self.at = self.at.saturating_add(1);
            self.given = 0;
        }
        Ok(count)
    }
}

/// Takes a number of bytes, and then fails.
#[derive(Drop)]
pub struct Written {
    /// What was taken.
    pub bytes: Vec<u8>,
    /// How often it was called.
    pub calls: usize,
    /// How many bytes it still takes.
    pub room: usize,
    /// How many of them it takes by one call at most.
    pub few: usize,
    /// Whether it takes nothing at every other call, as a socket does that doesn't wait.
    pub waits: bool,
    /// At which of its calls it fails.
    pub failing: Option<Failing>,
    /// How many bytes it had taken when it failed first.
    pub held: Option<usize>,
}

impl Written {
    // It takes nothing.
    fn fail(&mut self) -> io::Error {
        if self.held.is_none() {
            self.held = Some(self.bytes.len());
        }
        io::Error::from(ErrorKind::BrokenPipe)
    }
}

impl Write for Written {
    fn write(&mut self, buf: &[u8]) -> io::Result<usize> {
        let before = self.calls;
        self.calls = before.saturating_add(1);
        if self.waits && before % 2 == 0 {
            return Err(io::Error::from(ErrorKind::WouldBlock));
        }
        if self.room == 0 || fails(self.failing, before) {
            return Err(self.fail());
        }
        let most = self.room.min(self.few);
        let count = self.bytes.write(&buf[..most.min(buf.len())])?;
        self.room = self.room.saturating_sub(count);
        Ok(count)
    }

    fn flush(&mut self) -> io::Result<()> {
        Ok(())
    }
}
