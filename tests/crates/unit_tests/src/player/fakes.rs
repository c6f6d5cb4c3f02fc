//! Stories at their beginning, and readers and writers that fail where they are told.
use sample_stories::TWO_ROOMS;
use standard_rules::HostTable;
use std::alloc::Global;
use std::io::{self, Error, ErrorKind, Read, Write};
use std::test::Fail;
use story_file::{compile, load};
use story_player::Session;

/// The story of a source at its beginning.
pub fn session_of(alloc: Global, source: &[u8]) -> Result<Session, Fail> {
    let bytes = compile(alloc, source)?;
    let story = load(alloc, bytes.as_slice())?;
    Ok(Session::start(alloc, story, HostTable::standard(alloc)?)?)
}

/// The two-room story at its beginning.
pub fn two_rooms(alloc: Global) -> Result<Session, Fail> {
    session_of(alloc, TWO_ROOMS)
}

/// Gives its bytes, at most so many at a call, and then ends or fails.
#[derive(Drop)]
pub struct Commands<'a> {
    pub rest: &'a [u8],
    pub most: usize,
    pub fails: bool,
}

impl Read for Commands<'_> {
    fn read(&mut self, buf: &mut [u8]) -> io::Result<usize> {
        if self.rest.is_empty() && self.fails {
            return Err(Error::from(ErrorKind::Other));
        }
        let count = self.rest.len().min(self.most).min(buf.len());
        let (given, rest) = self.rest.split_at(count);
        self.rest = rest;
        buf[..count].copy_from_slice(given);
        Ok(count)
    }
}

/// Gives one byte so many times.
#[derive(Drop)]
pub struct Repeated {
    pub byte: u8,
    pub left: usize,
}

impl Read for Repeated {
    fn read(&mut self, buf: &mut [u8]) -> io::Result<usize> {
        let count = self.left.min(buf.len());
        buf[..count].fill(self.byte);
        self.left -= count;
        Ok(count)
    }
}

/// What a writer does when it has no room for more.
#[derive(Clone, Copy, PartialEq, Eq)]
pub enum WhenFull {
    Fails,
    TakesNone,
}

/// Takes at most so many bytes at a call, until its room is used up.
#[derive(Drop)]
pub struct Transcript<'a> {
    pub taken: &'a mut Vec<u8>,
    pub most: usize,
    pub room: usize,
    pub when_full: WhenFull,
}

impl Write for Transcript<'_> {
    fn write(&mut self, buf: &[u8]) -> io::Result<usize> {
        let count = buf.len().min(self.most).min(self.room);
        if count == 0 && self.when_full == WhenFull::Fails {
            return Err(Error::from(ErrorKind::Other));
        }
        self.taken.extend_from_slice(&buf[..count])?;
        self.room -= count;
        Ok(count)
    }

    fn flush(&mut self) -> io::Result<()> {
        Ok(())
    }
}

/// Counts its calls, moves a byte at each, and fails at one of them.
#[derive(Drop)]
pub struct Fitful {
    pub calls: u32,
    pub fails_at: u32,
}

impl Fitful {
    /// One more call, which may fail.
    fn call(&mut self) -> io::Result<()> {
        self.calls = self.calls.saturating_add(1);
        if self.calls == self.fails_at {
            return Err(Error::from(ErrorKind::Other));
        }
        Ok(())
    }
}

impl Read for Fitful {
    fn read(&mut self, buf: &mut [u8]) -> io::Result<usize> {
        self.call()?;
        let count = buf.len().min(1);
        buf[..count].fill(b'x');
        Ok(count)
    }
}

impl Write for Fitful {
    fn write(&mut self, buf: &[u8]) -> io::Result<usize> {
        self.call()?;
        Ok(buf.len().min(1))
    }

    fn flush(&mut self) -> io::Result<()> {
        self.call()
    }
}
