//! A writer over a fixed array.

use crate::support::fails::{Calls, Fails};
use std::io;
use std::io::{ErrorKind, Write};

/// How many bytes a `Page` can hold.
const PAGE: usize = 8192;

/// A writer over a fixed array that takes at most `piece` bytes a call, and fails once it holds
/// `room` bytes, by an error or by taking nothing, or at a flush.
#[derive(Drop)]
pub struct Page {
    bytes: [u8; 8192],
    len: usize,
    room: usize,
    piece: usize,
    fails: Fails,
    takes_nothing: bool,
    flush_fails: Fails,
    flushed: usize,
    pub calls: Calls,
}

impl Page {
    /// A page with room for all that a test writes.
    pub fn new() -> Self {
        Page {
            bytes: [0; 8192],
            len: 0,
            room: PAGE,
            piece: PAGE,
            fails: Fails::Always,
            takes_nothing: false,
            flush_fails: Fails::Never,
            flushed: 0,
            calls: Calls::NONE,
        }
    }

    /// A page that takes `room` bytes, at most `piece` at a time, and then fails.
    pub fn failing(room: usize, piece: usize) -> Self {
        let mut page = Page::new();
        page.room = room;
        page.piece = piece;
        page
    }

    /// Such a page that fails so often, by an error or by taking nothing.
    pub fn faulty(room: usize, piece: usize, fails: Fails, takes_nothing: bool) -> Self {
        let mut page = Page::failing(room, piece);
        page.fails = fails;
        page.takes_nothing = takes_nothing;
        page
    }

    /// A page that fails once, when it holds `room` bytes.
    pub fn failing_once(room: usize) -> Self {
        let mut page = Page::new();
        page.room = room;
        page.fails = Fails::Once;
        page
    }

    /// A page whose flushes fail.
    pub fn failing_flush(fails: Fails) -> Self {
        let mut page = Page::new();
        page.flush_fails = fails;
        page
    }

    /// What was written.
    pub fn text(&self) -> &[u8] {
        &self.bytes[..self.len]
    }

    /// Whether all that was written was then flushed.
    pub fn is_flushed(&self) -> bool {
        self.flushed == self.len
    }
}

impl Write for Page {
    fn write(&mut self, buf: &[u8]) -> io::Result<usize> {
        let room = if self.fails == Fails::Never {
            PAGE
        } else {
            self.room.min(PAGE)
        };
        let free = room.saturating_sub(self.len);
        let count = buf.len().min(free).min(self.piece);
        let fails = count == 0 && !buf.is_empty() && self.fails.is_now();
        self.calls.count(fails);
        if fails {
            return if self.takes_nothing {
                Ok(0)
            } else {
                Err(io::Error::from(ErrorKind::StorageFull))
            };
        }
        let begin = self.len;
        self.bytes[begin..begin + count].copy_from_slice(&buf[..count]);
        self.len = begin + count;
        Ok(count)
    }

    fn flush(&mut self) -> io::Result<()> {
        let fails = self.flush_fails.is_now();
        self.calls.count(fails);
        if fails {
            return Err(io::Error::from(ErrorKind::Other));
        }
        self.flushed = self.len;
        Ok(())
    }
}
