//! A reader over a text.
use crate::support::fails::{Calls, Fails};
use pgn_text::Skip;
use std::io;
use std::io::{ErrorKind, Read};

/// A reader over a text that gives at most `piece` bytes a call, and fails once it has given
/// `sound` bytes. It passes over at most `passes` bytes a skip, or fails at it.
#[derive(Drop)]
pub struct Pieces<'a> {
    text: &'a [u8],
    piece: usize,
    sound: usize,
    fails: Fails,
    passes: u64,
    skip_fails: Fails,
    pub calls: Calls,
}

impl<'a> Pieces<'a> {
    /// All of a text, in pieces of at most `piece` bytes.
    pub fn new(text: &'a [u8], piece: usize) -> Self {
        Pieces {
            text,
            piece,
            sound: usize::MAX,
            fails: Fails::Never,
            passes: 0,
            skip_fails: Fails::Never,
            calls: Calls::NONE,
        }
    }

    /// All of a text, at most `passes` bytes of which are passed over a skip.
    pub fn seeking(text: &'a [u8], piece: usize, passes: u64) -> Self {
        let mut pieces = Pieces::new(text, piece);
        pieces.passes = passes;
        pieces
    }

    /// Such a reader whose skips fail so often.
    pub fn failing_skip(text: &'a [u8], passes: u64, fails: Fails) -> Self {
        let mut pieces = Pieces::seeking(text, 8192, passes);
        pieces.skip_fails = fails;
        pieces
    }

    /// The text, and a fault in the place of its end.
    pub fn failing(text: &'a [u8], piece: usize) -> Self {
        Pieces {
            text,
            piece,
            sound: text.len(),
            fails: Fails::Always,
            passes: 0,
            skip_fails: Fails::Never,
            calls: Calls::NONE,
        }
    }

    /// The text, with one fault after its first `sound` bytes.
    pub fn failing_once(text: &'a [u8], piece: usize, sound: usize) -> Self {
        Pieces {
            text,
            piece,
            sound,
            fails: Fails::Once,
            passes: 0,
            skip_fails: Fails::Never,
            calls: Calls::NONE,
        }
    }
}

impl Read for Pieces<'_> {
    fn read(&mut self, buf: &mut [u8]) -> io::Result<usize> {
        let fails = self.sound == 0 && self.fails.is_now();
        self.calls.count(fails);
        if fails {
            return Err(io::Error::from(ErrorKind::Other));
        }
        let sound = if self.fails == Fails::Never {
            usize::MAX
        } else {
            self.sound
        };
        let count = self.text.len().min(buf.len()).min(self.piece).min(sound);
        buf[..count].copy_from_slice(&self.text[..count]);
        self.text = &self.text[count..];
        self.sound = self.sound.saturating_sub(count);
        Ok(count)
    }
}

impl Skip for Pieces<'_> {
    fn skip(&mut self, most: u64) -> io::Result<u64> {
        let fails = self.skip_fails.is_now();
        self.calls.note(fails);
        if fails {
            return Err(io::Error::from(ErrorKind::Other));
        }
        let count = most.min(self.passes).min(self.text.len() as u64);
        self.text = &self.text[count as usize..];
        Ok(count)
    }
}
