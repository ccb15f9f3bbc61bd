//! The calls of `pgn_extract.h`: the command over texts in memory, for C and for what calls C.
#![tactic(auto)]

ghost use Rattle.std.specs.Prelude.{◌≡◌, ◌++◌, ℕ, List, drop, length, take};

use pgn_extract::status::{FAILED, REFUSED};
use pgn_extract::{Files, messages, program};
use pgn_text::{Skip, Tally};
use std::alloc::{AllocError, Global};
use std::io;
use std::io::{ErrorKind, Read};

/// What is left of a text that is read.
#[derive(Drop)]
struct Text<'a> {
    left: &'a [u8],
}

impl Read for Text<'_> {
    fn read(&mut self, buf: &mut [u8]) -> io::Result<usize> {
        self.left.read(buf)
    }
}

impl Skip for Text<'_> {
    fn skip(&mut self, most: u64) -> io::Result<u64> {
        let count = (self.left.len() as u64).min(most) as usize;
        let (passed, left) = self.left.split_at(count);
        self.left = left;
        Ok(passed.len() as u64)
    }
}

/// The files of a call: the games are standard input, and at the path `text` is one text more.
#[derive(Drop)]
struct Texts<'a> {
    games: &'a [u8],
    text: &'a [u8],
}

impl<'a> Files for Texts<'a> {
    type Input = Text<'a>;

    fn open(&mut self, path: &str) -> io::Result<Text<'a>> {
        match path {
            "text" => Ok(Text { left: self.text }),
            _ => Err(io::Error::from(ErrorKind::NotFound)),
        }
    }

    fn standard(&mut self) -> Text<'a> {
        Text { left: self.games }
    }

    fn show_progress(&mut self, _asked: bool) {}
}

/// The words of the command: its name, and a word for each line.
fn words_of(alloc: Global, lines: &str) -> Result<Vec<String>, AllocError> {
    let mut words = Vec::new(alloc);
    words.push(String::from_str(alloc, "pgn-extract")?)?;
    for line in lines.split_terminator('\n') {
        words.push(String::from_str(alloc, line)?)?;
    }
    Ok(words)
}

/// Copies bytes into a room as far as it has place for them, and answers how many there are.
fn copy_into(room: &mut [u8], bytes: &[u8]) -> usize
    ensures room { room.new
        ≡ take (length room.old) bytes.now ++ drop (length bytes.now) room.old }
    ensures count { result ≡ length bytes.now }
{
    let count = bytes.len().min(room.len());
    room[..count].copy_from_slice(&bytes[..count]);
    bytes.len()
}

/// Runs the command over texts. Each room gets the first bytes of what is written there, as many as
/// it has place for, and beyond them nothing changes; all of them are counted.
#[unsafe(no_mangle)]
pub extern "C" fn pgn_run(
    alloc: Global,
    arguments: &[u8],
    games: &[u8],
    text: &[u8],
    out: &mut [u8],
    out_wanted: &mut usize,
    err: &mut [u8],
    err_wanted: &mut usize,
) -> i32
    ensures out { (bytes : List ℕ) × (out_wanted.new ≡ length bytes)
        × (out.new ≡ take (length out.old) bytes ++ drop (length bytes) out.old) }
    ensures err { (bytes : List ℕ) × (err_wanted.new ≡ length bytes)
        × (err.new ≡ take (length err.old) bytes ++ drop (length bytes) err.old) }
{
    let mut written = Tally::new(Vec::new(alloc));
    let mut reported = Tally::new(Vec::new(alloc));
    let mut files = Texts { games, text };
    let words = match str::from_utf8(arguments) {
        Ok(lines) => words_of(alloc, lines),
        Err(_) => {
            *out_wanted = 0;
            *err_wanted = copy_into(err, messages::ARGUMENTS_ARE_NO_TEXT.as_bytes());
            return i32::from(REFUSED);
        }
    };
    let Ok(words) = words else {
        *out_wanted = 0;
        *err_wanted = copy_into(err, messages::OUT_OF_MEMORY.as_bytes());
        return i32::from(FAILED);
    };
    let status = program(alloc, words, &mut files, &mut written, &mut reported);
    *out_wanted = copy_into(out, &written.into_inner());
    *err_wanted = copy_into(err, &reported.into_inner());
    i32::from(status)
}

/// The line of the version, in a room as of `pgn_run`.
#[unsafe(no_mangle)]
pub extern "C" fn pgn_version(alloc: Global, out: &mut [u8], out_wanted: &mut usize) -> i32
    ensures { (bytes : List ℕ) × (out_wanted.new ≡ length bytes)
        × (out.new ≡ take (length out.old) bytes ++ drop (length bytes) out.old) }
{
    let mut err_wanted = 0;
    pgn_run(
        alloc,
        b"--version",
        b"",
        b"",
        out,
        out_wanted,
        &mut [],
        &mut err_wanted,
    )
}
