//! A whole run of the command in memory: its arguments, a file, what it writes, and its status.
//!
//! The file is standard input. As `src/main.rt` of a crate `run_in_memory: pgn_extract pgn_text` in
//! crates.txt, `rt try <FILE` runs it.
#![tactic(auto)]

use pgn_extract::memory::TwoFiles;
use pgn_extract::program;
use pgn_text::Tally;
use std::io;
use std::io::{Read, Write};

/// What lists the positions of check in a file, each with its FEN and the move that follows.
const ARGUMENTS: &str = "pgn-extract --list --fen --next --where check first.pgn";

fn main(rt: HostRuntime) -> io::Result<()> {
    let alloc = rt.alloc();
    let mut text = Vec::new(alloc);
    rt.stdin().read_to_end(&mut text)?;
    let mut files = TwoFiles {
        first: &text,
        second: b"",
    };
    let mut arguments = Vec::new(alloc);
    for word in ARGUMENTS.split(' ') {
        arguments.push(String::from_str(alloc, word)?)?;
    }
    let mut out = Tally::new(Vec::new(alloc));
    let mut err = Tally::new(Vec::new(alloc));
    let status = program(alloc, arguments, &mut files, &mut out, &mut err);
    rt.stdout().write_all(&out.into_inner())?;
    rt.stderr().write_all(&err.into_inner())?;
    println!(rt; "status {status}")
}
