//! The blocks of a stream of PGN, and the games of each: where they begin, and what they have.
//!
//! The stream is standard input. As `src/main.rt` of a crate `blocks: pgn_text` in crates.txt,
//! `rt try <FILE` runs it.
#![tactic(auto)]

use pgn_text::{Blocks, Body, Piece, Tally, games};
use std::alloc::Global;
use std::io;

/// Prints the games of a block that begins at the offset.
fn print_games(rt: &impl Print, alloc: Global, block: &[u8], offset: u64) -> io::Result<()> {
    for piece in games(alloc, block, offset == 0) {
        if let Piece::Game(game) = piece? {
            let at = offset + game.at() as u64;
            let (tags, elements) = (game.tags().len(), game.elements().len());
            println!(rt; "  game at {at}: {tags} tags, {elements} elements")?;
        }
    }
    Ok(())
}

fn main(rt: HostRuntime) -> io::Result<()> {
    let alloc = rt.alloc();
    let mut input = Tally::new(rt.stdin());
    let mut blocks = Blocks::new(alloc, 0);
    loop {
        match blocks.next(&mut input) {
            Ok(Some(block)) => match block.body {
                Body::Bytes(bytes) => {
                    println!(rt; "block at {}: {} bytes", block.offset, bytes.len())?;
                    print_games(&rt, alloc, bytes, block.offset)?;
                }
                Body::TooLong(size) => println!(rt; "{size} bytes are too many")?,
            },
            Ok(None) => return Ok(()),
            Err(error) => return println!(rt; "{error}"),
        }
    }
}
