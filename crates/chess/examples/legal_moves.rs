//! The legal moves of positions, and how many lines of play begin at each (perft). Standard input
//! has lines of a number of plies and a FEN. As `src/main.rt` of a crate `legal_moves: chess` in
//! crates.txt, `rt try <FILE` runs it.
#![tactic(auto)]

use chess::{Bits, Position, san};
use std::alloc::{AllocError, Global};
use std::io;

/// How many lines of play of so many plies, 1 at least, begin at the position.
fn perft(alloc: Global, position: &Position<Bits>, plies: u32) -> Result<u64, AllocError> {
    let mut moves = Vec::new(alloc);
    position.legal_moves(&mut moves)?;
    if plies <= 1 {
        return Ok(moves.len() as u64);
    }
    let mut count = 0;
    for m in &moves {
        count += perft(alloc, &position.play(*m), plies - 1)?;
    }
    Ok(count)
}

fn main(rt: HostRuntime) -> io::Result<()> {
    let alloc = rt.alloc();
    for line in rt.lines(alloc) {
        let line = line?;
        let (plies, fen) = line.split_once(' ').unwrap_or(("1", &line));
        let Ok(position) = Position::<Bits>::from_fen(fen.as_bytes()) else {
            return println!(rt; "no position: {fen}");
        };
        let mut moves = Vec::new(alloc);
        position.legal_moves(&mut moves)?;
        for m in &moves {
            print!(rt; "{} ", san(&position, *m))?;
        }
        println!(rt; "{}", perft(alloc, &position, plies.parse().unwrap_or(1))?)?;
    }
    Ok(())
}
