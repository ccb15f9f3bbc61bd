//! A game replayed: each move of its main line, and the position after it in FEN.
//!
//! The game is the first of standard input. As `src/main.rt` of a crate
//! `positions: pgn_game pgn_text chess` in crates.txt, `rt try <FILE` runs it.
#![tactic(auto)]

use chess::san;
use pgn_game::{GameFault, Lines, Replayed, replay};
use pgn_text::{Piece, games};
use std::io;
use std::io::Read;

/// Prints the moves and the positions of a game.
fn print_moves(rt: &impl Print, replayed: &Replayed) -> io::Result<()> {
    println!(rt; "{}", replayed.position(0).fen())?;
    for ply in 0..replayed.plies() {
        let text = san(replayed.position(ply), replayed.played(ply));
        println!(rt; "{text} {}", replayed.position(ply + 1).fen())?;
    }
    Ok(())
}

fn main(rt: HostRuntime) -> io::Result<()> {
    let alloc = rt.alloc();
    let mut text = Vec::new(alloc);
    rt.stdin().read_to_end(&mut text)?;
    let Some(Ok(Piece::Game(game))) = games(alloc, &text, true).next() else {
        return println!(rt; "no game");
    };
    match replay(alloc, &game, Lines::Main) {
        Ok(replayed) => print_moves(&rt, &replayed),
        Err(GameFault::Illegal { word: _, ply }) => println!(rt; "illegal at ply {ply}"),
        Err(GameFault::Ambiguous { word: _, ply }) => println!(rt; "ambiguous at ply {ply}"),
        Err(GameFault::BadPosition) => println!(rt; "bad position"),
        Err(GameFault::OutOfMemory) => println!(rt; "out of memory"),
    }
}
