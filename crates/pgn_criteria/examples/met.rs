//! A criterion asked of the positions of a game: those that meet it, each with its ply.
//!
//! The first line of standard input is of the criteria language, and what follows is a game. As
//! `src/main.rt` of a crate `met: pgn_criteria pgn_game pgn_text` in crates.txt, `rt try <FILE`
//! runs it.
#![tactic(auto)]

use pgn_criteria::Criteria;
use pgn_game::{Lines, replay};
use pgn_text::{Piece, games};
use std::io;
use std::io::Read;

fn main(rt: HostRuntime) -> io::Result<()> {
    let alloc = rt.alloc();
    let mut text = String::new(alloc);
    rt.stdin().read_to_string(&mut text)?;
    let Some((line, game)) = text.split_once('\n') else {
        return println!(rt; "no game");
    };
    let criteria = match Criteria::parse(alloc, line.as_bytes()) {
        Ok(criteria) => criteria,
        Err(error) => return println!(rt; "{error}"),
    };
    let Some(Ok(Piece::Game(game))) = games(alloc, game.as_bytes(), true).next() else {
        return println!(rt; "no game");
    };
    let Ok(replayed) = replay(alloc, &game, Lines::Main) else {
        return println!(rt; "the game cannot be replayed");
    };
    for ply in 0..=replayed.plies() {
        if criteria.meets(&game, &replayed, ply) {
            println!(rt; "{ply} {}", replayed.position(ply).fen())?;
        }
    }
    Ok(())
}
