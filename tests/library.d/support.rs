//! Readers and writers in memory that give few bytes at a time or fail, tables of rows, and what
//! else the tests of several crates share.

mod fails;
mod page;
mod pieces;
mod tables;

pub use fails::{Calls, Fails};
pub use page::Page;
use pgn_text::{Piece, RawGame, games};
pub use pieces::Pieces;
use std::alloc::{AllocError, Global};
pub use tables::{Rows, bytes_of, rows_hold};

/// 43 bytes; the second event line begins at 22 and is whole at 30.
pub const TWO_GAMES: &[u8] = b"[Event \"A\"]\n\n1. e4 *\n\n[Event \"B\"]\n\n1. d4 *\n";

/// The first piece of a block at the beginning of a file, if it is a game.
pub fn first_game<'a>(alloc: Global, block: &'a [u8]) -> Result<Option<RawGame<'a>>, AllocError> {
    match games(alloc, block, true).next() {
        Some(Ok(Piece::Game(game))) => Ok(Some(game)),
        Some(Err(error)) => Err(error),
        _ => Ok(None),
    }
}
