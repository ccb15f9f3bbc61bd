//! What the rows of each table say. In a text `\n` is a line feed, `\\` a backslash, `\xNN` a byte.
use crate::rows::Asked;
use crate::support::{Rows, bytes_of, first_game};
use crate::texts::blocks::{is_answered_at_end, is_blocks};
use crate::texts::pieces::{counts_games, has_elements, has_tag, has_value, is_cut, is_game};
use crate::texts::stops::{stops_large, stops_later, stops_within};
use std::alloc::Global;

/// What a row says of its columns.
#[derive(Drop)]
pub enum Says {
    Stops,
    StopsLater,
    StopsLarge,
    Cut,
    Counts,
    Elements,
    Tag,
    Game,
    Bytes,
    Value,
    Blocks,
    AtEnd,
}

impl Says {
    /// Rows that say so, read with this allocator.
    pub fn over(self, alloc: Global) -> Asked<Self> {
        Asked { says: self, alloc }
    }
}

impl Rows for Asked<Says> {
    fn is_so(&self, columns: [&str; 5]) -> bool {
        holds(self.alloc, &self.says, columns) == Some(true)
    }
}

/// Whether the row holds; `None` where its columns cannot be read.
fn holds(alloc: Global, says: &Says, columns: [&str; 5]) -> Option<bool> {
    let [first, second, third, fourth, _] = columns;
    match says {
        Says::Stops => stops_within(alloc, first, second, third),
        Says::StopsLater => stops_later(alloc, first, (second, third), fourth),
        Says::StopsLarge => stops_large(alloc, (first, second), third, fourth),
        Says::Cut => is_cut(alloc, first, second),
        Says::Counts => counts_games(alloc, first, second, third),
        Says::Elements | Says::Tag | Says::Game | Says::Bytes => game_holds(alloc, says, columns),
        Says::Value => has_value(alloc, first, second, third),
        Says::Blocks => is_blocks(alloc, first, second),
        Says::AtEnd => is_answered_at_end(alloc, first, second, third),
    }
}

/// Whether the row holds of the first game of its text.
fn game_holds(alloc: Global, says: &Says, columns: [&str; 5]) -> Option<bool> {
    let [text, second, third, fourth, _] = columns;
    let wanted = bytes_of(alloc, second)?;
    let block = bytes_of(alloc, text)?;
    let game = first_game(alloc, &block).ok()??;
    match says {
        Says::Elements => Some(has_elements(&game, second)),
        Says::Tag => Some(has_tag(&game, &wanted, third)),
        Says::Game => Some(is_game(&game, second, third, fourth)),
        Says::Bytes => Some(game.text() == wanted.as_slice()),
        _ => None,
    }
}
