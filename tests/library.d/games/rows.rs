//! What the rows of each table say. In a text `\n` is a line feed, `\\` a backslash.
use crate::games::lines::{has_variations, writes_lines};
use crate::games::openings::has_opening;
use crate::games::records::has_record;
use crate::games::refusals::{is_refused, names, tag_stands};
use crate::games::replays::{
    count_has_fault, has_beginning, has_fault, has_lines, has_plies, variations_end_so,
};
use crate::rows::Asked;
use crate::support::{Rows, bytes_of, first_game};
use pgn_game::Lines;
use std::alloc::Global;

/// What a row says of its columns.
#[derive(Drop)]
pub enum Says {
    Plies,
    Beginning,
    Variations,
    Fault,
    FirstFault,
    Turns,
    Packed,
    Lines,
    Searched,
    Refused,
    TagStands,
    Names,
    Opened,
}

impl Says {
    /// Rows that say so, read with this allocator.
    pub fn over(self, alloc: Global) -> Asked<Self> {
        Asked { says: self, alloc }
    }
}

impl Rows for Asked<Says> {
    fn is_so(&self, columns: [&str; 5]) -> bool {
        let [text, ..] = columns;
        let is_so = match (bytes_of(self.alloc, text), &self.says) {
            (_, Says::Opened) => has_opening(self.alloc, columns),
            (Some(fen), Says::Names) => names(self.alloc, &fen, columns),
            (Some(block), says) => holds(self.alloc, says, &block, columns),
            (None, _) => None,
        };
        is_so == Some(true)
    }
}

/// Whether the row holds of the block's first game; `None` where its columns cannot be read.
fn holds(alloc: Global, says: &Says, block: &[u8], columns: [&str; 5]) -> Option<bool> {
    let game = first_game(alloc, block).ok()??;
    match says {
        Says::Plies => has_plies(alloc, &game, columns),
        Says::Beginning => has_beginning(alloc, &game, columns),
        Says::Variations => Some(variations_end_so(alloc, &game, columns)),
        Says::Fault => Some(
            has_fault(alloc, &game, Lines::Main, columns) && count_has_fault(alloc, &game, columns),
        ),
        Says::FirstFault => Some(has_fault(alloc, &game, Lines::All, columns)),
        Says::Turns => has_lines(alloc, &game, columns),
        Says::Packed => has_record(alloc, &game, columns),
        Says::Lines => writes_lines(alloc, &game, columns),
        Says::Searched => has_variations(alloc, &game, columns),
        Says::Refused => is_refused(alloc, block, &game, columns),
        Says::TagStands => tag_stands(block, &game, columns),
        Says::Names | Says::Opened => None,
    }
}
