//! What the rows on chess share: positions and moves by their texts, over any board, and what the
//! rows of each table say.
use crate::rules::board::reaches;
use crate::rules::fen::{gives, is_refused, is_written};
use crate::rules::keys::are_keyed;
use crate::rules::moves::{aims_at, has_targets, is_illegal, leads, stands};
use crate::rules::passes::passes_to;
use crate::rules::texts::{is_text, names, names_none, plays};
use crate::support::Rows;
use chess::{Bits, Board, Kind, Mailbox, Move, Position, Square, SquareSet, Wing};

/// What a row says of its columns.
pub enum Says {
    Written,
    Refused,
    Gives,
    Reaches,
    Keyed,
    Passes,
    Leads,
    Illegal,
    Stands,
    Counts,
    Aims,
    Names,
    NamesNone,
    Plays,
    Text,
}

impl Rows for Says {
    /// Whether the row holds over either board.
    fn is_so(&self, columns: [&str; 5]) -> bool {
        holds::<Mailbox>(self, columns) == Some(true) && holds::<Bits>(self, columns) == Some(true)
    }
}

/// Whether the row holds over this board; `None` where its columns cannot be read.
fn holds<B: Board>(says: &Says, columns: [&str; 5]) -> Option<bool> {
    let [first, second, third, fourth, _] = columns;
    match says {
        Says::Written => is_written::<B>(first, second),
        Says::Refused => Some(is_refused::<B>(first, second)),
        Says::Gives => Some(gives::<B>(first, second, third)),
        Says::Reaches => reaches::<B>(first, second, third, fourth),
        Says::Keyed => are_keyed::<B>(first, second, third, fourth),
        Says::Passes => passes_to::<B>(first, second),
        Says::Leads => leads::<B>(first, second, third),
        Says::Illegal => is_illegal::<B>(first, second),
        Says::Stands => stands::<B>(first, second, third),
        Says::Counts => has_targets::<B>(first, second, third),
        Says::Aims => aims_at::<B>(first, second, third),
        Says::Names => names::<B>(first, second, third),
        Says::NamesNone => names_none::<B>(first, second, third),
        Says::Plays => plays::<B>(first, second, third, fourth),
        Says::Text => is_text::<B>(first, second, third),
    }
}

/// The position of a text in FEN.
pub fn position<B: Board>(text: &str) -> Option<Position<B>> {
    Position::from_fen(text.as_bytes()).ok()
}

/// Whether the position has this text in FEN.
pub fn has_fen<B: Board>(position: &Position<B>, fen: &str) -> bool {
    position.fen().as_str() == fen
}

/// Whether the set has just the squares of these names.
pub fn has_just(set: &SquareSet, names: &str) -> Option<bool> {
    let mut count = 0u32;
    for name in names.split_whitespace() {
        if !set.has(square(name)?) {
            return Some(false);
        }
        count = count.saturating_add(1);
    }
    Some(set.count() == count)
}

/// Whether the squares of the set are those of these names, in the order a1, b1 to h1, a2 and so
/// on.
pub fn has_in_order(mut set: SquareSet, names: &str) -> Option<bool> {
    for name in names.split_whitespace() {
        if set.take_first() != Some(square(name)?) {
            return Some(false);
        }
    }
    Some(set.take_first().is_none())
}

/// The square of a name such as `e4`, which stands at this place of the bytes.
pub fn square_in(bytes: &[u8], place: usize) -> Option<Square> {
    let file = *bytes.get(place)?;
    let rank = *bytes.get(place.saturating_add(1))?;
    Square::new(file.wrapping_sub(b'a' - 1), rank.wrapping_sub(b'0'))
}

/// The square of a name such as `e4`.
pub fn square(name: &str) -> Option<Square> {
    square_in(name.as_bytes(), 0)
}

/// The square of a number from 0 to 63: a1, b1 to h1, a2 and so on.
pub fn square_at(place: u8) -> Option<Square> {
    Square::new(place % 8 + 1, place / 8 + 1)
}

/// The kind of a man, by its letter.
pub fn kind_of(letter: Option<&u8>) -> Option<Kind> {
    match letter {
        Some(b'q') => Some(Kind::Queen),
        Some(b'r') => Some(Kind::Rook),
        Some(b'b') => Some(Kind::Bishop),
        Some(b'n') => Some(Kind::Knight),
        Some(b'p') => Some(Kind::Pawn),
        Some(b'k') => Some(Kind::King),
        _ => None,
    }
}

/// The wing on which the king of the e-file castles to the file.
fn wing<B: Board>(position: &Position<B>, from: Square, to: Square) -> Option<Wing> {
    let is_king = match position.at(from) {
        Some(man) => man.kind == Kind::King,
        None => false,
    };
    if !is_king || from.file() != 5 {
        return None;
    }
    match to.file() {
        7 => Some(Wing::KingSide),
        3 => Some(Wing::QueenSide),
        _ => None,
    }
}

/// The move that is written as its two squares, with the letter of a promotion; a king's step of
/// two files is castling.
pub fn move_of<B: Board>(position: &Position<B>, text: &str) -> Option<Move> {
    let bytes = text.as_bytes();
    let from = square_in(bytes, 0)?;
    let to = square_in(bytes, 2)?;
    Some(Move {
        from,
        to,
        promote: kind_of(bytes.get(4)),
        castle: wing(position, from, to),
    })
}

/// The position after the move, if it is legal.
pub fn played<B: Board>(position: &Position<B>, m: &Move) -> Option<Position<B>> {
    if position.is_legal(*m) {
        Some(position.play(*m))
    } else {
        None
    }
}
