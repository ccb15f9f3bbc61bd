//! Texts in FEN: which are read, what is dropped of them, and which are refused for what (PGN
//! 16.1).
use crate::rules::rows::{Says, has_fen, position};
use crate::support::rows_hold;
use chess::{Board, FenError, Position};
use std::test::Fail;

/// Whether the text is read, and written so.
pub fn is_written<B: Board>(given: &str, written: &str) -> Option<bool> {
    Some(has_fen(&position::<B>(given)?, written))
}

/// A text, and how its position is written.
const WRITTEN: &str = "
# the two counts may be missing
4k3/8/8/8/8/8/8/4K3 w - - | 4k3/8/8/8/8/8/8/4K3 w - - 0 1
4k3/8/8/8/8/8/8/4K3 b - - 5 | 4k3/8/8/8/8/8/8/4K3 b - - 5 1
4k3/8/8/8/8/8/8/4K3 w - - 0 0 | 4k3/8/8/8/8/8/8/4K3 w - - 0 0
# seven digits, and leading zeros
4k3/8/8/8/8/8/8/4K3 w - - 1234567 7654321 | 4k3/8/8/8/8/8/8/4K3 w - - 1234567 7654321
4k3/8/8/8/8/8/8/4K3 w - - 0000000 0000012 | 4k3/8/8/8/8/8/8/4K3 w - - 0 12
# any number of spaces
   4k3/8/8/8/8/8/8/4K3   w  -  -   0 1   | 4k3/8/8/8/8/8/8/4K3 w - - 0 1
# digits side by side
4k3/8/8/8/11111111/8/8/22K3 w - - 0 1 | 4k3/8/8/8/8/8/8/4K3 w - - 0 1
# every man has its letter
rnbqkbnr/pppppppp/8/8/8/8/PPPPPPPP/RNBQKBNR w KQkq - 0 1 | \
    rnbqkbnr/pppppppp/8/8/8/8/PPPPPPPP/RNBQKBNR w KQkq - 0 1
# rights in any order
r3k2r/8/8/8/8/8/8/R3K2R b qkQK - 0 1 | r3k2r/8/8/8/8/8/8/R3K2R b KQkq - 0 1
r3k2r/8/8/8/8/8/8/R3K2R b kQ - 0 1 | r3k2r/8/8/8/8/8/8/R3K2R b Qk - 0 1
# a right without its rook or its king at home is dropped
r3k3/8/8/8/8/8/8/4K2R w KQkq - 0 1 | r3k3/8/8/8/8/8/8/4K2R w Kq - 0 1
4k2r/8/8/8/8/8/8/R3K3 w KQkq - 0 1 | 4k2r/8/8/8/8/8/8/R3K3 w Qk - 0 1
r2k3r/8/8/8/8/8/8/R4K1R w KQkq - 0 1 | r2k3r/8/8/8/8/8/8/R4K1R w - - 0 1
4k3/8/8/8/8/8/8/R3K2r w KQ - 0 1 | 4k3/8/8/8/8/8/8/R3K2r w Q - 0 1
# the en passant square of either side, whether or not a pawn may take there
4k3/8/8/8/4P3/8/8/4K3 b - e3 0 1 | 4k3/8/8/8/4P3/8/8/4K3 b - e3 0 1
4k3/8/8/3p4/8/8/8/4K3 w - d6 0 1 | 4k3/8/8/3p4/8/8/8/4K3 w - d6 0 1
4k3/8/8/3pP3/8/8/8/4K3 w - d6 0 1 | 4k3/8/8/3pP3/8/8/8/4K3 w - d6 0 1
# it is dropped where the pawn can't have come from its origin
4k3/3n4/8/3p4/8/8/8/4K3 w - d6 0 1 | 4k3/3n4/8/3p4/8/8/8/4K3 w - - 0 1
4k3/8/8/8/4P3/8/4N3/4K3 b - e3 0 1 | 4k3/8/8/8/4P3/8/4N3/4K3 b - - 0 1
# where a man stands on it
4k3/8/3n4/3p4/8/8/8/4K3 w - d6 0 1 | 4k3/8/3n4/3p4/8/8/8/4K3 w - - 0 1
# where no pawn of the other side has just passed it
4k3/8/8/8/8/8/8/4K3 w - d6 0 1 | 4k3/8/8/8/8/8/8/4K3 w - - 0 1
4k3/8/8/3P4/8/8/8/4K3 w - d6 0 1 | 4k3/8/8/3P4/8/8/8/4K3 w - - 0 1
4k3/8/8/3n4/8/8/8/4K3 w - d6 0 1 | 4k3/8/8/3n4/8/8/8/4K3 w - - 0 1
# and on another rank
4k3/8/8/8/3p4/8/8/4K3 w - d5 0 1 | 4k3/8/8/8/3p4/8/8/4K3 w - - 0 1
4k3/8/8/8/4P3/8/8/4K3 w - e3 0 1 | 4k3/8/8/8/4P3/8/8/4K3 w - - 0 1
# rights without their rooks, an en passant square that does not fit; rights in any order;
# leading zeros
4k3/8/8/8/8/8/8/4K3 w KQkq e6 5 | 4k3/8/8/8/8/8/8/4K3 w - - 5 1
4k3/8/8/8/8/8/8/22K3 w - - | 4k3/8/8/8/8/8/8/4K3 w - - 0 1
  rnbqkbnr/pppppppp/8/8/8/8/PPPPPPPP/RNBQKBNR   w qkQK -  0 1  | \
    rnbqkbnr/pppppppp/8/8/8/8/PPPPPPPP/RNBQKBNR w KQkq - 0 1
8/8/8/K2pP2r/8/8/8/4k3 w - d6 0007 12 | 8/8/8/K2pP2r/8/8/8/4k3 w - d6 7 12
r3k2r/8/8/8/8/8/8/4K2R b Kkq - 0 0 | r3k2r/8/8/8/8/8/8/4K2R b Kkq - 0 0
";

#[test]
fn texts_are_read_and_written() -> Result<(), Fail> {
    rows_hold(&Says::Written, WRITTEN, 30)
}

/// Whether the text gives the position by so many of its first four fields; or none, where none is
/// written.
pub fn gives<B: Board>(text: &str, written: &str, fields: &str) -> bool {
    match Position::<B>::from_first_fields(text.as_bytes()) {
        Some((position, given)) => {
            has_fen(&position, written) && fields.parse::<usize>() == Ok(given)
        }
        None => written == "none",
    }
}

/// A text of the first fields or of more, how its position is written, and how many of the first
/// four fields are given.
const GIVEN: &str = "
# the men, the side to move, the rights, the en passant square
4k3/8/8/8/8/8/8/4K3 | 4k3/8/8/8/8/8/8/4K3 w - - 0 1 | 1
4k3/8/8/8/8/8/8/4K3 b | 4k3/8/8/8/8/8/8/4K3 b - - 0 1 | 2
r3k2r/8/8/8/8/8/8/R3K2R b Qk | r3k2r/8/8/8/8/8/8/R3K2R b Qk - 0 1 | 3
4k3/8/8/8/4P3/8/8/4K3 b - e3 | 4k3/8/8/8/4P3/8/8/4K3 b - e3 0 1 | 4
# the counts are read, and are none of the four
4k3/8/8/8/8/8/8/4K3 b - - 5 | 4k3/8/8/8/8/8/8/4K3 b - - 5 1 | 4
4k3/8/8/8/8/8/8/4K3 w - - 7 9 | 4k3/8/8/8/8/8/8/4K3 w - - 7 9 | 4
# any number of spaces
  4k3/8/8/8/8/8/8/4K3   b  -  | 4k3/8/8/8/8/8/8/4K3 b - - 0 1 | 3
# what does not fit is dropped
r3k3/8/8/8/8/8/8/4K2R w KQkq | r3k3/8/8/8/8/8/8/4K2R w Kq - 0 1 | 3
4k3/8/8/8/8/8/8/4K3 b - e3 | 4k3/8/8/8/8/8/8/4K3 b - - 0 1 | 4
# of men alone the side that is in check is to move, and not both can be
4k2R/8/8/8/8/8/8/4K3 | 4k2R/8/8/8/8/8/8/4K3 b - - 0 1 | 1
4k3/8/8/8/8/8/8/4K2r | 4k3/8/8/8/8/8/8/4K2r w - - 0 1 | 1
4k2R/8/8/8/8/8/8/4K2r | none
# and not the side that is not to move, where that is given
4k2R/8/8/8/8/8/8/4K3 w | none
4k3/8/8/8/8/8/8/4K2r b - | none
# no king, two kings, a pawn on the last rank, fields of another form, too many
4k3/8/8/8/8/8/8/8 | none
4k3/8/8/8/8/8/8/3KK3 b | none
4k2P/8/8/8/8/8/8/4K3 | none
4k3/8/8/8/8/8/4K3 | none
4k3/8/8/8/8/8/8/4K3 x | none
4k3/8/8/8/8/8/8/4K3 w KK | none
4k3/8/8/8/8/8/8/4K3 w - - 0 1 2 | none
 | none
";

#[test]
fn first_fields_give_positions() -> Result<(), Fail> {
    rows_hold(&Says::Gives, GIVEN, 22)
}

/// Whether the text is refused for that.
pub fn is_refused<B: Board>(text: &str, wanted: &str) -> bool {
    match Position::<B>::from_fen(text.as_bytes()) {
        Ok(_) => false,
        Err(FenError::Syntax) => wanted == "Syntax",
        Err(FenError::Kings) => wanted == "Kings",
        Err(FenError::Pawns) => wanted == "Pawns",
        Err(FenError::InCheck) => wanted == "InCheck",
    }
}

/// Texts of another form.
const OF_ANOTHER_FORM: &str = "
 | Syntax
  | Syntax
# men: a digit that is none of 1 to 8, a letter of no man, ranks of too few or too many files
4k3/8/8/8/8/8/8/04K3 w - - 0 1 | Syntax
4k3/9/8/8/8/8/8/4K3 w - - 0 1 | Syntax
4k3/8/8/8/8/8/8/4K2x w - - 0 1 | Syntax
4k3/8/8/8/8/8/8/4K2 w - - 0 1 | Syntax
4k3/8/8/8/8/8/8/4K4 w - - 0 1 | Syntax
4k3/8/8/8/8/8/8/4K3P w - - 0 1 | Syntax
4k3//8/8/8/8/8/4K3 w - - 0 1 | Syntax
# fewer than eight ranks, and more
4k3/8/8/8/8/8/4K3 w - - 0 1 | Syntax
4k3/8/8/8/8/8/8/8/4K3 w - - 0 1 | Syntax
4k3/8/8/8/8/8/8/4K3/ w - - 0 1 | Syntax
# a tab is no space
4k3/8/8/8/8/8/8/4K3\tw - - 0 1 | Syntax
4k3/8/8/8/8/8/8/4K3 w - - 0\t1 | Syntax
# sides
4k3/8/8/8/8/8/8/4K3 W - - 0 1 | Syntax
4k3/8/8/8/8/8/8/4K3 wb - - 0 1 | Syntax
4k3/8/8/8/8/8/8/4K3 - - - 0 1 | Syntax
# rights: a dash among letters, a letter twice, another letter
r3k2r/8/8/8/8/8/8/R3K2R w K-k - 0 1 | Syntax
r3k2r/8/8/8/8/8/8/R3K2R w -K - 0 1 | Syntax
r3k2r/8/8/8/8/8/8/R3K2R w KQ- - 0 1 | Syntax
r3k2r/8/8/8/8/8/8/R3K2R w -- - 0 1 | Syntax
r3k2r/8/8/8/8/8/8/R3K2R w KQK - 0 1 | Syntax
r3k2r/8/8/8/8/8/8/R3K2R w KQkqA - 0 1 | Syntax
# en passant fields that are no square
4k3/8/8/8/8/8/8/4K3 w - i3 0 1 | Syntax
4k3/8/8/8/8/8/8/4K3 w - a0 0 1 | Syntax
4k3/8/8/8/8/8/8/4K3 w - a9 0 1 | Syntax
4k3/8/8/8/8/8/8/4K3 w - e 0 1 | Syntax
4k3/8/8/8/8/8/8/4K3 w - 6e 0 1 | Syntax
4k3/8/8/8/8/8/8/4K3 w - e66 0 1 | Syntax
4k3/8/8/8/8/8/8/4K3 w - -- 0 1 | Syntax
# counts that are no number, and of eight digits
4k3/8/8/8/8/8/8/4K3 w - - -1 1 | Syntax
4k3/8/8/8/8/8/8/4K3 w - - +1 1 | Syntax
4k3/8/8/8/8/8/8/4K3 w - - 0 1. | Syntax
4k3/8/8/8/8/8/8/4K3 w - - 00000000 1 | Syntax
4k3/8/8/8/8/8/8/4K3 w - - 0 12345678 | Syntax
# too few fields, and too many
4k3/8/8/8/8/8/8/4K3 | Syntax
4k3/8/8/8/8/8/8/4K3 w - | Syntax
4k3/8/8/8/8/8/8/4K3 w - - 0 1 2 | Syntax
4k3/8/8/8/8/8/8/4K3 w - - 12345678 1 | Syntax
4k3/8/8/8/8/8/8/4K3 w KK - 0 1 | Syntax
";

#[test]
fn texts_of_another_form_are_refused() -> Result<(), Fail> {
    rows_hold(&Says::Refused, OF_ANOTHER_FORM, 40)
}

/// A text of a position that can not be, and why.
const IMPOSSIBLE: &str = "
# no king, and two
8/8/8/8/8/8/8/8 w - - 0 1 | Kings
4k3/8/8/8/8/8/8/8 w - - 0 1 | Kings
8/8/8/8/8/8/8/4K3 b - - 0 1 | Kings
4k3/8/8/8/8/8/8/K3K3 w - - 0 1 | Kings
k3k3/8/8/8/8/8/8/4K3 w - - 0 1 | Kings
4k3/8/8/8/8/8/8/4K2K b - - 0 1 | Kings
# pawns of either side on rank 1 and on rank 8
4k3/8/8/8/8/8/8/P3K3 w - - 0 1 | Pawns
4k3/8/8/8/8/8/8/4K2p w - - 0 1 | Pawns
4k2P/8/8/8/8/8/8/4K3 w - - 0 1 | Pawns
p3k3/8/8/8/8/8/8/4K3 b - - 0 1 | Pawns
# the side not to move is in check
4k3/4R3/8/8/8/8/8/4K3 w - - 0 1 | InCheck
4k3/8/8/8/8/8/4r3/4K3 b - - 0 1 | InCheck
4k3/8/8/8/8/8/3p4/4K3 b - - 0 1 | InCheck
4k3/8/8/8/8/3n4/8/4K3 b - - 0 1 | InCheck
8/8/8/8/8/8/4k3/4K3 w - - 0 1 | InCheck
# kings are looked at first, then pawns
8/8/8/8/8/8/8/P3K3 w - - 0 1 | Kings
4k3/4R3/8/8/8/8/8/P3K3 w - - 0 1 | Pawns
";

#[test]
fn positions_that_can_not_be_are_refused() -> Result<(), Fail> {
    rows_hold(&Says::Refused, IMPOSSIBLE, 17)
}
