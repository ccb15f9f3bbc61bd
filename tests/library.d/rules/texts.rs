//! Texts of moves: which moves they name, and the text of each move (PGN 8.2.3).
use crate::rules::rows::{Says, has_fen, move_of, position};
use crate::support::rows_hold;
use arrayvec::ArrayString;
use chess::{Board, Move, Position, SanError, play_san, play_word, play_word_san, resolve, san};
use std::test::Fail;

/// Whether the text names the move, and no other.
pub fn names<B: Board>(fen: &str, text: &str, named: &str) -> Option<bool> {
    let position = position::<B>(fen)?;
    let wanted = move_of(&position, named)?;
    Some(resolve(&position, text.as_bytes()) == Ok(wanted))
}

/// A position, a text, and the move that it names.
const NAMED: &str = "
# a pawn's move, also with its letter and with both squares
rnbqkbnr/pppppppp/8/8/8/8/PPPPPPPP/RNBQKBNR w KQkq - 0 1 | e4 | e2e4
rnbqkbnr/pppppppp/8/8/8/8/PPPPPPPP/RNBQKBNR w KQkq - 0 1 | Pe4 | e2e4
rnbqkbnr/pppppppp/8/8/8/8/PPPPPPPP/RNBQKBNR w KQkq - 0 1 | e2e4 | e2e4
rnbqkbnr/pppppppp/8/8/8/8/PPPPPPPP/RNBQKBNR w KQkq - 0 1 | e2-e4 | e2e4
rnbqkbnr/pppppppp/8/8/8/8/PPPPPPPP/RNBQKBNR w KQkq - 0 1 | Pe2e4 | e2e4
# each sign before the target, or none
r3k2r/8/8/8/8/8/8/R3K2R w KQkq - 0 1 | Rxa8 | a1a8
r3k2r/8/8/8/8/8/8/R3K2R w KQkq - 0 1 | R:a8 | a1a8
r3k2r/8/8/8/8/8/8/R3K2R w KQkq - 0 1 | R-a8 | a1a8
r3k2r/8/8/8/8/8/8/R3K2R w KQkq - 0 1 | Ra8 | a1a8
4k3/8/8/3pp3/2P1P3/8/8/4K3 w - - 0 1 | cxd5 | c4d5
4k3/8/8/3pp3/2P1P3/8/8/4K3 w - - 0 1 | c:d5 | c4d5
4k3/8/8/3pp3/2P1P3/8/8/4K3 w - - 0 1 | cd5 | c4d5
4k3/8/8/3pp3/2P1P3/8/8/4K3 w - - 0 1 | exd5 | e4d5
4k3/8/8/3pP3/8/8/8/4K3 w - d6 0 1 | exd6 | e5d6
4k3/8/8/3pP3/8/8/8/4K3 w - d6 0 1 | e5xd6 | e5d6
4k3/8/8/3pP3/8/8/8/4K3 w - d6 0 1 | e6 | e5e6
# any number of marks
rnbqkbnr/pppppppp/8/8/8/8/PPPPPPPP/RNBQKBNR w KQkq - 0 1 | Nf3+ | g1f3
rnbqkbnr/pppppppp/8/8/8/8/PPPPPPPP/RNBQKBNR w KQkq - 0 1 | Nf3# | g1f3
rnbqkbnr/pppppppp/8/8/8/8/PPPPPPPP/RNBQKBNR w KQkq - 0 1 | e4++ | e2e4
rnbqkbnr/pppppppp/8/8/8/8/PPPPPPPP/RNBQKBNR w KQkq - 0 1 | e4+#+ | e2e4
r3k2r/8/8/8/8/8/8/R3K2R w KQkq - 0 1 | O-O++ | e1g1
# castling with the letter O and with zeros
r3k2r/8/8/8/8/8/8/R3K2R w KQkq - 0 1 | O-O | e1g1
r3k2r/8/8/8/8/8/8/R3K2R w KQkq - 0 1 | O-O-O | e1c1
r3k2r/8/8/8/8/8/8/R3K2R w KQkq - 0 1 | 0-0 | e1g1
r3k2r/8/8/8/8/8/8/R3K2R w KQkq - 0 1 | 0-0-0 | e1c1
r3k2r/8/8/8/8/8/8/R3K2R w KQkq - 0 1 | 0-0+ | e1g1
r3k2r/8/8/8/8/8/8/R3K2R w KQkq - 0 1 | 0-0-0# | e1c1
# promotions, with and without =
4k3/P7/8/8/8/8/8/4K3 w - - 0 1 | a8=Q | a7a8q
4k3/P7/8/8/8/8/8/4K3 w - - 0 1 | a8=R | a7a8r
4k3/P7/8/8/8/8/8/4K3 w - - 0 1 | a8=B | a7a8b
4k3/P7/8/8/8/8/8/4K3 w - - 0 1 | a8=N | a7a8n
4k3/P7/8/8/8/8/8/4K3 w - - 0 1 | a8Q+ | a7a8q
4k3/P7/8/8/8/8/8/4K3 w - - 0 1 | a7-a8=N | a7a8n
# a file, a rank, both, and more than is needed
4k3/8/8/8/8/Q7/8/Q1Q1K3 w - - 0 1 | Qcb2 | c1b2
4k3/8/8/8/8/Q7/8/Q1Q1K3 w - - 0 1 | Q3b2 | a3b2
4k3/8/8/8/8/Q7/8/Q1Q1K3 w - - 0 1 | Qa1b2 | a1b2
rnbqkbnr/pppppppp/8/8/8/8/PPPPPPPP/RNBQKBNR w KQkq - 0 1 | Ngf3 | g1f3
rnbqkbnr/pppppppp/8/8/8/8/PPPPPPPP/RNBQKBNR w KQkq - 0 1 | N1f3 | g1f3
rnbqkbnr/pppppppp/8/8/8/8/PPPPPPPP/RNBQKBNR w KQkq - 0 1 | Ng1f3 | g1f3
4k3/8/8/8/8/Q7/8/Q1Q1K3 w - - 0 1 | Qa1-b2# | a1b2
1r2k3/8/8/8/8/8/8/R3K3 w Q - 0 1 | 0-0-0 | e1c1
4k3/8/8/8/1b6/2N5/8/4K1N1 w - - 0 1 | Nge2 | g1e2
4k3/8/8/8/1b6/2N5/8/4K1N1 w - - 0 1 | Ne2 | g1e2
";

#[test]
fn texts_name_these_moves() -> Result<(), Fail> {
    rows_hold(&Says::Names, NAMED, 43)
}

/// Why a text names no move, if the column says that: `none`, or `several`.
fn error_of(text: &str) -> Option<SanError> {
    match text {
        "none" => Some(SanError::None),
        "several" => Some(SanError::Several),
        _ => None,
    }
}

/// Whether the text names no move, for that reason.
pub fn names_none<B: Board>(fen: &str, text: &str, why: &str) -> Option<bool> {
    let error = error_of(why)?;
    Some(resolve(&position::<B>(fen)?, text.as_bytes()) == Err(error))
}

/// A position, a text that names no move or several, and which of the two.
const NAMING_NONE: &str = "
4k3/8/8/8/8/Q7/8/Q1Q1K3 w - - 0 1 | Qb2 | several
4k3/8/8/8/8/Q7/8/Q1Q1K3 w - - 0 1 | Qab2 | several
4k3/8/8/8/8/Q7/8/Q1Q1K3 w - - 0 1 | Q1b2 | several
# a pawn that gives no file stays on its file
4k3/8/8/3pp3/2P1P3/8/8/4K3 w - - 0 1 | d5 | none
4k3/8/8/3pp3/2P1P3/8/8/4K3 w - - 0 1 | xd5 | none
4k3/8/8/3pP3/8/8/8/4K3 w - d6 0 1 | d6 | none
# a promotion is said exactly where there is one, and not of a king or a pawn
4k3/P7/8/8/8/8/8/4K3 w - - 0 1 | a8 | none
4k3/P7/8/8/8/8/8/4K3 w - - 0 1 | a8=K | none
4k3/P7/8/8/8/8/8/4K3 w - - 0 1 | a8=P | none
4k3/P7/8/8/8/8/8/4K3 w - - 0 1 | a8= | none
rnbqkbnr/pppppppp/8/8/8/8/PPPPPPPP/RNBQKBNR w KQkq - 0 1 | e4=Q | none
# castling is not named by the king's squares, nor by other letters and marks
r3k2r/8/8/8/8/8/8/R3K2R w KQkq - 0 1 | Kg1 | none
r3k2r/8/8/8/8/8/8/R3K2R w KQkq - 0 1 | e1g1 | none
r3k2r/8/8/8/8/8/8/R3K2R w KQkq - 0 1 | o-o | none
r3k2r/8/8/8/8/8/8/R3K2R w KQkq - 0 1 | O-O-O-O | none
r3k2r/8/8/8/8/8/8/R3K2R w KQkq - 0 1 | O-0 | none
r3k2r/8/8/8/8/8/8/R3K2R w KQkq - 0 1 | O-O! | none
rnbqkbnr/pppppppp/8/8/8/8/PPPPPPPP/RNBQKBNR w KQkq - 0 1 | O-O | none
# another man, another square, a square of no board, other bytes
rnbqkbnr/pppppppp/8/8/8/8/PPPPPPPP/RNBQKBNR w KQkq - 0 1 | Bf3 | none
rnbqkbnr/pppppppp/8/8/8/8/PPPPPPPP/RNBQKBNR w KQkq - 0 1 | e5 | none
rnbqkbnr/pppppppp/8/8/8/8/PPPPPPPP/RNBQKBNR w KQkq - 0 1 | i4 | none
rnbqkbnr/pppppppp/8/8/8/8/PPPPPPPP/RNBQKBNR w KQkq - 0 1 | e9 | none
rnbqkbnr/pppppppp/8/8/8/8/PPPPPPPP/RNBQKBNR w KQkq - 0 1 | e0 | none
rnbqkbnr/pppppppp/8/8/8/8/PPPPPPPP/RNBQKBNR w KQkq - 0 1 | ne4 | none
rnbqkbnr/pppppppp/8/8/8/8/PPPPPPPP/RNBQKBNR w KQkq - 0 1 | Nxxf3 | none
rnbqkbnr/pppppppp/8/8/8/8/PPPPPPPP/RNBQKBNR w KQkq - 0 1 | N f3 | none
rnbqkbnr/pppppppp/8/8/8/8/PPPPPPPP/RNBQKBNR w KQkq - 0 1 | e4! | none
rnbqkbnr/pppppppp/8/8/8/8/PPPPPPPP/RNBQKBNR w KQkq - 0 1 | +e4 | none
rnbqkbnr/pppppppp/8/8/8/8/PPPPPPPP/RNBQKBNR w KQkq - 0 1 |  | none
rnbqkbnr/pppppppp/8/8/8/8/PPPPPPPP/RNBQKBNR w KQkq - 0 1 | N | none
4k3/8/8/8/8/2N5/8/4K1N1 w - - 0 1 | Ne2 | several
8/8/8/K2pP2r/8/8/8/4k3 w - d6 0 1 | exd6 | none
4k3/8/8/8/8/8/5r2/4K2R w K - 0 1 | O-O | none
rnbqkbnr/pppppppp/8/8/8/8/PPPPPPPP/RNBQKBNR w KQkq - 0 1 | -- | none
rnbqkbnr/pppppppp/8/8/8/8/PPPPPPPP/RNBQKBNR w KQkq - 0 1 | g1f3 | none
rnbqkbnr/pppppppp/8/8/8/8/PPPPPPPP/RNBQKBNR w KQkq - 0 1 | Kx | none
";

#[test]
fn texts_name_no_move_or_several() -> Result<(), Fail> {
    rows_hold(&Says::NamesNone, NAMING_NONE, 36)
}

/// Whether playing the text, with its standard text written or not, reports that, a move by its
/// squares, and leads to the position of the other text.
pub fn plays<B: Board>(fen: &str, text: &str, reported: &str, after: &str) -> Option<bool> {
    let mut position = position::<B>(fen)?;
    let expected = match error_of(reported) {
        Some(error) => Err(error),
        None => Ok(move_of(&position, reported)?),
    };
    let mut written = position.copy();
    let found = play_word(&mut position, text.as_bytes());
    let other = play_word_san(&mut written, text.as_bytes(), &mut ArrayString::new());
    let is_after = has_fen(&position, after) && has_fen(&written, after);
    Some(found == expected && other == expected && is_after)
}

/// A position, a text, the move that is played or why there is none, and the position then.
const PLAYED: &str = "
# of doubled pawns the one in front steps, and none over the other; nor does one step over or onto
# another man
4k3/3p4/3p4/8/8/4P3/4P3/4K3 w - - 0 1 | e4 | e3e4 | 4k3/3p4/3p4/8/4P3/8/4P3/4K3 b - - 0 1
4k3/3p4/3p4/8/8/8/8/4K3 b - - 0 1 | d5 | d6d5 | 4k3/3p4/8/3p4/8/8/8/4K3 w - - 0 2
4k3/3p4/3p4/8/8/4P3/4P3/4K3 w - - 0 1 | e3 | none | 4k3/3p4/3p4/8/8/4P3/4P3/4K3 w - - 0 1
4k3/8/8/8/8/4n3/4P3/4K3 w - - 0 1 | e4 | none | 4k3/8/8/8/8/4n3/4P3/4K3 w - - 0 1
4k3/8/8/8/8/4n3/4P3/4K3 w - - 0 1 | e3 | none | 4k3/8/8/8/8/4n3/4P3/4K3 w - - 0 1
rnbqkbnr/pppppppp/8/8/8/8/PPPPPPPP/RNBQKBNR w KQkq - 0 1 | e4 | e2e4 | \
    rnbqkbnr/pppppppp/8/8/4P3/8/PPPP1PPP/RNBQKBNR b KQkq e3 0 1
# a capture, one en passant, one that would leave the king attacked, a promotion, castling
4k3/8/8/3pp3/2P1P3/8/8/4K3 w - - 0 1 | cxd5 | c4d5 | 4k3/8/8/3Pp3/4P3/8/8/4K3 b - - 0 1
4k3/8/8/3pP3/8/8/8/4K3 w - d6 0 1 | exd6 | e5d6 | 4k3/8/3P4/8/8/8/8/4K3 b - - 0 1
8/8/8/K2pP2r/8/8/8/4k3 w - d6 0 1 | exd6 | none | 8/8/8/K2pP2r/8/8/8/4k3 w - d6 0 1
4k3/P7/8/8/8/8/8/4K3 w - - 0 1 | a8=Q | a7a8q | Q3k3/8/8/8/8/8/8/4K3 b - - 0 1
r3k2r/8/8/8/8/8/8/R3K2R w KQkq - 0 1 | O-O | e1g1 | r3k2r/8/8/8/8/8/8/R4RK1 b kq - 1 1
# of several men the only one that may go, the one that is said, or none
4k3/8/8/8/1b6/2N5/8/4K1N1 w - - 0 1 | Ne2 | g1e2 | 4k3/8/8/8/1b6/2N5/4N3/4K3 b - - 1 1
4k3/8/8/8/8/5N2/8/1N2K3 w - - 0 1 | Nbd2 | b1d2 | 4k3/8/8/8/8/5N2/3N4/4K3 b - - 1 1
4k3/8/8/8/8/5N2/8/1N2K3 w - - 0 1 | N1d2 | b1d2 | 4k3/8/8/8/8/5N2/3N4/4K3 b - - 1 1
4k3/8/8/8/8/5N2/8/1N2K3 w - - 0 1 | Nd2 | several | 4k3/8/8/8/8/5N2/8/1N2K3 w - - 0 1
1k6/8/8/8/4Q2Q/8/8/K6Q w - - 0 1 | Qh4e1 | h4e1 | 1k6/8/8/8/4Q3/8/8/K3Q2Q b - - 1 1
1k6/8/8/8/4Q2Q/8/8/K6Q w - - 0 1 | Qhe1 | several | 1k6/8/8/8/4Q2Q/8/8/K6Q w - - 0 1
1k6/8/8/8/4Q2Q/8/8/K6Q w - - 0 1 | Qd2 | none | 1k6/8/8/8/4Q2Q/8/8/K6Q w - - 0 1
";

#[test]
fn texts_are_played_or_change_nothing() -> Result<(), Fail> {
    rows_hold(&Says::Plays, PLAYED, 18)
}

/// Whether the text, played, is the move with that text, over whatever text was written before, and
/// leads to the position of the other text.
fn rewrites<B: Board>(position: &Position<B>, m: &Move, text: &str, next: &str) -> bool {
    let mut after = position.copy();
    let mut written = ArrayString::new();
    written.push_str("O-O-O");
    let found = play_word_san(&mut after, text.as_bytes(), &mut written);
    found == Ok(*m) && written.as_str() == text && has_fen(&after, next)
}

/// Whether the move is legal, that is its text, and the move played with its text leads to the
/// position after it.
fn writes<B: Board>(position: &Position<B>, m: &Move, text: &str) -> bool {
    if !position.is_legal(*m) {
        return false;
    }
    let next = position.play(*m).fen();
    let mut after = position.copy();
    let is_played = play_san(&mut after, *m).as_str() == text && has_fen(&after, next.as_str());
    is_played && san(position, *m).as_str() == text && rewrites(position, m, text, next.as_str())
}

/// Whether the move that is written as its squares is legal, and that is its text.
pub fn is_text<B: Board>(fen: &str, tried: &str, text: &str) -> Option<bool> {
    let position = position::<B>(fen)?;
    let m = move_of(&position, tried)?;
    Some(writes(&position, &m, text))
}

/// A position, a move, and its text.
const WRITTEN: &str = "
rnbqkbnr/pppppppp/8/8/8/8/PPPPPPPP/RNBQKBNR w KQkq - 0 1 | e2e4 | e4
rnbqkbnr/pppppppp/8/8/8/8/PPPPPPPP/RNBQKBNR w KQkq - 0 1 | g1f3 | Nf3
r3k2r/8/8/8/8/8/8/R3K2R w KQkq - 0 1 | e1g1 | O-O
r3k2r/8/8/8/8/8/8/R3K2R w KQkq - 0 1 | e1c1 | O-O-O
# captures: x, a pawn's file, en passant
r3k2r/8/8/8/8/8/8/R3K2R w KQkq - 0 1 | a1a8 | Rxa8+
4k3/8/8/3pp3/2P1P3/8/8/4K3 w - - 0 1 | c4d5 | cxd5
4k3/8/8/3pp3/2P1P3/8/8/4K3 w - - 0 1 | e4d5 | exd5
4k3/8/8/3pP3/8/8/8/4K3 w - d6 0 1 | e5d6 | exd6
# promotions
4k3/P7/8/8/8/8/8/4K3 w - - 0 1 | a7a8q | a8=Q+
4k3/P7/8/8/8/8/8/4K3 w - - 0 1 | a7a8n | a8=N
1n2k3/P7/8/8/8/8/8/4K3 w - - 0 1 | a7b8r | axb8=R+
# the file, else the rank, else both; a pinned man does not count, nor one of the other side
4k3/8/8/8/8/5N2/8/1N2K3 w - - 0 1 | b1d2 | Nbd2
4k3/8/8/R7/8/8/8/R3K3 w - - 0 1 | a1a3 | R1a3
4k3/8/8/8/8/Q7/8/Q1Q1K3 w - - 0 1 | a1b2 | Qa1b2
4k3/8/8/8/8/Q7/8/Q1Q1K3 w - - 0 1 | a3b2 | Q3b2
4k3/8/8/8/8/Q7/8/Q1Q1K3 w - - 0 1 | c1b2 | Qcb2
4k3/8/8/8/1b6/2N5/8/4K1N1 w - - 0 1 | g1e2 | Ne2
4k3/8/8/8/8/5N2/8/1n2K3 w - - 0 1 | f3d2 | Nd2
# marks: check, mate, and none for stalemate
7k/8/8/8/8/8/8/1Q4K1 w - - 0 1 | b1b2 | Qb2+
7k/8/6K1/8/8/8/8/1Q6 w - - 0 1 | b1b8 | Qb8#
7k/8/8/6Q1/8/8/8/6K1 w - - 0 1 | g5g6 | Qg6
k7/8/PK6/8/8/8/8/8 w - - 0 1 | a6a7 | a7
rnbqkbnr/pppp1ppp/8/4p3/6P1/5P2/PPPPP2P/RNBQKBNR b KQkq - 0 2 | d8h4 | Qh4#
";

#[test]
fn moves_have_these_texts() -> Result<(), Fail> {
    rows_hold(&Says::Text, WRITTEN, 23)
}
