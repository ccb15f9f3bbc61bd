//! Legal moves and the positions after them (Laws 3.1 to 3.9; PGN 16.1.3).
use crate::rules::rows::{Says, has_fen, has_in_order, move_of, played, position, square};
use crate::support::rows_hold;
use chess::Board;
use std::test::Fail;

/// Whether the move is legal in the position, and leads to that one.
pub fn leads<B: Board>(fen: &str, tried: &str, after: &str) -> Option<bool> {
    let position = position::<B>(fen)?;
    let next = played(&position, &move_of(&position, tried)?)?;
    Some(has_fen(&next, after))
}

/// A position, a move and the position after it.
const POSITIONS_AFTER: &str = "
# castling, of each side on each wing, also with the b-file attacked
r3k2r/8/8/8/8/8/8/R3K2R w KQkq - 0 1 | e1g1 | r3k2r/8/8/8/8/8/8/R4RK1 b kq - 1 1
r3k2r/8/8/8/8/8/8/R3K2R w KQkq - 0 1 | e1c1 | r3k2r/8/8/8/8/8/8/2KR3R b kq - 1 1
r3k2r/8/8/8/8/8/8/R3K2R b KQkq - 0 1 | e8g8 | r4rk1/8/8/8/8/8/8/R3K2R w KQ - 1 2
r3k2r/8/8/8/8/8/8/R3K2R b KQkq - 0 1 | e8c8 | 2kr3r/8/8/8/8/8/8/R3K2R w KQ - 1 2
1r2k3/8/8/8/8/8/8/R3K3 w Q - 0 1 | e1c1 | 1r2k3/8/8/8/8/8/8/2KR4 b - - 1 1
# a right is lost by its king's move, by its rook's, and where its rook is taken
r3k2r/8/8/8/8/8/8/R3K2R w KQkq - 0 1 | e1e2 | r3k2r/8/8/8/8/8/4K3/R6R b kq - 1 1
r3k2r/8/8/8/8/8/8/R3K2R b KQkq - 0 1 | e8d8 | r2k3r/8/8/8/8/8/8/R3K2R w KQ - 1 2
r3k2r/8/8/8/8/8/8/R3K2R w KQkq - 0 1 | h1g1 | r3k2r/8/8/8/8/8/8/R3K1R1 b Qkq - 1 1
r3k2r/8/8/8/8/8/8/R3K2R w KQkq - 0 1 | a1b1 | r3k2r/8/8/8/8/8/8/1R2K2R b Kkq - 1 1
r3k2r/8/8/8/8/8/8/R3K2R b KQkq - 0 1 | h8g8 | r3k1r1/8/8/8/8/8/8/R3K2R w KQq - 1 2
r3k2r/8/8/8/8/8/8/R3K2R b KQkq - 0 1 | a8b8 | 1r2k2r/8/8/8/8/8/8/R3K2R w KQk - 1 2
r3k2r/8/8/8/8/8/8/R3K2R w KQkq - 0 1 | h1h8 | r3k2R/8/8/8/8/8/8/R3K3 b Qq - 0 1
r3k2r/8/8/8/8/8/8/R3K2R w KQkq - 0 1 | a1a8 | R3k2r/8/8/8/8/8/8/4K2R b Kk - 0 1
r3k2r/8/8/8/8/8/8/R3K2R b KQkq - 0 1 | h8h1 | r3k3/8/8/8/8/8/8/R3K2r w Qq - 0 2
r3k2r/8/8/8/8/8/8/R3K2R b KQkq - 0 1 | a8a1 | 4k2r/8/8/8/8/8/8/r3K2R w Kk - 0 2
# pawns: a step, a double step with the square passed over, a capture, one en passant
4k3/8/8/8/8/8/4P3/4K3 w - - 5 9 | e2e3 | 4k3/8/8/8/8/4P3/8/4K3 b - - 0 9
4k3/8/8/8/8/8/4P3/4K3 w - - 5 9 | e2e4 | 4k3/8/8/8/4P3/8/8/4K3 b - e3 0 9
4k3/3p4/8/8/8/8/8/4K3 b - - 5 9 | d7d5 | 4k3/8/8/3p4/8/8/8/4K3 w - d6 0 10
4k3/8/8/3p4/4P3/8/8/4K3 w - - 0 1 | e4d5 | 4k3/8/8/3P4/8/8/8/4K3 b - - 0 1
4k3/8/8/3pP3/8/8/8/4K3 w - d6 0 1 | e5d6 | 4k3/8/3P4/8/8/8/8/4K3 b - - 0 1
4k3/8/8/8/3pP3/8/8/4K3 b - e3 0 1 | d4e3 | 4k3/8/8/8/8/4p3/8/4K3 w - - 0 2
# promotions
4k3/P7/8/8/8/8/8/4K3 w - - 3 7 | a7a8q | Q3k3/8/8/8/8/8/8/4K3 b - - 0 7
4k3/P7/8/8/8/8/8/4K3 w - - 3 7 | a7a8r | R3k3/8/8/8/8/8/8/4K3 b - - 0 7
4k3/P7/8/8/8/8/8/4K3 w - - 3 7 | a7a8b | B3k3/8/8/8/8/8/8/4K3 b - - 0 7
1n2k3/P7/8/8/8/8/8/4K3 w - - 3 7 | a7b8n | 1N2k3/8/8/8/8/8/8/4K3 b - - 0 7
4k3/8/8/8/8/8/p7/4K3 b - - 0 1 | a2a1r | 4k3/8/8/8/8/8/8/r3K3 w - - 0 2
# the counts: a quiet move, a capture, and no end at seven digits
4k3/8/8/8/8/8/8/4K1N1 w - - 5 9 | g1f3 | 4k3/8/8/8/8/5N2/8/4K3 b - - 6 9
4k3/8/8/8/8/5n2/8/4K1N1 w - - 5 9 | g1f3 | 4k3/8/8/8/8/5N2/8/4K3 b - - 0 9
4k3/8/8/8/8/8/8/4K3 b - - 9999999 9999999 | e8e7 | 8/4k3/8/8/8/8/8/4K3 w - - 10000000 10000000
rnbqkbnr/pppppppp/8/8/8/8/PPPPPPPP/RNBQKBNR w KQkq - 0 1 | e2e4 | \
    rnbqkbnr/pppppppp/8/8/4P3/8/PPPP1PPP/RNBQKBNR b KQkq e3 0 1
rnbqkbnr/pppppppp/8/8/4P3/8/PPPP1PPP/RNBQKBNR b KQkq e3 0 1 | c7c5 | \
    rnbqkbnr/pp1ppppp/8/2p5/4P3/8/PPPP1PPP/RNBQKBNR w KQkq c6 0 2
rnbqkbnr/pp1ppppp/8/2p5/4P3/8/PPPP1PPP/RNBQKBNR w KQkq c6 0 2 | g1f3 | \
    rnbqkbnr/pp1ppppp/8/2p5/4P3/5N2/PPPP1PPP/RNBQKB1R b KQkq - 1 2
rnbqkbnr/pppp1ppp/4p3/8/7P/7R/PPPPPPP1/RNBQKBN1 b Qkq - 1 2 | e8e7 | \
    rnbq1bnr/ppppkppp/4p3/8/7P/7R/PPPPPPP1/RNBQKBN1 w Q - 2 3
";

#[test]
fn moves_lead_to_these_positions() -> Result<(), Fail> {
    rows_hold(&Says::Leads, POSITIONS_AFTER, 33)
}

/// Whether the move is illegal in the position.
pub fn is_illegal<B: Board>(fen: &str, tried: &str) -> Option<bool> {
    let position = position::<B>(fen)?;
    Some(!position.is_legal(move_of(&position, tried)?))
}

/// A position, and a move that is illegal there.
const ILLEGAL: &str = "
# castling without the right, over a man, out of check, over an attacked square, into check
4k3/8/8/8/8/8/8/R3K2R w Q - 0 1 | e1g1
4k3/8/8/8/8/8/8/R3K1NR w KQ - 0 1 | e1g1
4k3/8/8/8/8/8/8/RN2K3 w Q - 0 1 | e1c1
rn2k3/8/8/8/8/8/8/4K3 b q - 0 1 | e8c8
4k3/8/8/8/4r3/8/8/R3K2R w KQ - 0 1 | e1g1
5rk1/8/8/8/8/8/8/R3K2R w KQ - 0 1 | e1g1
4k1r1/8/8/8/8/8/8/R3K2R w KQ - 0 1 | e1g1
3rk3/8/8/8/8/8/8/R3K2R w KQ - 0 1 | e1c1
2r1k3/8/8/8/8/8/8/R3K2R w KQ - 0 1 | e1c1
# the king moves into an attack, a pinned man leaves, a check is not met
8/8/8/8/8/4k3/8/4K3 w - - 0 1 | e1e2
4k3/8/8/8/8/8/r7/4K3 w - - 0 1 | e1e2
4k3/8/8/8/1b6/2N5/8/4K3 w - - 0 1 | c3e4
4k3/8/8/8/4r3/8/8/4K1N1 w - - 0 1 | g1f3
8/8/8/K2pP2r/8/8/8/4k3 w - d6 0 1 | e5d6
# en passant to no such square, and by another man
4k3/8/8/3pP3/8/8/8/4K3 w - - 0 1 | e5d6
4k3/8/8/3pP3/8/8/8/4K3 w - d6 0 1 | e5f6
# pawns: back, sideways, onto a man ahead, over one, a second double step, a capture of nothing,
# of the own side
4k3/8/8/8/4P3/8/8/4K3 w - - 0 1 | e4e3
4k3/8/8/8/4P3/8/8/4K3 w - - 0 1 | e4d4
4k3/8/8/4p3/4P3/8/8/4K3 w - - 0 1 | e4e5
4k3/8/8/8/8/4n3/4P3/4K3 w - - 0 1 | e2e4
4k3/8/8/8/4n3/8/4P3/4K3 w - - 0 1 | e2e4
4k3/8/8/8/8/4P3/8/4K3 w - - 0 1 | e3e5
4k3/8/8/8/4P3/8/8/4K3 w - - 0 1 | e4d5
4k3/8/8/3P4/4P3/8/8/4K3 w - - 0 1 | e4d5
4k3/4p3/8/8/8/8/8/4K3 b - - 0 1 | e7e8
# no promotion on the last rank, to a pawn, to a king; a promotion elsewhere, and of a piece
4k3/P7/8/8/8/8/8/4K3 w - - 0 1 | a7a8
4k3/P7/8/8/8/8/8/4K3 w - - 0 1 | a7a8p
4k3/P7/8/8/8/8/8/4K3 w - - 0 1 | a7a8k
4k3/8/P7/8/8/8/8/4K3 w - - 0 1 | a6a7q
4k3/R7/8/8/8/8/8/4K3 w - - 0 1 | a7a8q
# over a man, onto the own side, a man of the other side, no man at all
4k3/8/8/8/8/P7/8/R3K3 w - - 0 1 | a1a4
4k3/8/8/8/8/P7/8/R3K3 w - - 0 1 | a1a3
4k3/8/8/8/8/2p5/8/B3K3 w - - 0 1 | a1d4
4k3/8/8/8/8/8/8/4K3 w - - 0 1 | e8e7
4k3/8/8/8/8/8/8/4K3 w - - 0 1 | d4d5
# as another man goes
4k3/8/8/8/8/8/8/R3K3 w - - 0 1 | a1b2
4k3/8/8/8/8/8/8/B3K3 w - - 0 1 | a1a2
4k3/8/8/8/8/8/8/N3K3 w - - 0 1 | a1b2
4k3/8/8/8/8/8/8/Q3K3 w - - 0 1 | a1b3
4k3/8/8/8/8/8/8/4K3 w - - 0 1 | e1e3
";

#[test]
fn moves_against_the_laws_are_illegal() -> Result<(), Fail> {
    rows_hold(&Says::Illegal, ILLEGAL, 40)
}

/// Whether the side to move is in check, and whether it has a legal move.
pub fn stands<B: Board>(fen: &str, check: &str, moves: &str) -> Option<bool> {
    let position = position::<B>(fen)?;
    let found = if position.in_check() {
        "check"
    } else {
        "no check"
    };
    let can = if position.has_move() {
        "moves"
    } else {
        "no move"
    };
    Some(found == check && can == moves)
}

/// A position, whether its side to move is in check, and whether that has a move.
const STANDINGS: &str = "
# mate, stalemate, and a lone king that may still move
1Q5k/8/6K1/8/8/8/8/8 b - - 0 1 | check | no move
7k/8/6Q1/8/8/8/8/6K1 b - - 0 1 | no check | no move
k7/P7/K7/8/8/8/8/8 b - - 0 1 | no check | no move
8/8/8/8/8/k7/p7/K7 w - - 0 1 | no check | no move
7k/8/5Q2/8/8/8/8/6K1 b - - 0 1 | check | moves
7k/8/8/8/8/8/8/6K1 b - - 0 1 | no check | moves
# one legal move alone: a pawn's, a promotion, en passant
7k/8/6Q1/8/8/p7/8/6K1 b - - 0 1 | no check | moves
7k/8/6Q1/8/8/8/p7/6K1 b - - 0 1 | no check | moves
# only the first pawn with an empty square ahead is pinned; no other pawn, or one that may step
7k/8/8/8/3b4/8/1P1n4/K1n5 w - - 0 1 | no check | no move
7k/8/8/8/3b4/8/1P1n3P/K1n5 w - - 0 1 | no check | moves
k1N5/1p1N4/8/3B4/8/8/8/7K b - - 0 1 | no check | no move
k1N5/1p1N3p/8/3B4/8/8/8/7K b - - 0 1 | no check | moves
# a pawn before its last rank, where that is empty and where it is not, and one beside it
8/P7/8/8/8/8/1r6/K1k5 w - - 0 1 | no check | moves
n7/P7/8/8/8/8/1r6/K1k5 w - - 0 1 | no check | no move
n7/P6p/7P/8/8/7P/1r6/K1k5 w - - 0 1 | no check | moves
# check by each man, and not through another one, nor by a pawn straight ahead or backward
4k3/8/8/8/8/8/4Q3/6K1 b - - 0 1 | check | moves
4k3/8/8/8/8/8/4R3/6K1 b - - 0 1 | check | moves
4k3/4p3/8/8/8/8/4R3/6K1 b - - 0 1 | no check | moves
4k3/8/8/8/B7/8/8/6K1 b - - 0 1 | check | moves
4k3/3p4/8/8/B7/8/8/6K1 b - - 0 1 | no check | moves
4k3/8/3N4/8/8/8/8/6K1 b - - 0 1 | check | moves
4k3/8/4N3/8/8/8/8/6K1 b - - 0 1 | no check | moves
4k3/3P4/8/8/8/8/8/6K1 b - - 0 1 | check | moves
4k3/4P3/8/8/8/8/8/6K1 b - - 0 1 | no check | moves
6k1/8/8/8/8/8/3p4/4K3 w - - 0 1 | check | moves
6k1/8/8/8/8/8/4p3/4K3 w - - 0 1 | no check | moves
6k1/8/8/8/4K3/3p4/8/8 w - - 0 1 | no check | moves
rnb1kbnr/pppp1ppp/8/4p3/6Pq/5P2/PPPPP2P/RNBQKBNR w KQkq - 1 3 | check | no move
rnb1kbnr/pppp1ppp/8/4p3/7q/P4P2/1PPPP1PP/RNBQKBNR w KQkq - 1 3 | check | moves
rnbqkbnr/pppppppp/8/8/8/8/PPPPPPPP/RNBQKBNR w KQkq - 0 1 | no check | moves
";

#[test]
fn check_mate_and_stalemate() -> Result<(), Fail> {
    rows_hold(&Says::Stands, STANDINGS, 30)
}

/// Whether the targets of the square are as many, and the set is empty exactly where there is none.
pub fn has_targets<B: Board>(fen: &str, name: &str, count: &str) -> Option<bool> {
    let targets = position::<B>(fen)?.targets(square(name)?);
    let wanted = count.parse::<u32>().ok()?;
    Some(targets.count() == wanted && targets.is_empty() == (wanted == 0))
}

/// A position, a square, and how many targets it has.
const TARGETS: &str = "
# with nothing in the way a rook reaches 14 squares, a bishop 7 to 13, a queen 21 to 27, a knight
# 2 to 8, a king 3 to 8
6k1/8/8/8/8/8/7K/R7 w - - 0 1 | a1 | 14
7k/8/8/8/3R4/8/8/6K1 w - - 0 1 | d4 | 14
6k1/8/8/8/8/8/8/B6K w - - 0 1 | a1 | 7
6k1/8/8/8/3B4/8/8/7K w - - 0 1 | d4 | 13
6k1/8/8/8/3Q4/8/8/K7 w - - 0 1 | d4 | 26
6k1/8/8/8/8/8/8/N6K w - - 0 1 | a1 | 2
6k1/8/8/8/3N4/8/8/7K w - - 0 1 | d4 | 8
6k1/8/8/8/8/8/8/K7 w - - 0 1 | a1 | 3
6k1/8/8/8/3K4/8/8/8 w - - 0 1 | d4 | 8
6k1/8/8/8/8/8/P7/7K w - - 0 1 | a2 | 2
6k1/8/8/8/8/8/P7/7K w - - 0 1 | g8 | 0
6k1/8/8/8/8/8/P7/7K w - - 0 1 | d4 | 0
6k1/P7/8/8/8/8/8/7K w - - 0 1 | a7 | 1
4k3/8/8/8/8/8/8/R3K2R w KQ - 0 1 | e1 | 7
8/8/8/K2pP2r/8/8/8/4k3 w - d6 0 1 | e5 | 1
4k3/8/8/8/8/8/5r2/4K2R w K - 0 1 | e1 | 2
1r2k3/8/8/8/8/8/8/R3K3 w Q - 0 1 | e1 | 6
";

#[test]
fn targets_are_counted() -> Result<(), Fail> {
    rows_hold(&Says::Counts, TARGETS, 17)
}

/// Whether the targets of the square are just these squares, in order.
pub fn aims_at<B: Board>(fen: &str, from: &str, wanted: &str) -> Option<bool> {
    has_in_order(position::<B>(fen)?.targets(square(from)?), wanted)
}

/// A position, a square, and its targets in the order a1, b1 to h1, a2 and so on.
const AIMS: &str = "
# en passant would leave the king attacked by the rook
8/8/8/K2pP2r/8/8/8/4k3 w - d6 0 1 | e5 | e6
# the rook bars castling, and can be taken
4k3/8/8/8/8/8/5r2/4K2R w K - 0 1 | e1 | d1 f2
# an attack on b1 is no bar
1r2k3/8/8/8/8/8/8/R3K3 w Q - 0 1 | e1 | c1 d1 f1 d2 e2 f2
";

#[test]
fn targets_are_these_squares() -> Result<(), Fail> {
    rows_hold(&Says::Aims, AIMS, 3)
}
