//! How many games of so many moves there are: published counts of legal move sequences. The longest
//! are counted over the board of bitboards alone.
use crate::rules::rows::{played, position, square_at};
use crate::support::{Rows, rows_hold};
use chess::{Bits, Board, Kind, Mailbox, Move, Position, Square, Wing};
use std::alloc::{AllocError, Global};
use std::test::Fail;
use std::vec::Vec;

/// What a pawn may become, and the wings: each way in which a move may go between two squares.
const WAYS: [(Option<Kind>, Option<Wing>); 7] = [
    (None, None),
    (Some(Kind::Queen), None),
    (Some(Kind::Rook), None),
    (Some(Kind::Bishop), None),
    (Some(Kind::Knight), None),
    (None, Some(Wing::KingSide)),
    (None, Some(Wing::QueenSide)),
];

/// How many games of so many moves there are from here.
#[cycle(count)]
fn count<B: Board>(position: &Position<B>, depth: u8) -> u32 {
    if depth == 0 {
        return 1;
    }
    let mut games = 0u32;
    for place in 0u8..64 {
        if let Some(from) = square_at(place) {
            games = games.saturating_add(count_from(position, from, depth));
        }
    }
    games
}

/// How many of them begin with a move from the square.
#[cycle(count)]
fn count_from<B: Board>(position: &Position<B>, from: Square, depth: u8) -> u32 {
    if depth == 0 {
        return 0;
    }
    let targets = position.targets(from);
    let mut games = 0u32;
    for place in 0u8..64 {
        if let Some(to) = square_at(place)
            && targets.has(to)
        {
            games = games.saturating_add(count_between(position, from, to, depth));
        }
    }
    games
}

/// How many of them begin with a move from the one square to the other.
#[cycle(count)]
fn count_between<B: Board>(position: &Position<B>, from: Square, to: Square, depth: u8) -> u32 {
    if depth == 0 {
        return 0;
    }
    let mut games = 0u32;
    for (promote, castle) in WAYS {
        let m = Move {
            from,
            to,
            promote,
            castle,
        };
        if let Some(next) = played(position, &m) {
            games = games.saturating_add(count(&next, depth - 1));
        }
    }
    games
}

/// Whether so many games of each length, from one move on, begin in the position.
fn has_perft<B: Board>(fen: &str, counts: &str) -> Option<bool> {
    let position = position::<B>(fen)?;
    let mut depth = 0u8;
    for games in counts.split_whitespace() {
        depth = depth.saturating_add(1);
        if count(&position, depth) != games.parse::<u32>().ok()? {
            return Some(false);
        }
    }
    Some(depth > 0)
}

/// Rows of a position, the counts over the plain board, and those over the board of bitboards.
struct Counts;

impl Rows for Counts {
    fn is_so(&self, columns: [&str; 5]) -> bool {
        let [fen, plain, words, ..] = columns;
        has_perft::<Mailbox>(fen, plain) == Some(true)
            && has_perft::<Bits>(fen, words) == Some(true)
    }
}

/// A position, and how many games of one move, of two and so on begin there, over either board.
const COUNTS: &str = "
# with castling and pins
r3k2r/p1ppqpb1/bn2pnp1/3PN3/1p2P3/2N2Q1p/PPPBBPPP/R3K2R w KQkq - 0 1 | 48 2039 | 48 2039 97862
# with captures en passant
8/2p5/3p4/KP5r/1R3p1k/8/4P1P1/8 w - - 0 1 | 14 191 2812 | 14 191 2812 43238
# with promotions
r3k2r/Pppp1ppp/1b3nbN/nP6/BBP1P3/q4N2/Pp1P2PP/R2Q1RK1 w kq - 0 1 | 6 264 9467 | 6 264 9467
rnbq1k1r/pp1Pbppp/2p5/8/2B5/8/PPP1NnPP/RNBQK2R w KQ - 1 8 | 44 1486 | 44 1486
";

/// The same from the start.
const FROM_THE_START: &str = "
rnbqkbnr/pppppppp/8/8/8/8/PPPPPPPP/RNBQKBNR w KQkq - 0 1 | 20 400 8902 | 20 400 8902 197281
";

/// How many games of so many moves there are from here, by the lists of legal moves: one game of
/// no move.
fn count_listed<B: Board>(
    alloc: Global,
    position: &Position<B>,
    depth: u8,
) -> Result<usize, AllocError> {
    if depth == 0 {
        return Ok(1);
    }
    let mut moves = Vec::new(alloc);
    position.legal_moves(&mut moves)?;
    if depth == 1 {
        return Ok(moves.len());
    }
    let mut games = 0usize;
    for m in &moves {
        let next = position.play(*m);
        games = games.saturating_add(count_listed(alloc, &next, depth - 1)?);
    }
    Ok(games)
}

/// Whether so many games of each length, from one move on, begin in the position.
fn has_listed<B: Board>(alloc: Global, fen: &str, counts: &str) -> Option<bool> {
    let position = position::<B>(fen)?;
    let mut depth = 0u8;
    for games in counts.split_whitespace() {
        depth = depth.saturating_add(1);
        if count_listed(alloc, &position, depth).ok()? != games.parse::<usize>().ok()? {
            return Some(false);
        }
    }
    Some(depth > 0)
}

/// The same rows, counted by the lists of legal moves.
#[derive(Drop)]
struct Listed {
    alloc: Global,
}

impl Rows for Listed {
    fn is_so(&self, columns: [&str; 5]) -> bool {
        let [fen, plain, words, ..] = columns;
        has_listed::<Mailbox>(self.alloc, fen, plain) == Some(true)
            && has_listed::<Bits>(self.alloc, fen, words) == Some(true)
    }
}

/// A position, and how many games of one move, of two and so on begin there, over either board.
const LISTED: &str = "
# with castling and pins
r3k2r/p1ppqpb1/bn2pnp1/3PN3/1p2P3/2N2Q1p/PPPBBPPP/R3K2R w KQkq - 0 1 | 48 2039 | 48 2039 97862
# with captures en passant
8/2p5/3p4/KP5r/1R3p1k/8/4P1P1/8 w - - 0 1 | 14 191 2812 | 14 191 2812 43238
# with promotions
r3k2r/Pppp1ppp/1b3nbN/nP6/BBP1P3/q4N2/Pp1P2PP/R2Q1RK1 w kq - 0 1 | 6 264 | 6 264 9467
rnbq1k1r/pp1Pbppp/2p5/8/2B5/8/PPP1NnPP/RNBQK2R w KQ - 1 8 | 44 1486 | 44 1486 62379
# the most moves that are known of a position, and none: mate, stalemate
R6R/3Q4/1Q4Q1/4Q3/2Q4Q/Q4Q2/pp1Q4/kBNN1KB1 w - - 0 1 | 218 | 218
rnb1kbnr/pppp1ppp/8/4p3/6Pq/5P2/PPPPP2P/RNBQKBNR w KQkq - 1 3 | 0 0 | 0 0
7k/8/6Q1/8/8/8/8/6K1 b - - 0 1 | 0 0 | 0 0
# ten pawns
4k3/8/8/8/P6P/8/PPPPPPPP/4K3 w - - 0 1 | 18 90 | 18 90
";

/// The same from the start.
const LISTED_FROM_THE_START: &str = "
rnbqkbnr/pppppppp/8/8/8/8/PPPPPPPP/RNBQKBNR w KQkq - 0 1 | 20 400 8902 | 20 400 8902 197281
";

#[test]
fn legal_moves_are_counted(rt: HostRuntime) -> Result<(), Fail> {
    rows_hold(&Listed { alloc: rt.alloc() }, LISTED, 8)
}

#[test]
fn legal_moves_are_counted_from_the_start(rt: HostRuntime) -> Result<(), Fail> {
    rows_hold(&Listed { alloc: rt.alloc() }, LISTED_FROM_THE_START, 1)
}

/// So many games of five moves begin at the start: it takes two seconds.
fn has_five_moves(alloc: Global) -> bool {
    match count_listed(alloc, &Position::<Bits>::start(), 5) {
        Ok(games) => games == 4_865_609,
        Err(_) => false,
    }
}

#[test]
fn games_of_five_moves_are_counted(rt: HostRuntime) -> Result<(), Fail> {
    assert!(rt; has_five_moves(rt.alloc()));
    Ok(())
}

#[test]
fn games_are_counted() -> Result<(), Fail> {
    rows_hold(&Counts, COUNTS, 4)
}

#[test]
fn counts_from_the_start() -> Result<(), Fail> {
    rows_hold(&Counts, FROM_THE_START, 1)
}
