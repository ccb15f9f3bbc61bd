//! Squares, sets of squares, both boards, and the calls that ask a position for its parts.
use crate::rules::rows::{Says, has_just, kind_of, move_of, played, position, square, square_at};
use crate::support::rows_hold;
use chess::{Bits, Board, Kind, Mailbox, Man, Position, Side, Square, resolve};
use std::test::Fail;

/// The man of a side and a letter, as `white r`.
fn man_of(text: &str) -> Option<Man> {
    let (name, letter) = text.split_once(' ')?;
    let kind = kind_of(letter.as_bytes().first())?;
    match name {
        "white" => Some(Man {
            side: Side::White,
            kind,
        }),
        "black" => Some(Man {
            side: Side::Black,
            kind,
        }),
        _ => None,
    }
}

/// Puts black knights on the squares of the names.
fn put_knights<B: Board>(board: &mut B, names: &str) -> Option<()> {
    for name in names.split_whitespace() {
        board.put(square(name)?, man_of("black n"));
    }
    Some(())
}

/// Whether each square of the names is attacked by the side.
fn are_attacked<B: Board>(board: &B, names: &str, side: Side) -> Option<bool> {
    for name in names.split_whitespace() {
        if !board.attacked(square(name)?, side) {
            return Some(false);
        }
    }
    Some(true)
}

/// Whether the man on the square, among black knights on others, attacks just the squares of the
/// names, and so does its side.
pub fn reaches<B: Board>(man: &str, name: &str, others: &str, names: &str) -> Option<bool> {
    let man = man_of(man)?;
    let from = square(name)?;
    let mut board = B::empty();
    board.put(from, Some(man));
    put_knights(&mut board, others)?;
    let is_reach = has_just(&board.reach(from), names)? && are_attacked(&board, names, man.side)?;
    Some(is_reach && board.at(from) == Some(man))
}

/// A man, its square, other men, and the squares that the man attacks.
const REACHES: &str = "
white r | h4 |  | a4 b4 c4 d4 e4 f4 g4 h1 h2 h3 h5 h6 h7 h8
white k | a1 |  | a2 b1 b2
white n | h1 |  | f2 g3
white p | a4 |  | b5
black p | h4 |  | g3
white r | a1 | a3 c1 | a2 a3 b1 c1
";

#[test]
fn men_reach_the_squares_of_the_laws() -> Result<(), Fail> {
    rows_hold(&Says::Reaches, REACHES, 6)
}

/// Whether a square is where both numbers are 1 to 8, and gives them back.
fn squares_have_numbers() -> bool {
    let inside = match Square::new(8, 4) {
        Some(h4) => h4.file() == 8 && h4.rank() == 4,
        None => false,
    };
    inside
        && Square::new(0, 1).is_none()
        && Square::new(9, 1).is_none()
        && Square::new(1, 0).is_none()
        && Square::new(8, 9).is_none()
}

/// Whether an empty board has no men, and men that are put and taken away are counted.
fn men_are_put_and_taken<B: Board>(a1: Square, h4: Square) -> bool {
    let queen = Man {
        side: Side::Black,
        kind: Kind::Queen,
    };
    let mut board = B::empty();
    let is_bare = board.squares_of(queen).is_empty()
        && board.reach(h4).is_empty()
        && !board.attacked(h4, Side::Black)
        && board.at(h4).is_none();
    board.put(h4, Some(queen));
    board.put(a1, Some(queen));
    let both = board.squares_of(queen);
    let are_two = both.count() == 2 && both.has(a1) && both.has(h4) && !both.is_empty();
    board.put(h4, None);
    is_bare && are_two && board.at(h4).is_none() && board.squares_of(queen).count() == 1
}

/// Whether the position after 1. e4 reports its parts, and so does its copy.
fn parts_are_reported<B: Board>(first: &Position<B>, e4: Square) -> bool {
    let copy = first.copy();
    let pawn = Some(Man {
        side: Side::White,
        kind: Kind::Pawn,
    });
    first.side() == Side::Black
        && first.number() == 1
        && first.at(e4) == pawn
        && copy.side() == Side::Black
        && copy.number() == 1
        && copy.at(e4) == pawn
        && copy.fen() == first.fen()
}

/// Whether squares, a board, a position and the starting position report their parts.
fn report_parts<B: Board>() -> Option<[bool; 4]> {
    let start: Position<B> = Position::start();
    let first = played(&start, &move_of(&start, "e2e4")?)?;
    let text = "rnbqkbnr/pppppppp/8/8/8/8/PPPPPPPP/RNBQKBNR w KQkq - 0 1";
    Some([
        squares_have_numbers(),
        men_are_put_and_taken::<B>(square("a1")?, square("h4")?),
        parts_are_reported(&first, square("e4")?),
        start.fen() == position::<B>(text)?.fen(),
    ])
}

#[test]
fn calls_that_ask_for_parts(rt: HostRuntime) {
    assert_eq!(rt; report_parts::<Mailbox>(), Some([true; 4]));
    assert_eq!(rt; report_parts::<Bits>(), Some([true; 4]));
}

/// Whether both boards have the same man on the square, attacks on it, and squares that are
/// attacked from it.
fn agree_on(plain: &Mailbox, words: &Bits, square: Square) -> bool {
    let (reach, other) = (plain.reach(square), words.reach(square));
    for place in 0u8..64 {
        if let Some(target) = square_at(place)
            && reach.has(target) != other.has(target)
        {
            return false;
        }
    }
    plain.at(square) == words.at(square)
        && plain.attacked(square, Side::White) == words.attacked(square, Side::White)
        && plain.attacked(square, Side::Black) == words.attacked(square, Side::Black)
}

/// Puts the men of the position on both boards, and reports whether these agree on each square.
fn agree(position: &Position<Bits>, plain: &mut Mailbox, words: &mut Bits) -> bool {
    for place in 0u8..64 {
        if let Some(square) = square_at(place) {
            plain.put(square, position.at(square));
            words.put(square, position.at(square));
        }
    }
    for place in 0u8..64 {
        if let Some(square) = square_at(place)
            && !agree_on(plain, words, square)
        {
            return false;
        }
    }
    true
}

/// The move of a game from the starting position before which the boards do not agree, or which is
/// illegal; `the end` where they do not agree after the last.
fn first_difference<'a>(game: &'a str) -> Option<&'a str> {
    let mut position: Position<Bits> = Position::start();
    let (mut plain, mut words) = (Mailbox::empty(), Bits::empty());
    for word in game.split_whitespace() {
        if !agree(&position, &mut plain, &mut words) {
            return Some(word);
        }
        match resolve(&position, word.as_bytes()) {
            Ok(m) => position = position.play(m),
            Err(_) => return Some(word),
        }
    }
    if agree(&position, &mut plain, &mut words) {
        None
    } else {
        Some("the end")
    }
}

#[test]
fn both_boards_agree_along_games(rt: HostRuntime) {
    let games = [
        "f4 e5 fxe5 d6 exd6 Bxd6",
        "e4 e5 Nf3 d6 d4 Bg4 dxe5 Bxf3 Qxf3 dxe5 Bc4 Nf6 Qb3 Qe7 Nc3 c6 Bg5 b5 Nxb5 cxb5 Bxb5+ \
         Nbd7 O-O-O Rd8 Rxd7 Rxd7 Rd1 Qe6 Bxd7+ Nxd7 Qb8+ Nxb8 Rd8#",
    ];
    for game in games {
        assert_eq!(rt; first_difference(game), None);
    }
}

#[test]
fn bits_is_twelve_words(rt: HostRuntime) -> Result<(), Fail> {
    // White's kinds from the king to the pawn, then Black's; a field that is added would be shown
    // too
    let found = format!(in rt.alloc(); "{:?} {:?}", Bits::initial(), Bits::empty())?;
    let wanted = "Bits { words: [16, 8, 129, 36, 66, 65280, \
        1152921504606846976, 576460752303423488, 9295429630892703744, \
        2594073385365405696, 4755801206503243776, 71776119061217280] } \
        Bits { words: [0, 0, 0, 0, 0, 0, 0, 0, 0, 0, 0, 0] }";
    assert_eq!(rt; found.as_str(), wanted);
    assert_eq!(rt; size_of::<Bits>(), 96);
    Ok(())
}
