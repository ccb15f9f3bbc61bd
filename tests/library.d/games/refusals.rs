//! Words that are refused: where they stand, why, and which moves they name.
use crate::games::rows::Says;
use crate::rows::is_kind;
use crate::support::rows_hold;
use chess::{Move, Refusal, san};
use pgn_game::{GamePosition, Lines, Why, named_moves, refused_word};
use pgn_text::{RawGame, element_place, tag_place};
use std::alloc::Global;
use std::test::Fail;

/// The lines of a column.
fn lines_of(name: &str) -> Option<Lines> {
    match name.as_bytes().first() {
        Some(b'M') => Some(Lines::Main),
        Some(b'A') => Some(Lines::All),
        _ => None,
    }
}

/// The first letter of the words that say why a word is refused.
fn letter_of(why: Why) -> u8 {
    match why {
        Why::PassInCheck => b'p',
        Why::Ambiguous => b'a',
        Why::Illegal(Refusal::NoMoveText) => b't',
        Why::Illegal(Refusal::NoCastling) => b'b',
        Why::Illegal(Refusal::CastlingAttacked) => b'c',
        Why::Illegal(Refusal::WrongPromotion) => b'w',
        Why::Illegal(Refusal::NoneCan) => b'n',
        Why::Illegal(Refusal::LeavesKingAttacked) => b'l',
    }
}

/// Whether the word, at this place of the block, is the first of the block's first game that is
/// refused, for this.
pub fn is_refused(
    alloc: Global,
    block: &[u8],
    game: &RawGame<'_>,
    columns: [&str; 5],
) -> Option<bool> {
    let [_, lines, place, word, why] = columns;
    let place = place.parse::<usize>().ok()?;
    let refused = refused_word(alloc, game, lines_of(lines)?).ok()??;
    Some(
        game.at() <= block.len()
            && refused.word == word.as_bytes()
            && is_kind(why, letter_of(refused.why))
            && element_place(block, game.at(), true, refused.element) == place,
    )
}

/// A block, the lines that are replayed, the place of the word that is refused, the word, and why.
const PLACES: &str = r#"
1. e4 e5 2. Ke3 * | Main | 12 | Ke3 | none can
  {c} 1. Ke3 * | All | 9 | Ke3 | none can
1. e4!? {x} e5!?! 2. Ke3 * | All | 21 | Ke3 | none can
1. e4 e5 (1... Ke7) 2. Ke3 * | All | 15 | Ke7 | none can
1. e4 e5 (1... Ke7) 2. Ke3 * | Main | 23 | Ke3 | none can
1. e4 e5 (1... c5 2. d4) 2. d5 * | All | 28 | d5 | none can
1. e4 f6 2. Qh5+ g6 (2... --) * | All | 26 | -- | pass in check
1. -- * | All | 3 | -- | text of no move
1. Hello * | Main | 3 | Hello | text of no move
"#;

#[test]
fn words_are_refused_at_their_places(rt: HostRuntime) -> Result<(), Fail> {
    rows_hold(&Says::Refused.over(rt.alloc()), PLACES, 9)
}

/// Words of games, and why they are refused.
const REASONS: &str = r#"
1. O-O * | Main | 3 | O-O | barred castling
[FEN "4kr2/8/8/8/8/8/8/4K2R w K - 0 1"]\n1. O-O * | Main | 43 | O-O | castling attacked
[FEN "4k3/8/8/8/8/8/8/4K2R w - - 0 1"]\n1. O-O * | Main | 42 | O-O | barred castling
[FEN "4r2k/8/8/8/8/8/4N3/4K3 w - - 0 1"]\n1. Nc3 * | Main | 44 | Nc3 | leaves king attacked
1. f3 e5 2. g4 Qh4# 3. a3 * | Main | 23 | a3 | leaves king attacked
[FEN "8/P3k3/8/8/8/8/8/4K3 w - - 0 1"]\n1. a8 * | Main | 42 | a8 | wrong promotion
1. e4=Q * | Main | 3 | e4=Q | wrong promotion
1. Nf3=Q * | Main | 3 | Nf3=Q | wrong promotion
1. e4 e1 * | Main | 6 | e1 | none can
1. e4 e5=Q 2. Ke3=R * | Main | 6 | e5=Q | wrong promotion
1. Nf3 a6 2. Nd4 a5 3. Nc3 a4 4. Nb5 * | All | 33 | Nb5 | ambiguous
"#;

#[test]
fn words_are_refused_for_their_reasons(rt: HostRuntime) -> Result<(), Fail> {
    rows_hold(&Says::Refused.over(rt.alloc()), REASONS, 11)
}

/// Whether the move is legal and has this text.
fn has_text(position: &GamePosition, m: &Move, text: &str) -> bool {
    if !position.is_legal(*m) {
        return false;
    }
    san(position, *m).as_str() == text
}

/// Whether the word names moves with just these texts in the position.
pub fn names(alloc: Global, fen: &[u8], columns: [&str; 5]) -> Option<bool> {
    let [_, texts, word, ..] = columns;
    let position = GamePosition::from_fen(fen).ok()?;
    let moves = named_moves(alloc, &position, word.as_bytes()).ok()?;
    let mut count = 0usize;
    for text in texts.split_whitespace() {
        if !has_text(&position, moves.get(count)?, text) {
            return Some(false);
        }
        count = count.saturating_add(1);
    }
    Some(moves.len() == count)
}

/// A position, moves, and the word that names just them.
const NAMES: &str = r#"
4k3/8/8/8/8/2N5/8/K5N1 w - - 0 1 | Nge2 Nce2 | Ne2
4k3/8/8/8/8/Q7/8/Q1Q1K3 w - - 0 1 | Qa1b2 Qcb2 Q3b2 | Qb2
4k3/8/8/8/8/8/8/4K2R w K - 0 1 | O-O | 0-0
4k3/8/8/8/8/8/8/4K2R w K - 0 1 |  | Ra2
"#;

#[test]
fn words_name_moves(rt: HostRuntime) -> Result<(), Fail> {
    rows_hold(&Says::Names.over(rt.alloc()), NAMES, 4)
}

/// Whether the first tag of the name stands at this place of the block, in the block's first game.
pub fn tag_stands(block: &[u8], game: &RawGame<'_>, columns: [&str; 5]) -> Option<bool> {
    let [_, name, place, ..] = columns;
    let place = place.parse::<usize>().ok()?;
    Some(game.at() <= block.len() && tag_place(block, game.at(), true, name.as_bytes()) == place)
}

/// A text, the name of a tag, and where its first one stands.
const TAGS: &str = r#"
{[FEN "x"]}\n[SetUp "1"]\n[ FEN "8/8"]\n[FEN ""]\n1. e4 * | SetUp | 12
{[FEN "x"]}\n[SetUp "1"]\n[ FEN "8/8"]\n[FEN ""]\n1. e4 * | FEN | 24
"#;

#[test]
fn tags_stand(rt: HostRuntime) -> Result<(), Fail> {
    rows_hold(&Says::TagStands.over(rt.alloc()), TAGS, 2)
}
