//! Blocks with the pieces that they must be cut into, and what is read of a game.
use crate::rows::is_kind;
use crate::support::{bytes_of, rows_hold};
use crate::texts::rows::Says;
use pgn_text::{Element, Piece, RawGame, games, is_contents, value};
use std::alloc::{AllocError, Global};
use std::test::Fail;

/// Whether the piece is what the words say, by their first letter: `game 0` or `unreadable 9`.
fn is_piece(piece: &Piece<'_>, words: &str) -> bool {
    let (letter, at) = match piece {
        Piece::Game(game) => (b'g', game.at()),
        Piece::Unreadable { at } => (b'u', *at),
    };
    match words.split_once(' ') {
        Some((kind, place)) => is_kind(kind, letter) && place.parse::<usize>() == Ok(at),
        None => false,
    }
}

/// Whether the block has just these pieces, as `game 0; unreadable 9` or `none`.
fn has_pieces(alloc: Global, block: &[u8], wanted: &str) -> bool {
    let mut left = wanted.split("; ");
    for piece in games(alloc, block, true) {
        match (piece, left.next()) {
            (Ok(piece), Some(words)) if is_piece(&piece, words) => {}
            _ => return false,
        }
    }
    wanted == "none" || left.next().is_none()
}

/// Whether the text has just these pieces.
pub fn is_cut(alloc: Global, text: &str, pieces: &str) -> Option<bool> {
    Some(has_pieces(alloc, &bytes_of(alloc, text)?, pieces))
}

/// Blocks with gaps and several games, and their pieces with their places.
const GAPS: &str = r#"
 | none
 {x} ; y\n% z\n | none
% note\n; more\n{x} 1. e4 * | game 18
1. e4 e5 1-0 * | game 0; game 13
1. e4 1-0! 1. d4 * | game 0; game 9
*1-0 | game 0; game 1
* * | game 0; game 2
 %x * | unreadable 1
%x *\n* | game 5
\xEF\xBB\xBF%x\n1. e4 * | game 6
\xEF\xBB\xBF[Event "A"]\x0D\n\x0D\n1. e4 * | game 3
\n\xEF\xBB\xBF1. e4 * | unreadable 1
{x\n} %y\n* | unreadable 5
1. e4 * {oops | game 0; unreadable 8
1. e4 *\x1A | game 0; unreadable 7
\x09\n\x0B\x0C\x0D {a}* | game 9
1. e4 ; no end | unreadable 0
* ; no end | game 0
"#;

#[test]
fn blocks_are_cut_at_gaps(rt: HostRuntime) -> Result<(), Fail> {
    rows_hold(&Says::Cut.over(rt.alloc()), GAPS, 18)
}

/// Blocks with numbers, NAGs, results and words of moves, and their pieces.
const WORDS: &str = r#"
1. e4 $255 * | game 0
1. e4 $256 * | unreadable 0
1. e4 $ * | unreadable 0
1. e4 $0001 * | unreadable 0
1. e4 $25e5 * | game 0
1. e4 $1-0 | unreadable 0
. * | game 0
12 * | game 0
1-0 | game 0
1. e4 | unreadable 0
1. e4!!? * | game 0
1.e4 0-0-0+# -- 0-0 * | game 0
0-0= * | unreadable 0
0-0-0-0 * | unreadable 0
1. +- * | unreadable 0
1/2-1/2 | game 0
1. e4 1/2 * | unreadable 0
0-1 * | game 0; game 4
1. e4 1/2-1/2 * | game 0; game 14
1e4 * | unreadable 0
_a * | unreadable 0
a_b * | game 0
--+ * | unreadable 0
0-0-0= * | unreadable 0
O-O= * | game 0
"#;

#[test]
fn words_make_games(rt: HostRuntime) -> Result<(), Fail> {
    rows_hold(&Says::Cut.over(rt.alloc()), WORDS, 25)
}

/// Blocks with tags, comments and variations, and their pieces.
const VARIATIONS: &str = r#"
(1. e4) * | unreadable 0
1. e4 {a}} * | unreadable 0
1. e4 (1. d4 *) | unreadable 0
[A "x\\"y"]\n1. e4 ()* | game 0
[White "A "B""]\n\n1. e4 * | unreadable 0
e4 (d4)((c4)) * | unreadable 0
e4 (d4) (c4 (d4) d5) e5 * | game 0
[A "x"] 1. [B "y"] * | unreadable 0
[A "x"] {c} ; d\n[B "y"] * | game 0
[ "x"]\n* | unreadable 0
[A{c} "x"]\n* | unreadable 0
[A "x" y]\n* | unreadable 0
$1 e4 [A "x"] * | unreadable 0
1. e4 ) * | unreadable 0
1. e4 (1. d4 * | unreadable 0
1. e4 (1. d4 1-0) * | unreadable 0
1. (e4) * | unreadable 0
"#;

#[test]
fn tags_and_variations_make_games(rt: HostRuntime) -> Result<(), Fail> {
    rows_hold(&Says::Cut.over(rt.alloc()), VARIATIONS, 17)
}

/// The bytes of the three slices in a row.
fn joined(alloc: Global, front: &[u8], middle: &[u8], back: &[u8]) -> Result<Vec<u8>, AllocError> {
    let mut bytes = Vec::from_slice(alloc, front)?;
    bytes.extend_from_slice(middle)?;
    bytes.extend_from_slice(back)?;
    Ok(bytes)
}

/// For each of the 256 bytes, put between the front and the back: whether just so many blocks are
/// one game at 0.
pub fn counts_games(alloc: Global, front: &str, back: &str, wanted: &str) -> Option<bool> {
    let wanted = wanted.parse::<usize>().ok()?;
    let front = bytes_of(alloc, front)?;
    let back = bytes_of(alloc, back)?;
    let mut count = 0usize;
    for byte in 0..=255u8 {
        let block = joined(alloc, &front, &[byte], &back).ok()?;
        if has_pieces(alloc, &block, "game 0") {
            count = count.saturating_add(1);
        }
    }
    Some(count == wanted)
}

/// What stands before a byte and after it, and for how many bytes that is one game.
const CLASSES: &str = r#"
1. e4  |  * | 71
1. e4 { | } * | 255
[A " | "]\n* | 222
[A |  "x"]\n* | 69
"#;

#[test]
fn bytes_have_their_classes(rt: HostRuntime) -> Result<(), Fail> {
    assert!(rt; has_pieces(rt.alloc(), b"1. e4 * *", "game 0; game 8"));
    rows_hold(&Says::Counts.over(rt.alloc()), CLASSES, 4)
}

#[test]
fn a_large_block_of_open_variations_is_unreadable(rt: HostRuntime) -> Result<(), Fail> {
    let block = vec![in rt.alloc(); b'('; 1_048_576]?;
    assert!(rt; has_pieces(rt.alloc(), &block, "unreadable 0"));
    Ok(())
}

/// Whether the element is what the words say, by their first letter: `move e4`, `glyph 25`,
/// `comment x`, `open` or `end`.
fn is_element(element: &Element<'_>, words: &str) -> bool {
    let (kind, rest) = words.split_once(' ').unwrap_or((words, ""));
    match element {
        Element::Move(word) => is_kind(kind, b'm') && *word == rest.as_bytes(),
        Element::Glyph(number) => is_kind(kind, b'g') && rest.parse::<u8>() == Ok(*number),
        Element::Comment(text) => is_kind(kind, b'c') && *text == rest.as_bytes(),
        Element::Open => is_kind(words, b'o'),
        Element::Close => is_kind(words, b'e'),
    }
}

/// Whether the game has these elements.
pub fn has_elements(game: &RawGame<'_>, wanted: &str) -> bool {
    let mut count = 0usize;
    for words in wanted.split("; ") {
        match game.elements().get(count) {
            Some(element) if is_element(element, words) => {}
            _ => return false,
        }
        count = count.saturating_add(1);
    }
    game.elements().len() == count
}

/// A game, and its elements.
const ELEMENTS: &str = "
1. e4 $25e5 * | move e4; glyph 25; move e5
1. e4!!? * | move e4; glyph 3; glyph 2
[A \"x\\\\\"y\"]\\n1. e4 ()* | move e4; open; end
1. e4 {[%clk 0:03:00]} e5 ; a note }\\n2. Nf3 (2. Bc4 {x} (2. d4) Bc5) 2... Nc6 $1 1/2-1/2 | \
    move e4; comment [%clk 0:03:00]; move e5; comment  a note }; move Nf3; open; move Bc4; \
    comment x; open; move d4; end; move Bc5; end; move Nc6; glyph 1
a! b? c!! d?? e!? f?! * | move a; glyph 1; move b; glyph 2; move c; glyph 3; move d; glyph 4; \
    move e; glyph 5; move f; glyph 6
a8=Q+ Nb:d7# e2-e4 x/y_1 0-0+ -- $255 {} * | move a8=Q+; move Nb:d7#; move e2-e4; move x/y_1; \
    move 0-0+; move --; glyph 255; comment
";

#[test]
fn elements_are_read_in_order(rt: HostRuntime) -> Result<(), Fail> {
    rows_hold(&Says::Elements.over(rt.alloc()), ELEMENTS, 6)
}

/// Whether the game's tag of that name has these contents.
pub fn has_tag<'a>(game: &RawGame<'a>, contents: &[u8], name: &'a str) -> bool {
    match game.tags().get(&name.as_bytes()) {
        Some(found) => *found == contents && is_contents(contents),
        None => false,
    }
}

/// A text, the contents of a tag, and its name.
const TAGS: &str = r#"
 [A "x\\"y"][B "1"]\n[ A\n "z" ][b ""]1. e4 ()* | x\\"y | A
 [A "x\\"y"][B "1"]\n[ A\n "z" ][b ""]1. e4 ()* | 1 | B
 [A "x\\"y"][B "1"]\n[ A\n "z" ][b ""]1. e4 ()* |  | b
"#;

#[test]
fn tags_are_read(rt: HostRuntime) -> Result<(), Fail> {
    rows_hold(&Says::Tag.over(rt.alloc()), TAGS, 3)
}

/// Whether the game stands at the place, with so many tags and the result word.
pub fn is_game(game: &RawGame<'_>, at: &str, tags: &str, end: &str) -> bool {
    at.parse::<usize>() == Ok(game.at())
        && tags.parse::<usize>() == Ok(game.tags().len())
        && game.result() == end.as_bytes()
}

/// A text, the place of its game, how many tags that has, and its result word.
const RESULTS: &str = r#"
 [A "x\\"y"][B "1"]\n[ A\n "z" ]1. e4 ()* | 1 | 2 | *
{c}\n1. e4 1/2-1/2 | 4 | 0 | 1/2-1/2
0-1 * | 0 | 0 | 0-1
"#;

#[test]
fn places_and_results_are_read(rt: HostRuntime) -> Result<(), Fail> {
    rows_hold(&Says::Game.over(rt.alloc()), RESULTS, 3)
}

/// A text, and the bytes of its first game.
const BYTES: &str = r#"
 1. e4 *  {c} | 1. e4 *
1/2-1/2 * | 1/2-1/2
{c}[A "\\""]\n\n1. e4 (1. d4) 0-1\n | [A "\\""]\n\n1. e4 (1. d4) 0-1
"#;

#[test]
fn games_have_their_bytes(rt: HostRuntime) -> Result<(), Fail> {
    rows_hold(&Says::Bytes.over(rt.alloc()), BYTES, 3)
}

/// Whether the bytes are the contents of a string with this value, or `other` bytes.
pub fn has_value(alloc: Global, bytes: &str, wanted: &str, kind: &str) -> Option<bool> {
    let bytes = bytes_of(alloc, bytes)?;
    if !is_contents(&bytes) {
        return Some(kind == "other");
    }
    let wanted = bytes_of(alloc, wanted)?;
    let found: Vec<u8> = value(&bytes).collect(alloc).ok()?;
    Some(kind == "contents" && found.as_slice() == wanted.as_slice())
}

/// Bytes, their value where they are the contents of a string, and whether they are.
const VALUES: &str = r#"
x\\"y\\\\\\z | x"y\\\\z | contents
 |  | contents
\\n | \\n | contents
\xE9\x09\\\\ | \xE9\x09\\ | contents
x\\ |  | other
" |  | other
\n |  | other
\x7F |  | other
\\\x11 |  | other
"#;

#[test]
fn values_lose_backslashes(rt: HostRuntime) -> Result<(), Fail> {
    rows_hold(&Says::Value.over(rt.alloc()), VALUES, 9)
}
