//! The lines of games, as games of their own and on lines of text.
use crate::games::rows::Says;
use crate::support::rows_hold;
use pgn_game::{
    Commands, GameFault, LineForm, Lines, Notation, Style, TagEdits, Variation, Variations,
    check_lines, export_lines,
};
use pgn_text::{Element, RawGame};
use std::alloc::Global;
use std::str;
use std::test::Fail;

/// Everything is kept.
const WHOLE: Style = Style {
    comments: true,
    commands: Commands::InWords,
    glyphs: true,
    variations: true,
    roster_only: false,
    width: 80,
};

/// What stands in the string of a tag line that begins so.
fn contents<'a>(line: &'a str, front: &str) -> Option<&'a str> {
    let (_, rest) = line.split_once(front)?;
    let (contents, _) = rest.split_once("\"")?;
    Some(contents)
}

/// Of an export the contents of Result, those of PlyCount and a p, and the lines of movetext, each
/// of these before a semicolon.
fn shown(alloc: Global, text: &[u8]) -> Option<Vec<u8>> {
    let mut shown = Vec::new(alloc);
    for line in str::from_utf8(text).ok()?.lines() {
        if let Some(result) = contents(line, "[Result \"") {
            shown.extend_from_slice(result.as_bytes()).ok()?;
            shown.push(b' ').ok()?;
        } else if let Some(plies) = contents(line, "[PlyCount \"") {
            shown.extend_from_slice(plies.as_bytes()).ok()?;
            shown.extend_from_slice(b"p ").ok()?;
        } else if !line.is_empty() && !line.starts_with("[") {
            shown.extend_from_slice(line.as_bytes()).ok()?;
            shown.push(b';').ok()?;
        }
    }
    Some(shown)
}

/// How lines are written: in a notation after an x, or as exports.
fn form<'s>(how: &str, edits: Option<&'s TagEdits>) -> LineForm<'s> {
    let before = b"x ".as_slice();
    match how {
        "san" => LineForm::Turns {
            notation: Notation::San,
            before,
        },
        "uci" => LineForm::Turns {
            notation: Notation::Uci,
            before,
        },
        _ => LineForm::Export {
            edits,
            style: &WHOLE,
        },
    }
}

/// Whether the lines of the game are written so, in this notation or as exports, up to this ply
/// where it is a number; or are refused for a fault, and nothing is written.
pub fn writes_lines(alloc: Global, game: &RawGame<'_>, columns: [&str; 5]) -> Option<bool> {
    let [_, how, wanted, ..] = columns;
    let edits = match how.parse::<u32>() {
        Ok(last_ply) => Some(TagEdits::new(alloc, true, Some(last_ply))),
        Err(_) => None,
    };
    let mut out = Vec::new(alloc);
    match export_lines(alloc, game, form(how, edits.as_ref()), &mut out) {
        Ok(()) => Some(shown(alloc, &out)?.as_slice() == wanted.as_bytes()),
        Err(GameFault::OutOfMemory) => None,
        Err(_) => Some(wanted == "fault" && out.is_empty()),
    }
}

/// A game, the last ply that is written or a notation, and its lines. Their moves are those that
/// Debian's pgn-extract writes with --splitvariants.
const LINES: &str = r#"
1. e4 e5 1-0 | - | 1-0 1. e4 e5 1-0;
1. e4 (1. d4 d5) e5 1-0 | - | 1-0 1. e4 e5 1-0;* 1. d4 d5 *;
[Result "1-0"]\n\n1. e4 e5 (1... c5) 1-0 | - | 1-0 1. e4 e5 1-0;* 1. e4 c5 *;
1. e4 (1. d4 d5 (1... f5 2. c4) 2. c4) * | - | * 1. e4 *;* 1. d4 d5 2. c4 *;* 1. d4 f5 2. c4 *;
1. e4 (1. d4) (1. c4) e5 (1... c5) * | - | * 1. e4 e5 *;* 1. d4 *;* 1. c4 *;* 1. e4 c5 *;
1. e4 (1. d4 (1. c4 (1. b4) c5) d5) * | - | * 1. e4 *;* 1. d4 d5 *;* 1. c4 c5 *;* 1. b4 *;
1. e4 {a} e5 ({b} 1... c5 $1 {c}) * | - | * 1. e4 {a} 1... e5 *;* 1. e4 {b} 1... c5 $1 {c} *;
1. e4 (1. d4 () d5) * | - | * 1. e4 *;* 1. d4 d5 *;* *;
1. e4 e5 (1... -- 2. d4 Z0) * | - | * 1. e4 e5 *;* 1. e4 -- 2. d4 -- *;
1. e4 (1. -- e5 (1... d5)) * | - | * 1. e4 *;* 1. -- e5 *;* 1. -- d5 *;
[FEN "4k3/8/8/8/8/8/8/4K2R b K - 0 9"]\n\nKd7 (Kd8) * | - | * 9... Kd7 *;* 9... Kd8 *;
1. e4 (1. d4 d5 2. c4) e5 2. Nf3 * | 2 | * 2p 1. e4 e5 *;* 2p 1. d4 d5 *;
1. e4 e5 (1... c5) * | 1 | * 1p 1. e4 *;* 1p 1. e4 *;
1. e4 e5 (1... -- 2. d4 Z0) * | san | x - e4 e5;x - e4 -- d4 --;
1. e4 e5 (1... -- 2. d4 Z0) * | uci | x - e2e4 e7e5;x - e2e4 0000 d2d4 0000;
1. e4 (1. d4 () d5 {a}) 1... Nc6 $1 1-0 | san | x - e4 Nc6;x - d4 d5;x -;
[FEN "k7/8/8/8/8/8/1p6/7K b - - 0 9"]\n\nb1=N * | uci | x k7/8/8/8/8/8/1p6/7K_b_-_-_0_9 b2b1n;
1. e4 (1. Qh5) e5 * | san | fault
1. e4 (1. Qh5) e5 * | - | fault
1. e4 -- * | - | fault
"#;

#[test]
fn each_line_is_a_game(rt: HostRuntime) -> Result<(), Fail> {
    rows_hold(&Says::Lines.over(rt.alloc()), LINES, 20)
}

/// Appends the first own ply of a variation and its moves, each after a blank, and a semicolon.
fn push_variation(shown: &mut Vec<u8>, variation: &Variation<'_>) -> Option<()> {
    shown.push(b'0' + variation.own_ply as u8).ok()?;
    for element in variation.game.elements() {
        if let Element::Move(word) = *element {
            shown.push(b' ').ok()?;
            shown.extend_from_slice(word).ok()?;
        }
    }
    shown.push(b';').ok()
}

/// Whether the variations of the game are so as main lines, or one of its lines is faulty.
pub fn has_variations(alloc: Global, game: &RawGame<'_>, columns: [&str; 5]) -> Option<bool> {
    let [_, wanted, ..] = columns;
    if check_lines(alloc, game, Lines::All).is_err() {
        return Some(wanted == "fault");
    }
    let mut shown = Vec::new(alloc);
    let mut left = Variations::of_game(alloc, game);
    loop {
        if let Some(variation) = left.here().ok()? {
            push_variation(&mut shown, &variation)?;
        }
        if !left.go_on().ok()? {
            return Some(shown.as_slice() == wanted.as_bytes());
        }
    }
}

/// A game and its variations: the first ply that no line around each has, and its moves up to its
/// first pass, with those that lead to it. By hand, from the standard's 8.2.5.
const VARIATIONS: &str = r#"
1. e4 (1. d4 d5) e5 1-0 | 1 d4 d5;
1. e4 (1. d4 d5 (1... f5 2. c4) 2. c4) * | 1 d4 d5 c4;2 d4 f5 c4;
1. e4 (1. d4) (1. c4) e5 (1... c5) * | 1 d4;1 c4;2 e4 c5;
1. e4 e5 2. Nf3 (2. f4 exf4 3. Nf3 (3. Bc4 Qh4+)) * | 3 e4 e5 f4 exf4 Nf3;5 e4 e5 f4 exf4 Bc4 Qh4+;
1. e4 (1. d4 () d5) * | 1 d4 d5;1;
1. e4 e5 (1... -- 2. d4 Z0) * | 2 e4;
1. e4 e5 (1... c5 2. Z0 d6 (2... d5)) * | 2 e4 c5;4 e4 c5;
1. e4 (1. Qh5) e5 * | fault
"#;

#[test]
fn each_variation_is_a_main_line(rt: HostRuntime) -> Result<(), Fail> {
    rows_hold(&Says::Searched.over(rt.alloc()), VARIATIONS, 8)
}
