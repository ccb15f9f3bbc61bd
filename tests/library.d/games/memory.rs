//! What is left after a refusal of memory, in the process that met it. Where no request is refused
//! the calls go well; `rt try --test --fail-alloc N` refuses the Nth request of each test, and
//! these hold for each N.
use crate::support::{Pieces, TWO_GAMES, first_game};
use pgn_game::{Commands, GameFault, LineForm, Lines, Style, export, export_lines, replay};
use pgn_text::{Blocks, ReadError, Tally, games};
use std::alloc::Global;
use std::test::Fail;

/// A game with tags, comments, NAGs and variations.
const ELEMENTS: &[u8] =
    b"[White \"a \\\"b\\\"\"]\n[ECO \"A00\"]\n\n1. e4! {a [Event \"x\"] %b} (1. d4 (1. c4 -- 2. Nf3) d5 $2) e5 2. Nf3 Nc6 3. Bb5 ; words\na6 4. O-O 1/2-1/2";

/// Everything is kept.
const WHOLE: Style = Style {
    comments: true,
    commands: Commands::InWords,
    glyphs: true,
    variations: true,
    roster_only: false,
    width: 80,
};

/// Whether `next` fails after a refusal of memory, and goes well without one.
fn next_fails(alloc: Global) -> bool {
    let mut blocks = Blocks::new(alloc, 0);
    let mut input = Tally::new(Pieces::new(TWO_GAMES, 8192));
    for _ in 0..3u8 {
        let is_refused = matches!(blocks.next(&mut input), Err(ReadError::OutOfMemory));
        if is_refused {
            return matches!(blocks.next(&mut input), Err(ReadError::Failed));
        }
    }
    matches!(blocks.next(&mut input), Ok(None))
}

/// Whether the pieces of a block end after a refusal of memory.
fn games_end(alloc: Global) -> bool {
    let mut was_refused = false;
    for piece in games(alloc, ELEMENTS, true) {
        if was_refused {
            return false;
        }
        was_refused = piece.is_err();
    }
    true
}

/// Whether an export that is refused memory leaves its vector as it was, and one that is not writes
/// after it.
fn export_leaves(alloc: Global) -> bool {
    let game = match first_game(alloc, ELEMENTS) {
        Ok(Some(game)) => game,
        Ok(None) => return false,
        Err(_) => return true,
    };
    let replayed = match replay(alloc, &game, Lines::All) {
        Ok(replayed) => replayed,
        Err(fault) => return matches!(fault, GameFault::OutOfMemory),
    };
    let mut out = Vec::new(alloc);
    if out.push(b'>').is_err() {
        return true;
    }
    match export(alloc, &game, &replayed, &WHOLE, &mut out) {
        Ok(()) => out.as_slice().starts_with(b">[Event \"?\"]\n") && out.len() > 200,
        Err(_) => out.as_slice() == b">".as_slice(),
    }
}

/// Whether the lines of a game leave the vector as it was where memory is refused, and are written
/// after it where it is not.
fn lines_leave(alloc: Global) -> bool {
    let game = match first_game(alloc, ELEMENTS) {
        Ok(Some(game)) => game,
        Ok(None) => return false,
        Err(_) => return true,
    };
    let mut out = Vec::new(alloc);
    if out.push(b'>').is_err() {
        return true;
    }
    let form = LineForm::Export {
        edits: None,
        style: &WHOLE,
    };
    match export_lines(alloc, &game, form, &mut out) {
        Ok(()) => out.as_slice().starts_with(b">[Event \"?\"]\n") && out.len() > 400,
        Err(GameFault::OutOfMemory) => out.as_slice() == b">".as_slice(),
        Err(_) => false,
    }
}

#[test]
fn next_fails_after_a_refusal(rt: HostRuntime) -> Result<(), Fail> {
    assert!(rt; next_fails(rt.alloc()));
    Ok(())
}

#[test]
fn games_end_after_a_refusal(rt: HostRuntime) -> Result<(), Fail> {
    assert!(rt; games_end(rt.alloc()));
    Ok(())
}

#[test]
fn an_export_that_is_refused_leaves_its_vector(rt: HostRuntime) -> Result<(), Fail> {
    assert!(rt; export_leaves(rt.alloc()));
    Ok(())
}

#[test]
fn lines_that_are_refused_leave_their_vector(rt: HostRuntime) -> Result<(), Fail> {
    assert!(rt; lines_leave(rt.alloc()));
    Ok(())
}
