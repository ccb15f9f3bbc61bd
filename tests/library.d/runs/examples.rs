//! Examples of calls over known bytes, as the crates' pages show them.

use crate::support::first_game;
use chess::{Bits, Position, resolve};
use pgn_criteria::Criteria;
use pgn_criteria::memory::first_met;
use pgn_extract::memory::{TwoFiles, Written, list_files, list_text};
use pgn_extract::{EntryLine, Fields, Form, Mode, RunError, Select, Settings};
use pgn_game::memory::exported;
use pgn_game::{Commands, Style};
use std::alloc::Global;
use std::test::Fail;

/// The example of `chess`.
fn after_word(fen: &[u8], word: &[u8]) -> Option<Position<Bits>> {
    let position = Position::<Bits>::from_fen(fen).ok()?;
    let m = resolve(&position, word).ok()?;
    Some(position.play(m))
}

/// Whether the example of `pgn_criteria` answers so of a block's first game.
fn is_first_met(
    alloc: Global,
    criteria: &[u8],
    block: &[u8],
    wanted: Option<usize>,
) -> Result<bool, Fail> {
    let Ok(criteria) = Criteria::parse(alloc, criteria) else {
        return Err("the criteria were refused")?;
    };
    let Some(game) = first_game(alloc, block)? else {
        return Ok(false);
    };
    Ok(first_met(alloc, &criteria, &game)? == wanted)
}

/// The example of `pgn_extract`.
fn listed(alloc: Global, text: &[u8], settings: &Settings) -> Result<Vec<u8>, RunError> {
    let Written { out, err: _ } = list_text(alloc, text, settings)?;
    Ok(out)
}

/// What asks for each ply of games but the start, or for the first of each game.
fn plies(first: bool) -> Settings {
    Settings {
        name: None,
        chosen: None,
        openings: None,
        mode: Mode::List,
        criteria: None,
        min_ply: 1,
        max_ply: u32::MAX,
        first,
        line: EntryLine::Marked(Fields::NONE),
        select: Select::Matching,
        form: Form::Standard,
        edits: None,
        style: WHOLE,
        explain: false,
        tags_first: false,
        number: 1,
        offset: 0,
    }
}

/// Whether that example lists these lines.
fn is_listed(alloc: Global, text: &[u8], first: bool, wanted: &[u8]) -> bool {
    match listed(alloc, text, &plies(first)) {
        Ok(out) => out.as_slice() == wanted,
        Err(_) => false,
    }
}

/// Whether the word leads to a position with this text, or to none.
fn leads(fen: &[u8], word: &[u8], after: Option<&str>) -> bool {
    match (after_word(fen, word), after) {
        (Some(found), Some(text)) => found.fen().as_str() == text,
        (None, None) => true,
        _ => false,
    }
}

#[test]
fn a_word_leads_to_a_position(rt: HostRuntime) -> Result<(), Fail> {
    let initial = b"rnbqkbnr/pppppppp/8/8/8/8/PPPPPPPP/RNBQKBNR w KQkq - 0 1";
    let after = "rnbqkbnr/pppppppp/8/8/4P3/8/PPPP1PPP/RNBQKBNR b KQkq e3 0 1";
    assert!(rt; leads(initial, b"e4", Some(after)));
    assert!(rt; leads(initial, b"e5", None));
    assert!(rt; leads(b"8/8", b"e4", None));
    Ok(())
}

/// Everything is kept.
const WHOLE: Style = Style {
    comments: true,
    commands: Commands::InWords,
    glyphs: true,
    variations: true,
    roster_only: false,
    width: 80,
};

#[test]
fn the_games_of_a_block_are_exported(rt: HostRuntime) -> Result<(), Fail> {
    let text =
        b"[Event \"?\"]\n[Site \"?\"]\n[Date \"????.??.??\"]\n[Round \"?\"]\n[White \"?\"]\n[Black \"?\"]\n[Result \"*\"]\n\n1. e4 *\n\n[Event \"?\"]\n[Site \"?\"]\n[Date \"????.??.??\"]\n[Round \"?\"]\n[White \"?\"]\n[Black \"?\"]\n[Result \"*\"]\n\n1. d4 *\n\n";
    let found = exported(rt.alloc(), b"1. e4 *\n1. e5 *\n1. d4 *\n", &WHOLE)?;
    assert!(rt; found.as_slice() == text.as_slice());
    Ok(())
}

#[test]
fn the_first_ply_that_meets_criteria(rt: HostRuntime) -> Result<(), Fail> {
    assert!(rt; is_first_met(rt.alloc(), b"check", b"1. e4 f6 2. Qh5+ g6 *", Some(3))?);
    assert!(rt; is_first_met(rt.alloc(), b"check", b"1. e4 *", None)?);
    assert!(rt; is_first_met(rt.alloc(), b"check", b"1. e5 *", None)?);
    Ok(())
}

#[test]
fn a_text_in_memory_is_listed(rt: HostRuntime) -> Result<(), Fail> {
    let text = b"1. e4 e5 *\n1. e5 *\n1. d4 *\n";
    assert!(rt; is_listed(rt.alloc(), text, false, b"1@0 1\n1@0 2\n3@19 1\n"));
    assert!(rt; is_listed(rt.alloc(), text, true, b"1@0 1\n3@19 1\n"));
    Ok(())
}

#[test]
fn two_files_in_memory_are_listed(rt: HostRuntime) -> Result<(), Fail> {
    let mut files = TwoFiles {
        first: b"1. e4 *\n",
        second: b"1. d4 d5 *\n1. e5 *\n",
    };
    let Ok(written) = list_files(rt.alloc(), &mut files, plies(false), u64::MAX) else {
        return Err("the run failed")?;
    };
    assert!(rt; written.out.as_slice() == b"1@0 1\n1@0 1\n1@0 2\n".as_slice());
    let lines =
        b"pgn-extract: cannot open input: none.pgn: entity not found\npgn-extract: game 2@11: illegal move e5 at ply 1\n".as_slice();
    assert!(rt; written.err.as_slice() == lines);
    Ok(())
}
