//! Games with the main line, or the turns of all lines, that they must be replayed to, or the fault
//! that they must be refused for.
use crate::games::rows::Says;
use crate::rows::is_kind;
use crate::support::{first_game, rows_hold};
use chess::{Move, Side};
use pgn_game::memory::turn_after;
use pgn_game::{
    GameFault, LineMove, Lines, Replayed, check_lines, check_variations, count_plies, replay,
    replay_beginning,
};
use pgn_text::RawGame;
use std::alloc::Global;
use std::test::Fail;

/// Whether the move goes between the two squares, as `e2e4`, and is no promotion and no castling.
fn goes(m: &Move, squares: &str) -> bool {
    let name = [
        m.from.file().wrapping_add(b'a' - 1),
        m.from.rank().wrapping_add(b'0'),
        m.to.file().wrapping_add(b'a' - 1),
        m.to.rank().wrapping_add(b'0'),
    ];
    m.promote.is_none() && m.castle.is_none() && squares.as_bytes() == name.as_slice()
}

/// Whether the main line of the game has so many plies, replayed and counted; no turns of other
/// lines are kept beside it.
pub fn has_plies(alloc: Global, game: &RawGame<'_>, columns: [&str; 5]) -> Option<bool> {
    let [_, plies, ..] = columns;
    let plies = plies.parse::<usize>().ok()?;
    let replayed = replay(alloc, game, Lines::Main).ok()?;
    let is_counted = count_plies(alloc, game) == Ok(plies);
    let is_sound = check_lines(alloc, game, Lines::Main).is_ok();
    Some(replayed.plies() == plies && is_counted && replayed.turns() == 0 && is_sound)
}

/// A game, and the plies of its main line.
const PLIES: &str = r#"
* | 0
1. e4 e5 * | 2
1. e4 (1. Qxh8) e5 * | 2
1. e4 (1. d4 (1. c4) d5) {x} e5 $1 (1... --) 2. Nf3 ; y\n* | 3
1. f4 e5 2. fxe5 d6 3. exd6 Bxd6 * | 6
1. e4! e5?? 2. Qh5 Nc6 3. Bc4 Nf6 4. Qxf7# 1-0 | 7
[FEN "4k3/8/8/8/8/8/8/4K2R w K - 0 1"]\n\n1. O-O * | 1
[SetUp "0"]\n[FEN "4k3/8/8/8/8/8/8/4K2R w K - 0 1"]\n\n1. 0-0+ * | 1
[Event "x\\\\"]\n\n1. e4 * | 1
"#;

#[test]
fn sound_games_have_their_plies(rt: HostRuntime) -> Result<(), Fail> {
    rows_hold(&Says::Plies.over(rt.alloc()), PLIES, 9)
}

/// Whether the fault is this kind, by its first letter, of the word at the ply.
fn is_fault(fault: &GameFault<'_>, columns: [&str; 5]) -> bool {
    let [_, kind, wanted, at, _] = columns;
    match fault {
        GameFault::BadPosition => is_kind(kind, b'b'),
        GameFault::Illegal { word, ply } => {
            is_kind(kind, b'i') && *word == wanted.as_bytes() && at.parse::<usize>() == Ok(*ply)
        }
        GameFault::Ambiguous { word, ply } => {
            is_kind(kind, b'a') && *word == wanted.as_bytes() && at.parse::<usize>() == Ok(*ply)
        }
        GameFault::OutOfMemory => false,
    }
}

/// Whether the game has this fault where its plies are counted.
pub fn count_has_fault(alloc: Global, game: &RawGame<'_>, columns: [&str; 5]) -> bool {
    match count_plies(alloc, game) {
        Ok(_) => false,
        Err(found) => is_fault(&found, columns),
    }
}

/// Whether the game has this fault in these lines.
pub fn has_fault(alloc: Global, game: &RawGame<'_>, lines: Lines, columns: [&str; 5]) -> bool {
    let is_checked = match check_lines(alloc, game, lines) {
        Ok(()) => false,
        Err(found) => is_fault(&found, columns),
    };
    let is_replayed = match replay(alloc, game, lines) {
        Ok(_) => false,
        Err(found) => is_fault(&found, columns),
    };
    is_checked && is_replayed
}

/// Whether the main line of the game is sound, and its variations have this fault, or are `sound`.
pub fn variations_end_so(alloc: Global, game: &RawGame<'_>, columns: [&str; 5]) -> bool {
    if check_lines(alloc, game, Lines::Main).is_err() {
        return false;
    }
    match check_variations(alloc, game) {
        Ok(()) => is_kind(columns[1], b's'),
        Err(found) => is_fault(&found, columns),
    }
}

/// Whether the beginning of the game has so many plies where so many are asked for, or is
/// `refused`.
pub fn has_beginning(alloc: Global, game: &RawGame<'_>, columns: [&str; 5]) -> Option<bool> {
    let [_, most, plies, ..] = columns;
    match replay_beginning(alloc, game, most.parse::<usize>().ok()?) {
        Ok(beginning) => Some(plies.parse::<usize>() == Ok(beginning.plies())),
        Err(_) => Some(is_kind(plies, b'r')),
    }
}

/// A game, the plies that are asked for, and those of its beginning; it is refused where its main
/// line is faulty up to there.
const BEGINNINGS: &str = r#"
1. e4 e5 2. Nf3 * | 0 | 0
1. e4 e5 2. Nf3 * | 1 | 1
1. e4 e5 2. Nf3 * | 3 | 3
1. e4 e5 2. Nf3 * | 9 | 3
1. e4 (1. Z0 x) e5 2. Nf3 * | 2 | 2
1. e4 e5 2. Ke3 * | 2 | 2
1. e4 e5 2. Ke3 * | 3 | refused
[FEN "x"]\n\n1. e4 * | 0 | refused
* | 4 | 0
"#;

#[test]
fn beginnings_have_their_plies(rt: HostRuntime) -> Result<(), Fail> {
    rows_hold(&Says::Beginning.over(rt.alloc()), BEGINNINGS, 9)
}

/// A game whose main line is sound, and the fault of its variations.
const VARIATIONS: &str = r#"
1. e4 e5 * | sound
1. e4 (1. d4 d5 (1... f5)) e5 (1... --) * | sound
1. e4 (1. d4 Qh4) e5 * | illegal | Qh4 | 2
1. Nf3 d5 2. d3 Nf6 3. Nbd2 (3. Nd2 e6) 3... e6 * | ambiguous | Nd2 | 5
1. e4 e5 (1... e4 2. Z0) * | illegal | e4 | 2
"#;

#[test]
fn variations_are_sound_or_have_their_fault(rt: HostRuntime) -> Result<(), Fail> {
    rows_hold(&Says::Variations.over(rt.alloc()), VARIATIONS, 5)
}

/// A game, and the fault of its main line.
const FAULTS: &str = r#"
[FEN "4k3/8/8/8/8/2N5/8/4K1N1 w - - 0 1"]\n\n1. Ne2 * | ambiguous | Ne2 | 1
1. e4 -- * | illegal | -- | 2
[FEN "x"]\n\n1. e4 * | bad position
[FEN "x"]\n\n1. Qxh8 * | bad position
[FEN ""]\n\n* | bad position
[FEN "4k3/8/8/8/8/8/8/4K3 w - - 0 1\\\\"]\n\n* | bad position
[FEN "4k3/8/8/8/8/8/5r2/4K2R w K - 0 1"]\n\n1. O-O * | illegal | O-O | 1
1. e4 e4 * | illegal | e4 | 2
1. e4 (1. Qxh8) e5 {x} 2. Ke3!? -- * | illegal | Ke3 | 3
1. Nf3 d5 2. d3 Nf6 3. Nd2 e6 4. Qh5 * | ambiguous | Nd2 | 5
"#;

#[test]
fn faulty_games_have_their_faults(rt: HostRuntime) -> Result<(), Fail> {
    rows_hold(&Says::Fault.over(rt.alloc()), FAULTS, 10)
}

/// A game, and the first fault of all its lines.
const FIRST_FAULTS: &str = r#"
1. e4 (1. d4 Qh4) e5 * | illegal | Qh4 | 2
1. e4 Z0 * | illegal | Z0 | 2
1. -- * | illegal | -- | 1
1. e4 e6 2. e5 d5 (2... f5 3. -- -- 4. exf6) 3. d4 * | illegal | exf6 | 7
1. e4 f5 2. Qh5+ g6 (2... --) 3. Qe2 * | illegal | -- | 4
1. e4 (1. Z0+) e5 * | illegal | Z0+ | 1
1. e4 (1. z0) e5 * | illegal | z0 | 1
1. e4 (1. Qxh8) e4 * | illegal | Qxh8 | 1
1. e4 e4 (1... Qxh8) * | illegal | e4 | 2
1. e4 e5 (1... c5 (1... d5 2. Qh4) 2. Nf3) 2. d4 * | illegal | Qh4 | 3
1. e4 e5 (1... c5) (1... d5 2. Nf3 Ke6) 2. d4 * | illegal | Ke6 | 4
1. e4 e5 (1... c5 2. d4) 2. dxc5 * | illegal | dxc5 | 3
[FEN "4k3/8/8/8/8/2N5/8/4K1N1 w - - 0 1"]\n\n1. Kd1 (1. Ne2) * | ambiguous | Ne2 | 1
[FEN "x"]\n\n1. e4 (1. Qxh8) * | bad position
"#;

#[test]
fn the_first_fault_of_all_lines_is_reported(rt: HostRuntime) -> Result<(), Fail> {
    rows_hold(&Says::FirstFault.over(rt.alloc()), FIRST_FAULTS, 14)
}

/// Whether the turn is this step: two squares, or `--` for a pass.
fn is_step(turn: &LineMove, step: &str) -> bool {
    match turn {
        LineMove::Played(m) => goes(m, step),
        LineMove::Passed => is_kind(step, b'-'),
    }
}

/// Whether all lines of the game are these steps in the order of the text, and its main line has so
/// many plies.
pub fn has_lines(alloc: Global, game: &RawGame<'_>, columns: [&str; 5]) -> Option<bool> {
    let [_, steps, plies, ..] = columns;
    let plies = plies.parse::<usize>().ok()?;
    let replayed = replay(alloc, game, Lines::All).ok()?;
    let mut count = 0usize;
    for step in steps.split_whitespace() {
        match turn_after(&replayed, count) {
            Some(turn) if is_step(&turn, step) => {}
            _ => return Some(false),
        }
        count = count.saturating_add(1);
    }
    Some(replayed.plies() == plies && replayed.turns() == count)
}

/// A game, the turns of all its lines, and the plies of its main line.
const TURNS: &str = r#"
* |  | 0
1. e4 e5 * | e2e4 e7e5 | 2
1. e4 (1. -- e5) e5 * | e2e4 -- e7e5 e7e5 | 2
1. e4 (1. Z0 e5) e5 * | e2e4 -- e7e5 e7e5 | 2
1. e4 ( ) e5 * | e2e4 e7e5 | 2
1. e4 {x} (1. d4 d5 $1) e5 2. Nf3 * | e2e4 d2d4 d7d5 e7e5 g1f3 | 3
1. e4 (1. d4) (1. c4 c5) e5 * | e2e4 d2d4 c2c4 c7c5 e7e5 | 2
1. e4 e5 (1... c5 (1... d5) 2. Nf3) 2. d4 * | e2e4 e7e5 c7c5 d7d5 g1f3 d2d4 | 3
1. e4 f5 2. Qh5+ g6 (2... g6 3. --) 3. Qe2 * | e2e4 f7f5 d1h5 g7g6 g7g6 -- h5e2 | 5
"#;

#[test]
fn all_lines_have_their_turns(rt: HostRuntime) -> Result<(), Fail> {
    rows_hold(&Says::Turns.over(rt.alloc()), TURNS, 9)
}

/// Whether the ply is there, with this side to move and this fullmove number.
fn is_at(replayed: &Replayed, ply: usize, side: Side, number: u32) -> bool {
    ply <= replayed.plies()
        && replayed.position(ply).side() == side
        && replayed.position(ply).number() == number
}

/// Whether the move of the ply is there and goes between the two squares.
fn is_played(replayed: &Replayed, ply: usize, squares: &str) -> bool {
    ply < replayed.plies() && goes(&replayed.played(ply), squares)
}

/// Whether the positions and moves of `1. e4 e5` follow one another.
fn follows_the_moves(replayed: &Replayed) -> bool {
    replayed.plies() == 2
        && is_at(replayed, 0, Side::White, 1)
        && is_at(replayed, 1, Side::Black, 1)
        && is_at(replayed, 2, Side::White, 2)
        && is_played(replayed, 0, "e2e4")
        && is_played(replayed, 1, "e7e5")
}

/// Whether `7... Kd7 8. e4` is played from the position of its FEN tag.
fn starts_from_its_tag(replayed: &Replayed) -> bool {
    replayed.plies() == 2
        && is_at(replayed, 0, Side::Black, 7)
        && is_at(replayed, 2, Side::Black, 8)
        && is_played(replayed, 0, "e8d7")
        && is_played(replayed, 1, "e2e4")
}

#[test]
fn positions_follow_the_moves(rt: HostRuntime) -> Result<(), Fail> {
    let block = b"1. e4 (1. d4 d5) e5 *";
    let Some(game) = first_game(rt.alloc(), block)? else {
        panic!(rt; "no game");
    };
    match replay(rt.alloc(), &game, Lines::Main) {
        Ok(replayed) => assert!(rt; follows_the_moves(&replayed)),
        Err(_) => panic!(rt; "not replayed"),
    }
    Ok(())
}

#[test]
fn a_game_starts_from_its_fen_tag(rt: HostRuntime) -> Result<(), Fail> {
    let block = b"[SetUp \"0\"]\n[FEN \"4k3/8/8/8/8/8/4P3/4K3 b - - 0 7\"]\n\n7... Kd7 8. e4 *";
    let Some(game) = first_game(rt.alloc(), block)? else {
        panic!(rt; "no game");
    };
    match replay(rt.alloc(), &game, Lines::Main) {
        Ok(replayed) => assert!(rt; starts_from_its_tag(&replayed)),
        Err(_) => panic!(rt; "not replayed"),
    }
    Ok(())
}
