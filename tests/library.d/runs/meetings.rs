//! The calls that ask criteria of a game, and the plies that they must find. Rows of `tests/rows.d`
//! have each condition.

use crate::support::first_game;
use pgn_criteria::Criteria;
use pgn_criteria::memory::is_met;
use pgn_game::{Lines, Replayed, replay};
use pgn_text::RawGame;
use std::alloc::Global;
use std::test::Fail;

/// The criteria of the text.
fn read(alloc: Global, text: &[u8]) -> Result<Criteria, Fail> {
    match Criteria::parse(alloc, text) {
        Ok(criteria) => Ok(criteria),
        Err(_) => Err("criteria are refused")?,
    }
}

/// The first piece, which is to be a game.
fn the_game<'a>(alloc: Global, block: &'a [u8]) -> Result<RawGame<'a>, Fail> {
    match first_game(alloc, block)? {
        Some(game) => Ok(game),
        None => Err("no game")?,
    }
}

/// The replay of the game, which is to be sound.
fn replayed(alloc: Global, game: &RawGame) -> Result<Replayed, Fail> {
    match replay(alloc, game, Lines::Main) {
        Ok(replayed) => Ok(replayed),
        Err(_) => Err("the game is faulty")?,
    }
}

/// Whether these plies of the game, and no others, meet the criteria. Each is asked alone, by the
/// criteria, by what they ask of the positions of this game, and at once. Then they are looked for
/// one after the other.
fn are_met(alloc: Global, criteria: &[u8], block: &[u8], plies: &[usize]) -> Result<bool, Fail> {
    let criteria = read(alloc, criteria)?;
    let game = the_game(alloc, block)?;
    let replayed = replayed(alloc, &game)?;
    let Ok(watched) = criteria.watch(alloc, &game) else {
        return Ok(false);
    };
    let met = criteria.met_plies(alloc, &game, &replayed)?;
    let mut min = 0u32;
    for ply in 0..=replayed.plies() {
        if criteria.meets(&game, &replayed, ply) != plies.contains(&ply) {
            return Ok(false);
        }
        if met.get(ply) != Some(&plies.contains(&ply)) {
            return Ok(false);
        }
        if is_met(alloc, &criteria, &game, ply)? != plies.contains(&ply) {
            return Ok(false);
        }
        if let Some(search) = &watched
            && search.is_met(replayed.position(ply)) != plies.contains(&ply)
        {
            return Ok(false);
        }
    }
    for ply in plies {
        if criteria.first(&game, &replayed, min, u32::MAX) != Some(*ply) {
            return Ok(false);
        }
        min = u32::try_from(*ply).unwrap_or(u32::MAX).saturating_add(1);
    }
    Ok(criteria.first(&game, &replayed, min, u32::MAX).is_none())
}

const SHORT: &[u8] = b"1. e4 e5 *";

const MATE: &[u8] = b"1. e4 e5 2. Qh5 Nc6 3. Bc4 Nf6 4. Qxf7# 1-0";

const ENDING: &[u8] = b"[Round \"9\"]\n[FEN \"4k3/4p3/8/8/8/8/4P3/4K3 w - - 0 1\"]\n\n1. e4 *";

/// Criteria, a game, and its plies that meet them.
const ASKED: [(&[u8], &[u8], &[usize]); 12] = [
    (b"", SHORT, &[0, 1, 2]),
    (b"turn black", SHORT, &[1]),
    (b"mate\nor\nturn white", MATE, &[0, 2, 4, 6, 7]),
    (
        b"moves e4 e5\nnot check\nplies > 6",
        MATE,
        &[0, 1, 2, 3, 4, 5, 6],
    ),
    (b"result 1-0\nnext *x*", MATE, &[6]),
    (b"played *", SHORT, &[1, 2]),
    (b"not check\nfor 7", MATE, &[0]),
    (b"turn white\ncount = 2", SHORT, &[0, 2]),
    (b"tag Round = \"9\"\nturn black\nor\nmate", ENDING, &[1]),
    (b"either material KP v KP*\nplies = 2", ENDING, &[]),
    (b"either fen */*/*/*/*P*/*/*/*", SHORT, &[1, 2]),
    (b"flip fen */*/*/*/3P4/*/*/*", SHORT, &[1, 2]),
];

#[test]
fn the_plies_that_meet_criteria_are_found(rt: HostRuntime) -> Result<(), Fail> {
    let alloc = rt.alloc();
    for &(criteria, block, plies) in &ASKED {
        assert!(rt;
            are_met(alloc, criteria, block, plies)?,
            "{criteria:?} in {block:?}"
        );
    }
    Ok(())
}

/// Whether the plies of the game that meet the criteria are found while it is played, with no
/// position kept.
fn are_watched(alloc: Global, criteria: &[u8], block: &[u8]) -> Result<bool, Fail> {
    let criteria = read(alloc, criteria)?;
    let game = the_game(alloc, block)?;
    match criteria.watch(alloc, &game) {
        Ok(watched) => Ok(watched.is_some()),
        Err(_) => Err("the game is faulty")?,
    }
}

/// Criteria, and whether a game is asked ply by ply, with no position kept.
const WATCHED: [(&[u8], bool); 15] = [
    (b"", true),
    (b"turn white", true),
    (b"either fen */*/*/*/*/*/*/*", true),
    (b"mate\nor\ncheck", true),
    (b"moves e4 *", true),
    (b"not plies < 9\nturn black", true),
    (b"result *", true),
    (b"tag White = \"x\"", true),
    (b"next e4", false),
    (b"not played e4", false),
    (b"turn white\nfor 2", false),
    (b"count > 1", false),
    (b"turn white\nor\nnext e4", false),
    (b"result 1-0\nnext e4", true),
    (b"tag White = \"x\"\ncount > 1", true),
];

#[test]
fn a_game_is_kept_only_for_single_moves_and_several_plies(rt: HostRuntime) -> Result<(), Fail> {
    let alloc = rt.alloc();
    for &(criteria, expected) in &WATCHED {
        assert!(rt;
            are_watched(alloc, criteria, SHORT)? == expected,
            "{criteria:?}"
        );
    }
    Ok(())
}
