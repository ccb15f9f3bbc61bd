//! Records of games: put from a replay, and pushed while the main line is played.
use crate::games::rows::Says;
use crate::support::rows_hold;
use pgn_game::Lines;
use pgn_game::memory::record_of;
use pgn_game::pack::{GameOrigin, push_record};
use pgn_text::RawGame;
use std::alloc::Global;
use std::test::Fail;

/// Whether the record of the game has so many bytes, and is the same from a replay of its main
/// line, from one of all its lines, and where the main line is played.
pub fn has_record(alloc: Global, game: &RawGame<'_>, columns: [&str; 5]) -> Option<bool> {
    let [_, size, ..] = columns;
    let origin = GameOrigin {
        name: None,
        number: 1,
        offset: 0,
    };
    let mut played = Vec::new(alloc);
    push_record(alloc, &origin, game, &mut played).ok()?;
    let main = record_of(alloc, &origin, game, Lines::Main).ok()?;
    let all = record_of(alloc, &origin, game, Lines::All).ok()?;
    let is_same = played.as_slice() == main.as_slice() && played.as_slice() == all.as_slice();
    Some(is_same && size.parse::<usize>() == Ok(played.len()))
}

/// A game, and the bytes of its record: 24, for each tag 8 and those of its name and its contents,
/// and 3 for each ply.
const SIZES: &str = r#"
* | 24
1. e4 e5 1-0 | 30
1. f3 e5 2. g4 Qh4# 0-1 | 36
1. e4 (1. d4 d5 (1... f5)) e5 {x} 2. Nf3 $1 (2. Bc4) * | 33
1. e4 a6 2. e5 d5 3. exd6 * | 39
1. e4 e5 2. Nf3 Nf6 3. Bc4 Bc5 4. O-O O-O * | 48
[FEN "k7/2Q5/8/8/8/8/8/7K b - - 0 1"]\n\n* | 64
[FEN "7k/P7/8/8/8/8/8/K7 w - - 0 1"]\n\n1. a8=Q+ Kg7 2. Qb7+ 1/2-1/2 | 72
"#;

#[test]
fn records_are_put_and_pushed(rt: HostRuntime) -> Result<(), Fail> {
    rows_hold(&Says::Packed.over(rt.alloc()), SIZES, 8)
}
