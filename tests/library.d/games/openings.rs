//! The opening of a game by the lines of a file, each as words from the initial position.
use crate::games::rows::Says;
use crate::support::rows_hold;
use chess::{Position, play_word};
use pgn_game::{GamePosition, Opening, OpeningLine, Openings};
use std::alloc::Global;
use std::test::Fail;

/// The positions that the words lead through, from the initial one.
fn played(alloc: Global, words: &str) -> Option<Vec<GamePosition>> {
    let mut now: GamePosition = Position::start();
    let mut positions = Vec::new(alloc);
    positions.push(now.copy()).ok()?;
    for word in words.split_whitespace() {
        play_word(&mut now, word.as_bytes()).ok()?;
        positions.push(now.copy()).ok()?;
    }
    Some(positions)
}

/// The lines of a text, which stand between semicolons.
fn lines_of(alloc: Global, text: &str) -> Option<Openings> {
    let mut lines = Openings::new(alloc).ok()?;
    for line in text.split(';') {
        let end = played(alloc, line)?.pop()?;
        lines = lines
            .with(OpeningLine {
                end,
                code: Vec::new(alloc),
                name: Vec::new(alloc),
                variation: Vec::new(alloc),
            })
            .ok()?;
    }
    Some(lines)
}

/// Whether the answer is `none`, or the ply and the line that the text says.
fn is_answer(found: Option<Opening>, text: &str) -> Option<bool> {
    let Some(opening) = found else {
        return Some(text == "none");
    };
    let (ply, line) = text.split_once(' ')?;
    Some(ply.parse::<usize>() == Ok(opening.ply) && line.parse::<usize>() == Ok(opening.line))
}

/// Whether the opening of the game by the lines is so, ply by ply.
pub fn has_opening(alloc: Global, columns: [&str; 5]) -> Option<bool> {
    let [game, lines, answer, ..] = columns;
    let (positions, book) = (played(alloc, game)?, lines_of(alloc, lines)?);
    let mut found = None;
    for ply in 0..positions.len() {
        found = book.after(found, ply, &positions[ply]);
    }
    is_answer(found, answer)
}

/// A game, lines, and the ply and the line of its opening, or none.
const OPENED: &str = "
e4 e5 Nf3 | e4 e5 | 2 0
e4 e5 Nf3 | d4; e4 e5 Nf3 Nc6; e4 | 1 2
# the line that ends last, wherever it stands in the file
e4 e5 Nf3 | e4 e5; e4 | 2 0
e4 e5 Nf3 | e4; e4 e5 | 2 1
# of lines that end in the same position the first
Nf3 Nf6 d4 d5 c3 | d4 d5 Nf3 Nf6 c3; Nf3 Nf6 d4 d5 c3 | 5 0
Nf3 Nf6 d4 d5 c3 | d4 d5; Nf3 Nf6 d4 d5 c3; d4 d5 Nf3 Nf6 c3 | 5 1
# the position counts and not the moves, nor their number
Nf3 Nf6 d4 d5 c3 e6 | d4 d5 Nf3 Nf6 c3 | 5 0
e4 e5 Nf3 Nc6 Ng1 Nb8 Nf3 d6 | e4 e5 Nf3 | 7 0
# an en passant square does not count where no pawn takes there
c4 d5 d4 | d4 d5 c4 | 3 0
Nf3 Nf6 c4 | c4 Nf6 Nf3 | 3 0
c4 Nf6 Nf3 | Nf3 Nf6 c4 | 3 0
# it does where one takes
e4 Nf6 e5 d5 | e4 Nf6 e5 d5 | 4 0
e4 Nf6 e5 d5 | e4 d5 e5 Nf6 | none
e4 d5 e5 Nf6 | e4 Nf6 e5 d5 | none
# so does a right that is lost
e4 e5 Ke2 Ke7 Ke1 Ke8 Nf3 | e4 e5 Nf3 | none
# no line ends in a position of the game
e4 e5 | d4; c4 | none
e4 | e4 e5 | none
# a line without moves ends in the initial position
 |  | 0 0
Nf3 Nf6 Ng1 Ng8 |  | 4 0
e4 e5 |  | 0 0
";

#[test]
fn games_have_their_openings(rt: HostRuntime) -> Result<(), Fail> {
    rows_hold(&Says::Opened.over(rt.alloc()), OPENED, 20)
}
