//! Positions with the one that a pass leads to: the other side is to move, and nobody took a step.
use crate::rules::rows::{Says, has_fen, position};
use crate::support::rows_hold;
use chess::Board;
use std::test::Fail;

/// Whether a pass in the position leads to the other one; `in check` where the side to move is so.
pub fn passes_to<B: Board>(from: &str, to: &str) -> Option<bool> {
    Some(match position::<B>(from)?.pass() {
        Some(next) => has_fen(&next, to),
        None => to == "in check",
    })
}

/// A position, and the one after a pass.
const PASSES: &str = "
rnbqkbnr/pppppppp/8/8/8/8/PPPPPPPP/RNBQKBNR w KQkq - 0 1 | \
    rnbqkbnr/pppppppp/8/8/8/8/PPPPPPPP/RNBQKBNR b KQkq - 1 1
r3k2r/8/8/8/8/8/8/R3K2R b Kq - 9 40 | r3k2r/8/8/8/8/8/8/R3K2R w Kq - 10 41
4k3/8/8/8/3pP3/8/8/4K3 b - e3 0 1 | 4k3/8/8/8/3pP3/8/8/4K3 w - - 1 2
4k3/8/8/3Pp3/8/8/8/4K3 w - e6 0 2 | 4k3/8/8/3Pp3/8/8/8/4K3 b - - 1 2
4k3/8/8/8/8/8/8/4K3 b - - 9999999 9999999 | 4k3/8/8/8/8/8/8/4K3 w - - 10000000 10000000
7k/5Q2/8/8/8/8/8/K7 b - - 3 60 | 7k/5Q2/8/8/8/8/8/K7 w - - 4 61
4k3/8/8/8/8/8/4r3/4K3 w - - 0 1 | in check
4k3/8/8/8/8/8/4R3/2K5 b - - 0 1 | in check
rnb1kbnr/pppp1ppp/8/4p3/6Pq/5P2/PPPPP2P/RNBQKBNR w KQkq - 1 3 | in check
";

#[test]
fn a_pass_leads_to_its_position() -> Result<(), Fail> {
    rows_hold(&Says::Passes, PASSES, 9)
}
