//! Keys of positions, and their pawns: two positions have the same key exactly where they are the
//! same but for their counts, and for an en passant square where no pawn takes.
use crate::rules::rows::{Says, position};
use crate::support::rows_hold;
use chess::{Bits, Board, Mailbox, Position};
use std::test::Fail;

/// Whether the two positions have the same key, and the same pawns, where the columns say `same`,
/// and others where they say `other`.
pub fn are_keyed<B: Board>(first: &str, second: &str, keys: &str, pawns: &str) -> Option<bool> {
    let (one, two) = (position::<B>(first)?, position::<B>(second)?);
    let have_key = (one.key() == two.key()) == is_same(keys)?;
    Some(have_key && (one.pawns() == two.pawns()) == is_same(pawns)?)
}

/// Whether the word is `same`, and not `other`.
fn is_same(word: &str) -> Option<bool> {
    match word {
        "same" => Some(true),
        "other" => Some(false),
        _ => None,
    }
}

/// Two positions, whether they have the same key, and whether they have the same pawns.
const KEYED: &str = "
# the counts do not matter
4k3/8/8/8/8/8/8/4K3 w - - 0 1 | 4k3/8/8/8/8/8/8/4K3 w - - 7 40 | same | same
4k3/8/8/8/4P3/8/8/4K3 b - e3 0 1 | 4k3/8/8/8/4P3/8/8/4K3 b - e3 0 2 | same | same
# the side to move does
4k3/8/8/8/8/8/8/4K3 w - - 0 1 | 4k3/8/8/8/8/8/8/4K3 b - - 0 1 | other | same
# each right does
r3k2r/8/8/8/8/8/8/R3K2R w KQkq - 0 1 | r3k2r/8/8/8/8/8/8/R3K2R w Qkq - 0 1 | other | same
r3k2r/8/8/8/8/8/8/R3K2R w KQkq - 0 1 | r3k2r/8/8/8/8/8/8/R3K2R w Kkq - 0 1 | other | same
r3k2r/8/8/8/8/8/8/R3K2R w KQkq - 0 1 | r3k2r/8/8/8/8/8/8/R3K2R w KQq - 0 1 | other | same
r3k2r/8/8/8/8/8/8/R3K2R w KQkq - 0 1 | r3k2r/8/8/8/8/8/8/R3K2R w KQk - 0 1 | other | same
r3k2r/8/8/8/8/8/8/R3K2R w Kq - 0 1 | r3k2r/8/8/8/8/8/8/R3K2R w Qk - 0 1 | other | same
# a right that is dropped as the text is read was never there
r3k3/8/8/8/8/8/8/4K2R w KQkq - 0 1 | r3k3/8/8/8/8/8/8/4K2R w Kq - 0 1 | same | same
# so does the en passant square where a pawn takes there, from either side and from the edge files
4k3/8/8/3pP3/8/8/8/4K3 w - d6 0 1 | 4k3/8/8/3pP3/8/8/8/4K3 w - - 0 1 | other | same
4k3/8/8/3Pp3/8/8/8/4K3 w - e6 0 1 | 4k3/8/8/3Pp3/8/8/8/4K3 w - - 0 1 | other | same
4k3/8/8/8/pP6/8/8/4K3 b - b3 0 1 | 4k3/8/8/8/pP6/8/8/4K3 b - - 0 1 | other | same
4k3/8/8/8/6Pp/8/8/4K3 b - g3 0 1 | 4k3/8/8/8/6Pp/8/8/4K3 b - - 0 1 | other | same
4k3/8/8/2pPp3/8/8/8/4K3 w - c6 0 1 | 4k3/8/8/2pPp3/8/8/8/4K3 w - e6 0 1 | other | same
# also where the pawn that has come gives check, and where one pawn of two is pinned on its file
4k3/8/8/3pP3/4K3/8/8/8 w - d6 0 1 | 4k3/8/8/3pP3/4K3/8/8/8 w - - 0 1 | other | same
4r2k/8/8/2PpP3/8/8/8/4K3 w - d6 0 1 | 4r2k/8/8/2PpP3/8/8/8/4K3 w - - 0 1 | other | same
# where none takes it does not: no pawn stands beside, or on the other edge of the board alone
4k3/8/8/8/4P3/8/8/4K3 b - e3 0 1 | 4k3/8/8/8/4P3/8/8/4K3 b - - 0 1 | same | same
4k3/8/8/8/P6P/8/8/4K3 b - a3 0 1 | 4k3/8/8/8/P6P/8/8/4K3 b - h3 0 1 | same | same
4k3/8/8/8/P7/7p/8/4K3 b - a3 0 1 | 4k3/8/8/8/P7/7p/8/4K3 b - - 0 1 | same | same
# a man beside is a knight, or of the side that stepped
4k3/8/8/8/3nP3/8/8/4K3 b - e3 0 1 | 4k3/8/8/8/3nP3/8/8/4K3 b - - 0 1 | same | same
4k3/8/8/8/3PP3/8/8/4K3 b - e3 0 1 | 4k3/8/8/8/3PP3/8/8/4K3 b - - 0 1 | same | same
# the pawn is pinned on its file, on a diagonal, or by the rank that two pawns would leave
4r2k/8/8/3pP3/8/8/8/4K3 w - d6 0 1 | 4r2k/8/8/3pP3/8/8/8/4K3 w - - 0 1 | same | same
7k/6b1/8/3pP3/3K4/8/8/8 w - d6 0 1 | 7k/6b1/8/3pP3/3K4/8/8/8 w - - 0 1 | same | same
7k/8/8/K2pP2r/8/8/8/8 w - d6 0 1 | 7k/8/8/K2pP2r/8/8/8/8 w - - 0 1 | same | same
7K/8/8/8/k2pP2R/8/8/8 b - e3 0 1 | 7K/8/8/8/k2pP2R/8/8/8 b - - 0 1 | same | same
# the king is in check by another man
4k3/8/8/3pP3/8/8/4r3/4K3 w - d6 0 1 | 4k3/8/8/3pP3/8/8/4r3/4K3 w - - 0 1 | same | same
# so do the square of a man, his kind and his side
N3k3/8/8/8/8/8/8/4K3 w - - 0 1 | 4k2N/8/8/8/8/8/8/4K3 w - - 0 1 | other | same
4k3/8/8/8/8/8/8/4K2R w - - 0 1 | 4k3/8/8/8/8/8/8/R3K3 w - - 0 1 | other | same
4k3/8/8/8/B7/8/8/3K4 b - - 0 1 | 4k3/8/8/8/Q7/8/8/3K4 b - - 0 1 | other | same
8/8/4k3/8/8/N7/8/4K3 w - - 0 1 | 8/8/4k3/8/8/n7/8/4K3 w - - 0 1 | other | same
4k3/8/8/8/8/8/8/4K3 w - - 0 1 | 4K3/8/8/8/8/8/8/4k3 w - - 0 1 | other | same
4k3/8/8/8/8/8/8/4K3 w - - 0 1 | 4k3/8/8/8/8/8/8/4KN2 w - - 0 1 | other | same
# pawns by their squares and their sides
4k3/8/8/8/8/8/4P3/4K3 w - - 0 1 | 4k3/8/8/8/4P3/8/8/4K3 w - - 0 1 | other | other
4k3/4p3/8/8/8/8/8/4K3 w - - 0 1 | 4k3/8/8/4p3/8/8/8/4K3 w - - 0 1 | other | other
4k3/8/8/P7/8/8/8/4K3 w - - 0 1 | 4k3/8/8/p7/8/8/8/4K3 w - - 0 1 | other | other
4k3/p7/8/8/8/8/P7/4K3 w - - 0 1 | 4k3/p7/8/8/8/8/8/4K3 w - - 0 1 | other | other
# and not the men beside them
rnbqkbnr/pppppppp/8/8/8/8/PPPPPPPP/RNBQKBNR w KQkq - 0 1 | \
    4k3/pppppppp/8/8/8/8/PPPPPPPP/4K3 w - - 0 1 | other | same
";

#[test]
fn keys_tell_positions_apart() -> Result<(), Fail> {
    rows_hold(&Says::Keyed, KEYED, 37)
}

/// Whether the initial position has the key that the Laws and the order of squares give it: White's
/// men from the king to the pawn, then Black's, and four rights with White to move.
fn has_its_key<B: Board>() -> bool {
    let start: Position<B> = Position::start();
    let pawns: [u64; 2] = [0x0000_0000_0000_ff00, 0x00ff_0000_0000_0000];
    let white = [
        1 << 4,
        1 << 3,
        1 << 0 | 1 << 7,
        1 << 2 | 1 << 5,
        1 << 1 | 1 << 6,
        pawns[0],
    ];
    let key = start.key();
    for kind in 0usize..5 {
        if key[kind] != white[kind] || key[kind + 6] != white[kind] << 56 {
            return false;
        }
    }
    start.pawns() == pawns && key[5] == pawns[0] && key[11] == pawns[1] && key[12] == 30
}

#[test]
fn the_initial_position_has_its_key(rt: HostRuntime) {
    assert_eq!(rt; has_its_key::<Mailbox>(), true);
    assert_eq!(rt; has_its_key::<Bits>(), true);
}
