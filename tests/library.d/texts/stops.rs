//! Texts with the place where they stop agreeing with games.
use crate::rows::is_kind;
use crate::support::{bytes_of, rows_hold};
use crate::texts::rows::Says;
use pgn_text::memory::first_stop;
use pgn_text::{Within, error_position_of, locate_error};
use std::alloc::{AllocError, Global};
use std::test::Fail;

/// The letter of what a place stands in, and where that begins, or 0.
fn letter_of(within: Within) -> (u8, usize) {
    match within {
        Within::Comment(begin) => (b'C', begin),
        Within::TagName(begin) => (b'N', begin),
        Within::TagValue(begin) => (b'S', begin),
        Within::Tags => (b'T', 0),
        Within::Variation => (b'V', 0),
        Within::MainLine => (b'M', 0),
        Within::Game => (b'G', 0),
    }
}

/// Whether the text stops agreeing with games at the place, which stands in this.
pub fn stops_within(alloc: Global, text: &str, place: &str, within: &str) -> Option<bool> {
    let place = place.parse::<usize>().ok()?;
    let (kind, begin) = within.split_once(' ').unwrap_or((within, "0"));
    let begin = begin.parse::<usize>().ok()?;
    let block = bytes_of(alloc, text)?;
    let stop = locate_error(&block, 0, true);
    let (letter, at) = letter_of(stop.within);
    let is_within = is_kind(kind, letter) && at == begin;
    Some(is_within && stop.place == place && error_position_of(&block, 0, true) == place)
}

/// A text, the place where it stops agreeing with games, and what that place stands in: Main line,
/// Variation, Tags or Game; with where it begins, a Comment, the Name of a tag or its String.
const STOPS: &str = r#"
1. e4 = * | 6 | Main
1. e4 1/2 * | 9 | Main
1e4 * | 1 | Tags
1. e4 $256 * | 9 | Main
1. e4 $ * | 7 | Main
1. e4 $0001 * | 10 | Main
1. e4 $300 * | 9 | Main
1. e4 $1-0 * | 9 | Main
(1. d4) * | 0 | Tags
1. e4 ) * | 6 | Main
[White "A "B""] | 11 | String 0
[Site "N\x11stved"] | 8 | String 0
[Site "N\\\x11stved"] | 9 | String 0
[Site "N | 8 | String 0
[Site "N\\ | 9 | String 0
[Site | 5 | Name 0
[Site  | 6 | Name 0
[ "x"] | 2 | Name 0
[Site N | 6 | Name 0
[ | 1 | Name 0
[Site "x"  | 10 | String 0
[Site "x" {c}] | 10 | String 0
1. e4 {oops | 11 | Comment 6
{oops | 5 | Comment 0
1. e4 | 5 | Main
1. e4  | 6 | Main
1. e4 (1. d4 *) * | 13 | Variation
1. e4 (1. d4 1-0) * | 14 | Variation
1. e4 (1. d4 0-1) * | 15 | Variation
1. e4 (1. d4 1/2-1/2) * | 14 | Variation
1. e4 (1. d4 0-0)  | 18 | Main
[A "x"] 1. [B "y"] * | 11 | Main
1. e4 [B "y"] * | 6 | Main
1. e4 1-0x * | 9 | Main
0-0-0-0 * | 5 | Tags
0-0-0+#-0 * | 7 | Tags
0-0- * | 4 | Tags
0-0+0 * | 4 | Tags
0-0= * | 3 | Tags
0-0-1 * | 4 | Tags
--x * | 2 | Tags
--- * | 2 | Tags
-1 * | 1 | Tags
- * | 1 | Tags
1/2-1/2- * | 7 | Tags
1/2-1 * | 5 | Tags
12-0 * | 2 | Tags
1-1 * | 2 | Tags
+- * | 0 | Tags
1. e4 < * | 6 | Main
1. e4 } * | 6 | Main
1. e4 {a}} * | 9 | Main
\x1F\x8B\x08 | 0 | Tags
\xFF\xFE[\x00 | 0 | Tags
[\x00E\x00 | 1 | Name 0
\xEF\xBBx | 2 | Tags
\xEF | 1 | Tags
\xBB | 0 | Tags
 %x * | 1 | Tags
%x | 2 | Tags
* {oops | 1 | Game
1-0 | 3 | Game
1-0! | 3 | Game
 | 0 | Tags
\x1A | 0 | Tags
[A "x"]*[ | 8 | Game
1. e4 (1. d4 {oops | 18 | Comment 13
[A "x"]\n[B | 10 | Name 8
"#;

#[test]
fn texts_stop(rt: HostRuntime) -> Result<(), Fail> {
    rows_hold(&Says::Stops.over(rt.alloc()), STOPS, 68)
}

/// Whether the text stops at the place, where its reading begins at the first of `from`, which is
/// the start of a file or a later place.
pub fn stops_later(alloc: Global, text: &str, from: (&str, &str), place: &str) -> Option<bool> {
    let begin = from.0.parse::<usize>().ok()?;
    let place = place.parse::<usize>().ok()?;
    let file_start = match from.1 {
        "file start" => true,
        "later" => false,
        _ => return None,
    };
    let block = bytes_of(alloc, text)?;
    Some(begin <= block.len() && error_position_of(&block, begin, file_start) == place)
}

/// A text, where its reading begins, whether that is the start of a file, and where it stops.
const LATER_STOPS: &str = r#"
* {oops | 1 | file start | 7
* 1. e4 = * | 1 | file start | 8
*\n%x | 2 | file start | 4
* %x | 2 | file start | 2
%x | 0 | later | 0
\xEF\xBBx | 0 | later | 0
*\xEF\xBB\xBF* | 1 | file start | 1
* | 1 | file start | 1
"#;

#[test]
fn texts_stop_after_other_bytes(rt: HostRuntime) -> Result<(), Fail> {
    rows_hold(&Says::StopsLater.over(rt.alloc()), LATER_STOPS, 8)
}

/// The front, and many times the bytes after it.
fn repeated(alloc: Global, front: &str, bytes: &str, times: usize) -> Result<Vec<u8>, AllocError> {
    let mut block = Vec::from_slice(alloc, front.as_bytes())?;
    for _ in 0..times {
        block.extend_from_slice(bytes.as_bytes())?;
    }
    Ok(block)
}

/// Whether a front, with many times the bytes after it, stops at the place.
pub fn stops_large(alloc: Global, text: (&str, &str), times: &str, place: &str) -> Option<bool> {
    let place = place.parse::<usize>().ok()?;
    let block = repeated(alloc, text.0, text.1, times.parse::<usize>().ok()?).ok()?;
    Some(first_stop(&block) == place)
}

/// A front, bytes, how often they stand after it, and where the text stops.
const LARGE_STOPS: &str = r#"
{ | x | 1048576 | 1048577
 | 1 | 1048576 | 1048576
 | ( | 1048576 | 0
[A " | \x | 1048576 | 2097156
0-0 | + | 1048576 | 1048579
e4 | (e4 | 256 | 767
"#;

#[test]
fn large_texts_stop(rt: HostRuntime) -> Result<(), Fail> {
    rows_hold(&Says::StopsLarge.over(rt.alloc()), LARGE_STOPS, 6)
}
