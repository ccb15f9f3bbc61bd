//! The blocks of a reader.

use crate::support::{Pieces, TWO_GAMES, bytes_of, rows_hold};
use crate::texts::rows::Says;
use pgn_text::{Block, Blocks, Body, ReadError, Tally};
use std::alloc::{AllocError, Global};
use std::io::Read;
use std::test::Fail;

/// The most bytes that may be held: a block of the limit, and what one read gives.
const WINDOW: usize = 16_785_408;

/// Adds what a call of `next` answered, each block as its offset and its length, and says whether
/// it is the last one.
fn add_answer(answers: &mut String, answer: Result<Option<Block<'_>>, ReadError>) -> Option<bool> {
    match answer {
        Ok(Some(block)) => {
            add_block(answers, block)?;
            return Some(false);
        }
        Ok(None) => answers.push_str("end ").ok()?,
        Err(error) => write!(answers, "{error:?} ").ok()?,
    }
    Some(true)
}

/// Adds a block.
fn add_block(answers: &mut String, block: Block<'_>) -> Option<()> {
    let offset = block.offset;
    match block.body {
        Body::Bytes(bytes) => {
            let size = bytes.len();
            write!(answers, "{offset}+{size} ").ok()
        }
        Body::TooLong(size) => write!(answers, "{offset}+long {size} ").ok(),
    }
}

/// Adds what the calls of `next` answer, up to the end and once more, and whether more is held than
/// the window takes.
fn add_answers<R: Read + Drop>(
    answers: &mut String,
    blocks: &mut Blocks,
    input: &mut Tally<R>,
) -> Option<()> {
    let mut is_over = false;
    for _ in 0..u64::MAX {
        let was_over = is_over;
        is_over = add_answer(answers, blocks.next(input))?;
        if blocks.held() > WINDOW {
            answers.push_str("held too much ").ok()?;
        }
        if was_over {
            break;
        }
    }
    Some(())
}

/// Whether the calls of `next`, up to the end and once more, answer this, and no more is held than
/// the window takes.
fn is_answered<R: Read + Drop>(alloc: Global, reader: R, offset: u64, wanted: &str) -> bool {
    let mut answers = String::new(alloc);
    let mut blocks = Blocks::new(alloc, offset);
    let mut input = Tally::new(reader);
    let is_told = add_answers(&mut answers, &mut blocks, &mut input).is_some();
    is_told && answers.as_str().trim_end() == wanted
}

/// The largest offset.
const END: u64 = 4_611_686_018_427_387_904;

/// Whether the text, so many bytes before the largest offset, is answered so.
pub fn is_answered_at_end(alloc: Global, text: &str, before: &str, wanted: &str) -> Option<bool> {
    let offset = END.saturating_sub(before.parse::<u64>().ok()?);
    let reader = Pieces::new(text.as_bytes(), 8);
    Some(is_answered(alloc, reader, offset, wanted))
}

/// A text, how many bytes before the largest offset it begins, and what is answered.
const AT_END: &str = "
 | 0 | 4611686018427387904+0 end end
x | 0 | InputTooLong Failed
x | 1 | 4611686018427387903+1 end end
";

#[test]
fn at_the_largest_offset(rt: HostRuntime) -> Result<(), Fail> {
    rows_hold(&Says::AtEnd.over(rt.alloc()), AT_END, 3)
}

#[test]
fn however_the_reader_cuts(rt: HostRuntime) {
    // The second event line begins at 22, so 23 to 29 end after each of its first seven bytes.
    for size in [1, 2, 3, 7, 8, 23, 24, 25, 26, 27, 28, 29, 8192] {
        let reader = Pieces::new(TWO_GAMES, size);
        let is_so = is_answered(rt.alloc(), reader, 7, "7+22 29+21 end end");
        assert!(rt; is_so, "in pieces of {size}");
    }
}

/// How many sound bytes a reader gives, and the blocks before its fault.
const FAULTS: [(usize, &str); 5] = [
    (0, "Read Failed"),
    (21, "Read Failed"),
    (29, "Read Failed"),
    (30, "0+22 Read Failed"),
    (42, "0+22 Read Failed"),
];

/// Whether a reader that fails after so many bytes gives these answers, also where it would go on:
/// no call is tried again.
fn fails_after(alloc: Global, sound: usize, size: usize, wanted: &str) -> bool {
    let ends = Pieces::failing(TWO_GAMES.get(..sound).unwrap_or(b""), size);
    let goes_on = Pieces::failing_once(TWO_GAMES, size, sound);
    is_answered(alloc, ends, 0, wanted) && is_answered(alloc, goes_on, 0, wanted)
}

#[test]
fn a_fault_comes_after_the_complete_blocks(rt: HostRuntime) {
    for (sound, wanted) in FAULTS {
        for size in [1, 5, 8192] {
            let is_so = fails_after(rt.alloc(), sound, size, wanted);
            assert!(rt; is_so, "{sound} by {size}");
        }
    }
}

/// Whether so many spaces and the rest, read in pieces of this size from offset 3 on, are answered
/// so.
fn is_answered_after(
    alloc: Global,
    spaces: usize,
    rest: &[u8],
    size: usize,
    wanted: &str,
) -> Result<bool, AllocError> {
    let mut text = vec![in alloc; b' '; spaces]?;
    text.extend_from_slice(rest)?;
    Ok(is_answered(alloc, Pieces::new(&text, size), 3, wanted))
}

#[test]
fn blocks_at_the_limit(rt: HostRuntime) -> Result<(), Fail> {
    let rows: [(usize, &[u8], usize, &str); 3] = [
        (16_777_217, b"", 8192, "3+long 16777217 end end"),
        (
            16_777_215,
            b"\n[Event \"A\"",
            1000,
            "3+16777216 16777219+10 end end",
        ),
        (
            16_800_000,
            b"\n[Event \"A\"\n[Event \"B\"",
            1021,
            "3+long 16800001 16800004+11 16800015+10 end end",
        ),
    ];
    for (spaces, rest, size, wanted) in rows {
        let is_so = is_answered_after(rt.alloc(), spaces, rest, size, wanted)?;
        assert!(rt; is_so, "{spaces}");
    }
    Ok(())
}

/// The first bytes of a block of the limit: a read of them alone makes later ones of 8,192 bytes
/// end seven bytes after the block.
const SEVEN_SPACES: &[u8] = b"       ";

/// The block's other bytes, and more after it than the window takes.
fn limit_and_more(alloc: Global) -> Result<Vec<u8>, AllocError> {
    let mut text = vec![in alloc; b' '; 16_777_208]?;
    text.extend_from_slice(b"\n[Event \"A\"")?;
    text.resize(16_799_993, b' ')?;
    text.extend_from_slice(b"\n[Event \"B\"")?;
    Ok(text)
}

/// Whether the block of the limit fills the window, and the one after it does not.
fn is_bounded<R: Read + Drop>(alloc: Global, reader: R) -> bool {
    let mut blocks = Blocks::new(alloc, 0);
    let mut input = Tally::new(reader);
    let is_filled = blocks.next(&mut input).is_ok() && blocks.held() == WINDOW;
    is_filled && blocks.next(&mut input).is_ok() && blocks.held() < 32_768
}

#[test]
fn a_read_keeps_the_bound(rt: HostRuntime) -> Result<(), Fail> {
    let text = limit_and_more(rt.alloc())?;
    let reader = Pieces::new(SEVEN_SPACES, 7).chain(Pieces::new(&text, 8192));
    let wanted = "0+16777216 16777216+22785 16800001+10 end end";
    let is_so = is_answered(rt.alloc(), reader, 0, wanted);
    let reader = Pieces::new(SEVEN_SPACES, 7).chain(Pieces::new(&text, 8192));
    assert!(rt; is_so && is_bounded(rt.alloc(), reader));
    Ok(())
}

/// Whether the text has these blocks.
pub fn is_blocks(alloc: Global, text: &str, wanted: &str) -> Option<bool> {
    let text = bytes_of(alloc, text)?;
    Some(is_answered(alloc, Pieces::new(&text, 8192), 0, wanted))
}

/// A text, and its blocks.
const EVENT_LINES: &str = r#"
[Event "A | 0+9 end end
x\n[Event " | 0+2 2+8 end end
x\x0D[Event "A | 0+11 end end
x [Event "A | 0+11 end end
x\n[Event  "A | 0+12 end end
x\n[event "A | 0+11 end end
x\n[Event | 0+8 end end
\n[Event "\n[Event "\n | 0+1 1+9 10+9 end end
"#;

#[test]
fn only_an_event_line_cuts(rt: HostRuntime) -> Result<(), Fail> {
    rows_hold(&Says::Blocks.over(rt.alloc()), EVENT_LINES, 8)
}
