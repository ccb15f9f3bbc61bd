//! Tallies over readers and writers that fail once and then work: no call is tried again, and the
//! fault stays known.
use crate::support::{Fails, Page, Pieces};
use pgn_text::Tally;
use std::test::Fail;

/// Whether a read that fails once is answered with the error, and the next one with the bytes.
fn reads_once() -> bool {
    let mut input = Tally::new(Pieces::failing_once(b"xyz", 2, 0));
    let mut buf = [0u8; 8];
    let first = input.read(&mut buf).is_err();
    let known = input.faulted() && input.moved() == 0;
    let second = matches!(input.read(&mut buf), Ok(2));
    first && known && second && input.faulted() && input.moved() == 2
}

/// Whether a write that fails once is answered with the error, and the next one is made.
fn writes_once() -> bool {
    let mut out = Tally::new(Page::failing_once(0));
    let first = out.write(b"xyz").is_err();
    let known = out.faulted() && out.moved() == 0;
    let second = matches!(out.write(b"xyz"), Ok(3));
    first && known && second && out.faulted() && out.moved() == 3 && !out.flushed()
}

/// Whether a flush that fails once is answered with the error, and the next one is made.
fn flushes_once() -> bool {
    let mut out = Tally::new(Page::failing_flush(Fails::Once));
    let first = out.flush().is_err();
    let known = out.faulted() && !out.flushed();
    let second = out.flush().is_ok();
    first && known && second && out.faulted() && out.flushed()
}

/// Whether a skip that fails once is answered with the error, and those after it pass over bytes,
/// which count as those that are read.
fn skips_once() -> bool {
    let mut input = Tally::new(Pieces::failing_skip(b"vwxyz", 2, Fails::Once));
    let mut buf = [0u8; 8];
    let first = input.skip(4).is_err();
    let known = input.faulted() && input.moved() == 0;
    let second = matches!(input.skip(4), Ok(2)) && input.moved() == 2;
    let third = matches!(input.skip(1), Ok(1)) && input.moved() == 3;
    let rest = matches!(input.read(&mut buf), Ok(2)) && buf.starts_with(b"yz");
    let end = matches!(input.skip(4), Ok(0)) && input.moved() == 5;
    first && known && second && third && rest && end && input.faulted()
}

/// Whether a reader that passes over no bytes does so without a fault.
fn skips_nothing() -> bool {
    let mut input = Tally::new(Pieces::new(b"xyz", 2));
    let none = matches!(input.skip(3), Ok(0));
    none && !input.faulted() && input.moved() == 0
}

#[test]
fn nothing_is_tried_again(rt: HostRuntime) -> Result<(), Fail> {
    let rows = [
        ("read", reads_once()),
        ("skip", skips_once()),
        ("skip of nothing", skips_nothing()),
        ("write", writes_once()),
        ("flush", flushes_once()),
    ];
    for (name, is_so) in rows {
        assert!(rt; is_so, "{name}");
    }
    Ok(())
}
