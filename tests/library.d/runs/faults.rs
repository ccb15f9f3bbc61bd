//! Reads and writes that fail, and readers that give few bytes at a time.

use crate::runs::trials::Trial;
use crate::support::{Fails, Page, Pieces, TWO_GAMES};
use pgn_criteria::Criteria;
use pgn_extract::{EntryLine, Fields, Form, Mode, Select, Settings};
use pgn_game::{Commands, Style};
use std::alloc::Global;
use std::test::Fail;

/// 46 bytes; the first game lacks its closing brace.
const LOST_BRACE: &[u8] = b"[Event \"A\"]\n\n1. e4 {oops\n[Event \"B\"]\n\n1. d4 *\n";

/// Three games; no queen takes on h8 at once.
const FAULT_BETWEEN: &[u8] = b"1. e4 *\n1. Qxh8 *\n1. d4 *\n";

/// The main line with its comments and NAGs, in lines of at most 79 bytes.
const PLAIN: Style = Style {
    comments: true,
    commands: Commands::InWords,
    glyphs: true,
    variations: false,
    roster_only: false,
    width: 79,
};

/// A run in the mode from a mark on.
fn settings_of(mode: Mode, number: u64, offset: u64) -> Settings {
    Settings {
        name: None,
        chosen: None,
        openings: None,
        mode,
        criteria: None,
        min_ply: 0,
        max_ply: u32::MAX,
        first: false,
        line: EntryLine::Marked(Fields::NONE),
        select: Select::Matching,
        form: Form::Standard,
        edits: None,
        style: PLAIN,
        explain: false,
        tags_first: false,
        number,
        offset,
    }
}

/// A whole run in the mode.
fn all(mode: Mode) -> Settings {
    settings_of(mode, 1, 0)
}

/// A run in the mode from the second game of the two on.
fn rest(mode: Mode) -> Settings {
    settings_of(mode, 2, 22)
}

/// The first bytes of the two games.
fn front_of_two_games(len: usize) -> &'static [u8] {
    TWO_GAMES.get(..len).unwrap_or(TWO_GAMES)
}

/// The modes, with what the first of the two games gives, and both.
const MODES: [(Mode, &[u8], &[u8]); 3] = [
    (Mode::Index, b"1@0\n", b"1@0\n2@22\n"),
    (
        Mode::List,
        b"1@0 0\n1@0 1\n",
        b"1@0 0\n1@0 1\n2@22 0\n2@22 1\n",
    ),
    (
        Mode::Export,
        b"[Event \"A\"]\n[Site \"?\"]\n[Date \"????.??.??\"]\n[Round \"?\"]\n[White \"?\"]\n[Black \"?\"]\n[Result \"*\"]\n\n1. e4 *\n\n",
        b"[Event \"A\"]\n[Site \"?\"]\n[Date \"????.??.??\"]\n[Round \"?\"]\n[White \"?\"]\n[Black \"?\"]\n[Result \"*\"]\n\n1. e4 *\n\n[Event \"B\"]\n[Site \"?\"]\n[Date \"????.??.??\"]\n[Round \"?\"]\n[White \"?\"]\n[Black \"?\"]\n[Result \"*\"]\n\n1. d4 *\n\n",
    ),
];

/// Whether a run over the two games, with a read fault after their first bytes, once or from then
/// on, leaves what complete blocks give: the first game from the 30th byte on, for there the second
/// event line is whole.
fn leaves_complete_blocks(alloc: Global, settings: &Settings, first: &[u8], len: usize) -> bool {
    let wanted = if len < 30 { b"".as_slice() } else { first };
    for piece in [1, 7, 8192usize] {
        let readers = [
            Pieces::failing(front_of_two_games(len), piece),
            Pieces::failing_once(TWO_GAMES, piece, len),
        ];
        for reader in readers {
            let trial = Trial::new(alloc, settings, reader, Page::new(), Page::new());
            let [_, writes, reports] = trial.calls;
            let is_quiet = writes == u32::from(!wanted.is_empty()) && reports == 0;
            if !is_quiet || !trial.is_read_fault(wanted, b"") {
                return false;
            }
        }
    }
    true
}

#[test]
fn a_read_fault_leaves_the_complete_blocks(rt: HostRuntime) -> Result<(), Fail> {
    for &(mode, first, _) in &MODES {
        for len in 0..=43usize {
            let holds = leaves_complete_blocks(rt.alloc(), &all(mode), first, len)
                && leaves_complete_blocks(rt.alloc(), &rest(mode), b"", len);
            assert!(rt; holds, "{mode:?} at {len}");
        }
    }
    Ok(())
}

/// Whether a run from the second game on, over an input that passes over so many bytes a skip,
/// reads no more than what is left, and moves all of it.
fn reads_what_is_left(alloc: Global, settings: &Settings, whole: &[u8], passes: u64) -> bool {
    let trial = Trial::skipping(alloc, settings, Pieces::seeking(TWO_GAMES, 8192, passes));
    // The bytes that are dropped, those that are kept, and the end.
    let reads = if passes < 22 { 3 } else { 2 };
    trial.calls[0] == reads && trial.moved == 43 && trial.is_whole(1, 0, whole, b"")
}

/// Whether a run from the second game on, over an input that fails at skips, writes nothing and
/// does not read on.
fn ends_at_a_skip(alloc: Global, settings: &Settings, fails: Fails) -> bool {
    let trial = Trial::skipping(
        alloc,
        settings,
        Pieces::failing_skip(TWO_GAMES, u64::MAX, fails),
    );
    trial.calls == [0, 0, 0] && trial.moved == 0 && trial.is_read_fault(b"", b"")
}

#[test]
fn bytes_are_passed_over(rt: HostRuntime) -> Result<(), Fail> {
    for &(mode, first, whole) in &MODES {
        let left = whole.get(first.len()..).unwrap_or(b"");
        let settings = rest(mode);
        let holds = reads_what_is_left(rt.alloc(), &settings, left, 0)
            && reads_what_is_left(rt.alloc(), &settings, left, 21)
            && reads_what_is_left(rt.alloc(), &settings, left, 22)
            && reads_what_is_left(rt.alloc(), &settings, left, u64::MAX)
            && ends_at_a_skip(rt.alloc(), &settings, Fails::Always)
            && ends_at_a_skip(rt.alloc(), &settings, Fails::Once);
        assert!(rt; holds, "{mode:?}");
    }
    Ok(())
}

/// How a writer fails: so often, and by taking nothing in place of an error.
const WRITE_FAULTS: [(Fails, bool); 4] = [
    (Fails::Always, false),
    (Fails::Once, false),
    (Fails::Always, true),
    (Fails::Once, true),
];

/// Whether an output that takes `room` bytes in small pieces, and then fails, holds just the first
/// of the whole text's bytes, and nothing is read after the fault: the first read gives the two
/// games, and a second one, after what the first game gives, the end.
fn leaves_a_front(
    alloc: Global,
    settings: &Settings,
    first: &[u8],
    whole: &[u8],
    room: usize,
) -> bool {
    for &(fails, takes_nothing) in &WRITE_FAULTS {
        for piece in 1..=3usize {
            let page = Page::faulty(room, piece, fails, takes_nothing);
            let reader = Pieces::new(TWO_GAMES, 8192);
            let trial = Trial::new(alloc, settings, reader, page, Page::new());
            let [reads, _, reports] = trial.calls;
            let is_quiet = reads == (if room < first.len() { 1 } else { 2 }) && reports == 0;
            if !is_quiet || !trial.is_output_fault(whole.get(..room).unwrap_or(b""), b"") {
                return false;
            }
        }
    }
    true
}

#[test]
fn an_output_fault_leaves_a_front(rt: HostRuntime) -> Result<(), Fail> {
    for &(mode, first, whole) in &MODES {
        for room in 0..whole.len() {
            let holds = leaves_a_front(rt.alloc(), &all(mode), first, whole, room);
            assert!(rt; holds, "{mode:?} at {room}");
        }
    }
    Ok(())
}

/// A whole run in the mode, of the plies at which Black is to move.
fn of_black(alloc: Global, mode: Mode) -> Result<Settings, Fail> {
    let mut settings = all(mode);
    settings.criteria = Some(Criteria::parse(alloc, b"turn black")?);
    Ok(settings)
}

#[test]
fn a_fault_among_criteria_leaves_as_much(rt: HostRuntime) -> Result<(), Fail> {
    let (_, first, whole) = MODES[2];
    let rows: [(Mode, &[u8], &[u8]); 2] = [
        (Mode::List, b"1@0 1\n", b"1@0 1\n2@22 1\n"),
        (Mode::Export, first, whole),
    ];
    for (mode, first, whole) in rows {
        let settings = of_black(rt.alloc(), mode)?;
        for len in 0..=43usize {
            let holds = leaves_complete_blocks(rt.alloc(), &settings, first, len);
            assert!(rt; holds, "{mode:?}, input at {len}");
        }
        for room in 0..whole.len() {
            let holds = leaves_a_front(rt.alloc(), &settings, first, whole, room);
            assert!(rt; holds, "{mode:?}, output at {room}");
        }
    }
    Ok(())
}

/// Whether standard error that takes `room` bytes in small pieces, and then fails, holds just the
/// first bytes of the fault line, beside this output, and after the fault nothing is read, written
/// or flushed: there are so many reads.
fn leaves_a_front_of_a_fault(
    alloc: Global,
    mode: Mode,
    text: &[u8],
    gives: (u32, &[u8], &[u8]),
    room: usize,
) -> bool {
    let (reads, out, line) = gives;
    for &(fails, takes_nothing) in &WRITE_FAULTS {
        for piece in 1..=3usize {
            let reader = Pieces::new(text, 8192);
            let page = Page::faulty(room, piece, fails, takes_nothing);
            let trial = Trial::new(alloc, &all(mode), reader, Page::new(), page);
            let writes = u32::from(!out.is_empty());
            let is_quiet = trial.calls[0] == reads && trial.calls[1] == writes;
            if !is_quiet || !trial.is_error_output_fault(out, line.get(..room).unwrap_or(b"")) {
                return false;
            }
        }
    }
    true
}

#[test]
fn a_fault_of_standard_error_leaves_a_front(rt: HostRuntime) -> Result<(), Fail> {
    let rows: [(Mode, &[u8], (u32, &[u8], &[u8])); 2] = [
        (
            Mode::Index,
            LOST_BRACE,
            (1, b"", b"pgn-extract: game 1@0: unreadable\n"),
        ),
        (
            Mode::List,
            FAULT_BETWEEN,
            (
                2,
                b"1@0 0\n1@0 1\n3@18 0\n3@18 1\n",
                b"pgn-extract: game 2@8: illegal move Qxh8 at ply 1\n",
            ),
        ),
    ];
    for (mode, text, gives) in rows {
        for room in 0..gives.2.len() {
            let holds = leaves_a_front_of_a_fault(rt.alloc(), mode, text, gives, room);
            assert!(rt; holds, "{mode:?} at {room}");
        }
    }
    Ok(())
}

#[test]
fn a_fault_of_the_last_flush_is_a_write_fault(rt: HostRuntime) -> Result<(), Fail> {
    for &(mode, _, whole) in &MODES {
        for fails in [Fails::Always, Fails::Once] {
            let page = Page::failing_flush(fails);
            let reader = Pieces::new(TWO_GAMES, 8192);
            let trial = Trial::new(rt.alloc(), &all(mode), reader, page, Page::new());
            let holds = trial.calls == [2, 3, 0] && trial.is_output_fault(whole, b"");
            assert!(rt; holds, "{mode:?}");
            let page = Page::failing_flush(fails);
            let reader = Pieces::new(TWO_GAMES, 8192);
            let trial = Trial::new(rt.alloc(), &all(mode), reader, Page::new(), page);
            let holds = trial.calls == [2, 3, 1] && trial.is_error_output_fault(whole, b"");
            assert!(rt; holds, "{mode:?}");
        }
    }
    Ok(())
}

#[test]
fn a_summary_counts_games_and_faulty_ones(rt: HostRuntime) -> Result<(), Fail> {
    let unreadable = b"pgn-extract: game 1@0: unreadable\n";
    let illegal = b"pgn-extract: game 2@8: illegal move Qxh8 at ply 1\n";
    for piece in [1, 7, 8, 8192usize] {
        let reader = Pieces::new(LOST_BRACE, piece);
        let settings = all(Mode::Index);
        let trial = Trial::new(rt.alloc(), &settings, reader, Page::new(), Page::new());
        let holds = trial.moved == 46 && trial.is_whole(2, 1, b"2@25\n", unreadable);
        assert!(rt; holds, "at {piece}");
        let reader = Pieces::new(FAULT_BETWEEN, piece);
        let settings = all(Mode::List);
        let trial = Trial::new(rt.alloc(), &settings, reader, Page::new(), Page::new());
        let listing = b"1@0 0\n1@0 1\n3@18 0\n3@18 1\n";
        assert!(rt; trial.is_whole(3, 1, listing, illegal), "at {piece}");
    }
    Ok(())
}

#[test]
fn the_pieces_that_a_reader_gives_change_nothing(rt: HostRuntime) -> Result<(), Fail> {
    for &(mode, _, whole) in &MODES {
        // 23 to 29 cut the second event line after each of its first seven bytes.
        for piece in [1, 7, 8, 23, 24, 25, 26, 27, 28, 29, 8192usize] {
            let reader = Pieces::new(TWO_GAMES, piece);
            let trial = Trial::new(rt.alloc(), &all(mode), reader, Page::new(), Page::new());
            assert!(rt; trial.is_whole(2, 0, whole, b""), "{mode:?} at {piece}");
        }
    }
    Ok(())
}

/// Whether a listing of the text gives these bytes, however many bytes at a time its reader gives.
fn is_listed_in_pieces(
    alloc: Global,
    text: &[u8],
    counts: (u64, u64),
    out: &[u8],
    err: &[u8],
) -> bool {
    for piece in [1, 7, 8, 8192] {
        let reader = Pieces::new(text, piece);
        let trial = Trial::new(alloc, &all(Mode::List), reader, Page::new(), Page::new());
        if !trial.is_whole(counts.0, counts.1, out, err) {
            return false;
        }
    }
    true
}

/// A text, how many games it has and how many are faulty, the output and standard error.
const RUNS: [(&[u8], (u64, u64), &[u8], &[u8]); 5] = [
    (b"", (0, 0), b"", b""),
    (
        LOST_BRACE,
        (2, 1),
        b"2@25 0\n2@25 1\n",
        b"pgn-extract: game 1@0: unreadable\n",
    ),
    (
        b"\xEF\xBB\xBF[Event \"A\"]\r\n\r\n1. e4 {[%clk 0:03:00]} e5 {\r\n[%eval 0.2]} *\r\n",
        (1, 0),
        b"1@3 0\n1@3 1\n1@3 2\n",
        b"",
    ),
    (
        b" %x *",
        (1, 1),
        b"",
        b"pgn-extract: game 1@1: unreadable\n",
    ),
    (
        b"\n\xEF\xBB\xBF1. e4 *",
        (1, 1),
        b"",
        b"pgn-extract: game 1@1: unreadable\n",
    ),
];

#[test]
fn texts_are_listed_in_pieces(rt: HostRuntime) -> Result<(), Fail> {
    for &(text, counts, out, err) in &RUNS {
        assert!(rt;
            is_listed_in_pieces(rt.alloc(), text, counts, out, err),
            "{text:?}"
        );
    }
    Ok(())
}

#[test]
fn a_game_after_many_spaces_is_listed_in_pieces(rt: HostRuntime) -> Result<(), Fail> {
    let mut text = Vec::from_slice(rt.alloc(), b"[Event \"A\"]\n\n1. e4 *")?;
    text.resize(1_048_575, b' ')?;
    text.extend_from_slice(b"\n[Event \"B\"]\n\n1. d4 *\n")?;
    let out = b"1@0 0\n1@0 1\n2@1048576 0\n2@1048576 1\n";
    assert!(rt; is_listed_in_pieces(rt.alloc(), &text, (2, 0), out, b""));
    Ok(())
}
