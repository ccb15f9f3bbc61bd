//! Runs over readers and writers in memory: what each came to, and which calls it made.

use crate::support::{Page, Pieces};
use pgn_extract::{Met, RunError, Settings, Summary, run, run_skipping};
use pgn_text::Tally;
use std::alloc::Global;

/// What a run over memory came to: its answer, which of input, output and standard error have
/// failed, how often each was called, whether one was called again after its fault, and what the
/// writers hold.
#[derive(Drop)]
pub struct Trial {
    pub answer: Result<Summary, RunError>,
    pub faulted: [bool; 3],
    pub calls: [u32; 3],
    pub tried_again: bool,
    pub flushed: bool,
    pub moved: u64,
    pub out: Page,
    pub err: Page,
}

impl Trial {
    /// A run with these settings, which reads all bytes.
    pub fn new(
        alloc: Global,
        settings: &Settings,
        reader: Pieces<'_>,
        out: Page,
        err: Page,
    ) -> Self {
        let mut input = Tally::new(reader);
        let mut out = Tally::new(out);
        let mut err = Tally::new(err);
        let answer = run(alloc, &mut input, &mut out, &mut err, settings);
        Trial::of(answer, input, out, err)
    }

    /// A run with these settings, which passes over the bytes before its begin where the reader
    /// can.
    pub fn skipping(alloc: Global, settings: &Settings, reader: Pieces<'_>) -> Self {
        let mut input = Tally::new(reader);
        let mut out = Tally::new(Page::new());
        let mut err = Tally::new(Page::new());
        let answer = run_skipping(alloc, &mut input, &mut out, &mut err, settings);
        Trial::of(answer, input, out, err)
    }

    /// What a run with this answer left.
    fn of(
        answer: Result<Summary, RunError>,
        input: Tally<Pieces<'_>>,
        out: Tally<Page>,
        err: Tally<Page>,
    ) -> Self {
        let faulted = [input.faulted(), out.faulted(), err.faulted()];
        let flushed = out.flushed() && err.flushed();
        let moved = input.moved();
        let reader = input.into_inner();
        let out = out.into_inner();
        let err = err.into_inner();
        Trial {
            answer,
            faulted,
            calls: [reader.calls.all, out.calls.all, err.calls.all],
            tried_again: reader.calls.again || out.calls.again || err.calls.again,
            flushed,
            moved,
            out,
            err,
        }
    }

    /// Whether the run ended with a fault of the input, it was not tried again, and the writers
    /// hold these bytes.
    pub fn is_read_fault(&self, out: &[u8], err: &[u8]) -> bool {
        self.answer == Err(RunError::Read)
            && self.faulted == [true, false, false]
            && !self.tried_again
            && self.holds(out, err)
    }

    /// Whether the run ended with a fault of the output, it was not tried again, and the writers
    /// hold these bytes.
    pub fn is_output_fault(&self, out: &[u8], err: &[u8]) -> bool {
        self.answer == Err(RunError::Write)
            && self.faulted == [false, true, false]
            && !self.tried_again
            && self.holds(out, err)
    }

    /// Whether the run ended with a fault of standard error, it was not tried again, and the
    /// writers hold these bytes.
    pub fn is_error_output_fault(&self, out: &[u8], err: &[u8]) -> bool {
        self.answer == Err(RunError::Write)
            && self.faulted == [false, false, true]
            && !self.tried_again
            && self.holds(out, err)
    }

    /// Whether the run ended well, with these counts and everything flushed, and the writers hold
    /// these bytes.
    pub fn is_whole(&self, games: u64, faulty: u64, out: &[u8], err: &[u8]) -> bool {
        let summary = Summary {
            games,
            faulty,
            unplayed: 0,
            met: Met::NONE,
        };
        self.answer == Ok(summary)
            && self.faulted == [false, false, false]
            && self.flushed
            && self.holds(out, err)
    }

    fn holds(&self, out: &[u8], err: &[u8]) -> bool {
        self.out.text() == out && self.err.text() == err
    }
}
