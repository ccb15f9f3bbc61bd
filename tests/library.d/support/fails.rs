//! How often a reader or writer fails, and which calls it got.

/// How often a reader or writer fails once it has come to its fault.
#[derive(Clone, Copy, Debug, PartialEq, Eq)]
pub enum Fails {
    Never,
    Once,
    Always,
}

impl Fails {
    /// Whether it fails now; one that fails once works from then on.
    pub(crate) fn is_now(&mut self) -> bool {
        let fails = *self != Fails::Never;
        if *self == Fails::Once {
            *self = Fails::Never;
        }
        fails
    }
}

/// How often a reader or writer was called, and whether it was called again after its fault.
#[derive(Clone, Copy)]
pub struct Calls {
    pub all: u32,
    pub again: bool,
    failed: bool,
}

impl Calls {
    pub(crate) const NONE: Calls = Calls {
        all: 0,
        again: false,
        failed: false,
    };

    /// Counts a call, and whether it fails.
    pub(crate) fn count(&mut self, fails: bool) {
        self.all = self.all.saturating_add(1);
        self.note(fails);
    }

    /// Notes a call that is not counted, and whether it fails.
    pub(crate) fn note(&mut self, fails: bool) {
        self.again = self.again || self.failed;
        self.failed = self.failed || fails;
    }
}
