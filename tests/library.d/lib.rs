//! Tests of the libraries' public calls: worked rows, runs over readers and writers in memory that
//! fail, and what is left after a refusal of memory. `tests/library` builds and runs them.

mod games;
mod rows;
mod rules;
mod runs;
mod support;
mod texts;
