//! Runs over memory: readers and writers that fail, pieces of chosen sizes, calls of the libraries.
//! Rows of arguments, input and output stand in `tests/rows.d`; `tests/faults` has reads and writes
//! of the program that fail.

mod examples;
mod faults;
mod meetings;
mod trials;
