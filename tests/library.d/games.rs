//! Rows on `pgn_game`, and what is left after a refusal of memory.

mod lines;
mod memory;
mod openings;
mod records;
mod refusals;
mod replays;
mod rows;
