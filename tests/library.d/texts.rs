//! Rows on `pgn_text`.

mod blocks;
mod pieces;
mod rows;
mod stops;
mod tallies;
