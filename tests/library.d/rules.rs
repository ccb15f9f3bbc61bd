//! Rows on `chess`, over either board.

mod board;
mod fen;
mod keys;
mod moves;
mod passes;
mod perft;
mod rows;
mod texts;
