//! A reference for the directory server of documents 01 and 02, written from the
//! papers and the readings settled in docs/DECISIONS.md: packets (`wire`), the state and its eight events (`state`
//! and `server`, with the rules of 01 section by section in `hello`,
//! `alignment`, `requests`, `updates` and `poll`), and the replay program
//! (`replay`). `generate` makes random replay files, `lists` has those written by hand.

mod alignment;
pub mod answer;
pub mod generate;
mod hello;
pub mod lists;
mod poll;
pub mod random;
pub mod replay;
mod requests;
pub mod rule;
pub mod server;
mod state;
mod updates;
pub mod wire;
