//! The board as a Rust author would write it: safe Rust on lent slices, with the checks and refusals of document 01.
//!
//! The star formula and the estimates are the original's, called through the oracle; all else is here.

mod board;
mod entry;
mod file;
mod score;
#[cfg(test)]
mod tests;

pub use board::{build, edit, read, read_breaks};
pub use file::score_map;
pub use score::{BreaksScore, Score};
