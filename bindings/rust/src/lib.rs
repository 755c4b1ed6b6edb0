//! A proved score engine for the game osu!.
//!
//! It reads a map file, simulates ScoreV1 and estimates how many notes a player missed. The
//! functions behind this crate are proved in Rattle: they end, read nothing outside their input,
//! overflow nothing, and give the values of a short definition; these are compared bit for bit with
//! the legacy score of rosu-pp. What is in this crate itself is tested, not proved: it turns Rust's
//! types into a file's bytes and back, and calls.
//!
//! - From the bytes of a map file: [`score_map`], [`score_play`], [`score_play_at`],
//!   [`play_scores`], and [`read_map`]; the [`listing`] that the program `list` prints.
//! - Up to 64 plays on the map of a file in one call: [`heat`], and [`heat_into`] in lent memory.
//! - With two factors beside the play its slider breaks too: [`score_play_breaks`] and
//!   [`Board::read_breaks`].
//! - From data: [`Map`], its [`Object`]s, and [`MapFile`], a map with its plays.
//! - A map under edit: [`Board`].
//! - Text that a person writes and reads: [`text`].
//! - Raw: [`sys`].
//!
//! No call panics, whatever its input. An input that breaks a rule gets an [`Error`] with that rule's
//! number and the offset of the record that breaks it; [`explain`] shows that record. The records, the
//! rules and the order of their checks are those of `docs/FORMAT.md` in the repository.

#![warn(missing_docs)]

mod board;
mod error;
mod explain;
mod heat;
mod listing;
mod map;
mod play;
mod play_scores;
mod record;
mod score;
mod slider_breaks;
#[allow(missing_docs, reason = "fields that say what they are")]
pub mod sys;
pub mod text;

pub use board::Board;
pub use error::Error;
pub use explain::explain;
pub use heat::{HEAT_PLAYS, heat, heat_into};
pub use listing::{LISTING_LIMIT, listing, refusal_line};
pub use map::{Break, Map, MapFile, Nested, Object, ObjectKind};
pub use play::{Mods, Origin, Play};
pub use play_scores::{PlayScores, play_scores};
pub use score::{Estimates, MapInfo, Score, read_map, score_map, score_play, score_play_at};
pub use slider_breaks::{BreaksScore, score_play_breaks};
pub use sys::{Attributes, Settings, SliderBreaks, SliderFactors};
