//! Runs the original text of rosu-pp's legacy score on map files of document 01.
//!
//! `any`, `model`, `osu`, `section` and `util` keep the paths that the
//! original uses; the build script fills them. The rest is this crate's own.

// The original names the crate `rosu_map`, of which only stubs are here.
extern crate self as rosu_map;

/// Takes a module that the build script made out of the original text.
macro_rules! original {
    ($file:literal) => {
        include!(concat!(env!("OUT_DIR"), "/", $file));
    };
}

pub mod any;
pub mod model;
pub mod osu;
pub mod section;
pub mod stand_in;
pub mod stub;
pub mod util;

pub use stub::{Beatmap, GameMods};

pub mod board;
pub mod breaks;
pub mod calls;
pub mod command;
pub mod encode;
pub mod frame;
pub mod generate;
pub mod given;
pub mod heats;
pub mod listing;
pub mod map;
pub mod reader;
pub mod recipe;
pub mod spinner;
pub mod values;
