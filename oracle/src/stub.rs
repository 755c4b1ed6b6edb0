//! Plain data in place of what the original takes from files that are absent.

use std::marker::PhantomData;

use crate::osu::OsuDifficultyAttributes;

/// Of `rosu_map`; the original's scores ask for `Osu` only.
#[derive(Copy, Clone)]
pub enum GameMode {
    Osu,
    Taiko,
    Catch,
    Mania,
}

/// Of `rosu_map`: a slider's path, which no compared function reads.
pub struct Curve;

/// Of `rosu_map`: a place on the playfield, which no compared function reads.
#[derive(Copy, Clone, Debug)]
pub struct Pos;

/// Of `rosu_map`.
pub struct BreakPeriod {
    pub start_time: f64,
    pub end_time: f64,
}

/// What the score multiplier reads of a map's object.
pub struct HitObject {
    pub start_time: f64,
}

pub struct Beatmap {
    pub hp: f32,
    pub od: f32,
    pub cs: f32,
    pub breaks: Vec<BreakPeriod>,
    pub hit_objects: Vec<HitObject>,
}

impl Beatmap {
    pub fn attributes(&self) -> BeatmapAttributesBuilder {
        BeatmapAttributesBuilder(BeatmapAttributes {
            hp: self.hp,
            od: self.od,
            cs: self.cs,
        })
    }
}

pub struct BeatmapAttributesBuilder(BeatmapAttributes);

impl BeatmapAttributesBuilder {
    pub fn build(self) -> BeatmapAttributes {
        self.0
    }
}

/// The settings as given: document 01 neither clamps nor changes them by mods.
pub struct BeatmapAttributes {
    hp: f32,
    od: f32,
    cs: f32,
}

impl BeatmapAttributes {
    pub fn hp(&self) -> f32 {
        self.hp
    }

    pub fn od(&self) -> f32 {
        self.od
    }

    pub fn cs(&self) -> f32 {
        self.cs
    }
}

/// The flags and the clock rate of a play.
pub struct GameMods {
    flags: u16,
    clock_rate: f64,
}

macro_rules! flags {
    ( $( $name:ident: $bit:literal, )* ) => {
        impl GameMods {
            $(
                pub fn $name(&self) -> bool {
                    self.flags >> $bit & 1 == 1
                }
            )*
        }
    };
}

flags! {
    nf: 0,
    ez: 1,
    hd: 2,
    hr: 3,
    fl: 4,
    so: 5,
    rx: 6,
    ap: 7,
    sv2: 8,
}

impl GameMods {
    pub fn new(flags: u16, clock_rate: f64) -> Self {
        Self { flags, clock_rate }
    }

    pub fn clock_rate(&self) -> f64 {
        self.clock_rate
    }
}

/// Named by the original's attributes; never made.
pub struct OsuPerformance<'a>(PhantomData<&'a ()>);

impl From<OsuDifficultyAttributes> for OsuPerformance<'_> {
    fn from(_: OsuDifficultyAttributes) -> Self {
        Self(PhantomData)
    }
}
