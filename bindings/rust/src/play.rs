//! Plays.

use std::{fmt, ops::BitOr};

use crate::sys;

/// Where a play comes from: how its slider hits were counted.
#[derive(Clone, Copy, Debug, Default, PartialEq, Eq, Hash)]
pub enum Origin {
    /// The old client, with classic slider accuracy.
    #[default]
    Stable,
    /// The new client, with its slider accuracy. Such a play has no score-based estimate.
    WithSliderAcc,
    /// The new client with classic slider accuracy.
    WithoutSliderAcc,
}

impl Origin {
    pub(crate) fn number(self) -> u8 {
        match self {
            Self::Stable => 0,
            Self::WithSliderAcc => 1,
            Self::WithoutSliderAcc => 2,
        }
    }

    pub(crate) fn from_number(number: u8) -> Option<Self> {
        Some(match number {
            0 => Self::Stable,
            1 => Self::WithSliderAcc,
            2 => Self::WithoutSliderAcc,
            _ => return None,
        })
    }
}

/// The flags of a play's mods.
///
/// ```
/// use popejoanplum::Mods;
///
/// let mods = Mods::HD | Mods::HR;
/// assert!(mods.contains(Mods::HD));
/// assert_eq!(mods.bits(), 12);
/// assert_eq!(mods.to_string(), "hd,hr");
/// ```
#[derive(Clone, Copy, Debug, Default, PartialEq, Eq, Hash)]
pub struct Mods(u16);

impl Mods {
    /// No mod.
    pub const NONE: Self = Self(0);
    /// No Fail.
    pub const NF: Self = Self(1);
    /// Easy.
    pub const EZ: Self = Self(1 << 1);
    /// Hidden.
    pub const HD: Self = Self(1 << 2);
    /// Hard Rock.
    pub const HR: Self = Self(1 << 3);
    /// Flashlight.
    pub const FL: Self = Self(1 << 4);
    /// Spun Out.
    pub const SO: Self = Self(1 << 5);
    /// Relax.
    pub const RX: Self = Self(1 << 6);
    /// Autopilot.
    pub const AP: Self = Self(1 << 7);
    /// ScoreV2.
    pub const SV2: Self = Self(1 << 8);

    /// Each mod with its name, from the lowest bit on.
    pub const NAMED: [(&str, Self); 9] = [
        ("nf", Self::NF),
        ("ez", Self::EZ),
        ("hd", Self::HD),
        ("hr", Self::HR),
        ("fl", Self::FL),
        ("so", Self::SO),
        ("rx", Self::RX),
        ("ap", Self::AP),
        ("sv2", Self::SV2),
    ];

    /// Any bits; the library refuses a play with one above [`SV2`](Self::SV2) (8).
    pub fn from_bits(bits: u16) -> Self {
        Self(bits)
    }

    /// The flags as a play's record has them.
    pub fn bits(self) -> u16 {
        self.0
    }

    /// Whether all of these mods are set.
    pub fn contains(self, mods: Self) -> bool {
        self.0 & mods.0 == mods.0
    }

    /// The one mod of this name, as `hd`.
    pub fn named(name: &str) -> Option<Self> {
        let found = Self::NAMED.iter().find(|(known, _)| *known == name);
        found.map(|&(_, mods)| mods)
    }
}

impl BitOr for Mods {
    type Output = Self;

    fn bitor(self, other: Self) -> Self {
        Self(self.0 | other.0)
    }
}

/// The names between commas; a bit without a name as its number, and `none` for no mod.
impl fmt::Display for Mods {
    fn fmt(&self, f: &mut fmt::Formatter) -> fmt::Result {
        if self.0 == 0 {
            return f.write_str("none");
        }
        let bits = (0..16).filter(|bit| self.0 >> bit & 1 == 1);
        for (place, bit) in bits.enumerate() {
            let comma = if place == 0 { "" } else { "," };
            match Self::NAMED.get(bit as usize) {
                Some((name, _)) => write!(f, "{comma}{name}")?,
                None => write!(f, "{comma}bit {bit}")?,
            }
        }
        Ok(())
    }
}

/// A play on a map, or on the map's first objects.
///
/// The default is a play of nothing: all counts 0, origin stable, no score, no mods, rate 1.
///
/// ```
/// use popejoanplum::Play;
///
/// let play = Play { passed_objects: 3, max_combo: 7, n300: 3, score: Some(1250), ..Play::default() };
/// assert_eq!(play.clock_rate, 1.0);
/// ```
#[derive(Clone, Copy, Debug, PartialEq)]
pub struct Play {
    /// How many objects were passed. More than the map has count as all of them.
    pub passed_objects: u16,
    /// The longest combo, at most that of the passed objects (9).
    pub max_combo: u32,
    /// Judgements of 300. All four judgements are at most the passed objects together (9).
    pub n300: u16,
    /// Judgements of 100.
    pub n100: u16,
    /// Judgements of 50.
    pub n50: u16,
    /// Misses.
    pub misses: u16,
    /// Hits of ticks and repeats; at most as many as are passed, for [`Origin::WithSliderAcc`] (9).
    pub large_tick_hits: u32,
    /// Hits of slider ends, as [`Origin::WithoutSliderAcc`] counts them.
    pub small_tick_hits: u32,
    /// Hits of slider ends, as [`Origin::WithSliderAcc`] counts them; there at most the passed sliders (9).
    pub slider_end_hits: u32,
    /// How the slider hits were counted.
    pub origin: Origin,
    /// The ScoreV1 score, if it is known.
    pub score: Option<u32>,
    /// The mods.
    pub mods: Mods,
    /// The speed of play, above 0 and at most 100; the library refuses others (8).
    pub clock_rate: f64,
}

impl Default for Play {
    fn default() -> Self {
        Self {
            passed_objects: 0,
            max_combo: 0,
            n300: 0,
            n100: 0,
            n50: 0,
            misses: 0,
            large_tick_hits: 0,
            small_tick_hits: 0,
            slider_end_hits: 0,
            origin: Origin::Stable,
            score: None,
            mods: Mods::NONE,
            clock_rate: 1.0,
        }
    }
}

impl From<&Play> for sys::Play {
    fn from(play: &Play) -> Self {
        Self {
            clock_rate: play.clock_rate,
            max_combo: play.max_combo,
            large_tick_hits: play.large_tick_hits,
            small_tick_hits: play.small_tick_hits,
            slider_end_hits: play.slider_end_hits,
            score: play.score.unwrap_or(0),
            passed_objects: play.passed_objects,
            n300: play.n300,
            n100: play.n100,
            n50: play.n50,
            misses: play.misses,
            flags: play.mods.bits(),
            origin: play.origin.number(),
            has_score: play.score.is_some().into(),
        }
    }
}
