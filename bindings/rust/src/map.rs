//! Maps as data, and their files.

use crate::{
    error::Error,
    heat::heat,
    play::Play,
    record::{self, Record},
    score::{Score, score_map, score_play},
    slider_breaks::{BreaksScore, score_play_breaks},
    sys::{Attributes, Settings, SliderFactors},
};

/// A break: a time without objects, which the drain leaves out.
///
/// Times are in milliseconds, from -8,000,000 to 8,000,000; the library refuses others (4).
#[derive(Clone, Copy, Debug, Default, PartialEq)]
pub struct Break {
    /// When it starts.
    pub start: f64,
    /// When it ends. That this is later is not checked.
    pub end: f64,
}

/// An item of a slider's list.
#[derive(Clone, Copy, Debug, PartialEq, Eq, Hash)]
pub enum Nested {
    /// A tick: 10 points.
    Tick,
    /// A repeat: 30 points.
    Repeat,
    /// The end: 30 points.
    Tail,
}

impl Nested {
    pub(crate) fn number(self) -> u8 {
        match self {
            Self::Tick => 0,
            Self::Repeat => 1,
            Self::Tail => 2,
        }
    }

    pub(crate) fn from_number(number: u8) -> Option<Self> {
        Some(match number {
            0 => Self::Tick,
            1 => Self::Repeat,
            2 => Self::Tail,
            _ => return None,
        })
    }
}

/// What an object is.
#[derive(Clone, Debug, PartialEq)]
pub enum ObjectKind {
    /// A circle.
    Circle,
    /// A slider. The last nested item must be the only tail, and there may be 1,000: the library refuses other
    /// lists (5 and 6). Of a list above 65,535 items a record holds no more than these; it is refused
    /// with 6 as any above 1,000.
    Slider {
        /// The items of the list, in their order.
        nested: Vec<Nested>,
    },
    /// A spinner.
    Spinner {
        /// In milliseconds, from 0 to 3,600,000; the library refuses others (4).
        duration: f64,
    },
}

/// An object of a map. Times are in milliseconds, from -8,000,000 to 8,000,000; the library refuses
/// others (4).
///
/// ```
/// use popejoanplum::{Nested::*, Object};
///
/// let objects = [
///     Object::circle(0.0),
///     Object::slider(5_000.0, [Tick, Repeat, Tick, Tail]),
///     Object::spinner(9_000.0, 1_400.0),
/// ];
/// # assert_eq!(objects.len(), 3);
/// ```
#[derive(Clone, Debug, PartialEq)]
pub struct Object {
    /// When it starts. That objects start one after the other is not checked.
    pub start: f64,
    /// What it is.
    pub kind: ObjectKind,
}

impl Object {
    /// A circle.
    pub fn circle(start: f64) -> Self {
        Self {
            start,
            kind: ObjectKind::Circle,
        }
    }

    /// A slider with the items of its whole list, the tail too.
    pub fn slider(start: f64, nested: impl Into<Vec<Nested>>) -> Self {
        Self {
            start,
            kind: ObjectKind::Slider {
                nested: nested.into(),
            },
        }
    }

    /// A spinner.
    pub fn spinner(start: f64, duration: f64) -> Self {
        Self {
            start,
            kind: ObjectKind::Spinner { duration },
        }
    }
}

/// A map: settings, breaks and objects. It holds any values; the calls refuse a map that breaks a
/// rule.
///
/// ```
/// use popejoanplum::{Map, Nested::*, Object, Play, Settings};
///
/// let map = Map {
///     settings: Settings { hp: 5.0, od: 5.0, cs: 5.0 },
///     breaks: vec![],
///     objects: vec![
///         Object::circle(0.0),
///         Object::slider(5_000.0, [Tick, Repeat, Tick, Tail]),
///         Object::circle(10_000.0),
///     ],
/// };
/// assert_eq!(map.score()?.combo_score, 240);
///
/// let play = Play { passed_objects: 3, max_combo: 7, n300: 3, score: Some(1250), ..Play::default() };
/// assert_eq!(map.score_play(&play)?.estimates.effective, 0.0);
///
/// assert_eq!(Map::from_bytes(&map.to_bytes())?, map);
/// # Ok::<(), popejoanplum::Error>(())
/// ```
#[derive(Clone, Debug, Default, PartialEq)]
pub struct Map {
    /// Health drain, overall difficulty and circle size.
    pub settings: Settings,
    /// At most 128.
    pub breaks: Vec<Break>,
    /// At most 8,192.
    pub objects: Vec<Object>,
}

impl Map {
    /// The map of a file. The library checks the file first, with its plays, which are left out.
    pub fn from_bytes(file: &[u8]) -> Result<Self, Error> {
        Ok(MapFile::from_bytes(file)?.map)
    }

    /// The map's file, without plays.
    pub fn to_bytes(&self) -> Vec<u8> {
        let mut out = Vec::new();
        record::put_settings(&mut out, &self.settings);
        self.breaks
            .iter()
            .for_each(|b| record::put_break(&mut out, b));
        self.objects
            .iter()
            .for_each(|object| record::put_object(&mut out, object));
        out
    }

    /// The score attributes of all objects. An offset of a refusal is one in [`Self::to_bytes`].
    pub fn score(&self) -> Result<Attributes, Error> {
        score_map(&self.to_bytes())
    }

    /// The score of a play. It writes and reads the whole map: for more than one play [`Self::heat`] or a
    /// [`Board`](crate::Board) is faster, for a map under edit the board.
    pub fn score_play(&self, play: &Play) -> Result<Score, Error> {
        score_play(&self.to_bytes(), play)
    }

    /// The scores of up to 64 plays, as [`heat`] gives them. It writes the whole map once.
    pub fn heat(&self, plays: &[Play]) -> Result<Vec<Result<Score, Error>>, Error> {
        heat(&self.to_bytes(), plays)
    }

    /// The score of a play and its slider breaks by two factors. It too writes and reads the whole map.
    pub fn score_play_breaks(
        &self,
        play: &Play,
        factors: &SliderFactors,
    ) -> Result<BreaksScore, Error> {
        score_play_breaks(&self.to_bytes(), play, factors)
    }
}

/// What a map file holds: a map, and plays on it.
#[derive(Clone, Debug, Default, PartialEq)]
pub struct MapFile {
    /// The map.
    pub map: Map,
    /// The plays, in their order.
    pub plays: Vec<Play>,
}

impl MapFile {
    /// The content of a file, which the library checks first. Written again it is the same, byte for
    /// byte.
    pub fn from_bytes(file: &[u8]) -> Result<Self, Error> {
        score_map(file)?;
        let mut read = Self::default();
        for record in record::records(file) {
            match record {
                Record::Header(settings) => read.map.settings = settings,
                Record::Break(b) => read.map.breaks.push(b),
                Record::Object(object) => read.map.objects.push(object),
                Record::Play(play) => read.plays.push(play),
            }
        }
        Ok(read)
    }

    /// The file.
    pub fn to_bytes(&self) -> Vec<u8> {
        let mut out = self.map.to_bytes();
        self.plays
            .iter()
            .for_each(|play| record::put_play(&mut out, play));
        out
    }
}
