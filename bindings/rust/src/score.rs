//! Scores, from the bytes of a file.

use crate::{
    error::Error,
    play::Play,
    sys::{self, Attributes, PlayAnswer, Settings},
};

/// What is estimated of a play.
#[derive(Clone, Copy, Debug, Default, PartialEq)]
pub struct Estimates {
    /// The judgements, and the slider hits as the origin counts them, over the most that they can be;
    /// 0 where that is 0.
    pub accuracy: f64,
    /// Misses by the combo.
    pub combo_based: f64,
    /// Misses by the score. None for a play without a score, without a judgement, or of
    /// [`Origin::WithSliderAcc`](crate::Origin::WithSliderAcc).
    pub score_based: Option<f64>,
    /// The misses that count: from the play's misses to its judgements.
    pub effective: f64,
}

/// The score of a play: the attributes of the passed objects, and the estimates. The default is all 0.
#[derive(Clone, Copy, Debug, Default, PartialEq)]
pub struct Score {
    /// Of the passed objects.
    pub attributes: Attributes,
    /// Of the play.
    pub estimates: Estimates,
}

impl From<sys::Estimates> for Estimates {
    fn from(given: sys::Estimates) -> Self {
        Self {
            accuracy: given.accuracy,
            combo_based: given.combo_based,
            score_based: (given.has_score_based != 0).then_some(given.score_based),
            effective: given.effective,
        }
    }
}

impl Score {
    pub(crate) fn of(answer: &PlayAnswer) -> Result<Self, Error> {
        Error::check(answer.status, answer.offset)?;
        Ok(Self {
            attributes: answer.attributes,
            estimates: answer.estimates.into(),
        })
    }
}

/// What [`read_map`] finds in a file.
#[derive(Clone, Copy, Debug, PartialEq)]
pub struct MapInfo {
    /// The settings.
    pub settings: Settings,
    /// How many breaks there are.
    pub breaks: usize,
    /// How many objects there are.
    pub objects: usize,
}

/// Reads a file by the rules 2 to 8; 9, which holds a file's plays to its map, is that of the calls
/// that give scores.
pub fn read_map(file: &[u8]) -> Result<MapInfo, Error> {
    // SAFETY: the pointer and the length are those of a slice that lives through the call.
    let info = unsafe { sys::pjp_read_map(file.as_ptr(), file.len()) };
    Error::check(info.status, info.offset)?;
    // Accepted files have at most 128 and 8,192.
    Ok(MapInfo {
        settings: info.settings,
        breaks: info.breaks as usize,
        objects: info.objects as usize,
    })
}

/// The score attributes of all objects of a file. The file's plays are checked too.
pub fn score_map(file: &[u8]) -> Result<Attributes, Error> {
    // SAFETY: the pointer and the length are those of a slice that lives through the call.
    let answer = unsafe { sys::pjp_score_map(file.as_ptr(), file.len()) };
    Error::check(answer.status, answer.offset)?;
    Ok(answer.attributes)
}

/// The score of a play that is given beside a file. The file is checked first, with its own plays.
pub fn score_play(file: &[u8], play: &Play) -> Result<Score, Error> {
    // SAFETY: the pointer and the length are those of a slice that lives through the call.
    let answer = unsafe { sys::pjp_score_play(file.as_ptr(), file.len(), play.into()) };
    Score::of(&answer)
}

/// The score of the play at an index of a file, or none where an accepted file has none there.
pub fn score_play_at(file: &[u8], index: usize) -> Result<Option<Score>, Error> {
    // SAFETY: the pointer and the length are those of a slice that lives through the call.
    let answer = unsafe { sys::pjp_score_play_at(file.as_ptr(), file.len(), index as u64) };
    match answer.status {
        NO_PLAY => Ok(None),
        _ => Score::of(&answer).map(Some),
    }
}

/// The status of an index at which there is no play.
const NO_PLAY: u8 = 255;
