//! Slider breaks: what is estimated of a play by two factors that come with the call.

use crate::{
    error::Error,
    play::Play,
    score::Score,
    sys::{self, BreaksAnswer, SliderBreaks, SliderFactors},
};

/// The score of a play as it is without factors, and its slider breaks.
#[derive(Clone, Copy, Debug, PartialEq)]
pub struct BreaksScore {
    /// What the call without factors gives.
    pub score: Score,
    /// By the call's factors.
    pub slider_breaks: SliderBreaks,
}

impl BreaksScore {
    pub(crate) fn of(answer: &BreaksAnswer) -> Result<Self, Error> {
        Error::check(answer.status, answer.offset)?;
        Ok(Self {
            score: Score {
                attributes: answer.attributes,
                estimates: answer.estimates.into(),
            },
            slider_breaks: answer.slider_breaks,
        })
    }
}

/// The score of a play that is given beside a file, and its slider breaks by two factors.
///
/// What [`score_play`](crate::score_play) refuses is refused alike; the factors are checked last.
///
/// ```
/// use popejoanplum::{Map, Object, Play, SliderFactors, score_play, score_play_breaks};
///
/// let objects = (0..10).map(|i| Object::circle(500.0 * f64::from(i))).collect();
/// let file = Map { objects, ..Map::default() }.to_bytes();
/// let play = Play { passed_objects: 10, max_combo: 4, n300: 5, n100: 3, misses: 2, ..Play::default() };
///
/// let factors = SliderFactors { aim: 0.5, speed: 0.0 };
/// let given = score_play_breaks(&file, &play, &factors)?;
/// assert_eq!(given.score, score_play(&file, &play)?);
/// assert!(given.slider_breaks.aim > 0.0 && given.slider_breaks.aim < 3.0);
/// assert_eq!(given.slider_breaks.speed, 0.0);
///
/// let wrong = SliderFactors { aim: 10.5, speed: 0.0 };
/// assert_eq!(score_play_breaks(&file, &play, &wrong).unwrap_err().number(), 14);
/// # Ok::<(), popejoanplum::Error>(())
/// ```
pub fn score_play_breaks(
    file: &[u8],
    play: &Play,
    factors: &SliderFactors,
) -> Result<BreaksScore, Error> {
    // SAFETY: the pointer and the length are those of a slice that lives through the call.
    let answer =
        unsafe { sys::pjp_score_play_breaks(file.as_ptr(), file.len(), play.into(), *factors) };
    BreaksScore::of(&answer)
}
