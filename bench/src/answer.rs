//! What each side answers, in one form that is compared bit for bit.

use oracle::{
    reader::Refusal,
    values::{Attributes, Estimates, SliderBreaks},
};
use popejoanplum::sys;

use crate::plain;

/// Any two floats that are not a number count as equal.
#[derive(Clone, Copy, Debug, PartialEq)]
pub struct Bits(Option<u64>);

impl From<f64> for Bits {
    fn from(value: f64) -> Self {
        Self((!value.is_nan()).then(|| value.to_bits()))
    }
}

/// Whole numbers and floats of a good answer, or the refusal's number and offset.
#[derive(Debug, PartialEq)]
pub enum Answer {
    Map([u64; 12], [Bits; 2]),
    Play([u64; 12], [Bits; 2], [Bits; 4], bool),
    Done,
    Refused(u8, usize),
}

/// The answer of a call with factors: that of the call without them, and the breaks, 0 where it is refused.
#[derive(Debug, PartialEq)]
pub struct BreaksAnswer {
    answer: Answer,
    breaks: [Bits; 2],
}

/// The whole numbers of attributes in the library's order, and their floats.
type Numbers = ([u64; 12], [Bits; 2]);

fn ours(a: &sys::Attributes) -> Numbers {
    (
        [
            a.object_count,
            a.multiplier,
            a.accuracy_score,
            a.combo_score,
            a.legacy_bonus_score,
            a.standardised_bonus_score,
            a.max_combo.into(),
            a.n_circles.into(),
            a.n_sliders.into(),
            a.n_spinners.into(),
            a.n_repeats.into(),
            a.n_ticks.into(),
        ],
        [a.bonus_score_ratio, a.nested_score_per_object].map(Bits::from),
    )
}

fn theirs(a: &Attributes) -> Numbers {
    (
        [
            a.objects.into(),
            a.multiplier as u64,
            a.accuracy_score as u64,
            a.combo_score as u64,
            a.legacy_bonus as u64,
            a.standardised_bonus as u64,
            a.max_combo.into(),
            a.circles.into(),
            a.sliders.into(),
            a.spinners.into(),
            a.repeats.into(),
            a.ticks.into(),
        ],
        [a.bonus_ratio, a.nested_per_object].map(Bits::from),
    )
}

impl From<(&Attributes, &Estimates)> for Answer {
    fn from((a, e): (&Attributes, &Estimates)) -> Self {
        let (numbers, floats) = theirs(a);
        let score_based = e.score_based.unwrap_or(0.0);
        let estimates = [e.accuracy, e.combo_based, score_based, e.effective];
        Self::Play(
            numbers,
            floats,
            estimates.map(Bits::from),
            e.score_based.is_some(),
        )
    }
}

impl From<sys::PlayAnswer> for Answer {
    fn from(answer: sys::PlayAnswer) -> Self {
        if answer.status != 0 {
            return Self::Refused(answer.status, answer.offset);
        }
        let (numbers, floats) = ours(&answer.attributes);
        let e = &answer.estimates;
        let estimates = [e.accuracy, e.combo_based, e.score_based, e.effective];
        Self::Play(
            numbers,
            floats,
            estimates.map(Bits::from),
            e.has_score_based == 1,
        )
    }
}

impl From<sys::MapAnswer> for Answer {
    fn from(answer: sys::MapAnswer) -> Self {
        if answer.status != 0 {
            return Self::Refused(answer.status, answer.offset);
        }
        let (numbers, floats) = ours(&answer.attributes);
        Self::Map(numbers, floats)
    }
}

impl From<sys::Status> for Answer {
    fn from(answer: sys::Status) -> Self {
        match answer.status {
            0 => Self::Done,
            number => Self::Refused(number, answer.offset),
        }
    }
}

impl From<Result<Attributes, Refusal>> for Answer {
    fn from(answer: Result<Attributes, Refusal>) -> Self {
        match answer {
            Ok(attributes) => {
                let (numbers, floats) = theirs(&attributes);
                Self::Map(numbers, floats)
            }
            Err(refusal) => Self::Refused(refusal.number, refusal.offset),
        }
    }
}

/// Plain Rust's read.
impl From<Result<plain::Score, u8>> for Answer {
    fn from(answer: Result<plain::Score, u8>) -> Self {
        match answer {
            Ok(score) => (&score.attributes, &score.estimates).into(),
            Err(number) => Self::Refused(number, 0),
        }
    }
}

impl From<(&Attributes, &Estimates, &SliderBreaks)> for BreaksAnswer {
    fn from((a, e, b): (&Attributes, &Estimates, &SliderBreaks)) -> Self {
        Self {
            answer: (a, e).into(),
            breaks: [b.aim, b.speed].map(Bits::from),
        }
    }
}

impl From<sys::BreaksAnswer> for BreaksAnswer {
    fn from(answer: sys::BreaksAnswer) -> Self {
        let front = sys::PlayAnswer {
            status: answer.status,
            offset: answer.offset,
            attributes: answer.attributes,
            estimates: answer.estimates,
        };
        Self {
            answer: front.into(),
            breaks: [answer.slider_breaks.aim, answer.slider_breaks.speed].map(Bits::from),
        }
    }
}

/// Plain Rust's read with factors.
impl From<Result<plain::BreaksScore, u8>> for BreaksAnswer {
    fn from(answer: Result<plain::BreaksScore, u8>) -> Self {
        match answer {
            Ok(plain::BreaksScore { score, breaks }) => {
                (&score.attributes, &score.estimates, &breaks).into()
            }
            Err(number) => Self {
                answer: Answer::Refused(number, 0),
                breaks: [0.0; 2].map(Bits::from),
            },
        }
    }
}

/// Plain Rust's build.
impl From<Result<(), Refusal>> for Answer {
    fn from(answer: Result<(), Refusal>) -> Self {
        match answer {
            Ok(()) => Self::Done,
            Err(refusal) => Self::Refused(refusal.number, refusal.offset),
        }
    }
}

/// Plain Rust's edit.
impl From<Result<(), u8>> for Answer {
    fn from(answer: Result<(), u8>) -> Self {
        match answer {
            Ok(()) => Self::Done,
            Err(number) => Self::Refused(number, 0),
        }
    }
}
