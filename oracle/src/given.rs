//! A play that is given beside a map, with factors or without: its refusals after documents 01 and
//! 02, and its values by the original.

use crate::{
    frame::take,
    listing::{attributes_line, breaks_line, play_line},
    map::Play,
    reader::read_library,
    values::Original,
};

pub const MAX_FACTOR: f64 = 10.0;

/// The two top-weighted slider factors. They come with the call.
#[derive(Copy, Clone, Debug)]
pub struct Factors {
    pub aim: f64,
    pub speed: f64,
}

impl Factors {
    pub fn encode(self, out: &mut Vec<u8>) {
        out.extend(self.aim.to_le_bytes());
        out.extend(self.speed.to_le_bytes());
    }

    pub fn decode(rest: &mut &[u8]) -> Option<Self> {
        Some(Self {
            aim: f64::from_le_bytes(take(rest)?),
            speed: f64::from_le_bytes(take(rest)?),
        })
    }

    fn is_in_range(self) -> bool {
        [self.aim, self.speed]
            .iter()
            .all(|factor| (0.0..=MAX_FACTOR).contains(factor))
    }
}

/// The play of a record beside an accepted file, or the number of its refusal: that which the record
/// gets behind the file, then 14.
pub fn checked_play(file: &[u8], record: &[u8], factors: Option<Factors>) -> Result<Play, u8> {
    let read = read_library(&[file, record].concat());
    let play = read.map_err(|refusal| refusal.number)?.plays.pop();
    if factors.is_some_and(|factors| !factors.is_in_range()) {
        return Err(14);
    }
    Ok(play.expect("a record of a play"))
}

/// The lines of a play's values, with the slider breaks where factors are given.
pub fn lines(original: &Original, index: usize, play: &Play, factors: Option<Factors>) -> String {
    let attributes = original.attributes(play.passed.into());
    let estimates = attributes.estimates(play);
    let mut text = attributes_line(index, &attributes) + &play_line(index, &estimates);
    if let Some(factors) = factors {
        let breaks = attributes.slider_breaks(play, &estimates, factors);
        text += &breaks_line(index, &breaks);
    }
    text
}
