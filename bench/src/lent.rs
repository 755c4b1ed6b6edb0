//! The lent memory of a board, with the calls of both sides on it.

use oracle::{
    given::Factors,
    map::{Play, Settings},
    reader::Refusal,
};
use popejoanplum::sys;

use crate::{cases::Edit, plain, proved};

#[derive(Clone, PartialEq)]
pub struct Lent {
    words: Vec<u64>,
    starts: Vec<f64>,
}

impl Lent {
    /// Room for just that many objects.
    pub fn new(objects: usize) -> Self {
        Self {
            words: vec![0; sys::pjp_board_words(objects)],
            starts: vec![0.0; objects],
        }
    }

    fn count(&self) -> usize {
        self.starts.len()
    }

    pub fn build(&mut self, file: &[u8]) -> sys::Status {
        proved::build(file, &mut self.words, &mut self.starts)
    }

    pub fn plain_build(&mut self, file: &[u8]) -> Result<(), Refusal> {
        plain::build(file, &mut self.words, &mut self.starts)
    }

    pub fn edit(&mut self, edit: &Edit) -> sys::Status {
        let count = self.count();
        let Edit { place, record } = edit;
        proved::edit(&mut self.words, &mut self.starts, count, *place, record)
    }

    pub fn plain_edit(&mut self, edit: &Edit) -> Result<(), u8> {
        let count = self.count();
        let Edit { place, record } = edit;
        plain::edit(&mut self.words, &mut self.starts, count, *place, record)
    }

    /// A play on a map without breaks, as are all that are measured.
    pub fn read(&self, settings: sys::Settings, play: sys::Play) -> sys::PlayAnswer {
        let Self { words, starts } = self;
        proved::read(words, starts, self.count(), settings, &[], play)
    }

    pub fn plain_read(&self, settings: &Settings, play: &Play) -> Result<plain::Score, u8> {
        let Self { words, starts } = self;
        plain::read(words, starts, self.count(), settings, &[], play)
    }

    pub fn read_breaks(
        &self,
        settings: sys::Settings,
        play: sys::Play,
        factors: sys::SliderFactors,
    ) -> sys::BreaksAnswer {
        let Self { words, starts } = self;
        proved::read_breaks(words, starts, self.count(), settings, &[], play, factors)
    }

    pub fn plain_read_breaks(
        &self,
        settings: &Settings,
        play: &Play,
        factors: Factors,
    ) -> Result<plain::BreaksScore, u8> {
        let Self { words, starts } = self;
        plain::read_breaks(words, starts, self.count(), settings, &[], play, factors)
    }
}
