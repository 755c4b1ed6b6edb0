//! The scores of a file's plays, one after the other.

use std::{iter::FusedIterator, vec};

use crate::{
    board::Board,
    error::Error,
    play::Play,
    record::{self, Record},
    score::Score,
};

/// The scores of all plays of a file, in their order. A refused file gives its refusal once.
///
/// The file is checked once, and each play is read on the map's [`Board`], which gives what
/// [`score_play_at`](crate::score_play_at) gives: that reads the whole file again.
///
/// ```
/// use popejoanplum::{Map, MapFile, Object, Play, play_scores};
///
/// let map = Map { objects: vec![Object::circle(0.0)], ..Map::default() };
/// let play = Play { passed_objects: 1, max_combo: 1, n300: 1, ..Play::default() };
/// let file = MapFile { map, plays: vec![play, Play::default()] }.to_bytes();
/// let accuracies: Vec<f64> = play_scores(&file)
///     .map(|score| Ok(score?.estimates.accuracy))
///     .collect::<Result<_, popejoanplum::Error>>()?;
/// assert_eq!(accuracies, [1.0, 0.0]);
/// # Ok::<(), popejoanplum::Error>(())
/// ```
pub fn play_scores(file: &[u8]) -> PlayScores {
    let (left, plays) = match Board::build(file) {
        Ok(board) => (Left::Plays(board), plays(file)),
        Err(error) => (Left::Refusal(error), Vec::new()),
    };
    PlayScores {
        left,
        plays: plays.into_iter(),
    }
}

/// See [`play_scores`].
#[derive(Clone, Debug)]
pub struct PlayScores {
    left: Left,
    plays: vec::IntoIter<Play>,
}

/// What an iterator has still to give.
#[derive(Clone, Debug)]
enum Left {
    Plays(Board),
    Refusal(Error),
    Nothing,
}

impl Iterator for PlayScores {
    type Item = Result<Score, Error>;

    fn next(&mut self) -> Option<Self::Item> {
        match &self.left {
            Left::Plays(board) => self.plays.next().map(|play| board.read(&play)),
            &Left::Refusal(error) => {
                self.left = Left::Nothing;
                Some(Err(error))
            }
            Left::Nothing => None,
        }
    }

    fn size_hint(&self) -> (usize, Option<usize>) {
        match self.left {
            Left::Plays(_) => self.plays.size_hint(),
            Left::Refusal(_) => (1, Some(1)),
            Left::Nothing => (0, Some(0)),
        }
    }
}

impl ExactSizeIterator for PlayScores {}

impl FusedIterator for PlayScores {}

/// The plays of an accepted file.
fn plays(file: &[u8]) -> Vec<Play> {
    record::records(file)
        .filter_map(|record| match record {
            Record::Play(play) => Some(play),
            _ => None,
        })
        .collect()
}
