//! A map under edit.

use crate::{
    error::Error,
    map::{Break, Map, Object},
    play::Play,
    record::{self, Record},
    score::{Score, score_map},
    slider_breaks::BreaksScore,
    sys::{self, Settings, SliderFactors},
};

/// A map under edit: a tree of sums over its objects, so that an edit and a read take a few steps.
///
/// It owns its memory, the map's settings and its breaks. It is always the board of the map as the
/// edits left it: an edit succeeds exactly when the changed map is accepted, and a read gives what
/// [`Map::score_play`] gives on that map. The library is proved to do so.
///
/// ```
/// use popejoanplum::{Board, Map, Nested::*, Object, Play};
///
/// let map = Map { objects: vec![Object::circle(0.0), Object::circle(500.0)], ..Map::default() };
/// let mut board = Board::from_map(&map)?;
/// board.edit(0, &Object::slider(0.0, [Tick, Tail]))?;
///
/// let play = Play { passed_objects: 2, max_combo: 4, n300: 2, ..Play::default() };
/// assert_eq!(board.read(&play)?.attributes.max_combo, 4);
///
/// // A refused edit leaves the board as it was.
/// assert_eq!(board.edit(2, &Object::circle(0.0)).unwrap_err().number(), 12);
/// assert_eq!(board.edit(1, &Object::circle(f64::NAN)).unwrap_err().number(), 4);
/// assert_eq!(board.starts(), [0.0, 500.0]);
/// # Ok::<(), popejoanplum::Error>(())
/// ```
#[derive(Clone, Debug)]
pub struct Board {
    words: Vec<u64>,
    starts: Vec<f64>,
    settings: Settings,
    /// Starts and ends in turn, as a read takes them.
    break_times: Vec<f64>,
    /// The record of the last edit, kept so that an edit needs no memory of its own.
    record: Vec<u8>,
}

impl Board {
    /// The board of a file's map. The file is checked with its plays, which are left out.
    pub fn build(file: &[u8]) -> Result<Self, Error> {
        // The build makes the same checks; this one says how much memory it needs.
        let objects = score_map(file)?.object_count as usize;
        let mut words = vec![0; sys::pjp_board_words(objects)];
        let mut starts = vec![0.0; objects];
        // SAFETY: the pointers and lengths are those of slices that live through the call, and the
        // two that are written overlap nothing, since they are borrowed mutably.
        let status = unsafe {
            sys::pjp_build(
                file.as_ptr(),
                file.len(),
                words.as_mut_ptr(),
                words.len(),
                starts.as_mut_ptr(),
                starts.len(),
            )
        };
        Error::check(status.status, status.offset)?;
        let mut board = Self {
            words,
            starts,
            settings: Settings::default(),
            break_times: Vec::new(),
            record: Vec::new(),
        };
        board.keep_settings_and_breaks(file);
        Ok(board)
    }

    /// An accepted file starts with its header and its breaks.
    fn keep_settings_and_breaks(&mut self, file: &[u8]) {
        for record in record::records(file) {
            match record {
                Record::Header(settings) => self.settings = settings,
                Record::Break(b) => self.break_times.extend([b.start, b.end]),
                Record::Object(_) | Record::Play(_) => return,
            }
        }
    }

    /// The board of a map. An offset of a refusal is one in [`Map::to_bytes`].
    pub fn from_map(map: &Map) -> Result<Self, Error> {
        Self::build(&map.to_bytes())
    }

    /// Puts an object at a place, in place of the one there. A refusal's offset is 0.
    pub fn edit(&mut self, place: usize, object: &Object) -> Result<(), Error> {
        let mut bytes = std::mem::take(&mut self.record);
        bytes.clear();
        record::put_object(&mut bytes, object);
        let edited = self.edit_record(place, &bytes);
        self.record = bytes;
        edited
    }

    /// Puts the object of a record at a place: the bytes that the object has in a map file.
    pub fn edit_record(&mut self, place: usize, record: &[u8]) -> Result<(), Error> {
        // SAFETY: as of the build.
        let status = unsafe {
            sys::pjp_edit(
                self.words.as_mut_ptr(),
                self.words.len(),
                self.starts.as_mut_ptr(),
                self.starts.len(),
                self.starts.len(),
                place,
                record.as_ptr(),
                record.len(),
            )
        };
        Error::check(status.status, status.offset)
    }

    /// The score of a play on the map as it is. A refusal's offset is 0.
    pub fn read(&self, play: &Play) -> Result<Score, Error> {
        // SAFETY: the pointers and lengths are those of slices that live through the call; nothing is
        // written.
        let answer = unsafe {
            sys::pjp_read(
                self.words.as_ptr(),
                self.words.len(),
                self.starts.as_ptr(),
                self.starts.len(),
                self.starts.len(),
                self.settings,
                self.break_times.as_ptr(),
                self.break_times.len(),
                play.into(),
            )
        };
        Score::of(&answer)
    }

    /// The score of a play on the map as it is, and its slider breaks by two factors: what
    /// [`Map::score_play_breaks`] gives on that map. A refusal's offset is 0.
    ///
    /// ```
    /// use popejoanplum::{Board, Map, Object, Play, SliderFactors};
    ///
    /// let objects = (0..10).map(|i| Object::circle(500.0 * f64::from(i))).collect();
    /// let board = Board::from_map(&Map { objects, ..Map::default() })?;
    /// let play = Play { passed_objects: 8, max_combo: 3, n300: 5, n100: 1, misses: 2, ..Play::default() };
    ///
    /// let panel = board.read_breaks(&play, &SliderFactors { aim: 0.25, speed: 0.0 })?;
    /// assert_eq!(panel.score, board.read(&play)?);
    /// assert!(panel.slider_breaks.aim > 0.0 && panel.slider_breaks.aim < 1.0);
    /// # Ok::<(), popejoanplum::Error>(())
    /// ```
    pub fn read_breaks(&self, play: &Play, factors: &SliderFactors) -> Result<BreaksScore, Error> {
        // SAFETY: as of a read.
        let answer = unsafe {
            sys::pjp_read_breaks(
                self.words.as_ptr(),
                self.words.len(),
                self.starts.as_ptr(),
                self.starts.len(),
                self.starts.len(),
                self.settings,
                self.break_times.as_ptr(),
                self.break_times.len(),
                play.into(),
                *factors,
            )
        };
        BreaksScore::of(&answer)
    }

    /// How many objects the map has.
    pub fn len(&self) -> usize {
        self.starts.len()
    }

    /// Whether the map has no objects.
    pub fn is_empty(&self) -> bool {
        self.starts.is_empty()
    }

    /// The words of the board's entries, 13 each.
    pub fn words(&self) -> &[u64] {
        &self.words
    }

    /// The start table: the start of each object.
    pub fn starts(&self) -> &[f64] {
        &self.starts
    }

    /// The map's settings.
    pub fn settings(&self) -> Settings {
        self.settings
    }

    /// The map's breaks.
    pub fn breaks(&self) -> impl ExactSizeIterator<Item = Break> + '_ {
        let (breaks, _) = self.break_times.as_chunks();
        breaks.iter().map(|&[start, end]| Break { start, end })
    }
}
