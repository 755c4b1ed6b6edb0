//! Map files as text, both ways.
//!
//! A line is a record, in the order of the file. `#` starts a comment, and blank lines count for
//! nothing.
//!
//! ```text
//! map hp 5 od 5 cs 4                  # the settings; a file starts with them
//! break 1000 2000.5                   # start and end
//! circle 0                            # start
//! slider 5000 tick repeat tick tail   # start and nested items; tick*3 is three ticks
//! spinner 9000 for 1400               # start and duration
//! play passed 3 combo 7 n300 3 score 1250 flags hd,hr
//! ```
//!
//! Times are decimals, in milliseconds. All numbers come back bit for bit, `-0` and the smallest ones
//! too: settings are rounded to the nearest float of 32 bits, times and rates to the nearest of 64.
//!
//! The fields of a play, in any order, with what holds where one is left out:
//!
//! | field | left out |
//! |---|---|
//! | `passed` | all objects above the play |
//! | `combo`, `n300`, `n100`, `n50`, `misses` | 0 |
//! | `large`, `small`, `ends` (large tick, small tick and slider end hits) | 0 |
//! | `origin`: `stable`, `with-slider-acc` or `without-slider-acc` | `stable` |
//! | `score` | none |
//! | `flags`: `nf`, `ez`, `hd`, `hr`, `fl`, `so`, `rx`, `ap`, `sv2` between commas | none |
//! | `rate` | 1 |
//!
//! [`show`] writes `passed` always, and of the other fields those that are not as if left out.
//!
//! [`assemble`] checks no rule of the map file: the order of records, the range of a time and a
//! slider's tail are the library's to refuse. An error in the text is only what no record can hold.

mod decimal;
mod read;
mod write;

use std::fmt;

use crate::{
    error::Error,
    record::{self, Record},
    score::score_map,
};

/// What is wrong with a text, and in which line.
#[derive(Clone, Debug, PartialEq, Eq)]
pub struct TextError {
    line: usize,
    message: String,
}

impl TextError {
    /// The line's number; the first is 1.
    pub fn line(&self) -> usize {
        self.line
    }
}

impl fmt::Display for TextError {
    fn fmt(&self, f: &mut fmt::Formatter) -> fmt::Result {
        write!(f, "line {}: {}", self.line, self.message)
    }
}

impl std::error::Error for TextError {}

/// The file of a text.
///
/// ```
/// use popejoanplum::{score_map, text};
///
/// let file = text::assemble("map hp 5 od 5 cs 5\ncircle 0\n\nspinner 500 for 1400 # last")?;
/// assert_eq!(score_map(&file)?.legacy_bonus_score, 8800);
///
/// let error = text::assemble("map hp 5 od 5 cs 5\ncircle soon").unwrap_err();
/// assert_eq!(error.to_string(), "line 2: the start `soon` is not a decimal number");
/// # Ok::<(), Box<dyn std::error::Error>>(())
/// ```
pub fn assemble(text: impl AsRef<[u8]>) -> Result<Vec<u8>, TextError> {
    let mut file = Vec::new();
    let mut objects = 0;
    for (index, line) in text.as_ref().split(|&byte| byte == b'\n').enumerate() {
        let at_line = |message| TextError {
            line: index + 1,
            message,
        };
        let line = str::from_utf8(line).map_err(|_| at_line("this is not UTF-8 text".into()))?;
        match read::record(line, objects).map_err(at_line)? {
            None => {}
            Some(Record::Header(settings)) => record::put_settings(&mut file, &settings),
            Some(Record::Break(b)) => record::put_break(&mut file, &b),
            Some(Record::Object(object)) => {
                objects += 1;
                record::put_object(&mut file, &object);
            }
            Some(Record::Play(play)) => record::put_play(&mut file, &play),
        }
    }
    Ok(file)
}

/// The text of a file, which the library checks first. Assembled again it is the same file, byte for
/// byte.
///
/// ```
/// use popejoanplum::text;
///
/// let file = text::assemble("map cs 4 od 5.0 hp 5\nslider 5e3 tick tick tail # the first\ncircle 6000.25\nplay n300 2")?;
/// assert_eq!(
///     text::show(&file)?,
///     "map hp 5 od 5 cs 4\nslider 5000 tick*2 tail\ncircle 6000.25\nplay passed 2 n300 2\n"
/// );
/// # Ok::<(), Box<dyn std::error::Error>>(())
/// ```
pub fn show(file: &[u8]) -> Result<String, Error> {
    score_map(file)?;
    let mut text = String::new();
    for record in record::records(file) {
        text += &write::line(&record);
        text.push('\n');
    }
    Ok(text)
}
