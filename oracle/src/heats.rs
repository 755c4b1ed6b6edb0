//! Heats: lists of plays that are given beside a map file, as a stream of frames: a heat each. All
//! numbers are little-endian.
//!
//! ```text
//! u32    how many outcomes are lent
//! u32    how many plays are given
//! each   a PL record, whatever its fields hold
//! then   the map file
//! ```
//!
//! Each heat is answered in text:
//!
//! ```text
//! refused NUMBER at OFFSET: of the file, else 15, with offset 0; no outcome is written
//! heat PLAYS, then of each play attrs INDEX .. and play INDEX .., as `trace` has them, or its
//! refused NUMBER at 0; INDEX counts the plays from 0; outcomes beyond them stay
//! ```

use crate::{
    frame::take,
    given::{checked_play, lines},
    listing::{refusal_line, refused},
    map::{MapFile, Play},
    reader::{PLAY_RECORD, Refusal, read_library},
    values::Original,
};

pub const MAX_PLAYS: usize = 64;

#[derive(Clone, Debug)]
pub struct Heat {
    pub outcomes: u32,
    /// The plays' records.
    pub plays: Vec<[u8; PLAY_RECORD]>,
    pub file: Vec<u8>,
}

impl Heat {
    pub fn encode(&self) -> Vec<u8> {
        let mut out = self.outcomes.to_le_bytes().to_vec();
        out.extend((self.plays.len() as u32).to_le_bytes());
        out.extend(self.plays.as_flattened());
        out.extend(&self.file);
        out
    }

    /// The heat of a frame, or none where the frame is not one.
    pub fn decode(frame: &[u8]) -> Option<Self> {
        let mut rest = frame;
        let outcomes = u32::from_le_bytes(take(&mut rest)?);
        let count = u32::from_le_bytes(take(&mut rest)?);
        let record =
            |_| take(&mut rest).filter(|record: &[u8; PLAY_RECORD]| record.starts_with(b"PL"));
        let plays = (0..count).map(record).collect::<Option<_>>()?;
        Some(Self {
            outcomes,
            plays,
            file: rest.to_vec(),
        })
    }

    /// The map of a call that is not refused: the file and its own plays are checked, then 15.
    pub fn checked(&self) -> Result<MapFile, Refusal> {
        let map = read_library(&self.file)?;
        let (number, offset) = (15, 0);
        if self.has_too_many() || self.has_too_few() {
            return Err(Refusal { number, offset });
        }
        Ok(map)
    }

    /// Too many plays.
    pub fn has_too_many(&self) -> bool {
        self.plays.len() > MAX_PLAYS
    }

    /// Too few outcomes.
    pub fn has_too_few(&self) -> bool {
        (self.outcomes as usize) < self.plays.len()
    }

    /// Each play beside the accepted file, or the number of its refusal.
    pub fn checked_plays(&self) -> impl Iterator<Item = Result<Play, u8>> {
        self.plays
            .iter()
            .map(|record| checked_play(&self.file, record, None))
    }

    pub fn answer(&self) -> String {
        let map = match self.checked() {
            Ok(map) => map,
            Err(refusal) => return refusal_line(&refusal),
        };
        let original = Original::new(&map);
        let mut text = format!("heat {}\n", self.plays.len());
        for (index, play) in self.checked_plays().enumerate() {
            text += &match play {
                Ok(play) => lines(&original, index, &play, None),
                Err(number) => refused(number),
            };
        }
        text
    }
}
