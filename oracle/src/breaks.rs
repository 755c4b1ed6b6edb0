//! Plays with factors that are given beside a map file, as a stream of frames: a file each. All
//! numbers are little-endian.
//!
//! ```text
//! u32    how many plays are given
//! each   u64 bits of the aim and of the speed factor, u16 flags, u64 bits of the clock rate, a PL
//!        record with flags 0 and rate 1, as a read of `crate::calls` has them; origin, score mark
//!        and score may be out of range here
//! then   the map file
//! ```
//!
//! Each given play is answered in text:
//!
//! ```text
//! attrs INDEX .. and play INDEX .., as `trace` has them, then breaks INDEX AIM SPEED, in bits; INDEX
//! counts the frame's given plays from 0
//! refused NUMBER at OFFSET: of the file, else of the play and its factors, with offset 0
//! ```

use crate::{
    encode::play_record,
    frame::take,
    given::{Factors, checked_play, lines},
    listing::{refusal_line, refused},
    map::Play,
    reader::{PLAY_RECORD, read_library},
    values::Original,
};

/// Where a play's record has its flags; the clock rate is behind them, and then nothing.
const FLAGS: usize = 34;

/// A play's record, whatever its fields hold, and factors.
#[derive(Clone, Debug)]
pub struct Given {
    pub factors: Factors,
    pub record: [u8; PLAY_RECORD],
}

impl Given {
    pub fn new(play: &Play, factors: Factors) -> Self {
        Self {
            factors,
            record: play_record(play),
        }
    }

    fn encode(&self, out: &mut Vec<u8>) {
        let (front, flags_and_rate) = self.record.split_at(FLAGS);
        self.factors.encode(out);
        out.extend(flags_and_rate);
        out.extend(front);
        out.extend(0_u16.to_le_bytes());
        out.extend(1.0_f64.to_le_bytes());
    }

    fn decode(rest: &mut &[u8]) -> Option<Self> {
        let factors = Factors::decode(rest)?;
        let flags_and_rate: [u8; PLAY_RECORD - FLAGS] = take(rest)?;
        let mut record: [u8; PLAY_RECORD] = take(rest)?;
        record[FLAGS..].copy_from_slice(&flags_and_rate);
        record
            .starts_with(b"PL")
            .then_some(Self { factors, record })
    }
}

#[derive(Clone, Debug)]
pub struct Frame {
    pub given: Vec<Given>,
    pub file: Vec<u8>,
}

impl Frame {
    pub fn encode(&self) -> Vec<u8> {
        let mut out = (self.given.len() as u32).to_le_bytes().to_vec();
        self.given.iter().for_each(|given| given.encode(&mut out));
        out.extend(&self.file);
        out
    }

    /// The content of a frame, or none where the frame is not one of these.
    pub fn decode(frame: &[u8]) -> Option<Self> {
        let mut rest = frame;
        let count = u32::from_le_bytes(take(&mut rest)?);
        let given = (0..count)
            .map(|_| Given::decode(&mut rest))
            .collect::<Option<_>>()?;
        Some(Self {
            given,
            file: rest.to_vec(),
        })
    }

    /// The answers to the given plays.
    pub fn answer(&self) -> String {
        let map = match read_library(&self.file) {
            Ok(map) => map,
            Err(refusal) => return refusal_line(&refusal).repeat(self.given.len()),
        };
        let original = Original::new(&map);
        let answer = |(index, given): (usize, &Given)| {
            let factors = Some(given.factors);
            match checked_play(&self.file, &given.record, factors) {
                Ok(play) => lines(&original, index, &play, factors),
                Err(number) => refused(number),
            }
        };
        self.given.iter().enumerate().map(answer).collect()
    }
}
