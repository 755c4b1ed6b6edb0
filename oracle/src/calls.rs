//! Lists of calls on a board, as a stream of frames: a call each. All numbers are little-endian.
//!
//! ```text
//! u8 0   build: u32 words and u32 numbers, the sizes of what is lent, then the map file. It starts
//!        a list. Before it all lent words are WORD_FILLER and all numbers START_FILLER.
//! u8 1   edit: u32 count, u32 place, then the record's bytes
//! u8 2   read with the map's count, settings and breaks: u32 count, 3 x u32 bits of hp, od and cs,
//!        u16 flags, u64 bits of the clock rate, a PL record with flags 0 and rate 1, then the u64
//!        bits of each break's start and end. A read takes flags and rate unchecked, which no
//!        reading of a record gives: so they stand beside it.
//! u8 3   the same with another count, settings or breaks
//! u8 4   board: what the lent memory holds
//! u8 5   read with factors: u64 bits of the aim and of the speed factor, then as 2
//! u8 6   the same with another count, settings or breaks
//! ```
//!
//! Each call is answered in text:
//!
//! ```text
//! build  built
//! edit   done
//! 2      attrs INDEX .. and play INDEX .., as `trace` has them; INDEX counts the list's calls from 0
//! 3, 6   other: all that is claimed is that nothing changes
//! board  board DIGEST DIGEST, of all lent words and of the bits of all lent numbers
//! 5      as 2, then breaks INDEX AIM SPEED, in bits
//! any    refused NUMBER at OFFSET
//! ```

use std::fmt::Write as _;

use crate::{
    board::{board, fits, starts},
    encode::{self, encode},
    frame::take,
    given::{Factors, checked_play, lines},
    listing::{refusal_line, refused},
    map::{Break, MapFile, Play, Settings},
    reader::{MAX_OBJECTS, PLAY_RECORD, read_library, read_object, read_play},
    values::Original,
};

pub const WORD_FILLER: u64 = 0xdada_dada_dada_dada;
pub const START_FILLER: f64 = -0.5;

#[derive(Clone, Debug)]
pub enum Call {
    Build {
        words: u32,
        starts: u32,
        file: Vec<u8>,
    },
    Edit {
        count: u32,
        place: u32,
        record: Vec<u8>,
    },
    Read {
        /// Whether count, settings and breaks are said to be the map's.
        is_own: bool,
        factors: Option<Factors>,
        count: u32,
        settings: Settings,
        breaks: Vec<f64>,
        play: Play,
    },
    Board,
}

impl Call {
    pub fn encode(&self) -> Vec<u8> {
        let mut out = Vec::new();
        match self {
            Self::Build {
                words,
                starts,
                file,
            } => {
                out.push(0);
                out.extend(words.to_le_bytes());
                out.extend(starts.to_le_bytes());
                out.extend(file);
            }
            Self::Edit {
                count,
                place,
                record,
            } => {
                out.push(1);
                out.extend(count.to_le_bytes());
                out.extend(place.to_le_bytes());
                out.extend(record);
            }
            Self::Read {
                is_own,
                factors,
                count,
                settings,
                breaks,
                play,
            } => {
                out.push(match (is_own, factors) {
                    (true, None) => 2,
                    (false, None) => 3,
                    (true, Some(_)) => 5,
                    (false, Some(_)) => 6,
                });
                factors.iter().for_each(|factors| factors.encode(&mut out));
                out.extend(count.to_le_bytes());
                for setting in [settings.hp, settings.od, settings.cs] {
                    out.extend(setting.to_le_bytes());
                }
                put_play(&mut out, play);
                out.extend(breaks.iter().flat_map(|time| time.to_le_bytes()));
            }
            Self::Board => out.push(4),
        }
        out
    }

    /// The call of a frame, or none where the frame is not one.
    pub fn decode(frame: &[u8]) -> Option<Self> {
        let mut rest = frame;
        let kind = u8::from_le_bytes(take(&mut rest)?);
        Some(match kind {
            0 => Self::Build {
                words: u32::from_le_bytes(take(&mut rest)?),
                starts: u32::from_le_bytes(take(&mut rest)?),
                file: rest.to_vec(),
            },
            1 => Self::Edit {
                count: u32::from_le_bytes(take(&mut rest)?),
                place: u32::from_le_bytes(take(&mut rest)?),
                record: rest.to_vec(),
            },
            2 | 3 | 5 | 6 => Self::decode_read(kind, rest)?,
            4 if rest.is_empty() => Self::Board,
            _ => return None,
        })
    }

    fn decode_read(kind: u8, mut rest: &[u8]) -> Option<Self> {
        let factors = match kind {
            5 | 6 => Some(Factors::decode(&mut rest)?),
            _ => None,
        };
        let count = u32::from_le_bytes(take(&mut rest)?);
        let settings = Settings {
            hp: f32::from_le_bytes(take(&mut rest)?),
            od: f32::from_le_bytes(take(&mut rest)?),
            cs: f32::from_le_bytes(take(&mut rest)?),
        };
        let play = take_play(&mut rest)?;
        let (times, []) = rest.as_chunks() else {
            return None;
        };
        Some(Self::Read {
            is_own: matches!(kind, 2 | 5),
            factors,
            count,
            settings,
            breaks: times.iter().map(|&time| f64::from_le_bytes(time)).collect(),
            play,
        })
    }
}

fn put_play(out: &mut Vec<u8>, play: &Play) {
    out.extend(play.flags.to_le_bytes());
    out.extend(play.clock_rate.to_le_bytes());
    encode::play(
        out,
        &Play {
            flags: 0,
            clock_rate: 1.0,
            ..play.clone()
        },
    );
}

fn take_play(rest: &mut &[u8]) -> Option<Play> {
    let flags = u16::from_le_bytes(take(rest)?);
    let clock_rate = f64::from_le_bytes(take(rest)?);
    let play = read_play(&take::<PLAY_RECORD>(rest)?).ok()?;
    Some(Play {
        flags,
        clock_rate,
        ..play
    })
}

/// The break numbers of a read with these breaks.
pub fn times(breaks: &[Break]) -> Vec<f64> {
    breaks.iter().flat_map(|b| [b.start, b.end]).collect()
}

/// Where a list of calls stands: the map as it is, if its build was accepted, and the sizes of what
/// is lent. There is no board in here: each answer comes from the map alone.
#[derive(Default)]
pub struct List {
    map: Option<MapFile>,
    words: u32,
    starts: u32,
    calls: usize,
}

impl List {
    pub fn map(&self) -> Option<&MapFile> {
        self.map.as_ref()
    }

    /// The answer to the next call. An error is one in the stream: a call that no list has.
    pub fn answer(&mut self, call: &Call) -> Result<String, String> {
        if let Call::Build {
            words,
            starts,
            file,
        } = call
        {
            return Ok(self.build(*words, *starts, file));
        }
        let index = self.calls;
        self.calls += 1;
        if let Call::Board = call {
            return Ok(self.board());
        }
        let map = self.map.as_ref().ok_or("a call without a map")?;
        match call {
            Call::Build { .. } | Call::Board => unreachable!("answered above"),
            Call::Edit {
                count,
                place,
                record,
            } => match self.edited(map, *count as usize, *place as usize, record)? {
                Ok(changed) => {
                    self.map = Some(changed);
                    Ok("done\n".to_owned())
                }
                Err(number) => Ok(refused(number)),
            },
            Call::Read { is_own: false, .. } => Ok("other\n".to_owned()),
            Call::Read {
                factors,
                count,
                settings,
                breaks,
                play,
                ..
            } => {
                if !is_of(map, *count, settings, breaks) {
                    return Err("a read whose arguments are not the map's".to_owned());
                }
                Ok(scored(map, index, play, *factors))
            }
        }
    }

    fn build(&mut self, words: u32, starts: u32, file: &[u8]) -> String {
        *self = Self {
            words,
            starts,
            ..Self::default()
        };
        let map = match read_library(file) {
            Ok(map) => map,
            Err(refusal) => return refusal_line(&refusal),
        };
        if !fits(map.objects.len(), words, starts) {
            return refused(11);
        }
        self.map = Some(MapFile {
            plays: Vec::new(),
            ..map
        });
        "built\n".to_owned()
    }

    /// The map with the object of the record at the place, or the number of the edit's refusal.
    fn edited(
        &self,
        map: &MapFile,
        count: usize,
        place: usize,
        record: &[u8],
    ) -> Result<Result<MapFile, u8>, String> {
        if count > MAX_OBJECTS {
            return Ok(Err(6));
        }
        if !fits(count, self.words, self.starts) {
            return Ok(Err(11));
        }
        if place >= count {
            return Ok(Err(12));
        }
        if count != map.objects.len() {
            return Err("an edit with another count that no count refuses".to_owned());
        }
        let object = match read_object(record) {
            Ok(object) => object,
            Err(number) => return Ok(Err(number)),
        };
        let mut changed = map.clone();
        changed.objects[place] = object;
        Ok(match read_library(&encode(&changed)) {
            Ok(_) => Ok(changed),
            Err(refusal) => Err(refusal.number),
        })
    }

    /// The digests of what the lent memory should hold.
    fn board(&self) -> String {
        let (mut words, mut numbers) = match &self.map {
            Some(map) => (board(&map.objects), starts(&map.objects)),
            None => (Vec::new(), Vec::new()),
        };
        words.resize(self.words as usize, WORD_FILLER);
        numbers.resize(self.starts as usize, START_FILLER);
        let mut line = "board".to_owned();
        for digest in [
            digest(words.into_iter()),
            digest(numbers.into_iter().map(f64::to_bits)),
        ] {
            write!(line, " {digest:016x}").expect("a string takes all text");
        }
        line + "\n"
    }
}

/// Whether a read's arguments are the map's, bit for bit.
fn is_of(map: &MapFile, count: u32, settings: &Settings, breaks: &[f64]) -> bool {
    let bits = |s: &Settings| [s.hp, s.od, s.cs].map(f32::to_bits);
    count as usize == map.objects.len()
        && bits(settings) == bits(&map.settings)
        && breaks
            .iter()
            .map(|time| time.to_bits())
            .eq(times(&map.breaks).into_iter().map(f64::to_bits))
}

/// The values of a play on the map, or the refusal that its record gets behind the map's.
fn scored(map: &MapFile, index: usize, play: &Play, factors: Option<Factors>) -> String {
    let mut record = Vec::new();
    encode::play(&mut record, play);
    match checked_play(&encode(map), &record, factors) {
        Ok(play) => lines(&Original::new(map), index, &play, factors),
        Err(number) => refused(number),
    }
}

/// Each number takes part in every bit: xorshift64 after each sum.
fn digest(numbers: impl Iterator<Item = u64>) -> u64 {
    numbers.fold(1, |digest: u64, number| {
        let mut mixed = digest.wrapping_add(number);
        mixed ^= mixed << 13;
        mixed ^= mixed >> 7;
        mixed ^ (mixed << 17)
    })
}
