//! Reads a map file and refuses as document 01 says, in its order of checks, without the number
//! that document 02 took away.

use crate::{
    map::{Break, MapFile, Nested, Object, ObjectKind, Origin, Play, Settings},
    spinner,
};

pub const PROGRAM_LIMIT: usize = 65_536;
pub const MAX_BREAKS: usize = 128;
pub const MAX_OBJECTS: usize = 8_192;
pub const MAX_NESTED: usize = 1_000;
pub const MAX_TIME: f64 = 8_000_000.0;
pub const MAX_SETTING: f32 = 12.0;
pub const MAX_CLOCK_RATE: f64 = 100.0;
pub const MAX_LEGACY_BONUS: u64 = 2_147_483_647;

/// Bytes of a play's record, its mark included.
pub const PLAY_RECORD: usize = 44;

#[derive(Copy, Clone, Debug, PartialEq, Eq)]
pub struct Refusal {
    pub number: u8,
    pub offset: usize,
}

/// The place of a record among the others, in the order that a file keeps.
#[derive(Copy, Clone, PartialEq, Eq, PartialOrd, Ord)]
enum Stage {
    Start,
    Header,
    Breaks,
    Objects,
    Plays,
}

#[derive(Copy, Clone)]
enum Mark {
    Header,
    Break,
    Circle,
    Slider,
    Spinner,
    Play,
}

impl Mark {
    fn of(bytes: [u8; 2]) -> Option<Self> {
        Some(match &bytes {
            b"MH" => Self::Header,
            b"BR" => Self::Break,
            b"CI" => Self::Circle,
            b"SL" => Self::Slider,
            b"SP" => Self::Spinner,
            b"PL" => Self::Play,
            _ => return None,
        })
    }

    fn stage(self) -> Stage {
        match self {
            Self::Header => Stage::Header,
            Self::Break => Stage::Breaks,
            Self::Circle | Self::Slider | Self::Spinner => Stage::Objects,
            Self::Play => Stage::Plays,
        }
    }

    /// Bytes after the mark that each record of this kind has.
    fn fixed_part(self) -> usize {
        match self {
            Self::Header => 12,
            Self::Break | Self::Spinner => 16,
            Self::Circle => 8,
            Self::Slider => 10,
            Self::Play => 42,
        }
    }
}

/// What the first objects have together, for the checks of plays.
#[derive(Copy, Clone, Default)]
struct Totals {
    combo: u32,
    sliders: u32,
    large_ticks: u32,
}

struct Reader<'b> {
    rest: &'b [u8],
    stage: Stage,
    map: MapFile,
    /// One more than the objects: entry p belongs to the first p.
    totals: Vec<Totals>,
    legacy_bonus: u64,
}

/// Reads as the program does: a long input is refused unread.
pub fn read_program(bytes: &[u8]) -> Result<MapFile, Refusal> {
    if bytes.len() > PROGRAM_LIMIT {
        return Err(Refusal {
            number: 1,
            offset: 0,
        });
    }
    read_library(bytes)
}

/// Reads as the library does.
pub fn read_library(bytes: &[u8]) -> Result<MapFile, Refusal> {
    let mut reader = Reader::new(bytes, Stage::Start);
    if bytes.is_empty() {
        return Err(Refusal {
            number: 3,
            offset: 0,
        });
    }
    while !reader.rest.is_empty() {
        let offset = bytes.len() - reader.rest.len();
        reader
            .record()
            .map_err(|number| Refusal { number, offset })?;
    }
    Ok(reader.map)
}

/// Reads an edit's record: one object and nothing behind it, or the number of its refusal.
pub fn read_object(bytes: &[u8]) -> Result<Object, u8> {
    if bytes.is_empty() || bytes.starts_with(b"PL") {
        return Err(3);
    }
    let mut reader = Reader::new(bytes, Stage::Objects);
    reader.record()?;
    match reader.map.objects.pop() {
        Some(object) if reader.rest.is_empty() => Ok(object),
        _ => Err(3),
    }
}

/// The play of a whole record, unheld to any map.
pub fn read_play(record: &[u8; PLAY_RECORD]) -> Result<Play, u8> {
    play(&mut Fields(&record[2..]))
}

impl<'b> Reader<'b> {
    fn new(rest: &'b [u8], stage: Stage) -> Self {
        Self {
            rest,
            stage,
            map: MapFile::default(),
            totals: vec![Totals::default()],
            legacy_bonus: 0,
        }
    }

    /// Reads one record, or gives the number of its first refusal.
    fn record(&mut self) -> Result<(), u8> {
        let mark = self.take(2)?;
        let mark = Mark::of([mark[0], mark[1]]).ok_or(3)?;
        self.enter(mark.stage())?;
        if self.is_full(mark) {
            return Err(6);
        }
        let mut fields = Fields(self.take(mark.fixed_part())?);
        match mark {
            Mark::Header => self.map.settings = settings(&mut fields)?,
            Mark::Break => self.map.breaks.push(break_period(&mut fields)?),
            Mark::Circle | Mark::Slider | Mark::Spinner => {
                let start = fields.time()?;
                let kind = match mark {
                    Mark::Slider => ObjectKind::Slider(self.nested(fields.u16())?),
                    Mark::Spinner => self.spinner(fields.f64())?,
                    _ => ObjectKind::Circle,
                };
                self.push(Object { start, kind });
            }
            Mark::Play => {
                let play = play(&mut fields)?;
                self.check_play(&play)?;
                self.map.plays.push(play);
            }
        }
        Ok(())
    }

    fn take(&mut self, count: usize) -> Result<&'b [u8], u8> {
        let (taken, rest) = self.rest.split_at_checked(count).ok_or(2)?;
        self.rest = rest;
        Ok(taken)
    }

    /// The header comes first and once; the others never go back.
    fn enter(&mut self, stage: Stage) -> Result<(), u8> {
        let is_first = self.stage == Stage::Start;
        if is_first != (stage == Stage::Header) || stage < self.stage {
            return Err(3);
        }
        self.stage = stage;
        Ok(())
    }

    fn is_full(&self, mark: Mark) -> bool {
        match mark.stage() {
            Stage::Breaks => self.map.breaks.len() == MAX_BREAKS,
            Stage::Objects => self.map.objects.len() == MAX_OBJECTS,
            _ => false,
        }
    }

    fn nested(&mut self, count: u16) -> Result<Vec<Nested>, u8> {
        let count = usize::from(count);
        if count > MAX_NESTED {
            return Err(6);
        }
        let nested: Option<Vec<_>> = self.take(count)?.iter().map(nested_item).collect();
        let nested = nested.ok_or(5)?;
        let tails = nested.iter().filter(|&&item| item == Nested::Tail).count();
        if tails != 1 || nested.last() != Some(&Nested::Tail) {
            return Err(5);
        }
        Ok(nested)
    }

    fn spinner(&mut self, duration: f64) -> Result<ObjectKind, u8> {
        if !(0.0..=spinner::MAX_DURATION).contains(&duration) {
            return Err(4);
        }
        self.legacy_bonus += spinner::legacy_bonus(duration);
        if self.legacy_bonus > MAX_LEGACY_BONUS {
            return Err(7);
        }
        Ok(ObjectKind::Spinner { duration })
    }

    fn push(&mut self, object: Object) {
        let mut totals = self.totals[self.map.objects.len()];
        totals.combo += object.combo_gain();
        if let ObjectKind::Slider(nested) = &object.kind {
            totals.sliders += 1;
            // All nested items but the tail are ticks or repeats.
            totals.large_ticks += nested.len() as u32 - 1;
        }
        self.totals.push(totals);
        self.map.objects.push(object);
    }

    fn check_play(&self, play: &Play) -> Result<(), u8> {
        let passed = usize::from(play.passed).min(self.map.objects.len());
        let totals = self.totals[passed];
        let exceeds_sliders = play.origin == Origin::WithSliderAcc
            && (play.slider_end_hits > totals.sliders || play.large_tick_hits > totals.large_ticks);
        if play.judgements() as usize > passed || play.max_combo > totals.combo || exceeds_sliders {
            return Err(9);
        }
        Ok(())
    }
}

/// The fixed part of a record, field by field. Its length fits the layout.
struct Fields<'b>(&'b [u8]);

impl Fields<'_> {
    fn bytes<const N: usize>(&mut self) -> [u8; N] {
        let (field, rest) = self
            .0
            .split_first_chunk()
            .expect("a fixed part as long as its fields");
        self.0 = rest;
        *field
    }

    fn u8(&mut self) -> u8 {
        u8::from_le_bytes(self.bytes())
    }

    fn u16(&mut self) -> u16 {
        u16::from_le_bytes(self.bytes())
    }

    fn u32(&mut self) -> u32 {
        u32::from_le_bytes(self.bytes())
    }

    fn f64(&mut self) -> f64 {
        f64::from_le_bytes(self.bytes())
    }

    fn setting(&mut self) -> Result<f32, u8> {
        let setting = f32::from_le_bytes(self.bytes());
        (0.0..=MAX_SETTING)
            .contains(&setting)
            .then_some(setting)
            .ok_or(4)
    }

    fn time(&mut self) -> Result<f64, u8> {
        let time = self.f64();
        (-MAX_TIME..=MAX_TIME)
            .contains(&time)
            .then_some(time)
            .ok_or(4)
    }
}

fn settings(fields: &mut Fields) -> Result<Settings, u8> {
    Ok(Settings {
        hp: fields.setting()?,
        od: fields.setting()?,
        cs: fields.setting()?,
    })
}

fn break_period(fields: &mut Fields) -> Result<Break, u8> {
    Ok(Break {
        start: fields.time()?,
        end: fields.time()?,
    })
}

fn nested_item(byte: &u8) -> Option<Nested> {
    match byte {
        0 => Some(Nested::Tick),
        1 => Some(Nested::Repeat),
        2 => Some(Nested::Tail),
        _ => None,
    }
}

/// The fields of a play; each refusal is 8, so their order does not show.
fn play(fields: &mut Fields) -> Result<Play, u8> {
    Ok(Play {
        passed: fields.u16(),
        max_combo: fields.u32(),
        n300: fields.u16(),
        n100: fields.u16(),
        n50: fields.u16(),
        misses: fields.u16(),
        large_tick_hits: fields.u32(),
        small_tick_hits: fields.u32(),
        slider_end_hits: fields.u32(),
        origin: match fields.u8() {
            0 => Origin::Stable,
            1 => Origin::WithSliderAcc,
            2 => Origin::WithoutSliderAcc,
            _ => return Err(8),
        },
        score: match (fields.u8(), fields.u32()) {
            (0, 0) => None,
            (1, score) => Some(score),
            _ => return Err(8),
        },
        flags: match fields.u16() {
            flags @ 0..512 => flags,
            _ => return Err(8),
        },
        clock_rate: match fields.f64() {
            rate if rate > 0.0 && rate <= MAX_CLOCK_RATE => rate,
            _ => return Err(8),
        },
    })
}
