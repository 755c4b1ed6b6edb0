//! Reads a map file, each record checked in document 01's order.

use oracle::{
    map::{Origin, Play, Settings},
    reader::{
        MAX_BREAKS, MAX_CLOCK_RATE, MAX_LEGACY_BONUS, MAX_NESTED, MAX_OBJECTS, MAX_SETTING,
        MAX_TIME, Refusal,
    },
    spinner::MAX_DURATION,
    values::Attributes,
};

use super::{
    entry::{self, EMPTY, Entry, LEGACY_BONUS, OBJECTS},
    score,
};

pub enum Kind {
    Circle,
    Slider { repeats: u64, ticks: u64 },
    Spinner { duration: f64 },
}

pub struct Object {
    pub start: f64,
    pub kind: Kind,
}

/// What was read of a file.
pub struct Map<'f> {
    settings: Settings,
    /// Starts and ends in turn.
    breaks: Vec<f64>,
    /// From the first object's record on.
    objects: Bytes<'f>,
    pub sum: Entry,
    /// The first object's start and the last one's.
    ends: Option<[f64; 2]>,
    stage: Stage,
}

/// Behind which record the reader stands.
#[derive(Clone, Copy, PartialEq, PartialOrd)]
enum Stage {
    Nothing,
    Header,
    Break,
    Object,
    Play,
}

/// The attributes of all objects, with the checks of the plays.
pub fn score_map(file: &[u8]) -> Result<Attributes, Refusal> {
    let map = read(file)?;
    Ok(score::attributes(
        &map.sum,
        &map.settings,
        &map.breaks,
        map.ends,
    ))
}

pub fn read(file: &[u8]) -> Result<Map<'_>, Refusal> {
    let mut bytes = Bytes(file);
    let mut map = Map {
        settings: Settings::default(),
        breaks: Vec::new(),
        objects: Bytes(&[]),
        sum: EMPTY,
        ends: None,
        stage: Stage::Nothing,
    };
    while !bytes.0.is_empty() {
        let offset = file.len() - bytes.0.len();
        map.read_record(&mut bytes)
            .map_err(|number| Refusal { number, offset })?;
    }
    match map.stage {
        Stage::Nothing => Err(Refusal {
            number: 3,
            offset: 0,
        }),
        _ => Ok(map),
    }
}

/// The object of an edit's record, behind which nothing stands.
pub fn read_alone(record: &[u8]) -> Result<Object, u8> {
    let mut bytes = Bytes(record);
    if record.is_empty() {
        return Err(3);
    }
    let mark = bytes.take()?;
    let object = bytes.object(mark)?;
    if bytes.0.is_empty() {
        Ok(object)
    } else {
        Err(3)
    }
}

pub fn check_settings(settings: &Settings) -> Result<(), u8> {
    let is_good = |setting| (0.0..=MAX_SETTING).contains(&setting);
    let all = [settings.hp, settings.od, settings.cs];
    if all.into_iter().all(is_good) {
        Ok(())
    } else {
        Err(4)
    }
}

pub fn is_time(time: f64) -> bool {
    (-MAX_TIME..=MAX_TIME).contains(&time)
}

pub fn check_mods(play: &Play) -> Result<(), u8> {
    let is_good = play.flags < 512 && play.clock_rate > 0.0 && play.clock_rate <= MAX_CLOCK_RATE;
    if is_good { Ok(()) } else { Err(8) }
}

impl<'f> Map<'f> {
    pub fn object_count(&self) -> usize {
        self.sum[OBJECTS] as usize
    }

    /// The objects again.
    pub fn objects(&self) -> impl Iterator<Item = Object> {
        let mut bytes = self.objects;
        (0..self.object_count()).map_while(move |_| {
            let mark = bytes.take().ok()?;
            bytes.object(mark).ok()
        })
    }

    fn read_record(&mut self, bytes: &mut Bytes<'f>) -> Result<(), u8> {
        let record = *bytes;
        let mark = bytes.take()?;
        let stage = match (mark, self.stage) {
            (b"MH", Stage::Nothing) => {
                self.settings = bytes.settings()?;
                Stage::Header
            }
            (b"BR", Stage::Header | Stage::Break) => {
                self.read_break(bytes)?;
                Stage::Break
            }
            (b"CI" | b"SL" | b"SP", Stage::Header | Stage::Break | Stage::Object) => {
                if self.stage != Stage::Object {
                    self.objects = record;
                }
                self.read_object(mark, bytes)?;
                Stage::Object
            }
            (b"PL", stage) if stage != Stage::Nothing => {
                let play = bytes.play()?;
                score::check(&play, &self.sum_of_first(play.passed.into()))?;
                Stage::Play
            }
            _ => return Err(3),
        };
        self.stage = stage;
        Ok(())
    }

    fn read_break(&mut self, bytes: &mut Bytes) -> Result<(), u8> {
        if self.breaks.len() == 2 * MAX_BREAKS {
            return Err(6);
        }
        let times = bytes.two_f64()?;
        if !times.into_iter().all(is_time) {
            return Err(4);
        }
        self.breaks.extend(times);
        Ok(())
    }

    fn read_object(&mut self, mark: &[u8; 2], bytes: &mut Bytes) -> Result<(), u8> {
        if self.object_count() == MAX_OBJECTS {
            return Err(6);
        }
        let object = bytes.object(mark)?;
        self.sum = entry::join(&self.sum, &entry::own(&object.kind));
        if self.sum[LEGACY_BONUS] > MAX_LEGACY_BONUS {
            return Err(7);
        }
        let [first, _] = self.ends.unwrap_or([object.start; 2]);
        self.ends = Some([first, object.start]);
        Ok(())
    }

    fn sum_of_first(&self, passed: usize) -> Entry {
        if passed >= self.object_count() {
            return self.sum;
        }
        self.objects().take(passed).fold(EMPTY, |sum, object| {
            entry::join(&sum, &entry::own(&object.kind))
        })
    }
}

/// The bytes that are left.
#[derive(Clone, Copy)]
struct Bytes<'f>(&'f [u8]);

impl<'f> Bytes<'f> {
    #[inline]
    fn take<const N: usize>(&mut self) -> Result<&'f [u8; N], u8> {
        let (taken, rest) = self.0.split_first_chunk().ok_or(2)?;
        self.0 = rest;
        Ok(taken)
    }

    fn two_f64(&mut self) -> Result<[f64; 2], u8> {
        let (halves, _) = self.take::<16>()?.as_chunks();
        Ok([halves[0], halves[1]].map(f64::from_le_bytes))
    }

    fn settings(&mut self) -> Result<Settings, u8> {
        let (thirds, _) = self.take::<12>()?.as_chunks();
        let [hp, od, cs] = [thirds[0], thirds[1], thirds[2]].map(f32::from_le_bytes);
        let settings = Settings { hp, od, cs };
        check_settings(&settings).map(|()| settings)
    }

    /// The object behind its mark.
    #[inline]
    fn object(&mut self, mark: &[u8; 2]) -> Result<Object, u8> {
        match mark {
            b"CI" => {
                let start = time(*self.take()?)?;
                let kind = Kind::Circle;
                Ok(Object { start, kind })
            }
            b"SL" => {
                let &[start @ .., low, high] = self.take::<10>()?;
                let start = time(start)?;
                let kind = self.slider(u16::from_le_bytes([low, high]).into())?;
                Ok(Object { start, kind })
            }
            b"SP" => {
                let [start, duration] = self.two_f64()?;
                if !is_time(start) || !(0.0..=MAX_DURATION).contains(&duration) {
                    return Err(4);
                }
                let kind = Kind::Spinner { duration };
                Ok(Object { start, kind })
            }
            _ => Err(3),
        }
    }

    fn slider(&mut self, count: usize) -> Result<Kind, u8> {
        if count > MAX_NESTED {
            return Err(6);
        }
        let (nested, rest) = self.0.split_at_checked(count).ok_or(2)?;
        self.0 = rest;
        let Some((2, items)) = nested.split_last() else {
            return Err(5);
        };
        if items.iter().fold(0, |most, &item| item.max(most)) > 1 {
            return Err(5);
        }
        // At most 999, each 0 or 1.
        let repeats: u16 = items.iter().map(|&item| u16::from(item)).sum();
        let repeats = u64::from(repeats);
        Ok(Kind::Slider {
            repeats,
            ticks: items.len() as u64 - repeats,
        })
    }

    /// Each refusal is 8, so the order of the fields does not show.
    fn play(&mut self) -> Result<Play, u8> {
        let mut fields = Bytes(self.take::<42>()?);
        let play = Play {
            passed: u16::from_le_bytes(*fields.take()?),
            max_combo: u32::from_le_bytes(*fields.take()?),
            n300: u16::from_le_bytes(*fields.take()?),
            n100: u16::from_le_bytes(*fields.take()?),
            n50: u16::from_le_bytes(*fields.take()?),
            misses: u16::from_le_bytes(*fields.take()?),
            large_tick_hits: u32::from_le_bytes(*fields.take()?),
            small_tick_hits: u32::from_le_bytes(*fields.take()?),
            slider_end_hits: u32::from_le_bytes(*fields.take()?),
            origin: match fields.take()? {
                [0] => Origin::Stable,
                [1] => Origin::WithSliderAcc,
                [2] => Origin::WithoutSliderAcc,
                _ => return Err(8),
            },
            score: match (fields.take()?, u32::from_le_bytes(*fields.take()?)) {
                ([0], 0) => None,
                ([1], score) => Some(score),
                _ => return Err(8),
            },
            flags: u16::from_le_bytes(*fields.take()?),
            clock_rate: f64::from_le_bytes(*fields.take()?),
        };
        check_mods(&play).map(|()| play)
    }
}

#[inline]
fn time(bytes: [u8; 8]) -> Result<f64, u8> {
    let time = f64::from_le_bytes(bytes);
    if is_time(time) { Ok(time) } else { Err(4) }
}
