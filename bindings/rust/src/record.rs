//! The records of a map file: their layout, both ways.

use crate::{
    map::{Break, Nested, Object, ObjectKind},
    play::{Mods, Origin, Play},
    sys::Settings,
};

/// A record of a map file.
pub(crate) enum Record {
    Header(Settings),
    Break(Break),
    Object(Object),
    Play(Play),
}

pub(crate) fn put_settings(out: &mut Vec<u8>, settings: &Settings) {
    out.extend(b"MH");
    for setting in [settings.hp, settings.od, settings.cs] {
        out.extend(setting.to_le_bytes());
    }
}

pub(crate) fn put_break(out: &mut Vec<u8>, b: &Break) {
    out.extend(b"BR");
    out.extend(b.start.to_le_bytes());
    out.extend(b.end.to_le_bytes());
}

pub(crate) fn put_object(out: &mut Vec<u8>, object: &Object) {
    out.extend(match object.kind {
        ObjectKind::Circle => b"CI",
        ObjectKind::Slider { .. } => b"SL",
        ObjectKind::Spinner { .. } => b"SP",
    });
    out.extend(object.start.to_le_bytes());
    match &object.kind {
        ObjectKind::Circle => {}
        ObjectKind::Slider { nested } => {
            // The count is checked before the list: any above 1,000 gets 6, whatever follows.
            let count = u16::try_from(nested.len()).unwrap_or(u16::MAX);
            out.extend(count.to_le_bytes());
            out.extend(nested.iter().take(count.into()).map(|item| item.number()));
        }
        ObjectKind::Spinner { duration } => out.extend(duration.to_le_bytes()),
    }
}

pub(crate) fn put_play(out: &mut Vec<u8>, play: &Play) {
    out.extend(b"PL");
    out.extend(play.passed_objects.to_le_bytes());
    out.extend(play.max_combo.to_le_bytes());
    for count in [play.n300, play.n100, play.n50, play.misses] {
        out.extend(count.to_le_bytes());
    }
    for hits in [
        play.large_tick_hits,
        play.small_tick_hits,
        play.slider_end_hits,
    ] {
        out.extend(hits.to_le_bytes());
    }
    out.push(play.origin.number());
    out.push(play.score.is_some().into());
    out.extend(play.score.unwrap_or(0).to_le_bytes());
    out.extend(play.mods.bits().to_le_bytes());
    out.extend(play.clock_rate.to_le_bytes());
}

/// The records of an accepted file. Of another file, those before the first that has no such form.
pub(crate) fn records(file: &[u8]) -> impl Iterator<Item = Record> + '_ {
    let mut fields = Fields(file);
    std::iter::from_fn(move || record(&mut fields))
}

fn record(fields: &mut Fields) -> Option<Record> {
    Some(match &fields.take::<2>()? {
        b"MH" => Record::Header(Settings {
            hp: f32::from_le_bytes(fields.take()?),
            od: f32::from_le_bytes(fields.take()?),
            cs: f32::from_le_bytes(fields.take()?),
        }),
        b"BR" => Record::Break(Break {
            start: fields.f64()?,
            end: fields.f64()?,
        }),
        b"CI" => Record::Object(Object::circle(fields.f64()?)),
        b"SL" => {
            let start = fields.f64()?;
            let count = fields.u16()?;
            let nested = fields.nested(count)?;
            Record::Object(Object::slider(start, nested))
        }
        b"SP" => Record::Object(Object::spinner(fields.f64()?, fields.f64()?)),
        b"PL" => Record::Play(play(fields)?),
        _ => return None,
    })
}

/// In the order of the layout.
fn play(fields: &mut Fields) -> Option<Play> {
    Some(Play {
        passed_objects: fields.u16()?,
        max_combo: fields.u32()?,
        n300: fields.u16()?,
        n100: fields.u16()?,
        n50: fields.u16()?,
        misses: fields.u16()?,
        large_tick_hits: fields.u32()?,
        small_tick_hits: fields.u32()?,
        slider_end_hits: fields.u32()?,
        origin: Origin::from_number(fields.u8()?)?,
        score: match (fields.u8()?, fields.u32()?) {
            (0, 0) => None,
            (1, score) => Some(score),
            _ => return None,
        },
        mods: Mods::from_bits(fields.u16()?),
        clock_rate: fields.f64()?,
    })
}

/// The bytes that are left.
struct Fields<'f>(&'f [u8]);

impl Fields<'_> {
    fn take<const N: usize>(&mut self) -> Option<[u8; N]> {
        let (field, rest) = self.0.split_first_chunk()?;
        self.0 = rest;
        Some(*field)
    }

    fn u8(&mut self) -> Option<u8> {
        self.take().map(u8::from_le_bytes)
    }

    fn u16(&mut self) -> Option<u16> {
        self.take().map(u16::from_le_bytes)
    }

    fn u32(&mut self) -> Option<u32> {
        self.take().map(u32::from_le_bytes)
    }

    fn f64(&mut self) -> Option<f64> {
        self.take().map(f64::from_le_bytes)
    }

    fn nested(&mut self, count: u16) -> Option<Vec<Nested>> {
        let (items, rest) = self.0.split_at_checked(count.into())?;
        self.0 = rest;
        items
            .iter()
            .map(|&number| Nested::from_number(number))
            .collect()
    }
}
