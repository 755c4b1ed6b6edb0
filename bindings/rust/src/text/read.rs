//! The record of a line.

use std::str::{FromStr, SplitWhitespace};

use super::decimal;
use crate::{
    map::{Break, Nested, Object},
    play::{Mods, Origin, Play},
    record::Record,
    sys::Settings,
};

/// The record of a line, or none where it is blank; `objects` are those above it.
pub(super) fn record(line: &str, objects: usize) -> Result<Option<Record>, String> {
    let (line, _) = line.split_once('#').unwrap_or((line, ""));
    let mut words = Words(line.split_whitespace());
    let Some(name) = words.0.next() else {
        return Ok(None);
    };
    let record = match name {
        "map" => Record::Header(settings(&mut words)?),
        "break" => Record::Break(Break {
            start: words.time("start")?,
            end: words.time("end")?,
        }),
        "circle" => Record::Object(Object::circle(words.time("start")?)),
        "slider" => {
            let start = words.time("start")?;
            Record::Object(Object::slider(start, nested(&mut words)?))
        }
        "spinner" => {
            let start = words.time("start")?;
            match words.0.next() {
                Some("for") => {}
                _ => return Err("the word `for` is missing: spinner START for DURATION".into()),
            }
            Record::Object(Object::spinner(start, words.time("duration")?))
        }
        "play" => Record::Play(play(&mut words, objects)?),
        _ => {
            return Err(format!(
                "`{name}` is no record: a line starts with map, break, circle, slider, spinner or play"
            ));
        }
    };
    match words.0.next() {
        None => Ok(Some(record)),
        Some(word) => Err(format!("`{word}` is too much at the end of the {name}")),
    }
}

/// The words of a line that are left.
struct Words<'l>(SplitWhitespace<'l>);

impl<'l> Words<'l> {
    fn value(&mut self, what: &str) -> Result<&'l str, String> {
        self.0
            .next()
            .ok_or_else(|| format!("the {what} is missing"))
    }

    fn time(&mut self, what: &str) -> Result<f64, String> {
        decimal::read(what, self.value(what)?)
    }

    /// Fields as their name and value, each at most once.
    fn fields(
        &mut self,
        of: &str,
        names: &[&'static str],
        mut put: impl FnMut(&'static str, &'l str) -> Result<(), String>,
    ) -> Result<(), String> {
        let mut seen = Vec::new();
        while let Some(word) = self.0.next() {
            let Some(&name) = names.iter().find(|name| **name == word) else {
                let names = names.join(", ");
                return Err(format!(
                    "`{word}` is no field of a {of}: the fields are {names}"
                ));
            };
            if seen.contains(&name) {
                return Err(format!("the {name} stands twice"));
            }
            seen.push(name);
            put(name, self.value(name)?)?;
        }
        Ok(())
    }
}

fn settings(words: &mut Words) -> Result<Settings, String> {
    let mut given = [None; 3];
    let names = ["hp", "od", "cs"];
    words.fields("map", &names, |name, value| {
        for (place, known) in names.iter().enumerate() {
            if *known == name {
                given[place] = Some(decimal::read(name, value)?);
            }
        }
        Ok(())
    })?;
    let setting =
        |place: usize| given[place].ok_or_else(|| format!("the {} is missing", names[place]));
    Ok(Settings {
        hp: setting(0)?,
        od: setting(1)?,
        cs: setting(2)?,
    })
}

/// The items up to the end of the line.
fn nested(words: &mut Words) -> Result<Vec<Nested>, String> {
    let mut nested = Vec::new();
    for word in words.0.by_ref() {
        let (name, times) = match word.split_once('*') {
            Some((name, times)) => (name, whole("number behind *", times, 1, u16::MAX)?),
            None => (word, 1),
        };
        let item = match name {
            "tick" => Nested::Tick,
            "repeat" => Nested::Repeat,
            "tail" => Nested::Tail,
            _ => {
                return Err(format!(
                    "`{name}` is no nested item: the items are tick, repeat and tail"
                ));
            }
        };
        let count = nested.len() + usize::from(times);
        if count > u16::MAX.into() {
            return Err("a slider's record holds no more than 65535 nested items".into());
        }
        nested.resize(count, item);
    }
    Ok(nested)
}

const PLAY_FIELDS: [&str; 13] = [
    "passed", "combo", "n300", "n100", "n50", "misses", "large", "small", "ends", "origin",
    "score", "flags", "rate",
];

fn play(words: &mut Words, objects: usize) -> Result<Play, String> {
    let mut play = Play {
        passed_objects: u16::try_from(objects).unwrap_or(u16::MAX),
        ..Play::default()
    };
    words.fields("play", &PLAY_FIELDS, |name, value| {
        let short = || whole(name, value, 0, u16::MAX);
        let word = || whole(name, value, 0, u32::MAX);
        match name {
            "passed" => play.passed_objects = short()?,
            "combo" => play.max_combo = word()?,
            "n300" => play.n300 = short()?,
            "n100" => play.n100 = short()?,
            "n50" => play.n50 = short()?,
            "misses" => play.misses = short()?,
            "large" => play.large_tick_hits = word()?,
            "small" => play.small_tick_hits = word()?,
            "ends" => play.slider_end_hits = word()?,
            "origin" => play.origin = origin(value)?,
            "score" => play.score = Some(word()?),
            "flags" => play.mods = mods(value)?,
            _ => play.clock_rate = decimal::read(name, value)?,
        }
        Ok(())
    })?;
    Ok(play)
}

fn origin(word: &str) -> Result<Origin, String> {
    Ok(match word {
        "stable" => Origin::Stable,
        "with-slider-acc" => Origin::WithSliderAcc,
        "without-slider-acc" => Origin::WithoutSliderAcc,
        _ => {
            return Err(format!(
                "`{word}` is no origin: the origins are stable, with-slider-acc and without-slider-acc"
            ));
        }
    })
}

fn mods(word: &str) -> Result<Mods, String> {
    if word == "none" {
        return Ok(Mods::NONE);
    }
    word.split(',').try_fold(Mods::NONE, |mods, name| {
        let one = Mods::named(name).ok_or_else(|| {
            let names = Mods::NAMED.map(|(name, _)| name).join(", ");
            format!("`{name}` is no flag: the flags are {names}")
        })?;
        Ok(mods | one)
    })
}

/// A whole number within the limits, digits only.
fn whole<T>(what: &str, word: &str, least: T, most: T) -> Result<T, String>
where
    T: FromStr + PartialOrd + std::fmt::Display,
{
    let is_digits = word.bytes().all(|byte| byte.is_ascii_digit());
    match word.parse::<T>() {
        Ok(value) if is_digits && (&least..=&most).contains(&&value) => Ok(value),
        _ => Err(format!(
            "the {what} `{word}` is not a whole number from {least} to {most}"
        )),
    }
}
