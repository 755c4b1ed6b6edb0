//! The oracle's types as ours, and its values beside ours.

use oracle::{
    encode,
    given::{Factors, checked_play},
    map as theirs,
    reader::Refusal,
    values,
};
use popejoanplum::{
    Attributes, Break, BreaksScore, Error, Estimates, Map, MapFile, Mods, Nested, Object, Origin,
    Play, Score, Settings, SliderFactors,
};

pub fn settings(s: &theirs::Settings) -> Settings {
    Settings {
        hp: s.hp,
        od: s.od,
        cs: s.cs,
    }
}

pub fn object(o: &theirs::Object) -> Object {
    match &o.kind {
        theirs::ObjectKind::Circle => Object::circle(o.start),
        theirs::ObjectKind::Slider(items) => {
            let nested: Vec<Nested> = items
                .iter()
                .map(|item| match item {
                    theirs::Nested::Tick => Nested::Tick,
                    theirs::Nested::Repeat => Nested::Repeat,
                    theirs::Nested::Tail => Nested::Tail,
                })
                .collect();
            Object::slider(o.start, nested)
        }
        &theirs::ObjectKind::Spinner { duration } => Object::spinner(o.start, duration),
    }
}

pub fn play(p: &theirs::Play) -> Play {
    Play {
        passed_objects: p.passed,
        max_combo: p.max_combo,
        n300: p.n300,
        n100: p.n100,
        n50: p.n50,
        misses: p.misses,
        large_tick_hits: p.large_tick_hits,
        small_tick_hits: p.small_tick_hits,
        slider_end_hits: p.slider_end_hits,
        origin: match p.origin {
            theirs::Origin::Stable => Origin::Stable,
            theirs::Origin::WithSliderAcc => Origin::WithSliderAcc,
            theirs::Origin::WithoutSliderAcc => Origin::WithoutSliderAcc,
        },
        score: p.score,
        mods: Mods::from_bits(p.flags),
        clock_rate: p.clock_rate,
    }
}

pub fn factors(f: Factors) -> SliderFactors {
    SliderFactors {
        aim: f.aim,
        speed: f.speed,
    }
}

pub fn map(m: &theirs::MapFile) -> Map {
    let breaks = m.breaks.iter().map(|b| Break {
        start: b.start,
        end: b.end,
    });
    Map {
        settings: settings(&m.settings),
        breaks: breaks.collect(),
        objects: m.objects.iter().map(object).collect(),
    }
}

pub fn map_file(m: &theirs::MapFile) -> MapFile {
    MapFile {
        map: map(m),
        plays: m.plays.iter().map(play).collect(),
    }
}

/// A refusal as its number and offset.
pub fn refused(error: &Error) -> (u8, usize) {
    (error.number(), error.offset())
}

pub fn due(refusal: &Refusal) -> (u8, usize) {
    (refusal.number, refusal.offset)
}

/// The bits of a float; any two that are not a number count as equal.
fn bits(value: f64) -> Option<u64> {
    (!value.is_nan()).then(|| value.to_bits())
}

#[derive(Debug, PartialEq)]
pub struct AttributesBits([u64; 12], [Option<u64>; 2]);

impl From<&Attributes> for AttributesBits {
    fn from(a: &Attributes) -> Self {
        Self(
            [
                a.object_count,
                a.multiplier,
                a.accuracy_score,
                a.combo_score,
                a.legacy_bonus_score,
                a.standardised_bonus_score,
                a.max_combo.into(),
                a.n_circles.into(),
                a.n_sliders.into(),
                a.n_spinners.into(),
                a.n_repeats.into(),
                a.n_ticks.into(),
            ],
            [a.bonus_score_ratio, a.nested_score_per_object].map(bits),
        )
    }
}

impl From<&values::Attributes> for AttributesBits {
    fn from(a: &values::Attributes) -> Self {
        Self(
            [
                a.objects.into(),
                a.multiplier as u64,
                a.accuracy_score as u64,
                a.combo_score as u64,
                a.legacy_bonus as u64,
                a.standardised_bonus as u64,
                a.max_combo.into(),
                a.circles.into(),
                a.sliders.into(),
                a.spinners.into(),
                a.repeats.into(),
                a.ticks.into(),
            ],
            [a.bonus_ratio, a.nested_per_object].map(bits),
        )
    }
}

#[derive(Debug, PartialEq)]
pub struct EstimatesBits([Option<u64>; 3], Option<Option<u64>>);

impl From<&Estimates> for EstimatesBits {
    fn from(e: &Estimates) -> Self {
        Self(
            [e.accuracy, e.combo_based, e.effective].map(bits),
            e.score_based.map(bits),
        )
    }
}

impl From<&values::Estimates> for EstimatesBits {
    fn from(e: &values::Estimates) -> Self {
        Self(
            [e.accuracy, e.combo_based, e.effective].map(bits),
            e.score_based.map(bits),
        )
    }
}

pub type ScoreBits = (AttributesBits, EstimatesBits);

pub fn score_bits(score: &Score) -> ScoreBits {
    ((&score.attributes).into(), (&score.estimates).into())
}

/// The values of the original for a play on a map.
pub fn due_score(original: &values::Original, play: &theirs::Play) -> ScoreBits {
    let attributes = original.attributes(play.passed.into());
    let estimates = attributes.estimates(play);
    ((&attributes).into(), (&estimates).into())
}

/// Whether a play has a score-based estimate on more combo than the original's product holds.
pub fn is_marathon(original: &values::Original, play: &theirs::Play) -> bool {
    let max_combo = original.attributes(play.passed.into()).max_combo;
    play.score_is_due() && max_combo > values::MAX_UNCHANGED_COMBO
}

/// What a play that is given beside an accepted map gets: the refusal's number that its record gets
/// behind the map, at 0, or the original's values.
pub fn due_answer(
    map: &theirs::MapFile,
    original: &values::Original,
    play: &theirs::Play,
) -> Result<ScoreBits, (u8, usize)> {
    check(map, play, None)?;
    Ok(due_score(original, play))
}

pub fn answer(score: Result<Score, Error>) -> Result<ScoreBits, (u8, usize)> {
    match score {
        Ok(score) => Ok(score_bits(&score)),
        Err(error) => Err(refused(&error)),
    }
}

fn check(
    map: &theirs::MapFile,
    play: &theirs::Play,
    factors: Option<Factors>,
) -> Result<(), (u8, usize)> {
    let mut record = Vec::new();
    encode::play(&mut record, play);
    let checked = checked_play(&encode::encode(map), &record, factors);
    checked.map(|_| ()).map_err(|number| (number, 0))
}

/// A score, and the breaks for aim and for speed.
pub type BreaksBits = (ScoreBits, [Option<u64>; 2]);

/// What the same play gets with factors beside it.
pub fn due_breaks_answer(
    map: &theirs::MapFile,
    original: &values::Original,
    play: &theirs::Play,
    factors: Factors,
) -> Result<BreaksBits, (u8, usize)> {
    check(map, play, Some(factors))?;
    let attributes = original.attributes(play.passed.into());
    let breaks = attributes.slider_breaks(play, &attributes.estimates(play), factors);
    let breaks = [breaks.aim, breaks.speed].map(bits);
    Ok((due_score(original, play), breaks))
}

pub fn breaks_answer(given: Result<BreaksScore, Error>) -> Result<BreaksBits, (u8, usize)> {
    match given {
        Ok(given) => {
            let breaks = given.slider_breaks;
            let breaks = [breaks.aim, breaks.speed].map(bits);
            Ok((score_bits(&given.score), breaks))
        }
        Err(error) => Err(refused(&error)),
    }
}

/// Whether an answer has breaks above 0.
pub fn has_breaks(answer: &Result<BreaksBits, (u8, usize)>) -> bool {
    let is_above = |bits: &Option<u64>| bits.is_some_and(|bits| f64::from_bits(bits) > 0.0);
    answer
        .as_ref()
        .is_ok_and(|(_, breaks)| breaks.iter().all(is_above))
}
