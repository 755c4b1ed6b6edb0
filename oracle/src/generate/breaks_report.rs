//! What a run of plays with factors contains, counted with the original's values.

use std::{collections::BTreeMap, fmt};

use super::marathon;
use crate::{
    breaks::{Frame, Given},
    given::checked_play,
    map::{FLAG_NAMES, Origin, Play},
    reader::read_library,
    values::{Attributes, Original},
};

/// Counts by label, in the order of `LABELS`, and refusals by number.
#[derive(Default)]
pub struct BreaksReport {
    counts: BTreeMap<&'static str, u64>,
    refusals: BTreeMap<u8, u64>,
}

#[rustfmt::skip]
const LABELS: [&str; 48] = [
    "frames", "files refused", "given plays", "plays refused", "plays with breaks",
    "origin 0", "origin 1", "origin 2", "no judgement", "no 100", "full combo", "combo 0",
    "nf", "ez", "hd", "hr", "fl", "so", "rx", "ap", "sv2",
    "effective 0", "effective above 0 and below 1", "effective 1", "effective between 1 and 2",
    "effective 2", "effective above 2", "effective score-based and no whole number",
    marathon::ESTIMATES, marathon::INSIDE,
    "factors", "factor 0", "factor -0.0", "factor 10", "factor subnormal", "factor below 1",
    "factor from 1 to below 10",
    "breaks 0", "breaks -0.0", "breaks above 0", "breaks subnormal",
    "smoothstep inside", "less than a third of the combo missed", "a third or more missed",
    "capped at n100", "at n100", "below n100", "below n100 and above 0",
];

impl BreaksReport {
    pub fn add(&mut self, frame: &Frame) {
        self.count("frames", 1);
        self.count("given plays", frame.given.len() as u64);
        let map = match read_library(&frame.file) {
            Ok(map) => map,
            Err(refusal) => {
                self.count("files refused", 1);
                return self.refused(refusal.number, frame.given.len() as u64);
            }
        };
        let original = Original::new(&map);
        for given in &frame.given {
            match checked_play(&frame.file, &given.record, Some(given.factors)) {
                Ok(play) => self.play(given, &play, &original.attributes(play.passed.into())),
                Err(number) => self.refused(number, 1),
            }
        }
    }

    pub fn get(&self, label: &'static str) -> u64 {
        self.counts.get(label).copied().unwrap_or(0)
    }

    /// How many given plays were refused with this number.
    pub fn refusals(&self, number: u8) -> u64 {
        self.refusals.get(&number).copied().unwrap_or(0)
    }

    fn count(&mut self, label: &'static str, by: u64) {
        *self.counts.entry(label).or_default() += by;
    }

    fn count_if(&mut self, label: &'static str, condition: bool) {
        self.count(label, condition.into());
    }

    fn refused(&mut self, number: u8, plays: u64) {
        self.count("plays refused", plays);
        *self.refusals.entry(number).or_default() += plays;
    }

    fn play(&mut self, given: &Given, play: &Play, a: &Attributes) {
        self.count("plays with breaks", 1);
        self.count(
            match play.origin {
                Origin::Stable => "origin 0",
                Origin::WithSliderAcc => "origin 1",
                Origin::WithoutSliderAcc => "origin 2",
            },
            1,
        );
        self.count_if("no judgement", play.judgements() == 0);
        self.count_if("no 100", play.n100 == 0);
        self.count_if("full combo", play.max_combo == a.max_combo);
        self.count_if("combo 0", play.max_combo == 0);
        for (bit, name) in FLAG_NAMES.into_iter().enumerate() {
            self.count_if(name, play.flags >> bit & 1 == 1);
        }
        for label in marathon::labels(a, play) {
            self.count(label, 1);
        }
        self.values(given, play, a);
    }

    fn values(&mut self, given: &Given, play: &Play, a: &Attributes) {
        let estimates = a.estimates(play);
        let effective = estimates.effective;
        self.effective(effective);
        let is_part = effective.fract() != 0.0 && estimates.score_based == Some(effective);
        self.count_if("effective score-based and no whole number", is_part);
        let breaks = a.slider_breaks(play, &estimates, given.factors);
        let is_zero = play.origin == Origin::WithSliderAcc || play.n100 == 0 || effective == 0.0;
        for (factor, breaks) in [
            (given.factors.aim, breaks.aim),
            (given.factors.speed, breaks.speed),
        ] {
            self.factor(factor);
            self.breaks(breaks);
            if !is_zero {
                self.formula(play, a, effective, factor);
            }
        }
    }

    fn effective(&mut self, effective: f64) {
        let label = match effective {
            0.0 => "effective 0",
            1.0 => "effective 1",
            2.0 => "effective 2",
            _ if effective < 1.0 => "effective above 0 and below 1",
            _ if effective < 2.0 => "effective between 1 and 2",
            _ => "effective above 2",
        };
        self.count(label, 1);
    }

    fn factor(&mut self, factor: f64) {
        self.count("factors", 1);
        let label = match factor {
            0.0 if factor.is_sign_negative() => "factor -0.0",
            0.0 => "factor 0",
            10.0 => "factor 10",
            _ if factor.is_subnormal() => "factor subnormal",
            _ if factor < 1.0 => "factor below 1",
            _ => "factor from 1 to below 10",
        };
        self.count(label, 1);
    }

    fn breaks(&mut self, breaks: f64) {
        let label = match breaks {
            0.0 if breaks.is_sign_negative() => "breaks -0.0",
            0.0 => "breaks 0",
            _ if breaks.is_subnormal() => "breaks subnormal",
            _ => "breaks above 0",
        };
        self.count(label, 1);
    }

    /// Where the parts of the formula lie.
    fn formula(&mut self, play: &Play, a: &Attributes, effective: f64, factor: f64) {
        self.count_if("smoothstep inside", effective > 1.0 && effective < 2.0);
        let missed = 1.0 - f64::from(play.max_combo) / f64::from(a.max_combo);
        self.count_if("less than a third of the combo missed", missed < 0.33);
        self.count_if("a third or more missed", missed >= 0.33);
        let (product, n100) = (effective * factor, f64::from(play.n100));
        self.count_if("capped at n100", product > n100);
        self.count_if("at n100", product == n100);
        self.count_if("below n100", product < n100);
        self.count_if("below n100 and above 0", product < n100 && product > 0.0);
    }
}

impl fmt::Display for BreaksReport {
    fn fmt(&self, f: &mut fmt::Formatter) -> fmt::Result {
        for label in LABELS {
            writeln!(f, "{label}: {}", self.get(label))?;
        }
        for (number, plays) in &self.refusals {
            writeln!(f, "refused {number:2}: {plays}")?;
        }
        Ok(())
    }
}
