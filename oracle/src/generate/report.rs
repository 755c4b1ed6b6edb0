//! What a run of the generator contains, counted with the original's values.

use std::{collections::BTreeMap, fmt};

use super::marathon;
use crate::{
    map::{FLAG_NAMES, MapFile, ObjectKind, Origin, Play},
    values::{Attributes, MissSteps, Original},
};

/// Counts by label, in the order of `LABELS`.
#[derive(Default)]
pub struct Report {
    counts: BTreeMap<&'static str, u64>,
    most_combo: u32,
    most_legacy_bonus: i32,
}

#[rustfmt::skip]
const LABELS: [&str; 77] = [
    "files", "bytes", "files above 65,536 bytes",
    "files of 0 objects", "files of 1", "files of 2", "files of 3 to 10", "files of 11 to 60",
    "files of 61 to 500", "files of 501 to 4,000", "files of 4,001 to 8,191", "files of 8,192",
    "breaks", "files of 128 breaks", "files of multiplier 0",
    "files of 46,340 to 46,345 combo", "files above 46,341 combo", "files above 1,000,000 combo",
    "files of 8,200,192 combo",
    "circles", "sliders", "spinners", "nested items", "sliders of 1,000 nested items",
    "plays", "plays of origin 0", "plays of origin 1", "plays of origin 2",
    "plays without score", "plays of score 0", "plays of score above 2,147,483,647",
    "plays without judgement",
    "plays of 0 passed", "plays beyond the count", "plays of part of the map",
    "max combo 0", "max combo of the map", "passed combo 46,341 with an estimate",
    marathon::ESTIMATES, marathon::INSIDE,
    "nf", "ez", "hd", "hr", "fl", "so", "rx", "ap", "sv2",
    "rate below 1", "rate 1", "rate above 1",
    "plays with a score-based value",
    "value inside", "value inside and above the misses", "value at the cap",
    "value at a cap that is no whole number", "value 1", "value 0",
    "miss: no score left", "miss: raised to 1", "miss: lowered to the cap",
    "miss: quotient not a number", "miss: multiplier 0, not a number into max",
    "miss: combo per object above 0",
    "miss: combo per object 0", "miss: combo per object below 0",
    "cap: no sliders", "cap: below the full combo", "cap: not below the full combo",
    "cap: lowered to the imperfect hits", "cap: lowered to possible slider breaks",
    "combo-based: no sliders", "combo-based: below the full combo",
    "combo-based: not below the full combo", "effective: raised to the misses",
    "effective: lowered to the judgements",
];

impl Report {
    pub fn add(&mut self, map: &MapFile, bytes: usize) {
        self.count("files", 1);
        self.count("bytes", bytes as u64);
        self.count_if("files above 65,536 bytes", bytes > 65_536);
        self.count(size_label(map.objects.len()), 1);
        self.count("breaks", map.breaks.len() as u64);
        self.count_if("files of 128 breaks", map.breaks.len() == 128);
        self.objects(map);
        let original = Original::new(map);
        let all = original.attributes(original.object_count());
        self.count_if("files of multiplier 0", all.multiplier == 0);
        self.combo(all.max_combo);
        self.most_legacy_bonus = self.most_legacy_bonus.max(all.legacy_bonus);
        for play in &map.plays {
            let attributes = original.attributes(play.passed.into());
            self.play(play, map.objects.len());
            self.estimates(play, &attributes);
            for label in marathon::labels(&attributes, play) {
                self.count(label, 1);
            }
        }
    }

    pub fn get(&self, label: &'static str) -> u64 {
        self.counts.get(label).copied().unwrap_or(0)
    }

    fn count(&mut self, label: &'static str, by: u64) {
        *self.counts.entry(label).or_default() += by;
    }

    fn count_if(&mut self, label: &'static str, condition: bool) {
        self.count(label, condition.into());
    }

    fn combo(&mut self, combo: u32) {
        self.most_combo = self.most_combo.max(combo);
        let is_edge = (46_340..=46_345).contains(&combo);
        self.count_if("files of 46,340 to 46,345 combo", is_edge);
        self.count_if("files above 46,341 combo", combo > 46_341);
        self.count_if("files above 1,000,000 combo", combo > 1_000_000);
        self.count_if("files of 8,200,192 combo", combo == 8_200_192);
    }

    fn objects(&mut self, map: &MapFile) {
        for object in &map.objects {
            match &object.kind {
                ObjectKind::Circle => self.count("circles", 1),
                ObjectKind::Spinner { .. } => self.count("spinners", 1),
                ObjectKind::Slider(nested) => {
                    self.count("sliders", 1);
                    self.count("nested items", nested.len() as u64);
                    self.count_if("sliders of 1,000 nested items", nested.len() == 1_000);
                }
            }
        }
    }

    fn play(&mut self, play: &Play, objects: usize) {
        self.count("plays", 1);
        self.count(
            match play.origin {
                Origin::Stable => "plays of origin 0",
                Origin::WithSliderAcc => "plays of origin 1",
                Origin::WithoutSliderAcc => "plays of origin 2",
            },
            1,
        );
        let passed = usize::from(play.passed);
        self.count_if("plays without score", play.score.is_none());
        self.count_if("plays of score 0", play.score == Some(0));
        let is_huge = play.score.is_some_and(|score| score > i32::MAX as u32);
        self.count_if("plays of score above 2,147,483,647", is_huge);
        self.count_if("plays without judgement", play.judgements() == 0);
        self.count_if("plays of 0 passed", passed == 0);
        self.count_if("plays beyond the count", passed > objects);
        self.count_if("plays of part of the map", passed > 0 && passed < objects);
        for (bit, name) in FLAG_NAMES.into_iter().enumerate() {
            self.count_if(name, play.flags >> bit & 1 == 1);
        }
        self.count_if("rate below 1", play.clock_rate < 1.0);
        self.count_if("rate 1", play.clock_rate == 1.0);
        self.count_if("rate above 1", play.clock_rate > 1.0);
    }

    fn estimates(&mut self, play: &Play, a: &Attributes) {
        self.count_if("max combo 0", play.max_combo == 0);
        self.count_if("max combo of the map", play.max_combo == a.max_combo);
        let values = a.estimates(play);
        if play.judgements() > 0 {
            self.combo_based(play, a);
            let estimate = values.score_based.unwrap_or(values.combo_based);
            self.count_if(
                "effective: raised to the misses",
                estimate < play.misses.into(),
            );
            let lowered = estimate > play.judgements().into();
            self.count_if("effective: lowered to the judgements", lowered);
        }
        if let (Some(value), Some(score)) = (values.score_based, play.score) {
            self.count_if(
                "passed combo 46,341 with an estimate",
                a.max_combo == 46_341,
            );
            self.count_if(
                "miss: multiplier 0, not a number into max",
                a.multiplier == 0,
            );
            let steps = a.miss_steps(play);
            self.score_based(value, score, &steps);
            let is_inside = value > 1.0 && value < steps.maximum_miss_count;
            let above = is_inside && value > play.misses.into();
            self.count_if("value inside and above the misses", above);
            self.cap(play, a, &steps);
        }
    }

    fn combo_based(&mut self, play: &Play, a: &Attributes) {
        let most = f64::from(a.max_combo);
        let threshold = if play.origin == Origin::WithSliderAcc {
            most - f64::from(a.sliders - play.slider_end_hits)
        } else {
            most - 0.1 * f64::from(a.sliders)
        };
        let label = if a.sliders == 0 {
            "combo-based: no sliders"
        } else if f64::from(play.max_combo) < threshold {
            "combo-based: below the full combo"
        } else {
            "combo-based: not below the full combo"
        };
        self.count(label, 1);
    }

    fn score_based(&mut self, value: f64, score: u32, steps: &MissSteps) {
        self.count("plays with a score-based value", 1);
        let cap = steps.maximum_miss_count;
        let label = match value {
            0.0 => "value 0",
            1.0 => "value 1",
            _ if value == cap => "value at the cap",
            _ => "value inside",
        };
        self.count(label, 1);
        let is_power = value == cap && cap.fract() != 0.0;
        self.count_if("value at a cap that is no whole number", is_power);
        let remaining = f64::from(score) - steps.score_at_max_combo;
        let quotient = steps.score_of_remaining_combo / remaining;
        if remaining <= 0.0 {
            self.count("miss: no score left", 1);
        } else {
            self.count_if("miss: quotient not a number", quotient.is_nan());
            self.count_if("miss: raised to 1", quotient < 1.0 || quotient.is_nan());
            self.count_if("miss: lowered to the cap", quotient.max(1.0) > cap);
        }
        let relevant = steps.relevant_combo_per_object;
        self.count_if("miss: combo per object above 0", relevant > 0.0);
        self.count_if("miss: combo per object 0", relevant == 0.0);
        self.count_if("miss: combo per object below 0", relevant < 0.0);
    }

    fn cap(&mut self, play: &Play, a: &Attributes, steps: &MissSteps) {
        if a.sliders == 0 {
            return self.count("cap: no sliders", 1);
        }
        let threshold = f64::from(a.max_combo) - 0.1 * f64::from(a.sliders);
        let combo = f64::from(play.max_combo);
        let imperfect =
            f64::from(u32::from(play.n100) + u32::from(play.n50)) + f64::from(play.misses);
        let power = if combo < threshold {
            self.count("cap: below the full combo", 1);
            crate::stand_in::power_five_halves(threshold / combo.max(1.0))
        } else {
            self.count("cap: not below the full combo", 1);
            0.0
        };
        self.count_if("cap: lowered to the imperfect hits", power > imperfect);
        let by_breaks = steps.maximum_miss_count != power.min(imperfect);
        self.count_if("cap: lowered to possible slider breaks", by_breaks);
    }
}

fn size_label(objects: usize) -> &'static str {
    match objects {
        0 => "files of 0 objects",
        1 => "files of 1",
        2 => "files of 2",
        3..=10 => "files of 3 to 10",
        11..=60 => "files of 11 to 60",
        61..=500 => "files of 61 to 500",
        501..=4_000 => "files of 501 to 4,000",
        4_001..=8_191 => "files of 4,001 to 8,191",
        _ => "files of 8,192",
    }
}

impl fmt::Display for Report {
    fn fmt(&self, f: &mut fmt::Formatter) -> fmt::Result {
        for label in LABELS {
            writeln!(f, "{label}: {}", self.get(label))?;
        }
        let inside = 100 * self.get("value inside");
        let valued = self.get("plays with a score-based value").max(1);
        writeln!(
            f,
            "percent of score-based values inside: {}",
            inside / valued
        )?;
        writeln!(f, "most combo: {}", self.most_combo)?;
        writeln!(f, "most legacy bonus: {}", self.most_legacy_bonus)
    }
}
