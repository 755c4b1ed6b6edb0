//! The values of the original for a map and its plays.

use crate::{
    Beatmap, GameMods,
    given::Factors,
    map::{MapFile, Nested, Object, ObjectKind, Origin, Play},
    model::hit_object::Spinner,
    osu::{
        OsuDifficultyAttributes, OsuHitResults, OsuPerformanceAttributes, OsuScoreOrigin,
        OsuScoreState, legacy_score_miss_calc, legacy_score_miss_calc_widened,
        legacy_score_simulator::OsuLegacyScoreSimulator,
        object::{NestedSliderObject, NestedSliderObjectKind, OsuObject, OsuObjectKind, OsuSlider},
        performance,
        utils::legacy_score::NestedScorePerObject,
    },
    stub::{BreakPeriod, Curve, HitObject, Pos},
};

/// The most combo whose product (max combo - 2) × max combo is within the original's i32.
pub const MAX_UNCHANGED_COMBO: u32 = 46_341;

/// A map in the original's types.
pub struct Original {
    beatmap: Beatmap,
    objects: Vec<OsuObject>,
}

/// All score attributes of the passed objects.
#[derive(Clone, Debug)]
pub struct Attributes {
    pub objects: u32,
    pub multiplier: i32,
    pub accuracy_score: i32,
    pub combo_score: i64,
    pub bonus_ratio: f64,
    pub legacy_bonus: i32,
    pub standardised_bonus: i32,
    pub max_combo: u32,
    pub nested_per_object: f64,
    pub circles: u32,
    pub sliders: u32,
    pub spinners: u32,
    pub repeats: u32,
    pub ticks: u32,
}

#[derive(Clone, Debug)]
pub struct Estimates {
    pub accuracy: f64,
    pub combo_based: f64,
    pub score_based: Option<f64>,
    pub effective: f64,
}

/// The steps of a score-based estimate.
#[derive(Clone, Debug)]
pub struct MissSteps {
    pub maximum_miss_count: f64,
    pub relevant_combo_per_object: f64,
    pub score_at_max_combo: f64,
    pub score_of_remaining_combo: f64,
}

#[derive(Clone, Debug)]
pub struct SliderBreaks {
    pub aim: f64,
    pub speed: f64,
}

impl Original {
    pub fn new(map: &MapFile) -> Self {
        Self {
            beatmap: Beatmap {
                hp: map.settings.hp,
                od: map.settings.od,
                cs: map.settings.cs,
                breaks: map
                    .breaks
                    .iter()
                    .map(|b| BreakPeriod {
                        start_time: b.start,
                        end_time: b.end,
                    })
                    .collect(),
                hit_objects: map
                    .objects
                    .iter()
                    .map(|object| HitObject {
                        start_time: object.start,
                    })
                    .collect(),
            },
            objects: map.objects.iter().map(original_object).collect(),
        }
    }

    pub fn object_count(&self) -> usize {
        self.objects.len()
    }

    /// The attributes of the first `passed` objects.
    pub fn attributes(&self, passed: usize) -> Attributes {
        let mut simulator = OsuLegacyScoreSimulator::new(&self.objects, &self.beatmap, passed);
        let score = simulator.simulate();
        let map_attrs = self.beatmap.attributes().build();
        let multiplier =
            OsuLegacyScoreSimulator::score_multiplier(&self.beatmap, &map_attrs, passed);
        let mut attributes = Attributes {
            objects: 0,
            multiplier,
            accuracy_score: score.accuracy_score,
            combo_score: score.combo_score,
            bonus_ratio: score.bonus_score_ratio,
            legacy_bonus: score.bonus_score,
            standardised_bonus: simulator.standardised_bonus_score(),
            max_combo: score.max_combo,
            nested_per_object: NestedScorePerObject::calculate(&self.objects, passed),
            circles: 0,
            sliders: 0,
            spinners: 0,
            repeats: 0,
            ticks: 0,
        };
        for object in self.objects.iter().take(passed) {
            attributes.count(object);
        }
        attributes
    }

    pub fn estimates(&self, play: &Play) -> Estimates {
        self.attributes(play.passed.into()).estimates(play)
    }

    /// One run of the original, for a time.
    pub fn widened_estimates(&self, play: &Play) -> Estimates {
        self.attributes(play.passed.into()).widened_estimates(play)
    }
}

impl Attributes {
    fn count(&mut self, object: &OsuObject) {
        self.objects += 1;
        match &object.kind {
            OsuObjectKind::Circle => self.circles += 1,
            OsuObjectKind::Spinner(_) => self.spinners += 1,
            OsuObjectKind::Slider(slider) => {
                self.sliders += 1;
                self.repeats += slider.repeat_count() as u32;
                self.ticks += slider.tick_count() as u32;
            }
        }
    }

    /// The estimates by the original with its product widened; where the product stays within its
    /// type, the original as it is runs beside it, and a difference stops the run.
    pub fn estimates(&self, play: &Play) -> Estimates {
        let widened = self.widened_estimates(play);
        if self.is_unchanged() {
            let unchanged = self.unchanged_estimates(play);
            assert_eq!(widened.bits(), unchanged.bits(), "{self:?}, {play:?}");
        }
        widened
    }

    /// By the original as it is. Where a score-based estimate is due, a max combo above
    /// `MAX_UNCHANGED_COMBO` leaves a type.
    pub fn unchanged_estimates(&self, play: &Play) -> Estimates {
        self.estimates_by(performance::unchanged_estimate, play)
    }

    /// By the original with its product widened, alone: this is what is timed, one run of the text
    /// that has a value on every map.
    pub fn widened_estimates(&self, play: &Play) -> Estimates {
        self.estimates_by(performance::widened_estimate, play)
    }

    fn is_unchanged(&self) -> bool {
        self.max_combo <= MAX_UNCHANGED_COMBO
    }

    fn estimates_by(
        &self,
        estimate: impl Fn(
            OsuDifficultyAttributes,
            &GameMods,
            f64,
            OsuScoreState,
            bool,
        ) -> OsuPerformanceAttributes,
        play: &Play,
    ) -> Estimates {
        let accuracy = self.accuracy(play);
        let values = estimate(
            self.difficulty(),
            &mods(play),
            accuracy,
            state(play),
            play.origin != Origin::WithSliderAcc,
        );
        Estimates {
            accuracy,
            combo_based: values.combo_based_estimated_miss_count,
            score_based: values.score_based_estimated_miss_count,
            effective: values.effective_miss_count,
        }
    }

    /// The slider breaks of the play whose estimates these are.
    pub fn slider_breaks(
        &self,
        play: &Play,
        estimates: &Estimates,
        factors: Factors,
    ) -> SliderBreaks {
        let difficulty = OsuDifficultyAttributes {
            aim_top_weighted_slider_factor: factors.aim,
            speed_top_weighted_slider_factor: factors.speed,
            ..self.difficulty()
        };
        let [aim, speed] = performance::slider_breaks(
            difficulty,
            &mods(play),
            estimates.accuracy,
            state(play),
            play.origin != Origin::WithSliderAcc,
            estimates.effective,
        );
        SliderBreaks { aim, speed }
    }

    /// The steps of the score-based estimate, as `estimates` has it. Only for plays that have one.
    pub fn miss_steps(&self, play: &Play) -> MissSteps {
        use legacy_score_miss_calc::OsuLegacyScoreMissCalculator as Unchanged;
        use legacy_score_miss_calc_widened::OsuLegacyScoreMissCalculator as Widened;
        let (state, mods, difficulty) = (state(play), mods(play), self.difficulty());
        let accuracy = self.accuracy(play);
        let widened = Widened::new(&state, accuracy, &mods, &difficulty).steps();
        if self.is_unchanged() {
            let unchanged = Unchanged::new(&state, accuracy, &mods, &difficulty).steps();
            assert_eq!(widened.bits(), unchanged.bits(), "{self:?}, {play:?}");
        }
        widened
    }

    fn accuracy(&self, play: &Play) -> f64 {
        let large_ticks = self.ticks + self.repeats;
        let origin = match play.origin {
            Origin::Stable => OsuScoreOrigin::Stable,
            Origin::WithSliderAcc => OsuScoreOrigin::WithSliderAcc {
                max_large_ticks: large_ticks,
                max_slider_ends: self.sliders,
            },
            Origin::WithoutSliderAcc => OsuScoreOrigin::WithoutSliderAcc {
                max_large_ticks: self.sliders + large_ticks,
                max_small_ticks: self.sliders,
            },
        };
        state(play).hitresults.accuracy(origin)
    }

    fn difficulty(&self) -> OsuDifficultyAttributes {
        OsuDifficultyAttributes {
            nested_score_per_object: self.nested_per_object,
            legacy_score_base_multiplier: f64::from(self.multiplier),
            maximum_legacy_combo_score: self.combo_score as f64,
            n_circles: self.circles,
            n_sliders: self.sliders,
            n_large_ticks: self.ticks + self.repeats,
            n_spinners: self.spinners,
            max_combo: self.max_combo,
            ..Default::default()
        }
    }
}

impl Estimates {
    fn bits(&self) -> ([u64; 3], Option<u64>) {
        (
            [self.accuracy, self.combo_based, self.effective].map(bits),
            self.score_based.map(bits),
        )
    }
}

impl MissSteps {
    fn bits(&self) -> [u64; 4] {
        [
            self.maximum_miss_count,
            self.relevant_combo_per_object,
            self.score_at_max_combo,
            self.score_of_remaining_combo,
        ]
        .map(bits)
    }
}

/// The bits of a float, the same for all that are not a number.
fn bits(value: f64) -> u64 {
    if value.is_nan() { f64::NAN } else { value }.to_bits()
}

fn mods(play: &Play) -> GameMods {
    GameMods::new(play.flags, play.clock_rate)
}

fn state(play: &Play) -> OsuScoreState {
    OsuScoreState {
        max_combo: play.max_combo,
        hitresults: OsuHitResults {
            large_tick_hits: play.large_tick_hits,
            small_tick_hits: play.small_tick_hits,
            slider_end_hits: play.slider_end_hits,
            n300: play.n300.into(),
            n100: play.n100.into(),
            n50: play.n50.into(),
            misses: play.misses.into(),
        },
        legacy_total_score: play.score,
    }
}

fn original_object(object: &Object) -> OsuObject {
    OsuObject {
        pos: Pos,
        start_time: object.start,
        stack_height: 0,
        stack_offset: Pos,
        kind: match &object.kind {
            ObjectKind::Circle => OsuObjectKind::Circle,
            ObjectKind::Slider(nested) => OsuObjectKind::Slider(original_slider(nested)),
            &ObjectKind::Spinner { duration } => OsuObjectKind::Spinner(Spinner { duration }),
        },
    }
}

fn original_slider(nested: &[Nested]) -> OsuSlider {
    let repeats = nested
        .iter()
        .filter(|&&item| item == Nested::Repeat)
        .count();
    OsuSlider {
        end_time: 0.0,
        span_count: (repeats + 1) as f64,
        path: Curve,
        nested_objects: nested
            .iter()
            .map(|item| NestedSliderObject {
                pos: Pos,
                start_time: 0.0,
                kind: match item {
                    Nested::Tick => NestedSliderObjectKind::Tick,
                    Nested::Repeat => NestedSliderObjectKind::Repeat,
                    Nested::Tail => NestedSliderObjectKind::Tail,
                },
            })
            .collect(),
    }
}
