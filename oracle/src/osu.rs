original!("osu_attributes.rs");
original!("osu_legacy_score_miss_calc.rs");
original!("osu_legacy_score_miss_calc_widened.rs");
original!("osu_legacy_score_simulator.rs");
original!("osu_object.rs");
original!("osu_score_state.rs");

pub mod performance {
    original!("osu_performance_calculator.rs");
    original!("osu_performance_calculator_widened.rs");

    pub use crate::stub::OsuPerformance;

    use crate::{
        GameMods,
        osu::{OsuDifficultyAttributes, OsuPerformanceAttributes, OsuScoreState},
    };

    /// Runs the original's calculator as it is. It is visible in this module only.
    pub fn unchanged_estimate(
        attrs: OsuDifficultyAttributes,
        mods: &GameMods,
        acc: f64,
        state: OsuScoreState,
        using_classic_slider_acc: bool,
    ) -> OsuPerformanceAttributes {
        calculator::OsuPerformanceCalculator::new(attrs, mods, acc, state, using_classic_slider_acc)
            .calculate()
    }

    /// Runs the original's calculator with the one product widened.
    pub fn widened_estimate(
        attrs: OsuDifficultyAttributes,
        mods: &GameMods,
        acc: f64,
        state: OsuScoreState,
        using_classic_slider_acc: bool,
    ) -> OsuPerformanceAttributes {
        calculator_widened::OsuPerformanceCalculator::new(
            attrs,
            mods,
            acc,
            state,
            using_classic_slider_acc,
        )
        .calculate()
    }

    /// The original's slider breaks by each factor of the attributes, behind the test that stands
    /// before each of its two calls: without an effective miss they keep the 0 that they start with.
    pub fn slider_breaks(
        attrs: OsuDifficultyAttributes,
        mods: &GameMods,
        acc: f64,
        state: OsuScoreState,
        using_classic_slider_acc: bool,
        effective_miss_count: f64,
    ) -> [f64; 2] {
        let factors = [
            attrs.aim_top_weighted_slider_factor,
            attrs.speed_top_weighted_slider_factor,
        ];
        if effective_miss_count > 0.0 {
            let calculator = calculator::OsuPerformanceCalculator::new(
                attrs,
                mods,
                acc,
                state,
                using_classic_slider_acc,
            );
            factors.map(|factor| calculator.estimated_slider_breaks(factor, effective_miss_count))
        } else {
            [0.0; 2]
        }
    }
}

pub mod utils {
    original!("osu_utils_legacy_score.rs");
}

pub use self::{
    attributes::{OsuDifficultyAttributes, OsuPerformanceAttributes},
    score_state::{OsuHitResults, OsuScoreOrigin, OsuScoreState},
};
