//! Makes the modules of the crate out of the original text.
//!
//! Nothing of that text is changed but for the substitutions below. Some files
//! lean on absent ones; of these, whole items are cut out by markers.
//!
//! The miss calculator stands here twice, with its product as it is and widened,
//! and so does the calculator, which asks the one or the other.

use std::path::{Path, PathBuf};

use super::substitute::{cut, expect, replace, replace_once};

/// The folder of the original as seen from the repository's root.
const DEFAULT_FOLDER: &str = "../shared/docs/src";

/// Files that compile as they are.
pub const WHOLE: [&str; 8] = [
    "any/hit_result.rs",
    "model/beatmap/attributes/ext.rs",
    "osu/attributes.rs",
    "osu/score_state.rs",
    "osu/utils/legacy_score.rs",
    "util/float_ext.rs",
    "util/hint.rs",
    "util/ruleset_ext.rs",
];

const SIMULATOR: &str = "osu/legacy_score_simulator/mod.rs";
const MISS_CALCULATOR: &str = "osu/legacy_score_miss_calc.rs";
const PERFORMANCE: &str = "osu/performance/calculator.rs";
const OBJECT: &str = "osu/object.rs";
const HIT_OBJECT: &str = "model/hit_object.rs";
const DIFFICULTY: &str = "util/difficulty.rs";

/// The one power of the original, and document 01's stand-in for it.
const POWER: &str = "(full_combo_threshold / f64::from(state.max_combo).max(1.0)).powf(2.5)";
const POWER_STAND_IN: &str = "crate::stand_in::power_five_halves(\
    full_combo_threshold / f64::from(state.max_combo).max(1.0))";

/// The product of the score-based estimate, which leaves its type above a max combo
/// of 46,341, and document 02's form of it: exact, then a float.
const PRODUCT: &str = "f64::from((attrs.max_combo as i32 - 2) * attrs.max_combo as i32)";
const PRODUCT_WIDENED: &str =
    "((i64::from(attrs.max_combo) - 2) * i64::from(attrs.max_combo)) as f64";

/// The exponentials of the curves, and document 02's stand-in for each.
const EXPONENTIAL: &str = "f64::exp(";
const EXPONENTIALS: usize = 4;
const EXPONENTIAL_STAND_IN: &str = "crate::stand_in::exp(";

/// Added below the simulator's text: its sum is private and not in its result.
const SIMULATOR_ACCESS: &str = "
impl OsuLegacyScoreSimulator<'_> {
    pub fn standardised_bonus_score(&self) -> i32 {
        self.inner.standardised_bonus_score
    }
}
";

/// Added below the miss calculator's text: its steps, for the generator.
const MISS_CALCULATOR_ACCESS: &str = "
use crate::values::MissSteps;

impl OsuLegacyScoreMissCalculator<'_> {
    pub fn steps(&self) -> MissSteps {
        let multiplier =
            self.attrs.legacy_score_base_multiplier * self.get_legacy_score_multiplier();
        let relevant = self.calculate_relevant_score_combo_per_object();
        let remaining = self.attrs.max_combo - self.state.max_combo;
        MissSteps {
            maximum_miss_count: self.calculate_maximum_combo_based_miss_count(),
            relevant_combo_per_object: relevant,
            score_at_max_combo: self.calculate_score_at_combo(
                self.state.max_combo, relevant, multiplier,
            ),
            score_of_remaining_combo: self.calculate_score_at_combo(
                remaining, relevant, multiplier,
            ),
        }
    }
}
";

/// Added below the calculator's text: its estimate is private.
const PERFORMANCE_ACCESS: &str = "
impl OsuPerformanceCalculator<'_> {
    pub fn estimated_slider_breaks(&self, factor: f64, effective_miss_count: f64) -> f64 {
        self.calculate_estimated_slider_breaks(factor, effective_miss_count)
    }
}
";

const PERFORMANCE_IMPORTS: &str = "use std::cmp;

use crate::{
    GameMods,
    osu::{OsuDifficultyAttributes, OsuPerformanceAttributes, OsuScoreState},
    util::difficulty::{logistic, smoothstep},
};
";

/// Which miss calculator is asked.
const MISS_CALCULATOR_IMPORT: &str =
    "use crate::osu::legacy_score_miss_calc::OsuLegacyScoreMissCalculator;\n\n";
const WIDENED_MISS_CALCULATOR_IMPORT: &str =
    "use crate::osu::legacy_score_miss_calc_widened::OsuLegacyScoreMissCalculator;\n\n";

/// Closes `calculate` behind its last statement before the relax part.
const PERFORMANCE_RESULT: &str = "        OsuPerformanceAttributes {
            effective_miss_count,
            combo_based_estimated_miss_count,
            score_based_estimated_miss_count,
            ..Default::default()
        }
    }

";

const OBJECT_IMPORTS: &str = "use rosu_map::{section::hit_objects::Curve, util::Pos};

use crate::model::hit_object::Spinner;

";

/// The suffix of the modules whose product is widened.
pub const WIDENED: &str = "_widened";

/// A module for the build folder: its file's name and its text.
pub struct Module {
    pub file: String,
    pub text: String,
}

/// The original's `src`, in the folder given or by default. A relative folder
/// counts from the repository's root, so that the default means the same
/// wherever the build is started.
pub fn source_folder(manifest_folder: &Path, given: Option<&str>) -> PathBuf {
    let root = manifest_folder.parent().unwrap_or(manifest_folder);
    let folder = given.filter(|folder| !folder.is_empty());
    root.join(folder.unwrap_or(DEFAULT_FOLDER)).join("src")
}

/// The paths of all files that are read.
pub fn sources() -> Vec<&'static str> {
    let mut paths = WHOLE.to_vec();
    paths.extend([
        SIMULATOR,
        MISS_CALCULATOR,
        PERFORMANCE,
        OBJECT,
        HIT_OBJECT,
        DIFFICULTY,
    ]);
    paths
}

/// All modules, from texts given by path.
pub fn assemble(read: &dyn Fn(&str) -> Result<String, String>) -> Result<Vec<Module>, String> {
    let mut modules = Vec::new();
    let mut add = |path: &str, suffix: &str, change: fn(&str) -> Result<String, String>| {
        let text = change(&read(path)?).map_err(|why| format!("{path}: {why}"))?;
        modules.push(module(path, suffix, &text));
        Ok::<(), String>(())
    };
    for path in WHOLE {
        add(path, "", |text| Ok(text.to_owned()))?;
    }
    add(SIMULATOR, "", simulator)?;
    add(MISS_CALCULATOR, "", miss_calculator)?;
    add(MISS_CALCULATOR, WIDENED, widened_miss_calculator)?;
    add(PERFORMANCE, "", |text| {
        performance(text, MISS_CALCULATOR_IMPORT)
    })?;
    add(PERFORMANCE, WIDENED, |text| {
        performance(text, WIDENED_MISS_CALCULATOR_IMPORT)
    })?;
    add(OBJECT, "", object)?;
    add(HIT_OBJECT, "", hit_object)?;
    add(DIFFICULTY, "", difficulty)?;
    Ok(modules)
}

/// An inline module, because the inner attributes of the text may not stand
/// at the top of an included file. The suffix tells two modules of a file apart.
fn module(path: &str, suffix: &str, text: &str) -> Module {
    let stem = path.trim_end_matches("/mod.rs").trim_end_matches(".rs");
    let name = stem.rsplit('/').next().unwrap_or(stem).to_owned() + suffix;
    Module {
        file: format!("{}{suffix}.rs", stem.replace('/', "_")),
        text: format!(
            "#[allow(clippy::all, dead_code, unfulfilled_lint_expectations)]\n\
             pub mod {name} {{\n{text}\n}}\n"
        ),
    }
}

fn simulator(text: &str) -> Result<String, String> {
    let text = replace_once(text, "pub mod gradual;\n", "")?;
    Ok(text + SIMULATOR_ACCESS)
}

fn miss_calculator(text: &str) -> Result<String, String> {
    // A second power elsewhere would need a stand-in of its own.
    expect(text, "pow", 1)?;
    let text = replace_once(text, POWER, POWER_STAND_IN)?;
    Ok(text + MISS_CALCULATOR_ACCESS)
}

fn widened_miss_calculator(text: &str) -> Result<String, String> {
    let text = replace_once(text, PRODUCT, PRODUCT_WIDENED)?;
    // A signed number of 32 bits elsewhere would need a look of its own.
    expect(&text, "i32", 0)?;
    miss_calculator(&text)
}

/// The calculator, which asks the miss calculator that is imported.
fn performance(text: &str, miss_calculator_import: &str) -> Result<String, String> {
    let estimates = cut(
        text,
        "pub(super) struct OsuPerformanceCalculator<'mods> {",
        Some("        let total_hits = f64::from(total_hits);\n"),
    )?;
    let combo_based_and_breaks = cut(
        text,
        "    fn calculate_combo_based_estimated_miss_count(&self) -> f64 {",
        Some("    fn calculate_speed_deviation(&self) -> Option<f64> {"),
    )?;
    let counts = cut(text, "    fn total_imperfect_hits(&self) -> f64 {", None)?;
    Ok([
        PERFORMANCE_IMPORTS,
        miss_calculator_import,
        estimates,
        PERFORMANCE_RESULT,
        combo_based_and_breaks,
        counts,
        PERFORMANCE_ACCESS,
    ]
    .concat())
}

fn object(text: &str) -> Result<String, String> {
    let object = cut(text, "pub struct OsuObject {", Some("impl OsuObject {"))?;
    let slider = cut(text, "pub enum OsuObjectKind {", Some("    fn new(\n"))?;
    let counts = cut(text, "    pub fn repeat_count(&self) -> usize {", None)?;
    Ok([OBJECT_IMPORTS, object, slider, counts].concat())
}

fn hit_object(text: &str) -> Result<String, String> {
    let spinner = cut(text, "/// A spinner.\n", Some("/// A hold note.\n"))?;
    Ok(spinner.to_owned() + "pub use crate::stub::HitObject;\n")
}

fn difficulty(text: &str) -> Result<String, String> {
    // Called as a method an exponential would need a pattern of its own.
    expect(text, ".exp", 0)?;
    replace(text, EXPONENTIAL, EXPONENTIAL_STAND_IN, EXPONENTIALS)
}
