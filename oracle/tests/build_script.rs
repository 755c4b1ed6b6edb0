//! The build script's changes apply exactly as often as expected, or fail.

#[path = "../build/assemble.rs"]
mod assemble;
#[path = "../build/substitute.rs"]
mod substitute;

use std::{env, fs, path::Path};

use assemble::Module;
use substitute::{cut, expect, replace, replace_once};

#[test]
fn a_replacement_applies_once_or_fails() {
    assert_eq!(replace_once("a b c", "b", "x"), Ok("a x c".to_owned()));
    assert!(
        replace_once("a c", "b", "x")
            .unwrap_err()
            .contains("found 0 times")
    );
    assert!(
        replace_once("b b", "b", "x")
            .unwrap_err()
            .contains("found 2 times")
    );
    assert!(expect("b b", "b", 2).is_ok());
}

#[test]
fn a_replacement_applies_as_often_as_it_says_or_fails() {
    assert_eq!(replace("b b", "b", "x", 2), Ok("x x".to_owned()));
    for times in [0, 1, 3] {
        assert!(
            replace("b b", "b", "x", times)
                .unwrap_err()
                .contains("found 2 times")
        );
    }
}

#[test]
fn a_cut_needs_each_marker_once() {
    assert_eq!(cut("0 < 1 > 2", "<", Some(">")), Ok("< 1 "));
    assert_eq!(cut("0 < 1", "<", None), Ok("< 1"));
    for text in ["0 1 > 2", "0 < 1", "< < >", "< > >", "> <"] {
        assert!(cut(text, "<", Some(">")).is_err(), "{text}");
    }
}

fn original(path: &str) -> Result<String, String> {
    let given = env::var("ROSU_SRC").ok();
    let folder = assemble::source_folder(Path::new(env!("CARGO_MANIFEST_DIR")), given.as_deref());
    fs::read_to_string(folder.join(path)).map_err(|why| why.to_string())
}

/// All modules, with one file's text changed before it is used.
fn assemble_with(path: &str, change: impl Fn(String) -> String) -> Result<Vec<Module>, String> {
    assemble::assemble(&|of| {
        let text = original(of)?;
        Ok(if of == path { change(text) } else { text })
    })
}

fn error_with(path: &str, change: impl Fn(String) -> String) -> String {
    assemble_with(path, change)
        .err()
        .expect("the change is noticed")
}

#[test]
fn the_text_is_the_original_but_for_four_substitutions() {
    let modules = assemble_with("", |text| text).expect("all sources");
    // The miss calculator and the calculator stand there twice.
    assert_eq!(modules.len(), assemble::sources().len() + 2);
    let text_of = |file: &str| {
        let module = modules.iter().find(|module| module.file == file);
        module.expect("a module of that name").text.clone()
    };
    for path in assemble::WHOLE {
        let file = path.replace('/', "_");
        assert!(text_of(&file).contains(&original(path).unwrap()), "{path}");
    }
    let simulator = original("osu/legacy_score_simulator/mod.rs").unwrap();
    let simulator = simulator.replace("pub mod gradual;\n", "");
    assert!(text_of("osu_legacy_score_simulator.rs").contains(&simulator));
    let calculator = original("osu/legacy_score_miss_calc.rs").unwrap();
    let (before, after) = calculator
        .split_once("(full_combo_threshold / f64")
        .unwrap();
    let (_, after) = after.split_once(".powf(2.5)").unwrap();
    let text = text_of("osu_legacy_score_miss_calc.rs");
    assert!(text.contains(before) && text.contains(after));
    let (start, end) = before.split_once(PRODUCT).unwrap();
    let text = text_of("osu_legacy_score_miss_calc_widened.rs");
    assert!(text.contains(start) && text.contains(end) && text.contains(after));
    assert!(!text.contains(PRODUCT));
    let asks = |file: &str, module: &str| {
        text_of(file).contains(&format!("{module}::OsuLegacyScoreMissCalculator;"))
    };
    for (file, of) in [
        ("osu_performance_calculator.rs", "legacy_score_miss_calc"),
        (
            "osu_performance_calculator_widened.rs",
            "legacy_score_miss_calc_widened",
        ),
    ] {
        for module in ["legacy_score_miss_calc", "legacy_score_miss_calc_widened"] {
            assert_eq!(asks(file, module), module == of, "{file}");
        }
    }
    let curves = original("util/difficulty.rs").unwrap();
    let text = text_of("util_difficulty.rs");
    assert!(text.contains(&curves.replace("f64::exp(", "crate::stand_in::exp(")));
    assert!(!text.contains("f64::exp("));
}

#[test]
fn another_number_of_32_bits_fails() {
    let path = "osu/legacy_score_miss_calc.rs";
    let why = error_with(path, |text| {
        text.replace("let mut miss_count = 0.0;", "let mut miss_count = 0_i32;")
    });
    assert!(
        why.starts_with(path) && why.contains("found 1 times"),
        "{why}"
    );
}

#[test]
fn an_exponential_more_or_less_fails() {
    let curves = "util/difficulty.rs";
    for (change, found) in [
        (("f64::exp(exp)", "exp"), "found 3 times"),
        (
            ("f64::exp(exp)", "f64::exp(f64::exp(exp))"),
            "found 5 times",
        ),
        (("f64::exp(exp)", "f64::exp(exp).exp()"), "found 1 times"),
    ] {
        let why = error_with(curves, |text| text.replace(change.0, change.1));
        assert!(why.starts_with(curves) && why.contains(found), "{why}");
    }
}

const PRODUCT: &str = "f64::from((attrs.max_combo as i32 - 2) * attrs.max_combo as i32)";

/// All markers of the build script, by file.
const MARKERS: [(&str, &[&str]); 5] = [
    ("osu/legacy_score_miss_calc.rs", &[".powf(2.5)", PRODUCT]),
    ("osu/legacy_score_simulator/mod.rs", &["pub mod gradual;\n"]),
    (
        "osu/performance/calculator.rs",
        &[
            "pub(super) struct OsuPerformanceCalculator<'mods> {",
            "        let total_hits = f64::from(total_hits);\n",
            "    fn calculate_combo_based_estimated_miss_count(&self) -> f64 {",
            "    fn calculate_speed_deviation(&self) -> Option<f64> {",
            "    fn total_imperfect_hits(&self) -> f64 {",
        ],
    ),
    (
        "osu/object.rs",
        &[
            "pub struct OsuObject {",
            "impl OsuObject {",
            "pub enum OsuObjectKind {",
            "    fn new(\n",
            "    pub fn repeat_count(&self) -> usize {",
        ],
    ),
    (
        "model/hit_object.rs",
        &["/// A spinner.\n", "/// A hold note.\n"],
    ),
];

#[test]
fn a_marker_that_is_missing_or_doubled_fails() {
    let each = MARKERS
        .iter()
        .flat_map(|(path, of)| of.iter().map(move |marker| (path, marker)));
    for (&path, marker) in each {
        let missing = error_with(path, |text| text.replace(marker, ""));
        let doubled = error_with(path, |text| text.replace(marker, &marker.repeat(2)));
        assert!(
            missing.starts_with(path) && missing.contains("found 0 times"),
            "{missing}"
        );
        assert!(
            doubled.starts_with(path) && doubled.contains("found 2 times"),
            "{doubled}"
        );
    }
}

#[test]
fn a_missing_file_is_an_error() {
    let read = |path: &str| Err(format!("{path} is missing"));
    assert!(assemble::assemble(&read).is_err());
}

#[test]
fn a_relative_folder_counts_from_the_root() {
    let folder = |given| assemble::source_folder(Path::new("/repository/oracle"), given);
    assert_eq!(
        folder(None),
        Path::new("/repository/../shared/docs/src/src")
    );
    assert_eq!(folder(Some("")), folder(None));
    assert_eq!(folder(Some("other")), Path::new("/repository/other/src"));
    assert_eq!(folder(Some("/other")), Path::new("/other/src"));
}
