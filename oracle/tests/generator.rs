//! Generated files: accepted, the same for each seed, and where they have to be.

use oracle::{
    command::answers,
    encode::encode,
    generate::{damage::damaged_file, map_file, marathon, marathon_file, report::Report},
    listing::listing,
    map::{MapFile, Nested, ObjectKind},
    reader::read_library,
    spinner::legacy_bonus,
    values::Original,
};

#[test]
fn a_fifth_of_the_estimates_is_inside() {
    let mut report = Report::default();
    for index in 0..1_500 {
        let map = map_file(3, index);
        let bytes = encode(&map);
        assert!(read_library(&bytes).is_ok(), "file {index}");
        report.add(&map, bytes.len());
    }
    let valued = report.get("plays with a score-based value");
    assert!(
        valued > 1_000 && 5 * report.get("value inside") >= valued,
        "{report}"
    );
}

/// On both sides of the edge, and far above it.
#[test]
fn half_of_the_estimates_of_much_combo_are_inside() {
    let mut report = Report::default();
    for index in 0..80 {
        let map = marathon_file(3, index);
        let bytes = encode(&map);
        assert!(read_library(&bytes).is_ok(), "file {index}");
        report.add(&map, bytes.len());
    }
    let above = report.get("files above 46,341 combo");
    assert!(above > 40 && above < 80, "{report}");
    for label in ["files above 1,000,000 combo", "spinners", "circles"] {
        assert!(report.get(label) > 0, "{label}\n{report}");
    }
    let estimates = report.get(marathon::ESTIMATES);
    assert!(
        estimates > 50 && 2 * report.get(marathon::INSIDE) >= estimates,
        "{report}"
    );
}

#[test]
fn a_seed_gives_the_same_files_again() {
    for index in 0..50 {
        assert_eq!(encode(&map_file(9, index)), encode(&map_file(9, index)));
        assert_eq!(damaged_file(9, index), damaged_file(9, index));
    }
    assert_ne!(encode(&map_file(9, 1)), encode(&map_file(10, 1)));
}

#[test]
fn reading_gives_back_what_was_written() {
    for index in 0..300 {
        let bytes = encode(&map_file(4, index));
        let read = read_library(&bytes).expect("a good file");
        assert_eq!(encode(&read), bytes);
    }
}

/// Accuracy, combo points, legacy bonus and max combo by the words of document 01.
fn plain_sums(map: &MapFile, multiplier: i64) -> (i64, i64, u64, i64) {
    let (mut accuracy, mut points, mut bonus, mut combo) = (0, 0, 0, 0_i64);
    for object in &map.objects {
        if let ObjectKind::Slider(nested) = &object.kind {
            let ticks = nested.iter().filter(|&&item| item == Nested::Tick).count() as i64;
            accuracy += 30 + 30 * (nested.len() as i64 - ticks) + 10 * ticks;
            combo += 1 + nested.len() as i64;
        }
        accuracy += 300;
        points += 12 * (combo - 1).max(0) * multiplier;
        match object.kind {
            ObjectKind::Circle => combo += 1,
            ObjectKind::Slider(_) => {}
            ObjectKind::Spinner { duration } => {
                bonus += legacy_bonus(duration);
                combo += 1;
            }
        }
    }
    (accuracy, points, bonus, combo)
}

#[test]
fn the_original_sums_as_document_01_says() {
    for index in 0..1_000 {
        let map = map_file(5, index);
        let a = Original::new(&map).attributes(map.objects.len());
        let expected = plain_sums(&map, a.multiplier.into());
        let sums = (
            i64::from(a.accuracy_score),
            a.combo_score,
            a.legacy_bonus as u64,
            i64::from(a.max_combo),
        );
        assert_eq!(sums, expected, "file {index}");
    }
}

#[test]
fn damaged_files_meet_each_refusal() {
    let mut met = [0_u32; 10];
    for index in 0..6_000 {
        let (bytes, _) = damaged_file(6, index);
        let read = read_library(&bytes);
        met[read
            .as_ref()
            .map_or_else(|refusal| refusal.number.into(), |_| 0)] += 1;
        assert!(listing(&read).ends_with('\n'));
    }
    assert!(met[2..].iter().all(|&count| count > 5), "{met:?}");
}

#[test]
fn the_fixed_list_stays_small() {
    let list = answers(1, 1_200).expect("accepted files");
    let size: usize = list
        .iter()
        .map(|(file, text)| file.len() + text.len())
        .sum();
    assert!(size < 4_000_000, "{size}");
}
