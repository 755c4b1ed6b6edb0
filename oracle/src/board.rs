//! A map's board and start table after document 01, apart from any build or edit.

use crate::{
    map::{MapFile, Object, ObjectKind},
    values::Original,
};

/// Words of an entry.
pub const ENTRY: usize = 13;

/// C, the places of a board for that many objects.
pub fn places(objects: usize) -> usize {
    objects.max(1).next_power_of_two()
}

/// Whether the lent memory has room for the board and the start table of that many objects.
pub fn fits(objects: usize, words: u32, starts: u32) -> bool {
    words as usize >= 2 * ENTRY * places(objects) && starts as usize >= objects
}

/// The words of the board, each entry from the objects that it covers alone.
pub fn board(objects: &[Object]) -> Vec<u64> {
    let alone: Vec<Alone> = objects.iter().map(Alone::new).collect();
    let places = places(objects.len());
    let entries = (1..2 * places).map(|entry| {
        let level = entry.ilog2();
        let width = places >> level;
        let first = (entry - (1 << level)) * width;
        let end = objects.len().min(first + width);
        sums(alone.get(first..end).unwrap_or_default())
    });
    [[0; ENTRY]].into_iter().chain(entries).flatten().collect()
}

/// The start table.
pub fn starts(objects: &[Object]) -> Vec<f64> {
    objects.iter().map(|object| object.start).collect()
}

/// What an object gives by itself; all but the last two by the original.
struct Alone {
    combo: u64,
    accuracy: u64,
    legacy_bonus: u64,
    standardised_bonus: u64,
    circles: u64,
    sliders: u64,
    spinners: u64,
    repeats: u64,
    ticks: u64,
    spinner_nested: u64,
    /// The combo that it gains before its 300.
    combo_before: u64,
    is_slider: bool,
}

impl Alone {
    fn new(object: &Object) -> Self {
        let a = Original::new(&MapFile {
            objects: vec![object.clone()],
            ..MapFile::default()
        })
        .attributes(1);
        let is_slider = matches!(object.kind, ObjectKind::Slider(_));
        let is_spinner = matches!(object.kind, ObjectKind::Spinner { .. });
        let combo = u64::from(a.max_combo);
        Self {
            combo,
            accuracy: a.accuracy_score as u64,
            legacy_bonus: a.legacy_bonus as u64,
            standardised_bonus: a.standardised_bonus as u64,
            circles: a.circles.into(),
            sliders: a.sliders.into(),
            spinners: a.spinners.into(),
            repeats: a.repeats.into(),
            ticks: a.ticks.into(),
            // Of one object it is a whole number.
            spinner_nested: if is_spinner {
                a.nested_per_object as u64
            } else {
                0
            },
            combo_before: if is_slider { combo } else { 0 },
            is_slider,
        }
    }
}

/// The words of an entry that covers these objects.
fn sums(objects: &[Alone]) -> [u64; ENTRY] {
    let sum = |word: fn(&Alone) -> u64| objects.iter().map(word).sum::<u64>();
    let mut combo = 0;
    let mut combos_before = 0;
    for object in objects {
        combos_before += combo + object.combo_before;
        combo += object.combo;
    }
    [
        objects.len() as u64,
        combo,
        combos_before,
        objects.first().is_some_and(|first| !first.is_slider).into(),
        sum(|o| o.accuracy),
        sum(|o| o.legacy_bonus),
        sum(|o| o.standardised_bonus),
        sum(|o| o.circles),
        sum(|o| o.sliders),
        sum(|o| o.spinners),
        sum(|o| o.repeats),
        sum(|o| o.ticks),
        sum(|o| o.spinner_nested),
    ]
}
