//! An entry of the board: sums over the objects that it covers.

use oracle::{
    board::ENTRY,
    reader::{MAX_LEGACY_BONUS, MAX_NESTED, MAX_OBJECTS},
    spinner::{half_spins_possible, half_spins_required},
};

use super::file::Kind;

/// An array and no struct, so that lent words can be seen as entries.
pub type Entry = [u64; ENTRY];

// The words in their order.
pub const OBJECTS: usize = 0;
pub const COMBO: usize = 1;
/// Over the objects, the combo gained inside the entry before the object's 300.
pub const COMBOS_BEFORE: usize = 2;
/// 1 if the first object is a circle or spinner.
pub const FIRST_IS_HIT: usize = 3;
pub const ACCURACY: usize = 4;
pub const LEGACY_BONUS: usize = 5;
pub const STANDARDISED_BONUS: usize = 6;
pub const CIRCLES: usize = 7;
pub const SLIDERS: usize = 8;
pub const SPINNERS: usize = 9;
pub const REPEATS: usize = 10;
pub const TICKS: usize = 11;
pub const SPINNER_SCORE: usize = 12;

pub const EMPTY: Entry = [0; ENTRY];

const MAX_COUNT: u64 = MAX_OBJECTS as u64;
const MAX_COMBO: u64 = MAX_COUNT * (MAX_NESTED as u64 + 1);

const LIMITS: Entry = [
    MAX_COUNT,
    MAX_COMBO,
    137_438_953_472,
    1,
    MAX_LEGACY_BONUS,
    MAX_LEGACY_BONUS,
    MAX_LEGACY_BONUS,
    MAX_COUNT,
    MAX_COUNT,
    MAX_COUNT,
    MAX_COMBO,
    MAX_COMBO,
    MAX_LEGACY_BONUS,
];

/// The entry of one object.
pub fn own(kind: &Kind) -> Entry {
    match *kind {
        Kind::Circle => hit(CIRCLES),
        Kind::Slider { repeats, ticks } => slider(repeats, ticks),
        Kind::Spinner { duration } => spinner(duration),
    }
}

/// A circle's entry, or a spinner's without its points.
fn hit(kind: usize) -> Entry {
    let mut entry = EMPTY;
    entry[OBJECTS] = 1;
    entry[COMBO] = 1;
    entry[FIRST_IS_HIT] = 1;
    entry[ACCURACY] = 300;
    entry[kind] = 1;
    entry
}

fn slider(repeats: u64, ticks: u64) -> Entry {
    let combo = repeats + ticks + 2;
    let mut entry = EMPTY;
    entry[OBJECTS] = 1;
    entry[COMBO] = combo;
    entry[COMBOS_BEFORE] = combo;
    entry[ACCURACY] = 30 * (repeats + 2) + 10 * ticks + 300;
    entry[SLIDERS] = 1;
    entry[REPEATS] = repeats;
    entry[TICKS] = ticks;
    entry
}

fn spinner(duration: f64) -> Entry {
    let possible = half_spins_possible(duration);
    let before_bonus = half_spins_required(duration) + 3;
    // Every second half spin beyond the last one before the bonus has a large bonus. The even ones from 2 on have a small
    // one, but for those that have a large one, which are all even or all odd.
    let large = ((possible - before_bonus) / 2).max(0);
    let even = possible / 2;
    let small = if before_bonus % 2 == 0 {
        even - large
    } else {
        even
    };
    let average = ((possible - before_bonus) / 2 - even / 2).max(0);
    let mut entry = hit(SPINNERS);
    entry[LEGACY_BONUS] = (1100 * large + 100 * small) as u64;
    entry[STANDARDISED_BONUS] = (50 * large + 10 * small) as u64;
    entry[SPINNER_SCORE] = (100 * even + 1000 * average) as u64;
    entry
}

/// The objects of `left`, then those of `right`.
#[inline]
pub fn join(left: &Entry, right: &Entry) -> Entry {
    let mut joined: Entry = std::array::from_fn(|word| left[word] + right[word]);
    joined[COMBOS_BEFORE] += left[COMBO] * right[OBJECTS];
    joined[FIRST_IS_HIT] = if left[OBJECTS] > 0 {
        left[FIRST_IS_HIT]
    } else {
        right[FIRST_IS_HIT]
    };
    joined
}

/// 13 for an entry as read that is outside the limits.
#[inline]
pub fn check(entry: &Entry) -> Result<(), u8> {
    if is_within(entry) { Ok(()) } else { Err(13) }
}

/// The combined entry, or 13, or 7 where the legacy bonus alone is above its limit.
#[inline]
pub fn limited(entry: Entry) -> Result<Entry, u8> {
    if is_within(&entry) {
        return Ok(entry);
    }
    let mut rest = entry;
    rest[LEGACY_BONUS] = 0;
    Err(if is_within(&rest) { 7 } else { 13 })
}

/// All words are compared: one branch that is always taken is cheaper than thirteen.
#[inline]
fn is_within(entry: &Entry) -> bool {
    let within = |(word, limit)| word <= limit;
    entry
        .iter()
        .zip(&LIMITS)
        .map(within)
        .fold(true, |all, one| all & one)
}
