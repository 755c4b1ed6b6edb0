//! The listing of a file, as the program `list` prints it.

use crate::{
    error::Error,
    play_scores::play_scores,
    score::{Score, score_map},
    sys::Attributes,
};

/// The most bytes that are listed. The other calls have no such limit.
pub const LISTING_LIMIT: usize = 65_536;

/// The listing of a file: a line for its map, then one for each play.
///
/// The map's line has, of all objects: count, multiplier, accuracy, combo points, bonus ratio,
/// legacy bonus, max combo, nested score per object. A play's: index, accuracy, combo-based,
/// score-based (`-` if absent) and effective misses. Floats are 16 hexadecimal digits of their bits,
/// or `nan`.
///
/// A file above [`LISTING_LIMIT`] bytes is refused with 1. The listing of a refused file is
/// [`refusal_line`].
///
/// ```
/// use popejoanplum::{Map, Nested::*, Object, Settings, listing};
///
/// let map = Map {
///     settings: Settings { hp: 5.0, od: 5.0, cs: 5.0 },
///     breaks: vec![],
///     objects: vec![
///         Object::circle(0.0),
///         Object::slider(5_000.0, [Tick, Repeat, Tick, Tail]),
///         Object::circle(10_000.0),
///     ],
/// };
/// assert_eq!(listing(&map.to_bytes())?, "map 3 2 1010 240 0000000000000000 0 7 4042555555555555\n");
/// # Ok::<(), popejoanplum::Error>(())
/// ```
pub fn listing(file: &[u8]) -> Result<String, Error> {
    if file.len() > LISTING_LIMIT {
        return Err(Error::TOO_LONG);
    }
    let mut text = map_line(&score_map(file)?);
    for (index, score) in play_scores(file).enumerate() {
        text += &play_line(index, &score?);
    }
    Ok(text)
}

/// The only line of a refused file's listing.
///
/// ```
/// let error = popejoanplum::listing(b"").unwrap_err();
/// assert_eq!(popejoanplum::refusal_line(&error), "refused 3 at 0\n");
/// ```
pub fn refusal_line(error: &Error) -> String {
    format!("refused {} at {}\n", error.number(), error.offset())
}

fn map_line(a: &Attributes) -> String {
    format!(
        "map {} {} {} {} {} {} {} {}\n",
        a.object_count,
        a.multiplier,
        a.accuracy_score,
        a.combo_score,
        float(a.bonus_score_ratio),
        a.legacy_bonus_score,
        a.max_combo,
        float(a.nested_score_per_object),
    )
}

fn play_line(index: usize, score: &Score) -> String {
    let estimates = &score.estimates;
    format!(
        "play {index} {} {} {} {}\n",
        float(estimates.accuracy),
        float(estimates.combo_based),
        estimates.score_based.map_or("-".into(), float),
        float(estimates.effective),
    )
}

/// Any value that is not a number is `nan`, whatever its bits.
fn float(value: f64) -> String {
    if value.is_nan() {
        "nan".into()
    } else {
        format!("{:016x}", value.to_bits())
    }
}
