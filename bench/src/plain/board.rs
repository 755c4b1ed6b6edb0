//! Build, edit and read on lent words.

use oracle::{
    board::{ENTRY, places},
    given::Factors,
    map::{Play, Settings},
    reader::{MAX_BREAKS, MAX_OBJECTS, Refusal},
};

use super::{
    entry::{self, COMBO, COMBOS_BEFORE, EMPTY, Entry, FIRST_IS_HIT, OBJECTS, SLIDERS},
    file::{self, is_time},
    score::{self, BreaksScore, Score},
};

/// The entries on the way from a place to the top.
const MOST_COVERING: usize = MAX_OBJECTS.ilog2() as usize + 1;

/// Writes the board and the start table of a file's map. A second pass writes, so that a refused file changes nothing.
pub fn build(file: &[u8], board: &mut [u64], starts: &mut [f64]) -> Result<(), Refusal> {
    let map = file::read(file)?;
    let count = map.object_count();
    check_room(board, starts, count).map_err(|number| Refusal { number, offset: 0 })?;
    let places = places(count);
    let (entries, _) = board.as_chunks_mut();
    let (above, own) = entries[..2 * places].split_at_mut(places);
    for ((object, entry), start) in map.objects().zip(&mut *own).zip(starts) {
        *entry = entry::own(&object.kind);
        *start = object.start;
    }
    own[count..].fill(EMPTY);
    above[0] = EMPTY;
    for at in (1..places).rev() {
        entries[at] = entry::join(&entries[2 * at], &entries[2 * at + 1]);
    }
    Ok(())
}

/// Puts the object of a record at a place. All checks come before the first write.
pub fn edit(
    board: &mut [u64],
    starts: &mut [f64],
    count: usize,
    place: usize,
    record: &[u8],
) -> Result<(), u8> {
    check_room(board, starts, count)?;
    if place >= count {
        return Err(12);
    }
    let object = file::read_alone(record)?;
    let (entries, _) = board.as_chunks_mut();
    let lowest = places(count) + place;
    let mut covering = [EMPTY; MOST_COVERING];
    covering[0] = entry::own(&object.kind);
    let levels = lowest.ilog2() as usize;
    for level in 0..levels {
        let at = lowest >> level;
        let beside = &entries[at ^ 1];
        entry::check(beside)?;
        let joined = if at.is_multiple_of(2) {
            entry::join(&covering[level], beside)
        } else {
            entry::join(beside, &covering[level])
        };
        covering[level + 1] = entry::limited(joined)?;
    }
    for (level, entry) in covering[..=levels].iter().enumerate() {
        entries[lowest >> level] = *entry;
    }
    starts[place] = object.start;
    Ok(())
}

/// The score of a play on the board's map. The breaks are starts and ends in turn.
pub fn read(
    board: &[u64],
    starts: &[f64],
    count: usize,
    settings: &Settings,
    breaks: &[f64],
    play: &Play,
) -> Result<Score, u8> {
    if breaks.len() > 2 * MAX_BREAKS {
        return Err(6);
    }
    check_room(board, starts, count)?;
    file::check_settings(settings)?;
    if !breaks.iter().copied().all(is_time) || breaks.len() % 2 == 1 {
        return Err(4);
    }
    file::check_mods(play)?;
    let passed = usize::from(play.passed).min(count);
    let sum = sum_of_first(board, count, passed)?;
    let ends = ends(&starts[..count], passed)?;
    if sum[COMBO] < 2 * sum[SLIDERS] || sum[COMBOS_BEFORE] + sum[FIRST_IS_HIT] < sum[OBJECTS] {
        return Err(13);
    }
    score::check(play, &sum)?;
    let attributes = score::attributes(&sum, settings, breaks, ends);
    // One run of the original: `estimates` runs its text twice, to compare.
    let estimates = attributes.widened_estimates(play);
    Ok(Score {
        attributes,
        estimates,
    })
}

/// The same with the slider breaks by two factors.
pub fn read_breaks(
    board: &[u64],
    starts: &[f64],
    count: usize,
    settings: &Settings,
    breaks: &[f64],
    play: &Play,
    factors: Factors,
) -> Result<BreaksScore, u8> {
    let score = read(board, starts, count, settings, breaks, play)?;
    score.with_breaks(play, factors)
}

fn check_room(board: &[u64], starts: &[f64], count: usize) -> Result<(), u8> {
    if count > MAX_OBJECTS {
        return Err(6);
    }
    if board.len() < 2 * ENTRY * places(count) || starts.len() < count {
        return Err(11);
    }
    Ok(())
}

/// The largest entries that together cover the first places, combined from the left.
fn sum_of_first(board: &[u64], count: usize, passed: usize) -> Result<Entry, u8> {
    let (entries, _) = board.as_chunks();
    let (mut sum, mut at, mut left) = (EMPTY, places(count), passed);
    while left > 0 {
        let level = left.ilog2();
        let read = &entries[at >> level];
        entry::check(read)?;
        sum = entry::limited(entry::join(&sum, read))?;
        at += 1 << level;
        left -= 1 << level;
    }
    Ok(sum)
}

/// The starts of the first object and of the last one passed, the first where none is.
fn ends(starts: &[f64], passed: usize) -> Result<Option<[f64; 2]>, u8> {
    let Some(&first) = starts.first() else {
        return Ok(None);
    };
    let last = starts[passed.saturating_sub(1)];
    if is_time(first) && is_time(last) {
        Ok(Some([first, last]))
    } else {
        Err(13)
    }
}
