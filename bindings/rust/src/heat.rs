//! A heat: up to 64 plays on one map.

use crate::{
    error::Error,
    play::Play,
    score::Score,
    sys::{self, PlayAnswer},
};

/// The most plays of a heat.
pub const HEAT_PLAYS: usize = 64;

/// One more than a heat has: so the library itself is shown that a list is too long, however long it is.
const LENT: usize = HEAT_PLAYS + 1;

/// The scores of up to [`HEAT_PLAYS`] plays on the map of a file: for each play what
/// [`score_play`](crate::score_play) gives, in their order.
///
/// The file is checked first, with its own plays, then that the plays are not too many (15). A refused
/// play refuses no heat: its outcome is its refusal, and the plays behind it are scored.
///
/// ```
/// use popejoanplum::{Map, Object, Play, heat, score_play};
///
/// let file = Map { objects: vec![Object::circle(0.0); 3], ..Map::default() }.to_bytes();
/// let hits = |n300| Play { passed_objects: 3, max_combo: 3, n300, ..Play::default() };
///
/// let outcomes = heat(&file, &[hits(3), hits(4), hits(2)])?;
/// assert_eq!(outcomes[0], score_play(&file, &hits(3)));
/// assert_eq!(outcomes[1].unwrap_err().number(), 9);
/// assert_eq!(outcomes[2]?.estimates.accuracy, 1.0);
///
/// assert_eq!(heat(&file, &[hits(3); 65]).unwrap_err().number(), 15);
/// # Ok::<(), popejoanplum::Error>(())
/// ```
pub fn heat(file: &[u8], plays: &[Play]) -> Result<Vec<Result<Score, Error>>, Error> {
    let mut outcomes = vec![Ok(Score::default()); plays.len().min(LENT)];
    heat_into(file, plays, &mut outcomes)?;
    Ok(outcomes)
}

/// What [`heat`] gives, in outcomes that the caller lends: nothing is allocated.
///
/// The outcome of a play stands at the play's place. Those behind the last play stay, and a refused call
/// leaves all of them as they were; fewer outcomes than plays are refused as too many plays are (15).
///
/// ```
/// use popejoanplum::{HEAT_PLAYS, Map, Object, Play, Score, heat_into};
///
/// let file = Map { objects: vec![Object::circle(0.0)], ..Map::default() }.to_bytes();
/// let play = Play { passed_objects: 1, max_combo: 1, n300: 1, ..Play::default() };
///
/// let mut outcomes = [Ok(Score::default()); HEAT_PLAYS];
/// heat_into(&file, &[play, Play::default()], &mut outcomes)?;
/// assert_eq!(outcomes[0]?.estimates.accuracy, 1.0);
/// assert_eq!(outcomes[2..], [Ok(Score::default()); HEAT_PLAYS - 2]);
///
/// let refused = heat_into(&file, &[play, play], &mut outcomes[..1]);
/// assert_eq!(refused.unwrap_err().number(), 15);
/// # Ok::<(), popejoanplum::Error>(())
/// ```
pub fn heat_into(
    file: &[u8],
    plays: &[Play],
    outcomes: &mut [Result<Score, Error>],
) -> Result<(), Error> {
    let mut given = [sys::Play::from(&Play::default()); LENT];
    for (given, play) in given.iter_mut().zip(plays) {
        *given = play.into();
    }
    let mut answers = [PlayAnswer::default(); LENT];
    // SAFETY: the pointers are those of slices that live through the call and of which the one that is
    // written overlaps no other; the lengths are at most theirs.
    let status = unsafe {
        sys::pjp_heat(
            file.as_ptr(),
            file.len(),
            given.as_ptr(),
            plays.len().min(LENT),
            answers.as_mut_ptr(),
            outcomes.len().min(LENT),
        )
    };
    Error::check(status.status, status.offset)?;
    for ((outcome, answer), _) in outcomes.iter_mut().zip(&answers).zip(plays) {
        *outcome = Score::of(answer);
    }
    Ok(())
}
