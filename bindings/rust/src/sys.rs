//! The raw boundary: the structs and functions of the C archive as they are.
//!
//! `bindings/c/popejoanplum.h` declares the same for C; a test holds the two to each other. The safe
//! functions of this crate are thin wrappers of these.
//!
//! A slice crosses as a pointer and a length. The functions ask nothing else of a caller than
//! slices that are valid through the call, aligned, and do not overlap; a length of 0 goes with any
//! pointer. They keep no pointer, have no state, and may be called from any thread.
//!
//! A `status` is 0 where the call is good, else the number of the broken rule (2 to 15), and 255
//! only from [`pjp_score_play_at`] where an accepted file has no play at the index. Where it is not
//! 0, `offset` is that of the record that breaks the rule, all other values are 0, and all lent
//! memory is as it was.

/// What a call without values answers.
#[repr(C)]
#[derive(Clone, Copy, Debug, PartialEq, Eq)]
pub struct Status {
    pub status: u8,
    pub offset: usize,
}

/// A map's settings, each from 0 to 12.
#[repr(C)]
#[derive(Clone, Copy, Debug, Default, PartialEq)]
pub struct Settings {
    /// Health drain.
    pub hp: f32,
    /// Overall difficulty.
    pub od: f32,
    /// Circle size.
    pub cs: f32,
}

/// A play. An origin above 2, a `has_score` above 1, and a score that is not 0 where `has_score` is
/// 0 are out of range (8).
#[repr(C)]
#[derive(Clone, Copy, Debug, PartialEq)]
pub struct Play {
    pub clock_rate: f64,
    pub max_combo: u32,
    pub large_tick_hits: u32,
    pub small_tick_hits: u32,
    pub slider_end_hits: u32,
    pub score: u32,
    pub passed_objects: u16,
    pub n300: u16,
    pub n100: u16,
    pub n50: u16,
    pub misses: u16,
    pub flags: u16,
    pub origin: u8,
    pub has_score: u8,
}

/// The score attributes of the passed objects, all of them where no play is asked for.
#[repr(C)]
#[derive(Clone, Copy, Debug, Default, PartialEq)]
pub struct Attributes {
    /// How many objects are passed.
    pub object_count: u64,
    /// The score multiplier of the map, 0 to 7.
    pub multiplier: u64,
    pub accuracy_score: u64,
    /// The combo points, with the multiplier in them.
    pub combo_score: u64,
    /// The spinners' bonus points as ScoreV1 gives them.
    pub legacy_bonus_score: u64,
    /// The spinners' bonus points as standardised scoring gives them.
    pub standardised_bonus_score: u64,
    /// Standardised bonus over legacy bonus, 0 where there is no legacy bonus.
    pub bonus_score_ratio: f64,
    /// Points of nested items and spinners over the passed objects: not a number where there is none,
    /// or an infinity where a board that no build made has points without an object.
    pub nested_score_per_object: f64,
    pub max_combo: u32,
    pub n_circles: u32,
    pub n_sliders: u32,
    pub n_spinners: u32,
    pub n_repeats: u32,
    pub n_ticks: u32,
}

/// What is estimated of a play. `score_based` is 0 where `has_score_based` is 0.
#[repr(C)]
#[derive(Clone, Copy, Debug, Default, PartialEq)]
pub struct Estimates {
    pub accuracy: f64,
    pub combo_based: f64,
    pub score_based: f64,
    pub effective: f64,
    pub has_score_based: u8,
}

/// The two top-weighted slider factors: how much of a map's difficult strains comes from its sliders.
/// They are no part of a map file. Each is from 0 to 10; the library refuses others (14).
#[repr(C)]
#[derive(Clone, Copy, Debug, Default, PartialEq)]
pub struct SliderFactors {
    /// Of aim.
    pub aim: f64,
    /// Of speed.
    pub speed: f64,
}

/// How many sliders a play broke, as estimated by each factor: from 0 to the play's judgements of 100,
/// or not a number where a board that no build made has judgements and no combo.
///
/// Both are 0 where the effective misses are at most 1, where no judgement is a 100, and for
/// [`Origin::WithSliderAcc`](crate::Origin::WithSliderAcc).
#[repr(C)]
#[derive(Clone, Copy, Debug, Default, PartialEq)]
pub struct SliderBreaks {
    /// By the factor of aim.
    pub aim: f64,
    /// By the factor of speed.
    pub speed: f64,
}

/// What a map file has.
#[repr(C)]
#[derive(Clone, Copy, Debug, PartialEq)]
pub struct MapInfo {
    pub status: u8,
    pub offset: usize,
    pub settings: Settings,
    pub breaks: u64,
    pub objects: u64,
}

/// The score of a map, of all its objects.
#[repr(C)]
#[derive(Clone, Copy, Debug, PartialEq)]
pub struct MapAnswer {
    pub status: u8,
    pub offset: usize,
    pub attributes: Attributes,
}

/// The score of a play.
#[repr(C)]
#[derive(Clone, Copy, Debug, Default, PartialEq)]
pub struct PlayAnswer {
    pub status: u8,
    pub offset: usize,
    pub attributes: Attributes,
    pub estimates: Estimates,
}

/// The score of a play, and its slider breaks.
#[repr(C)]
#[derive(Clone, Copy, Debug, PartialEq)]
pub struct BreaksAnswer {
    pub status: u8,
    pub offset: usize,
    pub attributes: Attributes,
    pub estimates: Estimates,
    pub slider_breaks: SliderBreaks,
}

unsafe extern "C" {
    /// How many words the board of that many objects has; 0 above 8,192 objects.
    pub safe fn pjp_board_words(count: usize) -> usize;

    /// Reads a file by the rules 2 to 8, which leaves out 9 of its plays.
    pub fn pjp_read_map(file: *const u8, file_len: usize) -> MapInfo;

    /// The score of all objects of a file, checked with its plays.
    pub fn pjp_score_map(file: *const u8, file_len: usize) -> MapAnswer;

    /// The score of a play that is given beside the file.
    pub fn pjp_score_play(file: *const u8, file_len: usize, play: Play) -> PlayAnswer;

    /// What [`pjp_score_play`] gives, and the slider breaks by two factors.
    pub fn pjp_score_play_breaks(
        file: *const u8,
        file_len: usize,
        play: Play,
        factors: SliderFactors,
    ) -> BreaksAnswer;

    /// The score of the play at an index of the file.
    pub fn pjp_score_play_at(file: *const u8, file_len: usize, index: u64) -> PlayAnswer;

    /// Writes the score of each play of a heat to the outcome at its place. A refused play is such an
    /// outcome, and refuses no heat.
    pub fn pjp_heat(
        file: *const u8,
        file_len: usize,
        plays: *const Play,
        plays_len: usize,
        outcomes: *mut PlayAnswer,
        outcomes_len: usize,
    ) -> Status;

    /// Writes the board and the start table of a file's map.
    pub fn pjp_build(
        file: *const u8,
        file_len: usize,
        board: *mut u64,
        board_len: usize,
        starts: *mut f64,
        starts_len: usize,
    ) -> Status;

    /// Puts the object of a record at a place.
    pub fn pjp_edit(
        board: *mut u64,
        board_len: usize,
        starts: *mut f64,
        starts_len: usize,
        count: usize,
        place: usize,
        record: *const u8,
        record_len: usize,
    ) -> Status;

    /// The score of a play on the board's map. The breaks are starts and ends in turn.
    pub fn pjp_read(
        board: *const u64,
        board_len: usize,
        starts: *const f64,
        starts_len: usize,
        count: usize,
        settings: Settings,
        breaks: *const f64,
        breaks_len: usize,
        play: Play,
    ) -> PlayAnswer;

    /// What [`pjp_read`] gives, and the slider breaks by two factors.
    pub fn pjp_read_breaks(
        board: *const u64,
        board_len: usize,
        starts: *const f64,
        starts_len: usize,
        count: usize,
        settings: Settings,
        breaks: *const f64,
        breaks_len: usize,
        play: Play,
        factors: SliderFactors,
    ) -> BreaksAnswer;
}
