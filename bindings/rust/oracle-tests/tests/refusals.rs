//! The table of refusals, whose numbers and offsets are worked out by hand from documents 01 and 02,
//! held to the raw functions: these can be lent too little memory, or a board that no build made.

use oracle::recipe::{Kind, Lent, Memory, PLAY_BODY, Row, parse_table};
use oracle_tests::refused;
use popejoanplum::{
    Error, listing, score_map,
    sys::{
        self, Attributes, BreaksAnswer, Estimates, Play, PlayAnswer, Settings, SliderBreaks,
        SliderFactors, Status,
    },
};

/// Numbers that no call writes, and how many of them are lent behind a row's memory.
const WORD_MARK: u64 = 0xabad_1dea_abad_1dea;
const START_MARK: f64 = -1_234_567.5;
const MORE: usize = 8;

/// An outcome of a heat in words. As words it is lent, so that each of its bytes can be held.
const OUTCOME: usize = size_of::<PlayAnswer>() / size_of::<u64>();

#[derive(Clone)]
struct Memories {
    words: Vec<u64>,
    starts: Vec<f64>,
}

impl Memories {
    fn build(&mut self, file: &[u8]) -> Status {
        // SAFETY: the pointers and lengths are those of slices that live through the call.
        unsafe {
            sys::pjp_build(
                file.as_ptr(),
                file.len(),
                self.words.as_mut_ptr(),
                self.words.len(),
                self.starts.as_mut_ptr(),
                self.starts.len(),
            )
        }
    }

    fn edit(&mut self, count: usize, place: usize, record: &[u8]) -> Status {
        // SAFETY: as above.
        unsafe {
            sys::pjp_edit(
                self.words.as_mut_ptr(),
                self.words.len(),
                self.starts.as_mut_ptr(),
                self.starts.len(),
                count,
                place,
                record.as_ptr(),
                record.len(),
            )
        }
    }

    fn read(&self, count: usize, settings: Settings, breaks: &[f64], play: Play) -> PlayAnswer {
        // SAFETY: as above.
        unsafe {
            sys::pjp_read(
                self.words.as_ptr(),
                self.words.len(),
                self.starts.as_ptr(),
                self.starts.len(),
                count,
                settings,
                breaks.as_ptr(),
                breaks.len(),
                play,
            )
        }
    }

    fn read_breaks(
        &self,
        count: usize,
        settings: Settings,
        breaks: &[f64],
        play: Play,
        factors: SliderFactors,
    ) -> BreaksAnswer {
        // SAFETY: as above.
        unsafe {
            sys::pjp_read_breaks(
                self.words.as_ptr(),
                self.words.len(),
                self.starts.as_ptr(),
                self.starts.len(),
                count,
                settings,
                breaks.as_ptr(),
                breaks.len(),
                play,
                factors,
            )
        }
    }

    fn marked(words: usize, starts: usize) -> Self {
        Self {
            words: vec![WORD_MARK; words],
            starts: vec![START_MARK; starts],
        }
    }

    /// The same with marks behind it.
    fn with_more(&self) -> Self {
        let mut more = self.clone();
        more.words.extend([WORD_MARK; MORE]);
        more.starts.extend([START_MARK; MORE]);
        more
    }

    /// What lies behind the board and the starts of that many objects; all where there is no board.
    fn behind(&self, objects: Option<usize>) -> (&[u64], Vec<u64>) {
        let words = objects.map_or(0, |count| sys::pjp_board_words(count));
        let starts = &self.starts[objects.unwrap_or(0)..];
        let bits = starts.iter().map(|start| start.to_bits()).collect();
        (&self.words[words..], bits)
    }

    /// What the map needs, built; then cut or followed by zeros, and the tampers.
    fn lent(file: &[u8], memory: &Memory) -> Self {
        let objects = popejoanplum::read_map(file).unwrap().objects;
        let mut lent = Self::marked(sys::pjp_board_words(objects), objects);
        assert_eq!(lent.build(file).status, 0);
        lent.words.resize(memory.words as usize, 0);
        lent.starts.resize(memory.starts as usize, 0.0);
        for tamper in &memory.tampers {
            let index = tamper.index as usize;
            match tamper.lent {
                Lent::Board => lent.words[index] = tamper.bits,
                Lent::Start => lent.starts[index] = f64::from_bits(tamper.bits),
            }
        }
        lent
    }
}

/// The fields of a play record behind its mark, whatever they hold.
fn play_of(body: &[u8; PLAY_BODY]) -> Play {
    fn at<const N: usize>(body: &[u8], offset: usize) -> [u8; N] {
        *body[offset..].first_chunk().unwrap()
    }
    let short = |offset| u16::from_le_bytes(at(body, offset));
    let word = |offset| u32::from_le_bytes(at(body, offset));
    Play {
        passed_objects: short(0),
        max_combo: word(2),
        n300: short(6),
        n100: short(8),
        n50: short(10),
        misses: short(12),
        large_tick_hits: word(14),
        small_tick_hits: word(18),
        slider_end_hits: word(22),
        origin: body[26],
        has_score: body[27],
        score: word(28),
        flags: short(32),
        clock_rate: f64::from_le_bytes(at(body, 34)),
    }
}

fn factors_of(bits: &[u64; 2]) -> SliderFactors {
    let [aim, speed] = bits.map(f64::from_bits);
    SliderFactors { aim, speed }
}

fn number_of<T>(answer: Result<T, Error>) -> (u8, usize) {
    answer.map_or_else(|error| refused(&error), |_| (0, 0))
}

fn call(row: &Row) -> (u8, usize) {
    let lent = match &row.kind {
        Kind::Program => return number_of(listing(&row.file)),
        Kind::File => return number_of(score_map(&row.file)),
        Kind::Score { play, factors } => {
            let (play, factors) = (play_of(play), factors_of(factors));
            return number_with_factors(score_breaks(&row.file, play, factors));
        }
        Kind::Heat { plays, outcomes } => {
            let (answer, written) = heat(&row.file, plays, *outcomes as usize);
            assert_eq!(written, row.written, "line {}, {}", row.line, row.name);
            return answer;
        }
        Kind::Build { words, starts } => Memories::marked(*words as usize, *starts as usize),
        Kind::Edit { memory, .. } | Kind::Read { memory, .. } => Memories::lent(&row.file, memory),
    };
    let answer = call_lent(row, lent.clone());
    // Where too little is lent, more would make another row.
    if row.number != 11 {
        let with_more = call_lent(row, lent.with_more());
        assert_eq!(with_more, answer, "{}, lent more", row.name);
    }
    answer
}

/// Makes the row's call, and holds all that it may not write to what was lent: of a good build or edit
/// what lies behind the board, of any other call everything.
fn call_lent(row: &Row, mut lent: Memories) -> (u8, usize) {
    let before = lent.clone();
    let (status, offset) = answer(row, &mut lent);
    let written = if status == 0 { board_of(row) } else { None };
    let is_kept = lent.behind(written) == before.behind(written);
    assert!(is_kept, "{} changed lent memory", row.name);
    (status, offset)
}

/// How many objects the board has that a good call of the row writes.
fn board_of(row: &Row) -> Option<usize> {
    match row.kind {
        Kind::Build { .. } => Some(popejoanplum::read_map(&row.file).unwrap().objects),
        Kind::Edit { count, .. } => Some(count as usize),
        Kind::Read { .. } | Kind::Program | Kind::File | Kind::Score { .. } | Kind::Heat { .. } => {
            None
        }
    }
}

fn answer(row: &Row, lent: &mut Memories) -> (u8, usize) {
    let Status { status, offset } = match &row.kind {
        Kind::Program | Kind::File | Kind::Score { .. } | Kind::Heat { .. } => {
            unreachable!("a call without a board")
        }
        Kind::Build { .. } => lent.build(&row.file),
        Kind::Edit {
            count,
            place,
            record,
            ..
        } => lent.edit(*count as usize, *place as usize, record),
        Kind::Read {
            count,
            settings,
            breaks,
            play,
            factors,
            ..
        } => {
            let [hp, od, cs] = settings.map(f32::from_bits);
            let breaks: Vec<f64> = breaks.iter().map(|&bits| f64::from_bits(bits)).collect();
            let (count, settings, play) = (*count as usize, Settings { hp, od, cs }, play_of(play));
            return match factors.as_ref().map(factors_of) {
                None => number_without_factors(lent.read(count, settings, &breaks, play)),
                Some(factors) => {
                    number_with_factors(lent.read_breaks(count, settings, &breaks, play, factors))
                }
            };
        }
    };
    (status, offset)
}

fn score_breaks(file: &[u8], play: Play, factors: SliderFactors) -> BreaksAnswer {
    // SAFETY: as above.
    unsafe { sys::pjp_score_play_breaks(file.as_ptr(), file.len(), play, factors) }
}

/// The answer of a heat, and the number of each outcome that it may write; all others stay.
fn heat(file: &[u8], plays: &[[u8; PLAY_BODY]], outcomes: usize) -> ((u8, usize), Vec<u8>) {
    let plays: Vec<Play> = plays.iter().map(play_of).collect();
    let mut lent = vec![WORD_MARK; OUTCOME * (outcomes + MORE)];
    // SAFETY: as above; the words are as many as the outcomes need, and aligned as they are.
    let Status { status, offset } = unsafe {
        sys::pjp_heat(
            file.as_ptr(),
            file.len(),
            plays.as_ptr(),
            plays.len(),
            lent.as_mut_ptr().cast(),
            outcomes,
        )
    };
    let count = if status == 0 { plays.len() } else { 0 };
    let (written, others) = lent.split_at(OUTCOME * count);
    let is_kept = others.iter().all(|&word| word == WORD_MARK);
    assert!(is_kept, "a heat of {} changed lent memory", plays.len());
    let written = written.chunks_exact(OUTCOME).map(outcome_number).collect();
    ((status, offset), written)
}

fn outcome_number(words: &[u64]) -> u8 {
    assert_eq!(words.len(), OUTCOME);
    // SAFETY: an outcome has as many words, is aligned as they are, and any bits are one.
    let (number, offset) =
        number_without_factors(unsafe { words.as_ptr().cast::<PlayAnswer>().read() });
    assert_eq!(offset, 0);
    number
}

/// The number of an answer, and its offset. A refusal has no values.
fn number_without_factors(answer: PlayAnswer) -> (u8, usize) {
    let is_zero =
        answer.attributes == Attributes::default() && answer.estimates == Estimates::default();
    assert!(answer.status == 0 || is_zero, "{answer:?}");
    (answer.status, answer.offset)
}

fn number_with_factors(answer: BreaksAnswer) -> (u8, usize) {
    let SliderBreaks { aim, speed } = answer.slider_breaks;
    let is_zero = aim.to_bits() == 0 && speed.to_bits() == 0;
    assert!(answer.status == 0 || is_zero, "{answer:?}");
    number_without_factors(PlayAnswer {
        status: answer.status,
        offset: answer.offset,
        attributes: answer.attributes,
        estimates: answer.estimates,
    })
}

fn rows() -> Vec<Row> {
    let table = concat!(env!("CARGO_MANIFEST_DIR"), "/../../../vectors/refusals.txt");
    parse_table(&std::fs::read_to_string(table).unwrap()).unwrap()
}

#[test]
fn every_row_of_the_table() {
    let mut met = [0_u32; 16];
    for row in &rows() {
        let due = (row.number, row.offset as usize);
        assert_eq!(call(row), due, "line {}, {}", row.line, row.name);
        met[usize::from(row.number)] += 1;
    }
    // No call gives 10.
    let is_met = |number: usize| (met[number] > 0) == (number != 10);
    assert!((0..met.len()).all(is_met), "{met:?}");
}

/// A play that no map refuses.
fn any_play() -> [u8; PLAY_BODY] {
    let mut play = [0; PLAY_BODY];
    play[34..].copy_from_slice(&1.0_f64.to_le_bytes());
    play
}

/// The call of a row of a file or a read, made with factors out of range.
fn with_bad_factors(row: &Row) -> Option<Row> {
    let bad = [f64::NAN.to_bits(), 0];
    let mut row = row.clone();
    match &mut row.kind {
        Kind::File => {
            row.kind = Kind::Score {
                play: any_play(),
                factors: bad,
            };
        }
        Kind::Read { factors, .. } => *factors = Some(bad),
        _ => return None,
    }
    Some(row)
}

/// "Checked last": each row keeps its number beside factors out of range, and a good one gets 14.
#[test]
fn factors_are_checked_last() {
    for row in &rows() {
        let Some(bad) = with_bad_factors(row) else {
            continue;
        };
        let due = match row.number {
            0 => (14, 0),
            number => (number, row.offset as usize),
        };
        assert_eq!(call(&bad), due, "line {}, {}", row.line, row.name);
    }
}

/// "After the map, before any play": each file keeps its number beside heats with too many plays, with
/// too few outcomes and with neither; an accepted one gives 15, and then each play its own number.
#[test]
fn heats_are_checked_behind_the_file() {
    let good = any_play();
    let mut bad = good;
    // Flags of 512.
    bad[33] = 2;
    for row in rows().iter().filter(|row| row.kind == Kind::File) {
        let of = |plays: &[[u8; PLAY_BODY]], outcomes, number, written: &[u8]| {
            let due = match row.number {
                0 => ((number, 0), written.to_vec()),
                number => ((number, row.offset as usize), vec![]),
            };
            assert_eq!(heat(&row.file, plays, outcomes), due, "{}", row.name);
        };
        of(&[good; 65], 65, 15, &[]);
        of(&[bad, good], 1, 15, &[]);
        of(&[bad, good, bad], 4, 0, &[8, 0, 8]);
        of(&[], 1, 0, &[]);
    }
}

/// Two circles on a board whose combo no build made: 0 of 0 is not a number, as in the Rust's formula.
#[test]
fn breaks_without_combo() {
    let rows = rows();
    let row = rows.iter().find(|row| row.name == "read-factors-k-zero");
    let Kind::Read { memory, play, .. } = &row.unwrap().kind else {
        unreachable!("a read");
    };
    let lent = Memories::lent(&row.unwrap().file, memory);
    let breaks = |play: Play| {
        let factors = SliderFactors {
            aim: 1.0,
            speed: -0.0,
        };
        let answer = lent.read_breaks(2, Settings::default(), &[], play, factors);
        assert_eq!(answer.status, 0);
        [answer.slider_breaks.aim, answer.slider_breaks.speed]
    };
    let play = play_of(play);
    assert!(breaks(play).iter().all(|breaks| breaks.is_nan()));
    // Without the miss the effective count is 0, and the quotient is not asked for.
    let no_miss = Play { misses: 0, ..play };
    assert_eq!(breaks(no_miss).map(f64::to_bits), [0, 0]);
}

/// A play whose fields no type of Rust's holds is out of range, behind all that is wrong with the file.
#[test]
fn raw_plays_out_of_range() {
    let score = |file: &[u8], play: Play| {
        // SAFETY: as above.
        number_without_factors(unsafe { sys::pjp_score_play(file.as_ptr(), file.len(), play) })
    };
    let good = Play::from(&popejoanplum::Play::default());
    let mut file = b"MH".to_vec();
    file.extend([0; 12]);
    let wrong_file = [&file[..], b"CI"].concat();
    assert_eq!(score(&file, good), (0, 0));
    assert_eq!(score(&wrong_file, good), (2, 14));
    for wrong in [
        Play { origin: 3, ..good },
        Play {
            origin: 255,
            ..good
        },
        Play {
            has_score: 2,
            ..good
        },
        Play {
            has_score: 255,
            ..good
        },
        Play { score: 1, ..good },
        Play { flags: 512, ..good },
        Play {
            clock_rate: 0.0,
            ..good
        },
        Play {
            clock_rate: f64::NAN,
            ..good
        },
    ] {
        assert_eq!(score(&file, wrong), (8, 0), "{wrong:?}");
        assert_eq!(score(&wrong_file, wrong), (2, 14), "{wrong:?}");
        // 8 comes before 9.
        let both = Play { n300: 1, ..wrong };
        assert_eq!(score(&file, both), (8, 0), "{both:?}");
    }
    assert_eq!(score(&file, Play { n300: 1, ..good }), (9, 0));
}

/// 26 × C words, C being the smallest power of two not below the count and 1; none above 8,192.
#[test]
fn words_of_a_board() {
    for (count, words) in [
        (0, 26),
        (1, 26),
        (2, 52),
        (3, 104),
        (4, 104),
        (5, 208),
        (4_096, 106_496),
        (4_097, 212_992),
        (8_192, 212_992),
        (8_193, 0),
        (usize::MAX, 0),
    ] {
        assert_eq!(sys::pjp_board_words(count), words, "{count} objects");
    }
}
