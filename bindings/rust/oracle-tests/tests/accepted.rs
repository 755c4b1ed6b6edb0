//! The values of the table's accepted rows, beside the Rust: the table has none. Above a max combo of
//! 46,341 the Rust is run with its product widened.

use oracle::{
    board,
    generate::marathon_file,
    given::Factors,
    listing,
    map::{self as theirs, MapFile},
    reader::{PLAY_RECORD, read_library, read_play},
    recipe::{Kind, PLAY_BODY, Row, parse_table},
    values::{Attributes, Original},
};
use oracle_tests::{
    AttributesBits, EstimatesBits, answer, breaks_answer, due_answer, due_breaks_answer, due_score,
    factors, is_marathon, score_bits,
};
use popejoanplum::{Board, heat, play_scores, score_map, score_play, score_play_breaks, sys};

fn rows() -> Vec<Row> {
    let table = concat!(env!("CARGO_MANIFEST_DIR"), "/../../../vectors/refusals.txt");
    let rows = parse_table(&std::fs::read_to_string(table).unwrap()).unwrap();
    rows.into_iter().filter(|row| row.number == 0).collect()
}

/// The play of a record, unless a field is out of range.
fn play(body: &[u8; PLAY_BODY]) -> Option<theirs::Play> {
    let mut record = [0; PLAY_RECORD];
    record[2..].copy_from_slice(body);
    read_play(&record).ok()
}

fn factors_of(bits: &[u64; 2]) -> Factors {
    let [aim, speed] = bits.map(f64::from_bits);
    Factors { aim, speed }
}

/// A file by itself: the listing where the program takes it, all values of the map and of its plays.
fn is_scored(file: &[u8], map: &MapFile, original: &Original) {
    let due: AttributesBits = (&original.attributes(map.objects.len())).into();
    assert_eq!(AttributesBits::from(&score_map(file).unwrap()), due);
    let scores: Vec<_> = play_scores(file).map(Result::unwrap).collect();
    let bits: Vec<_> = scores.iter().map(score_bits).collect();
    let due: Vec<_> = map.plays.iter().map(|p| due_score(original, p)).collect();
    assert_eq!(bits, due);
    if let Ok(ours) = popejoanplum::listing(file) {
        assert_eq!(ours, listing::listing(&read_library(file)));
    }
}

/// Plays beside a file, alone and as a heat, and on its board.
fn plays_are_scored(file: &[u8], map: &MapFile, original: &Original, plays: &[theirs::Play]) {
    let due: Vec<_> = plays.iter().map(|p| due_answer(map, original, p)).collect();
    let ours: Vec<_> = plays.iter().map(oracle_tests::play).collect();
    let board = Board::build(file).unwrap();
    for (play, due) in ours.iter().zip(&due) {
        assert_eq!(&answer(score_play(file, play)), due);
        assert_eq!(&answer(board.read(play)), due);
    }
    let outcomes = heat(file, &ours).unwrap();
    assert_eq!(outcomes.into_iter().map(answer).collect::<Vec<_>>(), due);
}

/// Whether a read is of the map that was built.
fn is_own(row: &Row, map: &MapFile) -> bool {
    let Kind::Read {
        memory,
        count,
        settings,
        breaks,
        ..
    } = &row.kind
    else {
        return false;
    };
    let of_map = [map.settings.hp, map.settings.od, map.settings.cs].map(f32::to_bits);
    let times = map.breaks.iter().flat_map(|b| [b.start, b.end]);
    memory.tampers.is_empty()
        && *count as usize == map.objects.len()
        && *settings == of_map
        && times.map(f64::to_bits).eq(breaks.iter().copied())
}

/// Holds a row's values to the Rust's, and says which plays it compared.
fn compare(row: &Row) -> Option<(Original, Vec<theirs::Play>)> {
    let map = read_library(&row.file).unwrap();
    let original = Original::new(&map);
    let (bodies, given) = match &row.kind {
        Kind::Program | Kind::File => {
            is_scored(&row.file, &map, &original);
            return Some((original, map.plays));
        }
        Kind::Build { .. } => {
            let board = Board::build(&row.file).unwrap();
            assert_eq!(board.words(), board::board(&map.objects));
            (vec![], None)
        }
        Kind::Score { play, factors } => (vec![*play], Some(factors)),
        Kind::Heat { plays, .. } => (plays.clone(), None),
        Kind::Read { play, factors, .. } if is_own(row, &map) => (vec![*play], factors.as_ref()),
        Kind::Read { .. } | Kind::Edit { .. } => return None,
    };
    let plays: Vec<_> = bodies.iter().filter_map(play).collect();
    plays_are_scored(&row.file, &map, &original, &plays);
    if let Some(given) = given.map(factors_of) {
        let board = Board::build(&row.file).unwrap();
        for play in &plays {
            let due = due_breaks_answer(&map, &original, play, given);
            let (play, given) = (oracle_tests::play(play), factors(given));
            let ours = score_play_breaks(&row.file, &play, &given);
            assert_eq!(breaks_answer(ours), due);
            assert_eq!(breaks_answer(board.read_breaks(&play, &given)), due);
        }
    }
    Some((original, plays))
}

#[test]
fn accepted_rows_have_the_original_s_values() {
    let (mut compared, mut marathons) = (0, 0);
    for row in &rows() {
        if let Some((original, plays)) = compare(row) {
            compared += 1;
            marathons += usize::from(plays.iter().any(|play| is_marathon(&original, play)));
        }
    }
    assert!(compared > 250, "{compared} rows");
    assert!(marathons > 20, "{marathons} with an estimate above 46,341");
}

/// A board that no build made, of one circle with any combo: the original's formula has it too.
#[test]
fn combo_that_no_build_made() {
    let rows = rows();
    let of_word = |row: &&Row| row.name.starts_with("read-estimate-word-k-");
    let mut compared = 0;
    for row in rows.iter().filter(of_word) {
        let Kind::Read {
            memory, play: body, ..
        } = &row.kind
        else {
            unreachable!("a read");
        };
        let [tamper] = memory.tampers[..] else {
            unreachable!("a word");
        };
        let board = Board::build(&row.file).unwrap();
        let mut words = board.words().to_vec();
        words[tamper.index as usize] = tamper.bits;
        let (given, settings) = (play(body).unwrap(), board.settings());
        // SAFETY: the pointers and lengths are those of slices that live through the call.
        let found = unsafe {
            sys::pjp_read(
                words.as_ptr(),
                words.len(),
                board.starts().as_ptr(),
                1,
                1,
                settings,
                [].as_ptr(),
                0,
                (&oracle_tests::play(&given)).into(),
            )
        };
        assert_eq!(found.status, 0, "{}", row.name);
        let attributes = Attributes {
            max_combo: tamper.bits as u32,
            ..Original::new(&read_library(&row.file).unwrap()).attributes(1)
        };
        let due: EstimatesBits = (&attributes.estimates(&given)).into();
        let ours = popejoanplum::Estimates::from(found.estimates);
        assert_eq!(EstimatesBits::from(&ours), due, "{}", row.name);
        compared += 1;
    }
    assert_eq!(compared, 3);
}

/// Generated maps of 46,340 combo and more, by all calls.
#[test]
fn maps_of_much_combo() {
    let (mut plays, mut marathons) = (0, 0);
    for index in 0..40 {
        let map = marathon_file(38, index);
        let file = oracle::encode::encode(&map);
        let original = Original::new(&map);
        is_scored(&file, &map, &original);
        let bare = MapFile {
            plays: vec![],
            ..map.clone()
        };
        plays_are_scored(&file, &bare, &original, &map.plays);
        plays += map.plays.len();
        let counted = map.plays.iter().filter(|play| is_marathon(&original, play));
        marathons += counted.count();
    }
    assert!(marathons > 30, "{marathons} of {plays} plays");
}
