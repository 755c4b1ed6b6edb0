//! Plain Rust's calls beside the proved ones: the same answers and the same memory.

use oracle::{
    calls::{Call, START_FILLER, WORD_FILLER},
    generate::{calls::list, damage::damaged_file, map_file, random::Random},
    given::Factors,
    map::{Play, Settings},
};

use crate::{
    answer::{Answer, BreaksAnswer},
    plain,
    proved::{self, Status},
};

/// How often each number was met, with 0 for a good call.
#[derive(Default)]
struct Met {
    builds: [u32; 14],
    edits: [u32; 14],
    reads: [u32; 14],
    factor_reads: [u32; 15],
}

/// The factors of the reads, in turn.
const FACTORS: [[f64; 2]; 6] = [
    [0.5, 2.0],
    [10.0, 0.125],
    [0.0, -0.0],
    [0.75, 10.5],
    [1.5, 1.0],
    [f64::NAN, 0.25],
];

/// The same lent memory, for each side its own.
#[derive(Default)]
struct Lent {
    ours: (Vec<u64>, Vec<f64>),
    plain: (Vec<u64>, Vec<f64>),
}

fn number(answer: &Answer) -> usize {
    match answer {
        Answer::Refused(number, _) => usize::from(*number),
        _ => 0,
    }
}

impl Lent {
    fn new(words: u32, starts: u32) -> Self {
        let lent = (
            vec![WORD_FILLER; words as usize],
            vec![START_FILLER; starts as usize],
        );
        Self {
            ours: lent.clone(),
            plain: lent,
        }
    }

    fn assert_same(&self) {
        let bits = |starts: &[f64]| starts.iter().map(|s| s.to_bits()).collect::<Vec<_>>();
        assert!(self.ours.0 == self.plain.0, "the boards differ");
        assert_eq!(bits(&self.ours.1), bits(&self.plain.1));
    }

    /// Makes a call on both sides and gives its refusal's number.
    fn call(&mut self, call: &Call, met: &mut Met) {
        let (ours, plain) = (&mut self.ours, &mut self.plain);
        match call {
            Call::Build { file, .. } => {
                let answer: Answer = proved::build(file, &mut ours.0, &mut ours.1).into();
                met.builds[number(&answer)] += 1;
                assert_eq!(
                    answer,
                    plain::build(file, &mut plain.0, &mut plain.1).into()
                );
            }
            Call::Edit {
                count,
                place,
                record,
            } => {
                let (count, place) = (*count as usize, *place as usize);
                let answer: Answer =
                    proved::edit(&mut ours.0, &mut ours.1, count, place, record).into();
                met.edits[number(&answer)] += 1;
                let theirs = plain::edit(&mut plain.0, &mut plain.1, count, place, record);
                assert_eq!(answer, theirs.into());
            }
            Call::Read {
                count,
                settings,
                breaks,
                play,
                ..
            } => {
                let count = *count as usize;
                self.read(count, settings, breaks, play, met);
                self.read_breaks(count, settings, breaks, play, met);
            }
            Call::Board => {}
        }
        self.assert_same();
    }

    fn read(&self, count: usize, settings: &Settings, breaks: &[f64], play: &Play, met: &mut Met) {
        let (ours, plain) = (&self.ours, &self.plain);
        let given = (proved::settings(settings), proved::play(play));
        let answer: Answer = proved::read(&ours.0, &ours.1, count, given.0, breaks, given.1).into();
        met.reads[number(&answer)] += 1;
        let theirs = plain::read(&plain.0, &plain.1, count, settings, breaks, play);
        assert_eq!(answer, theirs.into());
    }

    fn read_breaks(
        &self,
        count: usize,
        settings: &Settings,
        breaks: &[f64],
        play: &Play,
        met: &mut Met,
    ) {
        let (ours, plain) = (&self.ours, &self.plain);
        let turn = met.factor_reads.iter().sum::<u32>() as usize;
        let [aim, speed] = FACTORS[turn % FACTORS.len()];
        let factors = Factors { aim, speed };
        let answer = proved::read_breaks(
            &ours.0,
            &ours.1,
            count,
            proved::settings(settings),
            breaks,
            proved::play(play),
            proved::factors(factors),
        );
        met.factor_reads[usize::from(answer.status)] += 1;
        let theirs = plain::read_breaks(&plain.0, &plain.1, count, settings, breaks, play, factors);
        assert_eq!(BreaksAnswer::from(answer), theirs.into());
    }

    /// Puts the same number at the same place of both memories, mostly one near a limit.
    fn damage(&mut self, r: &mut Random) {
        if r.percent(10) && !self.ours.1.is_empty() {
            let place = r.below(self.ours.1.len() as u64) as usize;
            let start = r.pick(&[8_000_000.0, -8_000_000.5, f64::NAN, f64::INFINITY]);
            (self.ours.1[place], self.plain.1[place]) = (start, start);
        } else {
            let place = r.below(self.ours.0.len() as u64) as usize;
            let word = match r.below(8) {
                0 => r.next_u64(),
                1 => 137_438_953_472 + r.below(2),
                2 | 3 => 2_147_483_647 + r.below(2),
                4 => 8_200_192 + r.below(2),
                5 => 8_192 + r.below(2),
                _ => r.below(3),
            };
            (self.ours.0[place], self.plain.0[place]) = (word, word);
        }
    }
}

/// Replays a list of calls; with a source of numbers the memory is damaged between them.
fn replay(calls: &[Call], mut damage: Option<Random>, met: &mut Met) {
    let mut lent = Lent::default();
    for call in calls {
        if let Call::Build { words, starts, .. } = call {
            lent = Lent::new(*words, *starts);
        } else if let Some(r) = &mut damage
            && r.percent(20)
        {
            lent.damage(r);
        }
        lent.call(call, met);
    }
}

fn assert_met(kind: &str, met: &[u32], numbers: &[usize]) {
    for &number in numbers {
        assert!(met[number] >= 10, "{kind}: few of {number} in {met:?}");
    }
    assert_eq!(met[10], 0, "{kind}: no call gives 10");
}

#[test]
fn lists_of_calls() {
    let mut met = Met::default();
    for index in 0..700 {
        replay(&list(7, index), None, &mut met);
    }
    assert_met("builds", &met.builds, &[0, 11]);
    assert_met("edits", &met.edits, &[0, 2, 3, 4, 5, 6, 7, 11, 12]);
    assert_met("reads", &met.reads, &[0, 4, 6, 8, 9, 11]);
    let numbers = &[0, 4, 6, 8, 9, 11, 14];
    assert_met("reads with factors", &met.factor_reads, numbers);
}

#[test]
fn lists_of_calls_on_damaged_boards() {
    let mut met = Met::default();
    for index in 0..700 {
        let damage = Random::new(8, index);
        replay(&list(9, index), Some(damage), &mut met);
    }
    assert_met("edits", &met.edits, &[0, 7, 13]);
    assert_met("reads", &met.reads, &[0, 9, 13]);
    assert_met("reads with factors", &met.factor_reads, &[0, 9, 13, 14]);
}

fn scored(file: &[u8]) -> Answer {
    let answer: Answer = proved::score_map(file).into();
    assert_eq!(answer, plain::score_map(file).into());
    answer
}

#[test]
fn files() {
    let mut met = [0; 14];
    for index in 0..2_500 {
        met[number(&scored(&damaged_file(11, index).0))] += 1;
        let file = oracle::encode::encode(&map_file(12, index));
        assert_eq!(number(&scored(&file)), 0);
    }
    assert_met("files", &met, &[2, 3, 4, 5, 6, 7, 8, 9]);
}

/// The comparison itself tells answers apart.
#[test]
fn different_answers_differ() {
    let map = oracle::generate::mixed::mixed_map(20);
    let original = oracle::values::Original::new(&map);
    let answer = |play: &Play| -> Answer {
        let attributes = original.attributes(play.passed.into());
        (&attributes, &attributes.estimates(play)).into()
    };
    let play = &map.plays[0];
    let other = Play {
        max_combo: play.max_combo - 1,
        ..play.clone()
    };
    assert_eq!(answer(play), answer(play));
    assert_ne!(answer(play), answer(&other));
    let status = |status, offset| Answer::from(Status { status, offset });
    assert_ne!(status(2, 0), status(2, 1));
    assert_ne!(status(2, 0), status(3, 0));
}
