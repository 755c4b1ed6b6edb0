//! Files whose own plays passed other counts than all objects, each of which is checked against its own passed objects.

use std::{collections::HashMap, hint::black_box};

use oracle::{
    encode::encode,
    map::{MapFile, ObjectKind},
    values::{Attributes, Original},
};

use crate::{
    answer::Answer,
    cases::{self, spinners},
    lent::Lent,
    listing,
    measure::Series,
    proved,
};

/// A file of which each call gives the right values.
pub struct OwnPlays {
    name: &'static str,
    objects: usize,
    plays: usize,
    file: Vec<u8>,
    /// Whether a call takes milliseconds.
    is_slow: bool,
}

/// Nanoseconds of one call.
#[derive(Clone, Copy, Debug)]
pub struct OwnTimes {
    /// What the plays passed.
    pub name: &'static str,
    pub objects: usize,
    pub plays: usize,
    pub bytes: usize,
    pub score_map: f64,
    pub build: f64,
    /// Of the last play.
    pub score_play_at: f64,
    /// Of the listing program, a whole process, where it is there and takes a file of that length.
    pub list: Option<f64>,
}

/// The files, whose calls are held to the Rust's values.
pub fn files() -> Vec<OwnPlays> {
    let files = [
        (
            "circles, each play passed another count",
            cases::plays_of_different_counts(),
        ),
        (
            "sliders of 1,000 nested items, each play passed all but the last",
            cases::plays_of_all_but_the_last(),
        ),
        (
            "spinners of an hour, each play passed all but the last",
            spinners::plays_of_all_hours_but_the_last(),
        ),
        (
            "spinners of an hour, the plays passed 74 to 0 in turn",
            spinners::plays_of_counts_of_hours(),
        ),
        (
            "75 spinners of an hour and then circles, the plays passed 74 to 1 in turn",
            spinners::plays_inside_hours(),
        ),
        (
            "spinners of 1,576 half spins, each play passed another count",
            spinners::plays_on_many_spinners(),
        ),
        (
            "spinners of 56,785 half spins, each play passed all but the last",
            spinners::plays_of_most_half_spins(),
        ),
    ];
    files
        .into_iter()
        .map(|(name, map)| OwnPlays::checked(name, &map))
        .collect()
}

impl OwnPlays {
    fn checked(name: &'static str, map: &MapFile) -> Self {
        let (file, objects) = (encode(map), map.objects.len());
        let original = Original::new(map);
        let due: Answer = Ok(original.attributes(objects)).into();
        assert_eq!(Answer::from(proved::score_map(&file)), due);
        let (mut ours, mut plain) = (Lent::new(objects), Lent::new(objects));
        assert_eq!(ours.build(&file), proved::GOOD);
        assert_eq!(plain.plain_build(&file), Ok(()));
        assert!(ours == plain, "the boards differ behind a build");
        for place in [0, map.plays.len() - 1] {
            let play = &map.plays[place];
            let attributes = original.attributes(play.passed.into());
            let due: Answer = (&attributes, &attributes.estimates(play)).into();
            let ours = proved::score_play_at(&file, place as u64);
            assert_eq!(Answer::from(ours), due);
        }
        if listing::takes(&file) {
            let is_due = listing::list(&file) == due_listing(map, &original).into_bytes();
            assert!(is_due, "the listing differs of {name}");
        }
        let is_spinner = |kind: &ObjectKind| matches!(kind, ObjectKind::Spinner { .. });
        Self {
            name,
            objects,
            plays: map.plays.len(),
            is_slow: file.len() > 1_000_000 || is_spinner(&map.objects[0].kind),
            file,
        }
    }

    pub fn measure(&self, series: Series) -> OwnTimes {
        let file = &self.file;
        let samples = match self.is_slow {
            true => series.few,
            false => series.samples,
        };
        let mut board = Lent::new(self.objects);
        let last = self.plays as u64 - 1;
        let [score_map, build, score_play_at] = samples.medians(
            1,
            [
                &mut || {
                    black_box(proved::score_map(black_box(file)));
                },
                &mut || {
                    black_box(board.build(black_box(file)));
                },
                &mut || {
                    black_box(proved::score_play_at(black_box(file), last));
                },
            ],
        );
        OwnTimes {
            name: self.name,
            objects: self.objects,
            plays: self.plays,
            bytes: file.len(),
            score_map,
            build,
            score_play_at,
            list: self.list(series),
        }
    }

    fn list(&self, series: Series) -> Option<f64> {
        if !listing::takes(&self.file) {
            return None;
        }
        let mut list = || {
            black_box(listing::list(&self.file));
        };
        let [time] = series.few.medians(1, [&mut list]);
        Some(time)
    }
}

/// The listing by the Rust's values. The Rust walks its spinners for each play, which would take half a minute: so the values
/// of each passed count are kept.
fn due_listing(map: &MapFile, original: &Original) -> String {
    let alone = MapFile {
        plays: Vec::new(),
        ..map.clone()
    };
    let mut text = oracle::listing::listing(&Ok(alone));
    let mut known: HashMap<u16, Attributes> = HashMap::new();
    for (index, play) in map.plays.iter().enumerate() {
        let anew = || original.attributes(play.passed.into());
        let attributes = known.entry(play.passed).or_insert_with(anew);
        text += &oracle::listing::play_line(index, &attributes.estimates(play));
    }
    text
}
