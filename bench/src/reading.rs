//! How fast files are read.

use std::hint::black_box;

use crate::{answer::Answer, cases::File, measure::Samples, plain, proved};

/// Nanoseconds of one reading.
#[derive(Clone, Copy, Debug)]
pub struct ReadingTimes {
    pub name: &'static str,
    pub objects: usize,
    pub bytes: usize,
    pub score_map: f64,
    pub read_map: f64,
    pub plain: f64,
}

impl ReadingTimes {
    /// Gigabytes in a second, which are bytes in a nanosecond.
    pub fn speed(&self, time: f64) -> f64 {
        self.bytes as f64 / time
    }
}

pub fn measure(file: &File, samples: Samples) -> ReadingTimes {
    let bytes = &file.bytes;
    let answer = proved::score_map(bytes);
    assert_eq!(answer.attributes.object_count, file.objects as u64);
    assert_eq!(Answer::from(answer), plain::score_map(bytes).into());
    assert_eq!(proved::read_map(bytes).objects, file.objects as u64);
    let calls = 200_000 / bytes.len() + 1;
    let [score_map, read_map, plain] = samples.medians(
        calls,
        [
            &mut || {
                black_box(proved::score_map(black_box(bytes)));
            },
            &mut || {
                black_box(proved::read_map(black_box(bytes)));
            },
            &mut || {
                black_box(&plain::score_map(black_box(bytes)));
            },
        ],
    );
    ReadingTimes {
        name: file.name,
        objects: file.objects,
        bytes: bytes.len(),
        score_map,
        read_map,
        plain,
    }
}
