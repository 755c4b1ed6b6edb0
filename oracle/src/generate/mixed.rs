//! The map of the benchmarks.

use super::{objects, random::Random};
use crate::map::{MapFile, Object, ObjectKind, Play, Settings};

/// Of 20 objects 11 circles, 8 sliders and a spinner of one to four seconds.
fn mixed_objects(size: usize) -> Vec<Object> {
    let mut r = Random::new(1, size as u64);
    let mut kind = |place: usize| match place % 20 {
        19 => ObjectKind::Spinner {
            duration: r.between(1_000, 4_000) as f64,
        },
        place if place % 5 < 2 => {
            let length = r.between(1, 6) as usize;
            objects::slider(&mut r, length)
        }
        _ => ObjectKind::Circle,
    };
    (0..size)
        .map(|place| Object {
            start: 300.0 * place as f64,
            kind: kind(place),
        })
        .collect()
}

/// A map of that many mixed objects, with a play that passes all of them.
pub fn mixed_map(size: usize) -> MapFile {
    let objects = mixed_objects(size);
    let combo = objects.iter().map(Object::combo_gain).sum::<u32>() / 2;
    let play = Play {
        passed: size as u16,
        max_combo: combo,
        n300: size as u16 - 6,
        n100: 3,
        n50: 1,
        misses: 2,
        score: Some(1_000 * size as u32),
        flags: 4,
        ..Play::default()
    };
    let settings = Settings {
        hp: 5.0,
        od: 5.0,
        cs: 5.0,
    };
    MapFile {
        settings,
        breaks: Vec::new(),
        objects,
        plays: vec![play],
    }
}
