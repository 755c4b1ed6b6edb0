use crate::{
    encode::encode,
    map::{MapFile, Nested, Object, ObjectKind, Play, Settings},
};

/// The worked example of document 01.
pub fn worked_example() -> Vec<u8> {
    let nested = vec![Nested::Tick, Nested::Repeat, Nested::Tick, Nested::Tail];
    let kinds = [
        ObjectKind::Circle,
        ObjectKind::Slider(nested),
        ObjectKind::Circle,
    ];
    let starts = [0.0, 5_000.0, 10_000.0];
    encode(&MapFile {
        settings: Settings {
            hp: 5.0,
            od: 5.0,
            cs: 5.0,
        },
        breaks: Vec::new(),
        objects: starts
            .into_iter()
            .zip(kinds)
            .map(|(start, kind)| Object { start, kind })
            .collect(),
        plays: vec![Play {
            passed: 3,
            max_combo: 7,
            n300: 3,
            score: Some(1_250),
            ..Play::default()
        }],
    })
}
