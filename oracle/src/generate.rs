//! Makes map files, plays with factors, heats and lists of calls out of a seed. File `index` of a seed does not depend on the others.

pub mod breaks;
pub mod breaks_report;
pub mod calls;
pub mod damage;
pub mod heats;
pub mod heats_report;
pub mod marathon;
pub mod mixed;
pub mod objects;
pub mod plays;
pub mod random;
pub mod report;
pub mod times;

use crate::map::{MapFile, Object};

use self::{objects::Shape, random::Random};

/// Weights of the shapes in a thousand files.
const SHAPES: [(u64, Shape); 12] = [
    (10, Shape::Objects(0, 0)),
    (30, Shape::Objects(1, 1)),
    (40, Shape::Objects(2, 2)),
    (400, Shape::Objects(3, 10)),
    (474, Shape::Objects(11, 60)),
    (30, Shape::Objects(61, 500)),
    (3, Shape::Objects(501, 4_000)),
    (1, Shape::Objects(4_001, 8_191)),
    (1, Shape::Objects(8_192, 8_192)),
    (3, Shape::ComboEdge),
    (6, Shape::LongNested),
    (2, Shape::BonusLimit),
];

/// The file `index` of a run with this seed.
pub fn map_file(seed: u64, index: u64) -> MapFile {
    let mut r = Random::new(seed, index);
    let shape = r.weighted(&SHAPES);
    shaped(&mut r, shape)
}

/// A file of much combo, whatever the index.
pub fn marathon_file(seed: u64, index: u64) -> MapFile {
    shaped(&mut Random::new(seed ^ 0x3a4a, index), Shape::Marathon)
}

/// A file of few objects, whatever the index.
pub fn small_file(seed: u64, index: u64) -> MapFile {
    let mut r = Random::new(seed, index);
    let most = r.pick(&[0, 1, 3, 10, 10, 30, 30, 60]);
    shaped(&mut r, Shape::Objects(0, most))
}

pub fn shaped(r: &mut Random, shape: Shape) -> MapFile {
    let kinds = objects::kinds(r, shape);
    let (settings, starts) = times::settings_and_starts(r, kinds.len());
    let breaks = times::breaks(r, &starts);
    let objects = starts
        .into_iter()
        .zip(kinds)
        .map(|(start, kind)| Object { start, kind })
        .collect();
    let mut map = MapFile {
        settings,
        breaks,
        objects,
        plays: Vec::new(),
    };
    map.plays = plays::plays(r, &map, shape);
    map
}
