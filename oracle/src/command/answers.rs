use super::worked_example;
use crate::{
    encode::encode,
    generate::{objects::Shape, random::Random, shaped, small_file},
    listing::listing,
    map::MapFile,
    reader::read_library,
};

/// Every so many files a large one of the next of these shapes.
const LARGE_EVERY: u64 = 100;
const LARGE: [Shape; 6] = [
    Shape::Objects(8_192, 8_192),
    Shape::ComboEdge,
    Shape::LongNested,
    Shape::BonusLimit,
    Shape::Objects(500, 2_000),
    Shape::Objects(2_000, 8_191),
];

/// The fixed list: `count` files, each with its listing by the library.
pub fn answers(seed: u64, count: u64) -> Result<Vec<(Vec<u8>, String)>, String> {
    (0..count).map(|index| answer(seed, index)).collect()
}

fn answer(seed: u64, index: u64) -> Result<(Vec<u8>, String), String> {
    let file = file(seed, index);
    let read = read_library(&file);
    if let Err(refusal) = read {
        return Err(format!(
            "file {index} of seed {seed} is refused: {refusal:?}"
        ));
    }
    Ok((file, listing(&read)))
}

fn file(seed: u64, index: u64) -> Vec<u8> {
    if index == 0 {
        return worked_example();
    }
    encode(&map_of(seed, index))
}

fn map_of(seed: u64, index: u64) -> MapFile {
    if index % LARGE_EVERY != LARGE_EVERY / 2 {
        return small_file(seed, index);
    }
    let shape = LARGE[(index / LARGE_EVERY) as usize % LARGE.len()];
    shaped(&mut Random::new(seed, index), shape)
}
