//! The scores of a heat on the map file that is named: of three plays, one of which exceeds the worked example's map.

use std::{env, error::Error, fs};

use popejoanplum::{Estimates, Play, heat};

fn main() -> Result<(), Box<dyn Error>> {
    let path = env::args_os().nth(1).ok_or("name a map file")?;
    let play = |max_combo, n300, n100| Play {
        passed_objects: 3,
        max_combo,
        n300,
        n100,
        ..Play::default()
    };
    let plays = [play(7, 3, 0), play(8, 3, 0), play(3, 2, 1)];
    for outcome in heat(&fs::read(path)?, &plays)? {
        match outcome {
            Ok(score) => print(&score.estimates),
            Err(refusal) => println!("{refusal}"),
        }
    }
    Ok(())
}

fn print(estimates: &Estimates) {
    let misses = estimates.effective;
    println!("accuracy {}, misses {misses}", estimates.accuracy);
}
