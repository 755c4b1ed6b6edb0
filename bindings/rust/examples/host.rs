//! Builds the board of the map file that is named, and reads a play before and after an edit.

use std::{env, error::Error, fs};

use popejoanplum::{Board, Object, Play, Score};

fn main() -> Result<(), Box<dyn Error>> {
    let path = env::args_os().nth(1).ok_or("name a map file")?;
    let mut board = Board::build(&fs::read(path)?)?;
    let play = Play {
        passed_objects: 3,
        max_combo: 3,
        n300: 2,
        n100: 1,
        score: Some(900),
        ..Play::default()
    };
    print(&board.read(&play)?);
    board.edit(0, &Object::spinner(0.0, 1400.0))?;
    print(&board.read(&play)?);
    Ok(())
}

fn print(score: &Score) {
    let bonus = score.attributes.legacy_bonus_score;
    let misses = score.estimates.effective;
    println!("bonus {bonus}, misses {misses}");
}
