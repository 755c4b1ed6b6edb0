//! The texts of the listing program, and of the attributes.

use std::fmt::Write;

use crate::{
    map::MapFile,
    reader::Refusal,
    values::{Attributes, Estimates, Original, SliderBreaks},
};

/// The listing of a read file, or of its refusal.
pub fn listing(read: &Result<MapFile, Refusal>) -> String {
    let map = match read {
        Ok(map) => map,
        Err(refusal) => return refusal_line(refusal),
    };
    let original = Original::new(map);
    let mut text = map_line(&original.attributes(original.object_count()));
    for (index, play) in map.plays.iter().enumerate() {
        text += &play_line(index, &original.estimates(play));
    }
    text
}

/// The listing, then the attributes of each play's passed objects.
pub fn trace(read: &Result<MapFile, Refusal>) -> String {
    let text = listing(read);
    match read {
        Ok(_) => text + &attributes(read, &[]),
        Err(_) => text,
    }
}

/// The attributes after each of the passed counts, or of each play where none is given.
pub fn attributes(read: &Result<MapFile, Refusal>, passed: &[u32]) -> String {
    let map = match read {
        Ok(map) => map,
        Err(refusal) => return refusal_line(refusal),
    };
    let original = Original::new(map);
    let mut text = String::new();
    let of_plays: Vec<u32> = map.plays.iter().map(|play| play.passed.into()).collect();
    let passed = if passed.is_empty() { &of_plays } else { passed };
    for (index, &passed) in passed.iter().enumerate() {
        text += &attributes_line(index, &original.attributes(passed as usize));
    }
    text
}

/// The bits in 16 hexadecimal digits, or `nan` whatever its bits.
pub fn float(value: f64) -> String {
    if value.is_nan() {
        "nan".to_owned()
    } else {
        format!("{:016x}", value.to_bits())
    }
}

/// The only line of a refused input.
pub fn refusal_line(refusal: &Refusal) -> String {
    format!("refused {} at {}\n", refusal.number, refusal.offset)
}

/// The line of a refusal that points at no record.
pub fn refused(number: u8) -> String {
    refusal_line(&Refusal { number, offset: 0 })
}

fn map_line(a: &Attributes) -> String {
    format!(
        "map {} {} {} {} {} {} {} {}\n",
        a.objects,
        a.multiplier,
        a.accuracy_score,
        a.combo_score,
        float(a.bonus_ratio),
        a.legacy_bonus,
        a.max_combo,
        float(a.nested_per_object),
    )
}

pub fn play_line(index: usize, estimates: &Estimates) -> String {
    format!(
        "play {index} {} {} {} {}\n",
        float(estimates.accuracy),
        float(estimates.combo_based),
        estimates.score_based.map_or("-".to_owned(), float),
        float(estimates.effective),
    )
}

pub fn breaks_line(index: usize, breaks: &SliderBreaks) -> String {
    format!(
        "breaks {index} {} {}\n",
        float(breaks.aim),
        float(breaks.speed),
    )
}

pub fn attributes_line(index: usize, a: &Attributes) -> String {
    let mut line = format!(
        "attrs {index} {} {} {} {} {} {} {} {} {}",
        a.objects,
        a.multiplier,
        a.accuracy_score,
        a.combo_score,
        float(a.bonus_ratio),
        a.legacy_bonus,
        a.standardised_bonus,
        a.max_combo,
        float(a.nested_per_object),
    );
    for count in [a.circles, a.sliders, a.spinners, a.repeats, a.ticks] {
        write!(line, " {count}").expect("a string takes all text");
    }
    line + "\n"
}
