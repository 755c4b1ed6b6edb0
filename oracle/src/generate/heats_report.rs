//! What a heat contains.

use super::marathon;
use crate::{
    heats::Heat,
    map::{MapFile, Play},
    values::Original,
};

/// All that is counted of a heat, a label for each time.
pub fn labels(heat: &Heat) -> Vec<&'static str> {
    let mut labels = vec!["heats", plays(heat.plays.len()), outcomes(heat)];
    match heat.checked() {
        Ok(map) => {
            labels.push("heats scored");
            if !map.plays.is_empty() {
                labels.push("heats beside a file with plays");
            }
            scored(heat, &map, &mut labels);
            if marathon::is_marathon(&map) {
                estimates(heat, &Original::new(&map), &mut labels);
            }
        }
        Err(refusal) => labels.push(refused(heat, refusal.number)),
    }
    labels
}

fn plays(count: usize) -> &'static str {
    match count {
        0 => "heats of 0 plays",
        1 => "heats of 1 play",
        2 => "heats of 2 plays",
        3..=62 => "heats of 3 to 62 plays",
        63 => "heats of 63 plays",
        64 => "heats of 64 plays",
        65 => "heats of 65 plays",
        _ => "heats of more than 65 plays",
    }
}

fn outcomes(heat: &Heat) -> &'static str {
    match i64::from(heat.outcomes) - heat.plays.len() as i64 {
        ..-1 => "outcomes several short",
        -1 => "outcomes one short",
        0 => "outcomes as many as plays",
        1 => "outcomes one more",
        2.. => "outcomes several more",
    }
}

fn refused(heat: &Heat, number: u8) -> &'static str {
    let is_due = heat.has_too_many() || heat.has_too_few();
    match (number, is_due) {
        (15, _) if !heat.has_too_few() => "refused 15 by plays",
        (15, _) if !heat.has_too_many() => "refused 15 by outcomes",
        (15, _) => "refused 15 by both",
        (8 | 9, true) => "refused by a play of the file, 15 due",
        (8 | 9, false) => "refused by a play of the file",
        (_, true) => "refused by the file's map, 15 due",
        (_, false) => "refused by the file's map",
    }
}

fn scored(heat: &Heat, map: &MapFile, labels: &mut Vec<&'static str>) {
    let label = |play: Result<Play, u8>| match play {
        Ok(play) => passed(play.passed.into(), map.objects.len()),
        Err(8) => "plays refused 8",
        Err(_) => "plays refused 9",
    };
    let of_plays: Vec<&str> = heat.checked_plays().map(label).collect();
    let is_scored = |label: &&str| label.starts_with("plays scored");
    let first = of_plays.iter().position(is_scored);
    let last = of_plays.iter().rposition(is_scored);
    if let (Some(first), Some(last)) = (first, last) {
        let places = [
            (first > 0, "plays refused before the first scored"),
            (
                !of_plays[first..=last].iter().all(is_scored),
                "plays refused between scored ones",
            ),
            (
                last + 1 < of_plays.len(),
                "plays refused behind the last scored",
            ),
        ];
        labels.extend(places.iter().filter(|place| place.0).map(|place| place.1));
    } else if !of_plays.is_empty() {
        labels.push("plays all refused");
    }
    labels.extend(of_plays);
}

fn estimates(heat: &Heat, original: &Original, labels: &mut Vec<&'static str>) {
    for play in heat.checked_plays().flatten() {
        let attributes = original.attributes(play.passed.into());
        labels.extend(marathon::labels(&attributes, &play));
    }
}

fn passed(passed: usize, objects: usize) -> &'static str {
    if passed > objects {
        "plays scored, passed more than the map has"
    } else if passed == objects {
        "plays scored, passed all"
    } else {
        "plays scored, passed a part"
    }
}
