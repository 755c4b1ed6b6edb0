//! A refusal of a file in words, with the record that breaks the rule.

use crate::{
    error::Error,
    play::{Mods, Play},
    score::{score_map, score_play},
};

/// What a field holds.
#[derive(Clone, Copy)]
enum Kind {
    U8,
    U16,
    U32,
    F32,
    F64,
    /// 0, 1 or 2.
    Origin,
    Flags,
}

use Kind::*;

impl Kind {
    fn width(self) -> usize {
        match self {
            U8 | Origin => 1,
            U16 | Flags => 2,
            U32 | F32 => 4,
            F64 => 8,
        }
    }

    /// The value of a field's bytes, which are as many as its width.
    fn show(self, bytes: &[u8]) -> String {
        let mut word = [0; 8];
        for (to, from) in word.iter_mut().zip(bytes) {
            *to = *from;
        }
        let word = u64::from_le_bytes(word);
        match self {
            U8 | U16 | U32 => word.to_string(),
            F32 => format!("{:?}", f32::from_bits(word as u32)),
            F64 => format!("{:?}", f64::from_bits(word)),
            Origin => {
                let names = ["stable", "with slider acc", "without slider acc"];
                let name = names.get(word as usize).unwrap_or(&"no origin");
                format!("{word}, {name}")
            }
            Flags => format!("{word}, {}", Mods::from_bits(word as u16)),
        }
    }
}

/// A field of a record: its name, what it holds and within which limits.
type Field = (&'static str, Kind, &'static str);

const TIME: &str = "-8,000,000 to 8,000,000";
const SETTING: &str = "0 to 12";
const ANY: &str = "";

/// Each record: its mark, name and fields in the order of the layout.
const RECORDS: [(&[u8; 2], &str, &[Field]); 6] = [
    (
        b"MH",
        "the settings",
        &[
            ("hp", F32, SETTING),
            ("od", F32, SETTING),
            ("cs", F32, SETTING),
        ],
    ),
    (
        b"BR",
        "a break",
        &[("start", F64, TIME), ("end", F64, TIME)],
    ),
    (b"CI", "a circle", &[("start", F64, TIME)]),
    (
        b"SL",
        "a slider",
        &[("start", F64, TIME), ("nested items", U16, "1 to 1,000")],
    ),
    (
        b"SP",
        "a spinner",
        &[("start", F64, TIME), ("duration", F64, "0 to 3,600,000")],
    ),
    (
        b"PL",
        "a play",
        &[
            ("passed objects", U16, ANY),
            ("max combo", U32, ANY),
            ("n300", U16, ANY),
            ("n100", U16, ANY),
            ("n50", U16, ANY),
            ("misses", U16, ANY),
            ("large tick hits", U32, ANY),
            ("small tick hits", U32, ANY),
            ("slider end hits", U32, ANY),
            ("origin", Origin, "0 to 2"),
            ("score present", U8, "0 or 1"),
            ("score", U32, "0 if absent"),
            ("flags", Flags, "0 to 511"),
            ("clock rate", F64, "above 0, at most 100"),
        ],
    ),
];

/// A file's refusal in words: the rule, then the record at the refusal's offset, field by field, with
/// offsets and bytes in hexadecimal, as far as the file has them.
///
/// ```
/// use popejoanplum::{explain, score_map, text};
///
/// let file = text::assemble("map hp 5 od 5 cs 5\ncircle 9000000").unwrap();
/// let error = score_map(&file).unwrap_err();
/// assert_eq!(explain(&file, &error), "\
/// rule 4: a time, setting or duration is not finite or out of range
/// at 14, a circle:
///       14  43 49                    mark CI
///       16  00 00 00 00 88 2a 61 41  start 9000000.0 (-8,000,000 to 8,000,000)
/// ");
/// ```
pub fn explain(file: &[u8], error: &Error) -> String {
    let mut text = format!("rule {}: {}\n", error.number(), error.rule());
    let offset = error.offset();
    match error.number() {
        2..=9 if file.is_empty() => text += "the input is empty\n",
        2..=9 => {
            text += &record(file.get(offset..).unwrap_or_default(), offset);
            text += &more(file, error);
        }
        // These are not about a record.
        _ => {}
    }
    text
}

/// The record at the front of these bytes.
fn record(bytes: &[u8], offset: usize) -> String {
    let Some((mark, _)) = bytes.split_first_chunk::<2>() else {
        let cut = format!("cut: a mark has 2 bytes, {} are there", bytes.len());
        let line = line(offset, bytes, &cut);
        return format!("at {offset}, no whole mark:\n{line}");
    };
    let Some((_, name, fields)) = RECORDS.iter().find(|(known, ..)| *known == mark) else {
        let line = line(
            offset,
            mark,
            "no mark: the marks are MH, BR, CI, SL, SP and PL",
        );
        return format!("at {offset}, no record:\n{line}");
    };
    let shown = String::from_utf8_lossy(mark);
    let mut text = format!("at {offset}, {name}:\n");
    text += &line(offset, mark, &format!("mark {shown}"));
    let mut at = 2;
    for &(name, kind, limits) in *fields {
        let rest = bytes.get(at..).unwrap_or_default();
        let Some((field, _)) = rest.split_at_checked(kind.width()) else {
            let (width, left) = (kind.width(), rest.len());
            let cut = format!("{name}, cut: it has {width} bytes, {left} are there");
            return text + &line(offset + at, rest, &cut);
        };
        let limits = match limits {
            ANY => String::new(),
            limits => format!(" ({limits})"),
        };
        let value = kind.show(field);
        text += &line(offset + at, field, &format!("{name} {value}{limits}"));
        at += kind.width();
    }
    if mark == b"SL" {
        text += &nested(bytes, offset);
    }
    text
}

/// How many nested items are shown.
const SHOWN: usize = 24;

/// The nested list of a slider whose fixed part is there, and what is wrong with it.
fn nested(bytes: &[u8], offset: usize) -> String {
    let (fixed, list) = bytes.split_at_checked(12).unwrap_or_default();
    let count = fixed
        .last_chunk()
        .map_or(0, |&count| u16::from_le_bytes(count));
    let count = usize::from(count);
    if count > 1_000 {
        return String::new();
    }
    let items = &list[..count.min(list.len())];
    let mut text = String::new();
    for (row, bytes) in items.chunks(8).take(SHOWN / 8).enumerate() {
        let words: Vec<&str> = bytes.iter().map(|&item| item_name(item)).collect();
        text += &line(offset + 12 + 8 * row, bytes, &words.join(" "));
    }
    if items.len() > SHOWN {
        text += &format!("          and {} items more\n", items.len() - SHOWN);
    }
    let wrong = items
        .iter()
        .enumerate()
        .find(|&(place, &item)| (item == 2) != (place + 1 == count) || item > 2);
    text += &match wrong {
        _ if items.len() < count => {
            format!(
                "the list is cut: it has {count} items, {} are there\n",
                items.len()
            )
        }
        _ if count == 0 => "the list is empty: it has no tail\n".into(),
        Some((place, &item)) => {
            let what = match item {
                0 | 1 => "the last item is no tail",
                2 => "a tail before the last item",
                _ => "no nested item: 0 is a tick, 1 a repeat, 2 a tail",
            };
            format!(
                "at {}, item {place} of the list, from 0: {what}\n",
                offset + 12 + place
            )
        }
        None => String::new(),
    };
    text
}

fn item_name(item: u8) -> &'static str {
    ["tick", "repeat", "tail"]
        .get(usize::from(item))
        .unwrap_or(&"?")
}

/// What the rule is about outside the record. The file before the record is accepted.
fn more(file: &[u8], error: &Error) -> String {
    let (before, record) = file.split_at_checked(error.offset()).unwrap_or_default();
    match error.number() {
        3 if RECORDS.iter().any(|(mark, ..)| record.starts_with(*mark)) => {
            "the order is one MH, any BR, any of CI, SL and SP, any PL\n".into()
        }
        7 => score_map(before).map_or(String::new(), |map| {
            format!(
                "the legacy bonus of the objects before it is {}\n",
                map.legacy_bonus_score
            )
        }),
        9 => passed(before, record).unwrap_or_default(),
        _ => String::new(),
    }
}

/// What the objects have that a play passed.
fn passed(before: &[u8], record: &[u8]) -> Option<String> {
    let passed_objects = u16::from_le_bytes(*record.get(2..)?.first_chunk()?);
    let play = Play {
        passed_objects,
        ..Play::default()
    };
    let map = score_play(before, &play).ok()?.attributes;
    Some(format!(
        "of the passed objects: count {}, max combo {}, sliders {}, ticks {}, repeats {}\n",
        map.object_count, map.max_combo, map.n_sliders, map.n_ticks, map.n_repeats
    ))
}

/// An offset, bytes and what they are.
fn line(offset: usize, bytes: &[u8], what: &str) -> String {
    let hex: Vec<String> = bytes.iter().map(|byte| format!("{byte:02x}")).collect();
    format!("{offset:8}  {:23}  {what}\n", hex.join(" "))
}
