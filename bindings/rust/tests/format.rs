//! docs/FORMAT.md says what is so: its tables of records, refusals and words, held to the library.

use std::{fs, path::Path};

use popejoanplum::{
    Board, Error, HEAT_PLAYS, Map, Play, SliderFactors, score_map,
    sys::{self, Settings},
};

fn read(path: &str) -> String {
    fs::read_to_string(Path::new(env!("CARGO_MANIFEST_DIR")).join(path)).unwrap()
}

fn page() -> String {
    read("../../docs/FORMAT.md")
}

/// The rows of the table that follows a text, each by its cells.
fn table<'a>(page: &'a str, before: &str) -> Vec<Vec<&'a str>> {
    let (_, rest) = page.split_once(before).expect(before);
    let lines = rest.lines().skip_while(|line| !line.starts_with('|'));
    let lines = lines.take_while(|line| line.starts_with('|')).skip(2);
    let cells = |line: &'a str| line.trim_matches('|').split('|').map(str::trim).collect();
    lines.map(cells).collect()
}

/// A field of a record's table.
struct Field<'a> {
    offset: usize,
    size: usize,
    kind: &'a str,
    range: &'a str,
}

fn fields<'a>(page: &'a str, mark: &str) -> Vec<Field<'a>> {
    let rows = table(page, &format!("\n**{mark}**, "));
    let fields = rows.into_iter().filter(|row| row[1] != "count");
    let field = |row: Vec<&'a str>| Field {
        offset: row[0].parse().unwrap(),
        size: row[1].parse().unwrap(),
        kind: row[2],
        range: row[4],
    };
    fields.map(field).collect()
}

const MARKS: [&str; 6] = ["MH", "BR", "CI", "SL", "SP", "PL"];

/// A record of zeros, but for what may not be 0.
fn record(page: &str, mark: &str) -> Vec<u8> {
    let mut bytes = mark.as_bytes().to_vec();
    for field in fields(page, mark).iter().skip(1) {
        assert_eq!(field.offset, bytes.len(), "{mark}");
        match field.range {
            "1 to 1,000" => bytes.extend(1_u16.to_le_bytes()),
            "above 0, at most 100" => bytes.extend(1.0_f64.to_le_bytes()),
            _ => bytes.extend(vec![0; field.size]),
        }
    }
    let (_, front) = page.split_once(&format!("\n**{mark}**, ")).unwrap();
    let title = front.lines().next().unwrap();
    assert!(
        title.contains(&format!(" {} bytes", bytes.len())),
        "{title}"
    );
    if mark == "SL" {
        bytes.push(2);
    }
    bytes
}

fn refused(file: &[u8]) -> Option<(u8, usize)> {
    let told = |error: Error| (error.number(), error.offset());
    score_map(file).err().map(told)
}

fn number(text: &str) -> f64 {
    text.replace(',', "").parse().unwrap()
}

/// The values at the edges of a field's range, and others beyond them with the number that is due.
fn edges(field: &Field) -> (Vec<f64>, Vec<f64>, u8) {
    let float = |low: f64, high: f64, rule| {
        let beyond = vec![low.next_down(), high.next_up(), f64::NAN, f64::INFINITY];
        (vec![low, high], beyond, rule)
    };
    match (field.kind, field.range) {
        ("f64", "a time") => float(-8_000_000.0, 8_000_000.0, 4),
        ("f64", "0 to 3,600,000") => float(0.0, 3_600_000.0, 4),
        ("f64", "above 0, at most 100") => float(0.0_f64.next_up(), 100.0, 8),
        ("f32", "0 to 12") => {
            let beyond = [0.0_f32.next_down(), 12.0_f32.next_up(), f32::NAN];
            (vec![0.0, 12.0], beyond.map(f64::from).to_vec(), 4)
        }
        ("u16", "1 to 1,000") => (vec![1.0], vec![1_001.0, 65_535.0], 6),
        ("u8" | "u16", range) if range.contains(" to ") || range == "0 or 1" => {
            let (_, high) = range.split_once(" to ").unwrap_or(("0", "1"));
            let high = number(high);
            (vec![0.0, high], vec![high + 1.0], 8)
        }
        (_, range) => {
            assert!(matches!(range, "" | "any" | "any; 9") || range.starts_with("any; 0"));
            (vec![], vec![], 0)
        }
    }
}

fn put(bytes: &mut [u8], kind: &str, value: f64) {
    match kind {
        "f32" => bytes.copy_from_slice(&(value as f32).to_le_bytes()),
        "f64" => bytes.copy_from_slice(&value.to_le_bytes()),
        _ => bytes.copy_from_slice(&(value as u64).to_le_bytes()[..bytes.len()]),
    }
}

#[test]
fn records() {
    let page = page();
    let records = MARKS.map(|mark| record(&page, mark));
    assert_eq!(refused(&records.concat()), None);
    let mut ranges = 0;
    for (i, mark) in MARKS.iter().enumerate() {
        let offset = records[..i].iter().map(Vec::len).sum();
        for field in fields(&page, mark) {
            let (within, beyond, rule) = edges(&field);
            let of = |value: f64| {
                let mut records = records.clone();
                let place = field.offset..field.offset + field.size;
                put(&mut records[i][place], field.kind, value);
                refused(&records.concat())
            };
            ranges += usize::from(!within.is_empty());
            for value in within {
                assert_eq!(of(value), None, "{mark} {} {value}", field.offset);
            }
            for value in beyond {
                let due = Some((rule, offset));
                assert_eq!(of(value), due, "{mark} {} {value}", field.offset);
            }
        }
        // A cut record, and one where its list is cut.
        let length = offset + records[i].len() - 1;
        assert_eq!(refused(&records.concat()[..length]), Some((2, offset)));
    }
    assert_eq!(ranges, 14);
}

#[test]
fn the_whole_file() {
    let page = page();
    let (_, rest) = page.split_once("24 bytes:\n\n").unwrap();
    let (block, _) = rest.split_once("\n\n").unwrap();
    let byte = |word| u8::from_str_radix(word, 16).unwrap();
    let file: Vec<u8> = block.split_whitespace().map(byte).collect();
    assert_eq!(file.len(), 24);
    assert_eq!(score_map(&file).unwrap().object_count, 1);
}

/// The numbers of the refusals are those of the header, and none is left out.
#[test]
fn refusals() {
    let page = page();
    let rows = table(&page, "## The refusals");
    let named = rows.iter().filter(|row| !row[1].is_empty());
    let of_page: Vec<String> = named
        .map(|row| format!("{} {}", row[1].trim_matches('`'), row[0]))
        .collect();
    let header = read("../c/popejoanplum.h");
    let (_, defines) = header.split_once("#define PJP_GOOD 0\n").unwrap();
    let (defines, _) = defines.split_once("#define PJP_NO_PLAY").unwrap();
    let define = |line: &str| {
        let words: Vec<&str> = line.split_whitespace().take(3).collect();
        words[1..].join(" ")
    };
    let of_header: Vec<String> = defines.lines().map(define).collect();
    assert_eq!(of_page, of_header);
    // 10 is given by no call.
    let numbers: Vec<String> = (1..=15)
        .filter(|&n| n != 10)
        .map(|n| n.to_string())
        .collect();
    assert!(rows.iter().map(|row| row[0]).eq(&numbers));
}

/// As many plays as the page says, and not one more.
#[test]
fn heats() {
    let page = page();
    let (_, section) = page.split_once("## A heat").unwrap();
    let (_, rest) = section.split_once("up to ").unwrap();
    let (most, _) = rest.split_once(" plays").unwrap();
    let most = number(most) as usize;
    assert_eq!(most, HEAT_PLAYS);
    let of = |count| {
        let refused = Map::default().heat(&vec![Play::default(); count]).err();
        refused.map(|error| (error.number(), error.offset()))
    };
    assert_eq!((of(most), of(most + 1)), (None, Some((15, 0))));
    let rows = table(&page, "## The refusals");
    let row = rows.iter().find(|row| row[0] == "15").unwrap();
    assert!(row[2].contains(&format!("more than {most} plays")));
}

/// Each factor's range, on a file and on a board; the negative zero is in it.
#[test]
fn factors() {
    let page = page();
    let rows = table(&page, "## Factors and slider breaks");
    let names: Vec<&str> = rows.iter().map(|row| row[0]).collect();
    assert_eq!(names, ["aim", "speed"]);
    let map = Map::default();
    let board = Board::from_map(&map).unwrap();
    for (place, row) in rows.iter().enumerate() {
        let (low, high) = row[2].split_once(" to ").unwrap();
        let (low, high) = (number(low), number(high));
        let of = |value: f64| {
            let mut both = [low, high];
            both[place] = value;
            let [aim, speed] = both;
            let factors = SliderFactors { aim, speed };
            let given = map.score_play_breaks(&Play::default(), &factors).err();
            assert_eq!(board.read_breaks(&Play::default(), &factors).err(), given);
            given.map(|error| (error.number(), error.offset()))
        };
        for value in [low, high, -low] {
            assert_eq!(of(value), None, "{} {value}", row[0]);
        }
        for value in [low.next_down(), high.next_up(), f64::NAN, f64::INFINITY] {
            assert_eq!(of(value), Some((14, 0)), "{} {value}", row[0]);
        }
    }
}

/// Each word of an entry may be its limit and not above it. The other words are such that a read
/// finds them sound.
#[test]
fn words() {
    let page = page();
    let rows = table(&page, "so entry 1 covers all.");
    assert_eq!(rows.len(), 13);
    let limits: Vec<u64> = rows.iter().map(|row| number(row[3]) as u64).collect();
    for (word, row) in rows.iter().enumerate() {
        assert_eq!(row[0].parse(), Ok(word));
        let of = |value: u64| {
            let mut entry = [0; 13];
            (entry[1], entry[2]) = (limits[1], limits[2]);
            entry[word] = value;
            let board = [[0; 13], entry].concat();
            let settings = Settings::default();
            let play = (&Play {
                passed_objects: 1,
                ..Play::default()
            })
                .into();
            // SAFETY: the pointers and lengths are those of slices that live through the call.
            let answer = unsafe {
                sys::pjp_read(
                    board.as_ptr(),
                    board.len(),
                    [0.0].as_ptr(),
                    1,
                    1,
                    settings,
                    [].as_ptr(),
                    0,
                    play,
                )
            };
            answer.status
        };
        assert_eq!((of(limits[word]), of(limits[word] + 1)), (0, 13), "{word}");
    }
}
