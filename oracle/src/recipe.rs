//! Assembler of the table of refusals (`vectors/refusals.txt`).
//!
//! The table's head documents its text. The expected numbers are copied from the table and never
//! worked out here: the assembler knows the layout of a record, but no refusal.

use std::collections::{HashMap, HashSet};

/// Names of the 13 words of a board entry, in document 01's order.
const WORDS: [&str; 13] = [
    "q", "k", "s", "f", "acc", "legacy", "std", "circles", "sliders", "spinners", "repeats",
    "ticks", "nested",
];

/// Fields of a PL record in layout order, with their widths in bytes.
const PLAY_FIELDS: [(&str, usize); 14] = [
    ("passed", 2),
    ("combo", 4),
    ("n300", 2),
    ("n100", 2),
    ("n50", 2),
    ("miss", 2),
    ("large", 4),
    ("small", 4),
    ("ends", 4),
    ("origin", 1),
    ("has", 1),
    ("score", 4),
    ("flags", 2),
    ("rate", 8),
];

/// Bytes of a PL record after its mark.
pub const PLAY_BODY: usize = 42;

/// The lent memory that a tamper writes to.
#[derive(Clone, Copy, Debug, PartialEq, Eq)]
pub enum Lent {
    Board,
    Start,
}

/// One number written into lent memory between the honest build and the call.
#[derive(Clone, Copy, Debug, PartialEq, Eq)]
pub struct Tamper {
    pub lent: Lent,
    pub index: u32,
    pub bits: u64,
}

/// What an edit or a read is lent: the sizes, and what is written there before the call.
#[derive(Clone, Debug, PartialEq, Eq)]
pub struct Memory {
    pub words: u32,
    pub starts: u32,
    pub tampers: Vec<Tamper>,
}

/// What a row calls, with the arguments beside the file.
#[derive(Clone, Debug, PartialEq, Eq)]
pub enum Kind {
    Program,
    File,
    Build {
        words: u32,
        starts: u32,
    },
    Edit {
        memory: Memory,
        count: u32,
        place: u32,
        record: Vec<u8>,
    },
    Read {
        memory: Memory,
        count: u32,
        settings: [u32; 3],
        breaks: Vec<u64>,
        play: [u8; PLAY_BODY],
        factors: Option<[u64; 2]>,
    },
    Score {
        play: [u8; PLAY_BODY],
        factors: [u64; 2],
    },
    Heat {
        plays: Vec<[u8; PLAY_BODY]>,
        outcomes: u32,
    },
}

/// A row of the table; `number` is 0 where no refusal is expected, as are those of `written` for plays
/// that are scored.
#[derive(Clone, Debug, PartialEq, Eq)]
pub struct Row {
    pub name: String,
    pub line: usize,
    pub kind: Kind,
    pub file: Vec<u8>,
    pub number: u8,
    pub offset: u32,
    /// The number in each outcome that a heat writes.
    pub written: Vec<u8>,
}

/// Reads the whole table. An error names its line and says what is wrong there.
pub fn parse_table(text: &str) -> Result<Vec<Row>, String> {
    let mut definitions = Definitions::new();
    let mut names = HashSet::new();
    let mut rows = Vec::new();
    for (index, line) in text.lines().enumerate() {
        let line = line.trim();
        let number = index + 1;
        let at_line = |why: String| format!("line {number}: {why}");
        if line.is_empty() || line.starts_with('#') {
            continue;
        }
        if line.starts_with('@') {
            define(line, &mut definitions).map_err(at_line)?;
            continue;
        }
        let row = parse_row(line, number, &definitions).map_err(at_line)?;
        if !names.insert(row.name.clone()) {
            return Err(at_line(format!("the name `{}` stands twice", row.name)));
        }
        rows.push(row);
    }
    Ok(rows)
}

fn put_u32(out: &mut Vec<u8>, value: u32) {
    out.extend_from_slice(&value.to_le_bytes());
}

fn put_u64(out: &mut Vec<u8>, value: u64) {
    out.extend_from_slice(&value.to_le_bytes());
}

// ---------------------------------------------------------------- rows

fn parse_row(line: &str, number: usize, definitions: &Definitions) -> Result<Row, String> {
    let columns: Vec<&str> = line.split('|').map(str::trim).collect();
    let &[name, kind, recipe, expected] = columns.as_slice() else {
        return Err("a row is `name | kind | recipe | expected`".to_string());
    };
    if name.is_empty() {
        return Err("the row has no name".to_string());
    }
    let (file, options) = match recipe.split_once(';') {
        Some((file, options)) => (file, Some(Options::parse(options)?)),
        None => (recipe, None),
    };
    let map = assemble(file, definitions)?;
    let kind = parse_kind(kind, &map, options, definitions)?;
    let (refusal, offset, written) = parse_expected(expected)?;
    let row = Row {
        name: name.to_string(),
        line: number,
        kind,
        file: map.bytes,
        number: refusal,
        offset,
        written,
    };
    check_offset(&row)?;
    check_written(&row)?;
    Ok(row)
}

fn parse_kind(
    kind: &str,
    map: &Recipe,
    options: Option<Options>,
    definitions: &Definitions,
) -> Result<Kind, String> {
    match (kind, options) {
        ("program", None) => Ok(Kind::Program),
        ("file", None) => Ok(Kind::File),
        ("program" | "file", Some(_)) => Err(format!("a {kind} takes nothing after its recipe")),
        ("build", Some(options)) => build(options),
        ("edit", Some(options)) => edit(map, options, definitions),
        ("read", Some(options)) => read(map, options, definitions),
        ("score", Some(options)) => score(options, definitions),
        ("heat", Some(options)) => heat(options, definitions),
        ("build" | "edit" | "read" | "score" | "heat", None) => {
            Err(format!("a {kind} has arguments after a `;`"))
        }
        _ => Err(format!("unknown kind `{kind}`")),
    }
}

/// A number and its offset, and the numbers that a heat writes.
fn parse_expected(text: &str) -> Result<(u8, u32, Vec<u8>), String> {
    if text == "ok" {
        return Ok((0, 0, Vec::new()));
    }
    if let Some(written) = text.strip_prefix("ok ") {
        return Ok((0, 0, parse_written(written)?));
    }
    let Some((number, offset)) = text.split_once(" at ") else {
        return Err(format!("expected is `ok` or `N at OFFSET`, not `{text}`"));
    };
    Ok((refusal(number)?, narrow(whole(offset)?)?, Vec::new()))
}

fn refusal(text: &str) -> Result<u8, String> {
    let number = whole(text)?;
    // 10 was document 01's, and document 02 took it away.
    if !(1..=15).contains(&number) || number == 10 {
        return Err(format!("{number} is no refusal's number"));
    }
    Ok(number as u8)
}

/// Numbers of plays, 0 for a score.
fn parse_written(text: &str) -> Result<Vec<u8>, String> {
    let mut written = Vec::new();
    for item in text.split(':') {
        let (times, number) = repetition(item)?.unwrap_or((1, item));
        let number = if number == "0" { 0 } else { refusal(number)? };
        written.extend(std::iter::repeat_n(number, times));
    }
    Ok(written)
}

/// Each play of a good heat has a number, and nothing else has one.
fn check_written(row: &Row) -> Result<(), String> {
    let due = match &row.kind {
        Kind::Heat { plays, .. } if row.number == 0 => plays.len(),
        _ => 0,
    };
    if row.written.len() != due {
        let given = row.written.len();
        return Err(format!("{given} numbers of plays where {due} are due"));
    }
    Ok(())
}

/// Guards against a slip of the pen: a refusal points at a byte of its file, or at 0.
fn check_offset(row: &Row) -> Result<(), String> {
    let end = match row.kind {
        Kind::Program
        | Kind::File
        | Kind::Build { .. }
        | Kind::Score { .. }
        | Kind::Heat { .. } => row.file.len(),
        Kind::Edit { .. } | Kind::Read { .. } => 0,
    };
    if row.offset != 0 && row.offset as usize >= end {
        return Err(format!("offset {} is not below {end}", row.offset));
    }
    Ok(())
}

fn build(mut options: Options) -> Result<Kind, String> {
    // The file may be broken, so nothing says what it would need: both sizes are given.
    let words = options.need_number("words")?;
    let starts = options.need_number("starts")?;
    options.finish()?;
    Ok(Kind::Build { words, starts })
}

fn edit(map: &Recipe, mut options: Options, definitions: &Definitions) -> Result<Kind, String> {
    map.check_plain()?;
    let memory = parse_memory(map, &mut options)?;
    let count = options.number("count", map.objects)?;
    let place = options.need_number("place")?;
    let record = assemble(inside(options.need("record")?)?, definitions)?.bytes;
    options.finish()?;
    Ok(Kind::Edit {
        memory,
        count,
        place,
        record,
    })
}

fn read(map: &Recipe, mut options: Options, definitions: &Definitions) -> Result<Kind, String> {
    map.check_plain()?;
    let memory = parse_memory(map, &mut options)?;
    let count = options.number("count", map.objects)?;
    let settings = match options.take("settings") {
        Some(text) => parse_settings(&text.split(':').collect::<Vec<_>>())?,
        None => map.settings.unwrap_or_default(),
    };
    let breaks = match options.take("breaks") {
        Some(text) => parse_breaks(text)?,
        None => map.breaks.clone(),
    };
    let play = parse_play(options.need("play")?, definitions)?;
    check_cases(&play)?;
    let factors = options.take("factors").map(parse_factors).transpose()?;
    options.finish()?;
    Ok(Kind::Read {
        memory,
        count,
        settings,
        breaks,
        play,
        factors,
    })
}

fn score(mut options: Options, definitions: &Definitions) -> Result<Kind, String> {
    let play = parse_play(options.need("play")?, definitions)?;
    let factors = parse_factors(options.need("factors")?)?;
    options.finish()?;
    Ok(Kind::Score { play, factors })
}

fn heat(mut options: Options, definitions: &Definitions) -> Result<Kind, String> {
    let plays = parse_plays(options.need("plays")?, definitions)?;
    let outcomes = options.need_number("outcomes")?;
    options.finish()?;
    Ok(Kind::Heat { plays, outcomes })
}

/// Lent sizes (by default what the map needs) and tampers of an edit or a read.
fn parse_memory(map: &Recipe, options: &mut Options) -> Result<Memory, String> {
    let capacity = map.objects.max(1).next_power_of_two();
    let words = options.number("words", 26 * capacity)?;
    let starts = options.number("starts", map.objects)?;
    let tampers = options.take_tampers()?;
    for tamper in &tampers {
        let size = match tamper.lent {
            Lent::Board => words,
            Lent::Start => starts,
        };
        if tamper.index >= size {
            return Err(format!(
                "a tamper at {} of {size} lent numbers",
                tamper.index
            ));
        }
    }
    Ok(Memory {
        words,
        starts,
        tampers,
    })
}

fn parse_settings(fields: &[&str]) -> Result<[u32; 3], String> {
    let &[hp, od, cs] = fields else {
        return Err("settings are hp:od:cs".to_string());
    };
    Ok([single_bits(hp)?, single_bits(od)?, single_bits(cs)?])
}

fn parse_breaks(text: &str) -> Result<Vec<u64>, String> {
    let mut breaks = Vec::new();
    if text == "-" {
        return Ok(breaks);
    }
    for item in text.split(':') {
        let (times, number) = repetition(item)?.unwrap_or((1, item));
        let bits = double_bits(number)?;
        breaks.extend(std::iter::repeat_n(bits, times));
    }
    Ok(breaks)
}

fn parse_factors(text: &str) -> Result<[u64; 2], String> {
    let Some((aim, speed)) = text.split_once(':') else {
        return Err("factors are aim:speed".to_string());
    };
    Ok([double_bits(aim)?, double_bits(speed)?])
}

/// The body of one PL record in parentheses.
fn parse_play(text: &str, definitions: &Definitions) -> Result<[u8; PLAY_BODY], String> {
    match parse_plays(text, definitions)?[..] {
        [play] => Ok(play),
        _ => Err("play is one PL token".to_string()),
    }
}

/// The bodies of PL records in parentheses.
fn parse_plays(text: &str, definitions: &Definitions) -> Result<Vec<[u8; PLAY_BODY]>, String> {
    let body = |record: &[u8]| record.strip_prefix(b"PL")?.try_into().ok();
    let bytes = assemble(inside(text)?, definitions)?.bytes;
    let plays: Option<Vec<_>> = bytes.chunks(2 + PLAY_BODY).map(body).collect();
    plays.ok_or("a play is one PL token".to_string())
}

/// A read takes origin and score as cases, so only their valid values can be given.
fn check_cases(play: &[u8; PLAY_BODY]) -> Result<(), String> {
    let (origin, has, score) = (play[26], play[27], &play[28..32]);
    if origin > 2 || has > 1 || (has == 0 && score != [0; 4]) {
        return Err("a read's origin and score are cases: this one is not there".to_string());
    }
    Ok(())
}

// ---------------------------------------------------------------- arguments after the `;`

/// The `key=value` arguments of a row; each is taken once.
struct Options<'a> {
    pairs: Vec<(&'a str, &'a str)>,
}

impl<'a> Options<'a> {
    fn parse(text: &'a str) -> Result<Self, String> {
        let mut pairs: Vec<(&str, &str)> = Vec::new();
        for token in tokens(text)? {
            let pair = token
                .split_once('=')
                .ok_or(format!("`{token}` is not key=value"))?;
            if pairs.iter().any(|(key, _)| *key == pair.0) {
                return Err(format!("`{}` is given twice", pair.0));
            }
            pairs.push(pair);
        }
        Ok(Options { pairs })
    }

    fn take(&mut self, key: &str) -> Option<&'a str> {
        let index = self.pairs.iter().position(|(k, _)| *k == key)?;
        Some(self.pairs.remove(index).1)
    }

    fn need(&mut self, key: &str) -> Result<&'a str, String> {
        self.take(key).ok_or(format!("`{key}=` is missing"))
    }

    fn need_number(&mut self, key: &str) -> Result<u32, String> {
        narrow(whole(self.need(key)?)?)
    }

    fn number(&mut self, key: &str, default: u32) -> Result<u32, String> {
        match self.take(key) {
            Some(text) => narrow(whole(text)?),
            None => Ok(default),
        }
    }

    fn take_tampers(&mut self) -> Result<Vec<Tamper>, String> {
        let mut tampers = Vec::new();
        let mut rest = Vec::new();
        for (key, value) in std::mem::take(&mut self.pairs) {
            if let Some(index) = index_of(key, "board") {
                let (index, bits) = (board_index(index)?, whole(value)?);
                tampers.push(Tamper {
                    lent: Lent::Board,
                    index,
                    bits,
                });
            } else if let Some(index) = index_of(key, "start") {
                let (index, bits) = (narrow(whole(index)?)?, double_bits(value)?);
                tampers.push(Tamper {
                    lent: Lent::Start,
                    index,
                    bits,
                });
            } else {
                rest.push((key, value));
            }
        }
        self.pairs = rest;
        Ok(tampers)
    }

    fn finish(self) -> Result<(), String> {
        match self.pairs.first() {
            Some((key, _)) => Err(format!("unknown argument `{key}`")),
            None => Ok(()),
        }
    }
}

/// The text inside `name[..]`.
fn index_of<'a>(key: &'a str, name: &str) -> Option<&'a str> {
    key.strip_prefix(name)?.strip_prefix('[')?.strip_suffix(']')
}

/// A word's index: plain, or as entry and word, `3.legacy` for 13 x 3 + 5.
fn board_index(text: &str) -> Result<u32, String> {
    let Some((entry, word)) = text.split_once('.') else {
        return narrow(whole(text)?);
    };
    let place = WORDS.iter().position(|name| *name == word);
    let place = place.ok_or(format!("unknown word `{word}` of an entry"))? as u64;
    narrow(whole(entry)?.saturating_mul(13).saturating_add(place))
}

// ---------------------------------------------------------------- recipes

type Definitions = HashMap<String, Recipe>;

/// The bytes of some tokens, and what the tokens said of the map, for the defaults of edits and
/// reads.
#[derive(Clone, Debug, Default)]
struct Recipe {
    bytes: Vec<u8>,
    objects: u32,
    settings: Option<[u32; 3]>,
    breaks: Vec<u64>,
    /// Something else than a map's whole records is in it, so the facts above are not the file's.
    raw: bool,
}

impl Recipe {
    fn raw(bytes: Vec<u8>) -> Self {
        Recipe {
            bytes,
            raw: true,
            ..Recipe::default()
        }
    }

    fn object(bytes: Vec<u8>) -> Self {
        Recipe {
            bytes,
            objects: 1,
            ..Recipe::default()
        }
    }

    fn join(&mut self, other: &Recipe) {
        self.bytes.extend_from_slice(&other.bytes);
        self.objects += other.objects;
        self.settings = self.settings.or(other.settings);
        self.breaks.extend_from_slice(&other.breaks);
        self.raw |= other.raw;
    }

    fn cut(&mut self, by: u64) -> Result<(), String> {
        let length = self.bytes.len() as u64;
        let kept = length
            .checked_sub(by)
            .ok_or(format!("cut:{by} of {length} bytes"))?;
        self.bytes.truncate(kept as usize);
        self.raw = true;
        Ok(())
    }

    /// An edit and a read start from an honest build of whole records.
    fn check_plain(&self) -> Result<(), String> {
        if self.raw || self.settings.is_none() {
            return Err("the map takes MH, BR, CI, SL and SP records only".to_string());
        }
        Ok(())
    }
}

fn define(line: &str, definitions: &mut Definitions) -> Result<(), String> {
    let (name, text) = line[1..]
        .split_once('=')
        .ok_or("a definition is `@name = TOKENS`")?;
    let recipe = assemble(text, definitions)?;
    match definitions.insert(name.trim().to_string(), recipe) {
        Some(_) => Err(format!("`@{}` is defined twice", name.trim())),
        None => Ok(()),
    }
}

fn assemble(text: &str, definitions: &Definitions) -> Result<Recipe, String> {
    let mut recipe = Recipe::default();
    for token in tokens(text)? {
        match token.strip_prefix("cut:") {
            Some(by) => recipe.cut(whole(by)?)?,
            None => recipe.join(&part(token, definitions)?),
        }
    }
    Ok(recipe)
}

fn part(token: &str, definitions: &Definitions) -> Result<Recipe, String> {
    if token == "-" {
        return Ok(Recipe::default());
    }
    if let Some(name) = token.strip_prefix('@') {
        return definitions
            .get(name)
            .cloned()
            .ok_or(format!("`@{name}` is not defined"));
    }
    let Some((times, inner)) = repetition(token)? else {
        return record(token);
    };
    let inner = if inner.starts_with('(') {
        inside(inner)?
    } else {
        inner
    };
    let inner = assemble(inner, definitions)?;
    let mut recipe = Recipe::default();
    for _ in 0..times {
        recipe.join(&inner);
    }
    Ok(recipe)
}

fn record(token: &str) -> Result<Recipe, String> {
    let (mark, fields) = match token.split_once(':') {
        Some((mark, fields)) => (mark, fields.split(':').collect()),
        None => (token, Vec::new()),
    };
    let made = match mark {
        "MH" => header(&fields),
        "BR" => break_record(&fields),
        "CI" => circle(&fields),
        "SL" => slider(&fields),
        "SP" => spinner(&fields),
        "PL" => play(&fields),
        "hex" => hex(&fields),
        "zeros" => zeros(&fields),
        _ => Err("unknown token".to_string()),
    };
    made.map_err(|why| format!("`{token}`: {why}"))
}

fn header(fields: &[&str]) -> Result<Recipe, String> {
    let settings = parse_settings(fields)?;
    let mut bytes = b"MH".to_vec();
    settings.iter().for_each(|bits| put_u32(&mut bytes, *bits));
    Ok(Recipe {
        bytes,
        settings: Some(settings),
        ..Recipe::default()
    })
}

fn break_record(fields: &[&str]) -> Result<Recipe, String> {
    let bytes = mark_and_doubles(b"BR", fields, 2)?;
    let breaks = vec![double_bits(fields[0])?, double_bits(fields[1])?];
    Ok(Recipe {
        bytes,
        breaks,
        ..Recipe::default()
    })
}

fn circle(fields: &[&str]) -> Result<Recipe, String> {
    Ok(Recipe::object(mark_and_doubles(b"CI", fields, 1)?))
}

fn spinner(fields: &[&str]) -> Result<Recipe, String> {
    Ok(Recipe::object(mark_and_doubles(b"SP", fields, 2)?))
}

fn mark_and_doubles(mark: &[u8; 2], fields: &[&str], many: usize) -> Result<Vec<u8>, String> {
    if fields.len() != many {
        return Err(format!("takes {many} numbers"));
    }
    let mut bytes = mark.to_vec();
    for field in fields {
        put_u64(&mut bytes, double_bits(field)?);
    }
    Ok(bytes)
}

fn slider(fields: &[&str]) -> Result<Recipe, String> {
    let (start, list, count) = match *fields {
        [start, list] => (start, list, None),
        [start, list, count] => (start, list, Some(count)),
        _ => return Err("takes start:LIST or start:LIST:count=N".to_string()),
    };
    let list = nested_list(list)?;
    let count = match count {
        Some(text) => whole(
            text.strip_prefix("count=")
                .ok_or("only count=N may follow")?,
        )?,
        None => list.len() as u64,
    };
    let mut bytes = mark_and_doubles(b"SL", &[start], 1)?;
    put_field(&mut bytes, count, 2)?;
    bytes.extend_from_slice(&list);
    Ok(Recipe::object(bytes))
}

fn nested_list(text: &str) -> Result<Vec<u8>, String> {
    let mut list = Vec::new();
    if text == "-" {
        return Ok(list);
    }
    for item in text.split(',') {
        let (item, times) = match item.split_once('*') {
            Some((item, times)) => (item, whole(times)? as usize),
            None => (item, 1),
        };
        let byte = match (item, item.strip_prefix('x')) {
            ("t", _) => 0,
            ("r", _) => 1,
            ("e", _) => 2,
            (_, Some(digits)) => u8::from_str_radix(digits, 16).map_err(|e| e.to_string())?,
            _ => return Err(format!("`{item}` is no nested item")),
        };
        list.extend(std::iter::repeat_n(byte, times));
    }
    Ok(list)
}

fn play(fields: &[&str]) -> Result<Recipe, String> {
    let mut values = HashMap::new();
    for field in fields {
        let (key, value) = field
            .split_once('=')
            .ok_or(format!("`{field}` is not key=value"))?;
        let value = if key == "rate" {
            double_bits(value)?
        } else {
            whole(value)?
        };
        if !PLAY_FIELDS.iter().any(|(name, _)| *name == key) {
            return Err(format!("a play has no `{key}`"));
        }
        if values.insert(key, value).is_some() {
            return Err(format!("`{key}` is given twice"));
        }
    }
    let mut bytes = b"PL".to_vec();
    for (name, width) in PLAY_FIELDS {
        let default = if name == "rate" { 1f64.to_bits() } else { 0 };
        put_field(
            &mut bytes,
            values.get(name).copied().unwrap_or(default),
            width,
        )?;
    }
    Ok(Recipe::raw(bytes))
}

fn put_field(bytes: &mut Vec<u8>, value: u64, width: usize) -> Result<(), String> {
    let all = value.to_le_bytes();
    if all[width..].iter().any(|byte| *byte != 0) {
        return Err(format!("{value} does not fit {width} bytes"));
    }
    bytes.extend_from_slice(&all[..width]);
    Ok(())
}

fn hex(fields: &[&str]) -> Result<Recipe, String> {
    let digits = fields.concat();
    if fields.len() != 1 || digits.len() % 2 != 0 || !digits.is_ascii() {
        return Err("takes an even number of hexadecimal digits".to_string());
    }
    let byte = |at: usize| u8::from_str_radix(&digits[at..at + 2], 16).map_err(|e| e.to_string());
    let bytes = (0..digits.len())
        .step_by(2)
        .map(byte)
        .collect::<Result<_, _>>()?;
    Ok(Recipe::raw(bytes))
}

fn zeros(fields: &[&str]) -> Result<Recipe, String> {
    let &[many] = fields else {
        return Err("takes a number".to_string());
    };
    Ok(Recipe::raw(vec![0; whole(many)? as usize]))
}

// ---------------------------------------------------------------- words and numbers

/// Splits at spaces that stand outside parentheses.
fn tokens(text: &str) -> Result<Vec<&str>, String> {
    let mut found = Vec::new();
    let mut depth = 0usize;
    let mut begin = None;
    for (at, letter) in text.char_indices() {
        match letter {
            '(' => depth += 1,
            ')' => depth = depth.checked_sub(1).ok_or("a `)` too many")?,
            _ => {}
        }
        let gap = letter.is_whitespace() && depth == 0;
        match begin {
            None if !gap => begin = Some(at),
            Some(from) if gap => {
                found.push(&text[from..at]);
                begin = None;
            }
            _ => {}
        }
    }
    if depth != 0 {
        return Err("a `)` is missing".to_string());
    }
    found.extend(begin.map(|from| &text[from..]));
    Ok(found)
}

/// `N*rest`, where N is all digits; `t*3` is none.
fn repetition(token: &str) -> Result<Option<(usize, &str)>, String> {
    match token.split_once('*') {
        Some((times, rest)) if times.bytes().all(|b| b.is_ascii_digit()) => {
            Ok(Some((whole(times)? as usize, rest)))
        }
        _ => Ok(None),
    }
}

/// The text inside `(..)`.
fn inside(text: &str) -> Result<&str, String> {
    let inner = text
        .strip_prefix('(')
        .and_then(|rest| rest.strip_suffix(')'));
    inner.ok_or(format!("`{text}` is not in parentheses"))
}

/// A whole number, decimal or `0x..`.
fn whole(text: &str) -> Result<u64, String> {
    let parsed = match text.strip_prefix("0x") {
        Some(digits) => u64::from_str_radix(digits, 16),
        None => text.parse(),
    };
    parsed.map_err(|_| format!("`{text}` is no whole number"))
}

fn narrow(value: u64) -> Result<u32, String> {
    u32::try_from(value).map_err(|_| format!("{value} does not fit 32 bits"))
}

/// `next(x)` or `prev(x)` as its name and x.
fn neighbour(text: &str) -> Option<(&str, &str)> {
    let (name, rest) = text.split_once('(')?;
    Some((name, rest.strip_suffix(')')?))
}

fn double_bits(text: &str) -> Result<u64, String> {
    if text.starts_with("0x") {
        return whole(text);
    }
    let value = match neighbour(text) {
        Some(("next", of)) => f64::from_bits(double_bits(of)?).next_up(),
        Some(("prev", of)) => f64::from_bits(double_bits(of)?).next_down(),
        // Written out, since parsing leaves the bits of a nan open.
        None if text == "nan" => f64::from_bits(0x7ff8_0000_0000_0000),
        _ => text.parse().map_err(|_| format!("`{text}` is no number"))?,
    };
    Ok(value.to_bits())
}

fn single_bits(text: &str) -> Result<u32, String> {
    if text.starts_with("0x") {
        return narrow(whole(text)?);
    }
    let value = match neighbour(text) {
        Some(("next", of)) => f32::from_bits(single_bits(of)?).next_up(),
        Some(("prev", of)) => f32::from_bits(single_bits(of)?).next_down(),
        None if text == "nan" => f32::from_bits(0x7fc0_0000),
        _ => text.parse().map_err(|_| format!("`{text}` is no number"))?,
    };
    Ok(value.to_bits())
}

#[cfg(test)]
mod tests {
    use super::*;

    fn bytes(text: &str) -> Vec<u8> {
        assemble(text, &Definitions::new()).unwrap().bytes
    }

    fn only_row(text: &str) -> Row {
        let mut rows = parse_table(text).unwrap();
        assert_eq!(rows.len(), 1);
        rows.remove(0)
    }

    #[test]
    fn sizes_of_records() {
        assert_eq!(bytes("MH:5:5:5").len(), 14);
        assert_eq!(bytes("BR:0:0").len(), 18);
        assert_eq!(bytes("CI:0").len(), 10);
        assert_eq!(bytes("SL:0:-").len(), 12);
        assert_eq!(bytes("SL:0:t*3,r,t,e").len(), 18);
        assert_eq!(bytes("SP:0:0").len(), 18);
        assert_eq!(bytes("PL").len(), 44);
        assert_eq!(bytes("-").len(), 0);
        assert_eq!(bytes("zeros:7").len(), 7);
    }

    #[test]
    fn header_bytes() {
        // 5 is 40a00000, 12 is 41400000.
        let expected = [
            b'M', b'H', 0, 0, 0xa0, 0x40, 0, 0, 0x40, 0x41, 0, 0, 0, 0x80,
        ];
        assert_eq!(bytes("MH:5:12:-0.0"), expected);
        let expected = [
            b'M', b'H', 0, 0, 0xc0, 0x7f, 0, 0, 0x80, 0x7f, 0, 0, 0x80, 0xff,
        ];
        assert_eq!(bytes("MH:nan:inf:-inf"), expected);
        let expected = [b'M', b'H', 1, 0, 0x40, 0x41, 1, 0, 0, 0x80, 4, 3, 2, 1];
        assert_eq!(bytes("MH:next(12):prev(0):0x01020304"), expected);
    }

    #[test]
    fn times_bytes() {
        // 8,000,000 is 415e848000000000.
        let circle = [b'C', b'I', 0, 0, 0, 0, 0x80, 0x84, 0x5e, 0x41];
        assert_eq!(bytes("CI:8000000"), circle);
        let above = [b'C', b'I', 1, 0, 0, 0, 0x80, 0x84, 0x5e, 0x41];
        assert_eq!(bytes("CI:next(8000000)"), above);
        let below = [b'C', b'I', 1, 0, 0, 0, 0x80, 0x84, 0x5e, 0xc1];
        assert_eq!(bytes("CI:prev(-8000000)"), below);
        let nan = [b'C', b'I', 0, 0, 0, 0, 0, 0, 0xf8, 0x7f];
        assert_eq!(bytes("CI:nan"), nan);
        let least = [b'C', b'I', 1, 0, 0, 0, 0, 0, 0, 0];
        assert_eq!(bytes("CI:next(0)"), least);
        let bits = [b'C', b'I', 8, 7, 6, 5, 4, 3, 2, 1];
        assert_eq!(bytes("CI:0x0102030405060708"), bits);
    }

    #[test]
    fn break_and_spinner_bytes() {
        // 1 is 3ff0.., 2 is 4000..
        let mut expected = b"BR\0\0\0\0\0\0".to_vec();
        expected.extend([0xf0, 0x3f, 0, 0, 0, 0, 0, 0, 0, 0x40]);
        assert_eq!(bytes("BR:1:2"), expected);
        expected[1] = b'P';
        expected[0] = b'S';
        assert_eq!(bytes("SP:1:2"), expected);
    }

    #[test]
    fn slider_bytes() {
        let mut expected = b"SL\0\0\0\0\0\0\0\0".to_vec();
        expected.extend([6, 0, 0, 0, 1, 3, 0xff, 2]);
        assert_eq!(bytes("SL:0:t*2,r,x3,xff,e"), expected);
        expected[10] = 0xe9;
        expected[11] = 3;
        assert_eq!(bytes("SL:0:t*2,r,x3,xff,e:count=1001"), expected);
    }

    #[test]
    fn play_bytes() {
        let text = "PL:passed=258:combo=67305985:n300=1:n100=2:n50=3:miss=4:large=5:small=6:ends=7\
            :origin=2:has=1:score=4294967294:flags=511:rate=2";
        let mut expected = b"PL".to_vec();
        expected.extend([2, 1, 1, 2, 3, 4, 1, 0, 2, 0, 3, 0, 4, 0]);
        expected.extend([5, 0, 0, 0, 6, 0, 0, 0, 7, 0, 0, 0]);
        expected.extend([
            2, 1, 0xfe, 0xff, 0xff, 0xff, 0xff, 1, 0, 0, 0, 0, 0, 0, 0, 0x40,
        ]);
        assert_eq!(bytes(text), expected);
        let mut expected = b"PL".to_vec();
        expected.extend([0; 40]);
        expected.extend([0xf0, 0x3f]);
        assert_eq!(bytes("PL"), expected);
    }

    #[test]
    fn raw_bytes_and_groups() {
        assert_eq!(bytes("hex:4d48 zeros:2 hex:FF"), [0x4d, 0x48, 0, 0, 0xff]);
        assert_eq!(bytes("3*hex:01"), [1, 1, 1]);
        assert_eq!(
            bytes("2*(hex:0102 3*hex:03)"),
            [1, 2, 3, 3, 3, 1, 2, 3, 3, 3]
        );
        assert_eq!(bytes("hex:010203 cut:2"), [1]);
        assert_eq!(bytes("hex:09 2*(hex:0102 cut:1)"), [9, 1, 1]);
        assert_eq!(bytes("0*CI:0"), []);
    }

    #[test]
    fn definitions_stand_for_their_bytes() {
        let row = only_row("@head = hex:0102\n@two = 2*@head\na | file | @two hex:03 | 3 at 4");
        assert_eq!(row.file, [1, 2, 1, 2, 3]);
        assert_eq!((row.line, row.number, row.offset), (3, 3, 4));
    }

    fn memory(words: u32, starts: u32, tampers: Vec<Tamper>) -> Memory {
        Memory {
            words,
            starts,
            tampers,
        }
    }

    #[test]
    fn arguments_of_an_edit() {
        let table = "a | edit | MH:5:5:5 3*CI:0 ; board[3.legacy]=7 start[2]=1 board[1]=0xff \
            place=1 record=(hex:43 hex:00) | 3 at 0";
        let tampers = vec![
            Tamper {
                lent: Lent::Board,
                index: 44,
                bits: 7,
            },
            Tamper {
                lent: Lent::Start,
                index: 2,
                bits: 0x3ff0_0000_0000_0000,
            },
            Tamper {
                lent: Lent::Board,
                index: 1,
                bits: 255,
            },
        ];
        let memory = memory(104, 3, tampers);
        let record = vec![0x43, 0];
        let expected = Kind::Edit {
            memory,
            count: 3,
            place: 1,
            record,
        };
        assert_eq!(only_row(table).kind, expected);
    }

    #[test]
    fn arguments_of_a_read_default_to_the_map() {
        let table = "a | read | MH:5:12:0 BR:0:1 ; play=(PL:passed=1) | ok";
        let mut play = [0; 42];
        (play[0], play[40], play[41]) = (1, 0xf0, 0x3f);
        let settings = [0x40a0_0000, 0x4140_0000, 0];
        let breaks = vec![0, 0x3ff0_0000_0000_0000];
        let memory = memory(26, 0, vec![]);
        let expected = Kind::Read {
            memory,
            count: 0,
            settings,
            breaks,
            play,
            factors: None,
        };
        assert_eq!(only_row(table).kind, expected);
    }

    #[test]
    fn arguments_of_a_read_may_differ_from_the_map() {
        let table = "a | read | MH:5:5:5 BR:0:1 ; words=30 starts=2 count=9 settings=0:0:12 \
            breaks=2*0:1 play=(PL) | ok";
        let mut play = [0; 42];
        (play[40], play[41]) = (0xf0, 0x3f);
        let settings = [0, 0, 0x4140_0000];
        let breaks = vec![0, 0, 0x3ff0_0000_0000_0000];
        let memory = memory(30, 2, vec![]);
        let expected = Kind::Read {
            memory,
            count: 9,
            settings,
            breaks,
            play,
            factors: None,
        };
        assert_eq!(only_row(table).kind, expected);
    }

    #[test]
    fn factors_of_a_read_and_of_a_score() {
        // 10 is 4024 and zeros.
        let factors = [0x4024_0000_0000_0001, 0x8000_0000_0000_0000];
        let row = only_row("a | read | MH:5:5:5 ; play=(PL) factors=next(10):-0.0 | 14 at 0");
        let Kind::Read { factors: given, .. } = row.kind else {
            panic!("{row:?}");
        };
        assert_eq!((given, row.number), (Some(factors), 14));
        // The file may be broken, and the play's origin and score out of range.
        let table = "a | score | MH:5:5:5 CI:0 cut:1 ; play=(PL:origin=3:score=1) \
            factors=next(10):-0.0 | 2 at 14";
        let mut play = [0; 42];
        (play[26], play[28], play[40], play[41]) = (3, 1, 0xf0, 0x3f);
        let row = only_row(table);
        assert_eq!(row.kind, Kind::Score { play, factors });
        assert_eq!((row.file.len(), row.offset), (23, 14));
    }

    #[test]
    fn plays_of_a_heat() {
        let table = "a | heat | MH:5:5:5 ; plays=(PL:passed=1 2*PL:origin=3) outcomes=4 | ok 0:2*8";
        let mut play = [0; 42];
        (play[40], play[41]) = (0xf0, 0x3f);
        let (mut first, mut second) = (play, play);
        (first[0], second[26]) = (1, 3);
        let row = only_row(table);
        let plays = vec![first, second, second];
        assert_eq!(row.kind, Kind::Heat { plays, outcomes: 4 });
        assert_eq!((row.number, row.written), (0, vec![0, 8, 8]));
        // The file may be broken, and no play is written.
        let row = only_row("a | heat | CI:0 cut:1 ; plays=(-) outcomes=0 | 3 at 0");
        let plays = vec![];
        assert_eq!(row.kind, Kind::Heat { plays, outcomes: 0 });
        assert_eq!((row.number, row.written), (3, vec![]));
    }

    /// Each table is refused, and the reason says the given words.
    fn check_faults(cases: &[(&str, &str)]) {
        for (table, words) in cases {
            let why = parse_table(table).expect_err(table);
            assert!(why.contains(words), "{table}: {why}");
        }
    }

    #[test]
    fn errors_name_the_line() {
        check_faults(&[
            (
                "# x\n\na | file | XX:0 | ok",
                "line 3: `XX:0`: unknown token",
            ),
            ("a | file | ok", "line 1: a row is"),
            ("a | shelf | - | ok", "line 1: unknown kind `shelf`"),
            (" | file | - | ok", "line 1: the row has no name"),
            (
                "a | file | - | ok\na | file | - | ok",
                "line 2: the name `a`",
            ),
            ("@x = -\n@x = -", "line 2: `@x` is defined twice"),
            ("@x = @x", "line 1: `@x` is not defined"),
        ]);
    }

    #[test]
    fn errors_of_tokens() {
        check_faults(&[
            ("@x = MH:1:2", "hp:od:cs"),
            ("@x = CI:0:0", "takes 1 numbers"),
            ("@x = CI:later", "no number"),
            ("@x = CI:near(0)", "no number"),
            ("@x = MH:0x100000000:5:5", "32 bits"),
            ("@x = SL:0:q", "no nested item"),
            ("@x = SL:0:e:count=65536", "does not fit 2 bytes"),
            ("@x = PL:flags=65536", "does not fit 2 bytes"),
            ("@x = PL:speed=1", "no `speed`"),
            ("@x = PL:n50=1:n50=1", "given twice"),
            ("@x = hex:0", "even number"),
            ("@x = hex:01 cut:2", "cut:2 of 1"),
            ("@x = 2*(CI:0", "missing"),
            ("@x = CI:0)", "too many"),
        ]);
    }

    #[test]
    fn errors_of_expected() {
        check_faults(&[
            ("a | file | - | fine", "`ok` or"),
            ("a | file | - | 16 at 0", "no refusal's number"),
            ("a | file | - | 0 at 0", "no refusal's number"),
            ("a | file | - | 10 at 0", "no refusal's number"),
            ("a | file | hex:00 | 2 at 1", "not below 1"),
            ("a | file | - | ok 0", "1 numbers of plays where 0"),
            (
                "a | heat | - ; plays=(PL PL) outcomes=2 | ok 0",
                "1 numbers of plays where 2",
            ),
            (
                "a | heat | - ; plays=(PL) outcomes=1 | ok",
                "0 numbers of plays where 1",
            ),
            (
                "a | heat | - ; plays=(PL) outcomes=1 | ok 16",
                "no refusal's number",
            ),
            (
                "a | edit | MH:5:5:5 ; place=0 record=(-) | 3 at 1",
                "not below 0",
            ),
        ]);
    }

    #[test]
    fn errors_of_arguments() {
        check_faults(&[
            ("a | file | - ; words=1 | ok", "nothing after"),
            ("a | build | - | ok", "after a `;`"),
            ("a | build | - ; words=1 | ok", "`starts=` is missing"),
            (
                "a | build | - ; words=1 starts=1 place=1 | ok",
                "unknown argument",
            ),
            ("a | edit | PL ; place=0 record=(-) | ok", "records only"),
            (
                "a | edit | MH:5:5:5 cut:1 ; place=0 record=(-) | ok",
                "records only",
            ),
            ("a | edit | MH:5:5:5 ; place=0 record=- | ok", "parentheses"),
            ("a | edit | MH:5:5:5 ; board[26]=0 place=0 | ok", "26 of 26"),
            (
                "a | edit | MH:5:5:5 ; board[1.x]=0 place=0 | ok",
                "unknown word",
            ),
            ("a | edit | MH:5:5:5 ; start[0]=0 place=0 | ok", "0 of 0"),
            ("a | read | MH:5:5:5 ; play=(CI:0) | ok", "one PL"),
            ("a | read | MH:5:5:5 ; play=(PL:score=1) | ok", "cases"),
            (
                "a | read | MH:5:5:5 ; play=(PL) play=(PL) | ok",
                "given twice",
            ),
            ("a | score | - | ok", "after a `;`"),
            ("a | score | - ; play=(PL) | ok", "`factors=` is missing"),
            ("a | score | - ; factors=0:0 | ok", "`play=` is missing"),
            ("a | score | - ; play=(PL) factors=0 | ok", "aim:speed"),
            ("a | score | - ; play=(PL) factors=0:0:0 | ok", "no number"),
            (
                "a | score | - ; play=(PL) factors=0:0 count=1 | ok",
                "unknown argument",
            ),
            ("a | heat | - | ok", "after a `;`"),
            ("a | heat | - ; outcomes=0 | ok", "`plays=` is missing"),
            ("a | heat | - ; plays=(-) | ok", "`outcomes=` is missing"),
            ("a | heat | - ; plays=(CI:0) outcomes=1 | ok", "one PL"),
            ("a | heat | - ; plays=(PL cut:1) outcomes=1 | ok", "one PL"),
            (
                "a | heat | - ; plays=(-) outcomes=0 play=(PL) | ok",
                "unknown argument",
            ),
        ]);
    }

    #[test]
    fn the_table_itself() {
        let rows = parse_table(include_str!("../../vectors/refusals.txt")).unwrap();
        let of_files = |row: &&Row| matches!(row.kind, Kind::Program | Kind::File);
        let files = rows.iter().filter(of_files).count();
        assert!(files >= 200, "{files} rows of files");
        assert!(
            rows.len() - files >= 60,
            "{} rows of calls with arguments",
            rows.len() - files
        );
        for number in 0..=15 {
            assert_eq!(
                rows.iter().any(|row| row.number == number),
                number != 10,
                "{number}"
            );
        }
    }
}
