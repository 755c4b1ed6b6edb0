//! The content of an accepted map file.

/// Flag names from the lowest bit on.
pub const FLAG_NAMES: [&str; 9] = ["nf", "ez", "hd", "hr", "fl", "so", "rx", "ap", "sv2"];

#[derive(Copy, Clone, Debug, Default)]
pub struct Settings {
    pub hp: f32,
    pub od: f32,
    pub cs: f32,
}

#[derive(Copy, Clone, Debug)]
pub struct Break {
    pub start: f64,
    pub end: f64,
}

#[derive(Copy, Clone, Debug, PartialEq, Eq)]
pub enum Nested {
    Tick,
    Repeat,
    Tail,
}

#[derive(Clone, Debug)]
pub enum ObjectKind {
    Circle,
    Slider(Vec<Nested>),
    Spinner { duration: f64 },
}

#[derive(Clone, Debug)]
pub struct Object {
    pub start: f64,
    pub kind: ObjectKind,
}

impl Object {
    pub fn combo_gain(&self) -> u32 {
        match &self.kind {
            ObjectKind::Circle | ObjectKind::Spinner { .. } => 1,
            ObjectKind::Slider(nested) => 1 + nested.len() as u32,
        }
    }
}

#[derive(Copy, Clone, Debug, PartialEq, Eq)]
pub enum Origin {
    Stable,
    WithSliderAcc,
    WithoutSliderAcc,
}

#[derive(Clone, Debug)]
pub struct Play {
    pub passed: u16,
    pub max_combo: u32,
    pub n300: u16,
    pub n100: u16,
    pub n50: u16,
    pub misses: u16,
    pub large_tick_hits: u32,
    pub small_tick_hits: u32,
    pub slider_end_hits: u32,
    pub origin: Origin,
    pub score: Option<u32>,
    pub flags: u16,
    pub clock_rate: f64,
}

/// A play of nothing, at its own rate.
impl Default for Play {
    fn default() -> Self {
        Self {
            passed: 0,
            max_combo: 0,
            n300: 0,
            n100: 0,
            n50: 0,
            misses: 0,
            large_tick_hits: 0,
            small_tick_hits: 0,
            slider_end_hits: 0,
            origin: Origin::Stable,
            score: None,
            flags: 0,
            clock_rate: 1.0,
        }
    }
}

impl Play {
    pub fn judgements(&self) -> u32 {
        [self.n300, self.n100, self.n50, self.misses]
            .into_iter()
            .map(u32::from)
            .sum()
    }

    /// Whether a score-based estimate is due.
    pub fn score_is_due(&self) -> bool {
        self.origin != Origin::WithSliderAcc && self.score.is_some() && self.judgements() > 0
    }
}

#[derive(Clone, Debug, Default)]
pub struct MapFile {
    pub settings: Settings,
    pub breaks: Vec<Break>,
    pub objects: Vec<Object>,
    pub plays: Vec<Play>,
}
