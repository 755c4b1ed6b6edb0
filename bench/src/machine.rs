//! On what and when a series was run.

use std::{fs, thread, time::SystemTime};

/// The machine, and when a series started on it.
pub struct Machine {
    pub processor: String,
    pub cores: usize,
    start: Option<Ticks>,
}

/// Ticks of processor time so far.
#[derive(Clone, Copy, Debug, PartialEq)]
struct Ticks {
    /// Of all cores, idle or not.
    all: u64,
    busy: u64,
    /// Of this process, and of those that it started and that have ended.
    own: u64,
}

impl Machine {
    pub fn now() -> Self {
        Self {
            processor: processor(&read("/proc/cpuinfo")).to_owned(),
            cores: thread::available_parallelism().map_or(1, usize::from),
            start: ticks(),
        }
    }

    /// How many cores other processes have taken since, where that is known.
    pub fn taken(&self) -> Option<f64> {
        let (start, end) = (self.start?, ticks()?);
        Some(self.cores as f64 * end.others_since(start))
    }
}

impl Ticks {
    /// Of the whole machine.
    fn others_since(self, start: Self) -> f64 {
        let busy = self.busy - start.busy;
        let own = self.own - start.own;
        let all = (self.all - start.all).max(1);
        busy.saturating_sub(own) as f64 / all as f64
    }
}

fn ticks() -> Option<Ticks> {
    parsed_ticks(&read("/proc/stat"), &read("/proc/self/stat"))
}

fn parsed_ticks(machine: &str, process: &str) -> Option<Ticks> {
    let numbers = |text: &str| -> Vec<u64> {
        text.split_whitespace()
            .map_while(|word| word.parse().ok())
            .collect()
    };
    // User, nice, system, idle, waiting, two kinds of interrupts, stolen by other machines; user has the guests' too.
    let all = numbers(machine.lines().next()?.strip_prefix("cpu ")?);
    let all: [u64; 8] = *all.first_chunk()?;
    let idle = all[3] + all[4];
    // Behind the name and the state come ten numbers, one of which may be below 0, then four of time.
    let (_, fields) = process.rsplit_once(") ")?;
    let fields: Vec<&str> = fields.split(' ').skip(11).take(4).collect();
    let own = numbers(&fields.join(" "));
    let own: [u64; 4] = own.try_into().ok()?;
    let all = all.iter().sum::<u64>();
    Some(Ticks {
        all,
        busy: all - idle,
        own: own.iter().sum(),
    })
}

fn read(path: &str) -> String {
    fs::read_to_string(path).unwrap_or_default()
}

fn processor(info: &str) -> &str {
    let line = info.lines().find(|line| line.starts_with("model name"));
    let name = line.and_then(|line| line.split_once(':'));
    name.map_or("an unknown processor", |(_, name)| name.trim())
}

/// The day as year, month and day, in UTC.
pub fn today() -> String {
    let since = SystemTime::now().duration_since(SystemTime::UNIX_EPOCH);
    date(since.map_or(0, |since| since.as_secs() / 86_400))
}

/// The date that many days behind 1970-01-01.
fn date(mut days: u64) -> String {
    let mut year = 1970;
    while days >= days_of(year) {
        days -= days_of(year);
        year += 1;
    }
    let february = days_of(year) - 337;
    let mut month = 1;
    for length in [31, february, 31, 30, 31, 30, 31, 31, 30, 31, 30, 31] {
        if days < length {
            break;
        }
        days -= length;
        month += 1;
    }
    format!("{year}-{month:02}-{:02}", days + 1)
}

fn days_of(year: u64) -> u64 {
    let is_leap = year.is_multiple_of(4) && (!year.is_multiple_of(100) || year.is_multiple_of(400));
    if is_leap { 366 } else { 365 }
}

#[cfg(test)]
mod tests {
    use super::*;

    #[test]
    fn dates() {
        let cases = [
            (0, "1970-01-01"),
            (58, "1970-02-28"),
            (59, "1970-03-01"),
            (11_016, "2000-02-29"),
            (19_722, "2023-12-31"),
            (19_723, "2024-01-01"),
            (20_773, "2026-11-16"),
        ];
        for (days, text) in cases {
            assert_eq!(date(days), text);
        }
    }

    #[test]
    fn ticks_are_read() {
        let machine = "cpu  10 20 30 400 50 6 7 8 9 0\ncpu0 1 2 3 4 5 6 7 8 9 0\n";
        let process = "12 (a) b) R 1 2 3 4 -1 5 6 7 8 9 100 20 3 4 20 0 1 0 5\n";
        let ticks = parsed_ticks(machine, process);
        let due = Ticks {
            all: 531,
            busy: 81,
            own: 127,
        };
        assert_eq!(ticks, Some(due));
        assert_eq!(parsed_ticks("", process), None);
        assert_eq!(parsed_ticks(machine, ""), None);
    }

    #[test]
    fn what_is_not_own_is_the_others() {
        let ticks = |all, busy, own| Ticks { all, busy, own };
        let others = ticks(1_200, 620, 500).others_since(ticks(1_000, 500, 400));
        assert_eq!(others, 0.1);
        let others = ticks(1_200, 599, 500).others_since(ticks(1_000, 500, 400));
        assert_eq!(others, 0.0);
    }

    #[test]
    fn a_processor_is_named() {
        assert_eq!(processor("cpu family\t: 6\nmodel name\t: A B\n"), "A B");
        assert_eq!(processor(""), "an unknown processor");
    }
}
