//! Numbers as the tables show them.

/// Three digits that count, all digits above a hundred.
pub fn significant(value: f64) -> String {
    // Bounds at which the digits behind the point round up to one more before it.
    if value >= 99.95 {
        whole(value.round() as u64)
    } else if value >= 9.995 {
        format!("{value:.1}")
    } else if value >= 0.9995 {
        format!("{value:.2}")
    } else {
        format!("{value:.3}")
    }
}

/// The same with as many more digits as it takes to be judged as the value itself is: 499.9 does not meet a bar of 500,
/// and does not read as 500.
pub fn judged(value: f64, is_met: impl Fn(f64) -> bool) -> String {
    let short = significant(value);
    let is_as_judged = |text: &str| {
        let shown = text.replace(',', "").parse();
        shown.is_ok_and(|shown| is_met(shown) == is_met(value))
    };
    let longer = (1..=9).map(|decimals| grouped(&format!("{value:.decimals$}")));
    let mut texts = [short.clone()].into_iter().chain(longer);
    texts.find(|text| is_as_judged(text)).unwrap_or(short)
}

/// A whole number in groups of three digits.
pub fn whole(value: u64) -> String {
    grouped(&value.to_string())
}

/// Digits before a point, if there is one, in groups of three.
fn grouped(number: &str) -> String {
    let (digits, rest) = number.split_at(number.find('.').unwrap_or(number.len()));
    let mut text = String::new();
    for (place, digit) in digits.chars().enumerate() {
        if place > 0 && (digits.len() - place).is_multiple_of(3) {
            text.push(',');
        }
        text.push(digit);
    }
    text + rest
}

/// A time that is given in nanoseconds.
pub fn time(nanoseconds: f64) -> String {
    if nanoseconds < 999.5 {
        format!("{} ns", significant(nanoseconds))
    } else if nanoseconds < 999_500.0 {
        format!("{} µs", significant(nanoseconds / 1e3))
    } else {
        format!("{} ms", significant(nanoseconds / 1e6))
    }
}

#[cfg(test)]
mod tests {
    use super::*;

    #[test]
    fn three_digits_count() {
        let cases = [
            (0.0, "0.000"),
            (0.29349, "0.293"),
            (0.9996, "1.00"),
            (7.724, "7.72"),
            (9.9949, "9.99"),
            (9.996, "10.0"),
            (99.96, "100"),
            (916.4, "916"),
            (1_218.5, "1,219"),
        ];
        for (value, text) in cases {
            assert_eq!(significant(value), text);
        }
    }

    #[test]
    fn a_figure_reads_as_it_is_judged() {
        let least = [
            (499.94, 500.0, "499.9"),
            (500.0, 500.0, "500"),
            (500.2, 500.0, "500"),
            (1_999.97, 2_000.0, "1,999.97"),
        ];
        for (value, bar, text) in least {
            assert_eq!(judged(value, |shown| shown >= bar), text);
        }
        let most = [
            (1.0032, 1.0, "1.003"),
            (0.99999, 1.0, "1.00"),
            (0.34004, 0.34, "0.34004"),
            (0.278, 0.34, "0.278"),
        ];
        for (value, bar, text) in most {
            assert_eq!(judged(value, |shown| shown <= bar), text);
        }
    }

    #[test]
    fn groups_of_three() {
        let cases = [
            (0, "0"),
            (999, "999"),
            (8_192, "8,192"),
            (1_736_718, "1,736,718"),
        ];
        for (value, text) in cases {
            assert_eq!(whole(value), text);
        }
    }

    #[test]
    fn a_time_takes_its_unit() {
        let cases = [
            (74.3, "74.3 ns"),
            (999.4, "999 ns"),
            (999.6, "1.00 µs"),
            (62_497.0, "62.5 µs"),
            (999_499.0, "999 µs"),
            (1_446_380.0, "1.45 ms"),
        ];
        for (value, text) in cases {
            assert_eq!(time(value), text);
        }
    }
}
