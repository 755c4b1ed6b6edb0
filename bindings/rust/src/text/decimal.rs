//! Decimals that come back bit for bit. Rust's standard library reads the nearest float and writes
//! the shortest decimal that it reads back.

use std::{fmt, str::FromStr};

/// The two widths of float.
pub(super) trait Float: Copy + FromStr + fmt::Display + fmt::LowerExp {
    /// Whether all digits are written out. Far from 1 an exponent is shorter.
    fn is_near_one(self) -> bool;
    fn is_finite(self) -> bool;
}

impl Float for f32 {
    fn is_near_one(self) -> bool {
        f64::from(self).is_near_one()
    }

    fn is_finite(self) -> bool {
        self.is_finite()
    }
}

impl Float for f64 {
    fn is_near_one(self) -> bool {
        self == 0.0 || (1e-5..1e16).contains(&self.abs())
    }

    fn is_finite(self) -> bool {
        self.is_finite()
    }
}

pub(super) fn read<F: Float>(what: &str, word: &str) -> Result<F, String> {
    let is_decimal = word
        .bytes()
        .all(|byte| byte.is_ascii_digit() || b"+-.eE".contains(&byte));
    match word.parse::<F>() {
        Ok(value) if is_decimal && value.is_finite() => Ok(value),
        Ok(_) if is_decimal => Err(format!("the {what} `{word}` is too large for a float")),
        _ => Err(format!("the {what} `{word}` is not a decimal number")),
    }
}

pub(super) fn write<F: Float>(value: F) -> String {
    if value.is_near_one() {
        format!("{value}")
    } else {
        format!("{value:e}")
    }
}

#[cfg(test)]
mod tests {
    use super::{read, write};

    #[test]
    fn floats_come_back_bit_for_bit() {
        let mut bits = 1_u64;
        for _ in 0..20_000 {
            bits = bits
                .wrapping_mul(6_364_136_223_846_793_005)
                .wrapping_add(1_442_695_040_888_963_407);
            // Any exponent; then near those of times.
            for bits in [bits, bits >> 12 | 0x40a0_0000_0000_0000] {
                let value = f64::from_bits(bits);
                if value.is_finite() {
                    let back = read::<f64>("time", &write(value));
                    assert_eq!(back.map(f64::to_bits), Ok(bits));
                }
            }
            let bits = (bits >> 32) as u32;
            let value = f32::from_bits(bits);
            if value.is_finite() {
                let back = read::<f32>("setting", &write(value));
                assert_eq!(back.map(f32::to_bits), Ok(bits));
            }
        }
    }

    #[test]
    fn edges() {
        for (value, text) in [
            (0.0, "0"),
            (-0.0, "-0"),
            (5000.0, "5000"),
            (2000.5, "2000.5"),
            (0.1, "0.1"),
            (-8e6, "-8000000"),
            (1e-5, "0.00001"),
            (9.5e-6, "9.5e-6"),
            (5e-324, "5e-324"),
            (f64::MAX, "1.7976931348623157e308"),
        ] {
            assert_eq!(write(value), text);
            let back = read::<f64>("time", text).map(f64::to_bits);
            assert_eq!(back, Ok(value.to_bits()));
        }
        assert_eq!(write(0.1_f32), "0.1");
        for word in ["nan", "inf", "-infinity", "NaN", "", "1,5", "0x10", "5ms"] {
            let refused = format!("the time `{word}` is not a decimal number");
            assert_eq!(read::<f64>("time", word), Err(refused));
        }
        for word in ["1e999", "-1e400"] {
            let refused = format!("the time `{word}` is too large for a float");
            assert_eq!(read::<f64>("time", word), Err(refused));
        }
        assert!(read::<f32>("setting", "1e39").is_err());
    }
}
