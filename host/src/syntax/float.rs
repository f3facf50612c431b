//! A float's bits and its text: decimal digits, `inf`, `nan`, and `nan:0x` with a payload; read in hex digits too. What is
//! written is read back to the same bits.

/// A width: how many bits of exponent and of fraction, how its numbers are written in decimal digits, and how they are read.
pub struct Width {
    exponent: u32,
    fraction: u32,
    written: fn(u64) -> String,
    decimal: fn(&str) -> Option<u64>,
}

pub const F32: Width = Width {
    exponent: 8,
    fraction: 23,
    written: |bits| format!("{:?}", f32::from_bits(bits as u32)),
    decimal: |text| text.parse::<f32>().ok().map(|it| u64::from(it.to_bits())),
};

pub const F64: Width = Width {
    exponent: 11,
    fraction: 52,
    written: |bits| format!("{:?}", f64::from_bits(bits)),
    decimal: |text| text.parse::<f64>().ok().map(f64::to_bits),
};

/// More digits than this cannot matter beside the ones before them but by not being 0.
const DIGITS: u32 = 100;

impl Width {
    fn sign(&self) -> u64 {
        1 << (self.exponent + self.fraction)
    }

    fn infinite(&self) -> u64 {
        self.sign() - (1 << self.fraction)
    }

    /// The payload of `nan` alone.
    fn canonical(&self) -> u64 {
        1 << (self.fraction - 1)
    }

    pub fn text(&self, bits: u64) -> String {
        let sign = if bits & self.sign() != 0 { "-" } else { "" };
        let magnitude = bits & (self.sign() - 1);
        match magnitude.checked_sub(self.infinite()) {
            None => format!("{sign}{}", (self.written)(magnitude)),
            Some(0) => format!("{sign}inf"),
            Some(payload) if payload == self.canonical() => format!("{sign}nan"),
            Some(payload) => format!("{sign}nan:0x{payload:x}"),
        }
    }

    /// None for a text that is no float, and for a number that is too large for the width.
    pub fn read(&self, text: &str) -> Option<u64> {
        let (sign, text) = match text.strip_prefix('-') {
            Some(text) => (self.sign(), text),
            None => (0, text.strip_prefix('+').unwrap_or(text)),
        };
        Some(sign + self.magnitude(&without_underscores(text)?)?)
    }

    fn magnitude(&self, text: &str) -> Option<u64> {
        if text == "inf" {
            return Some(self.infinite());
        }
        if text == "nan" {
            return Some(self.infinite() + self.canonical());
        }
        if let Some(payload) = text.strip_prefix("nan:0x") {
            let digits = payload.starts_with(|first: char| first.is_ascii_hexdigit());
            let payload = u64::from_str_radix(payload, 16).ok().filter(|_| digits)?;
            return (1..1 << self.fraction).contains(&payload).then(|| self.infinite() + payload);
        }
        // What Rust reads beyond digits, as "infinity", is no number of the text.
        let read = match text.strip_prefix("0x") {
            Some(digits) => self.hex(digits)?,
            None if text.starts_with(|first: char| first.is_ascii_digit()) => (self.decimal)(text)?,
            None => return None,
        };
        (read < self.infinite()).then_some(read)
    }

    /// Hex digits, with a point among them or not, and a power of two behind p.
    fn hex(&self, text: &str) -> Option<u64> {
        let (digits, power) = text.split_once(['p', 'P']).unwrap_or((text, "0"));
        let (whole, part) = digits.split_once('.').unwrap_or((digits, ""));
        if whole.is_empty() {
            return None;
        }
        let power: i64 = power.parse().ok()?;
        let (mut number, mut exponent) = (0u128, power.checked_sub(4 * part.len() as i64)?);
        for digit in whole.chars().chain(part.chars()) {
            let digit = u128::from(digit.to_digit(16)?);
            if number >> DIGITS == 0 {
                number = 16 * number + digit;
            } else {
                number |= u128::from(digit != 0);
                exponent = exponent.checked_add(4)?;
            }
        }
        Some(self.nearest(number, exponent))
    }

    /// The magnitude nearest to the number times a power of two; of two as near, the even one.
    fn nearest(&self, number: u128, exponent: i64) -> u64 {
        if number == 0 {
            return 0;
        }
        let length = i64::from(u128::BITS - number.leading_zeros());
        let least = 2 - (1 << (self.exponent - 1)) - i64::from(self.fraction);
        let last = exponent.saturating_add(length - i64::from(self.fraction) - 1).max(least);
        let dropped = last.saturating_sub(exponent);
        let significand = match u32::try_from(dropped) {
            Err(_) => (number as u64) << dropped.unsigned_abs().min(63),
            Ok(0) => number as u64,
            Ok(dropped) if dropped > u128::BITS => 0,
            Ok(dropped) => {
                let kept = number.checked_shr(dropped).unwrap_or(0);
                let half = 1 << (dropped - 1);
                let rest = number - kept.checked_shl(dropped).unwrap_or(0);
                (kept + u128::from(rest > half || rest == half && kept % 2 == 1)) as u64
            }
        };
        // The leading digit, and a carry, count one in the exponent's field.
        let field = last.saturating_sub(least).min(1 << self.exponent) as u64;
        (field << self.fraction).saturating_add(significand).min(self.infinite())
    }
}

/// A number's text without its underscores; none where one of them does not stand between two digits.
pub fn without_underscores(text: &str) -> Option<String> {
    let radix = if text.contains("0x") { 16 } else { 10 };
    let digit = |at: Option<usize>| {
        let character = at.and_then(|at| text.as_bytes().get(at)).copied();
        character.is_some_and(|character| char::from(character).is_digit(radix))
    };
    let between = |at: usize| digit(at.checked_sub(1)) && digit(Some(at + 1));
    let all = text.match_indices('_').all(|(at, _)| between(at));
    all.then(|| text.replace('_', ""))
}

#[cfg(test)]
mod tests {
    use super::*;

    #[test]
    fn texts_of_floats() {
        let cases = [
            (0x0000_0000, "0.0"),
            (0x8000_0000, "-0.0"),
            (0x3F80_0000, "1.0"),
            (0xBFC0_0000, "-1.5"),
            (0x0000_0001, "1e-45"),
            (0x7F7F_FFFF, "3.4028235e38"),
            (0x7F80_0000, "inf"),
            (0xFF80_0000, "-inf"),
            (0x7FC0_0000, "nan"),
            (0xFFC0_0000, "-nan"),
            (0xFFC0_0001, "-nan:0x400001"),
            (0x7F80_0001, "nan:0x1"),
        ];
        for (bits, text) in cases {
            assert_eq!(F32.text(bits), text);
            assert_eq!(F32.read(text), Some(bits), "{text}");
        }
        assert_eq!(F64.text(0x7FF0_0000_0000_0001), "nan:0x1");
        assert_eq!(F64.text(0xFFF8_0000_0000_0000), "-nan");
        assert_eq!(F64.read("-0.1"), Some(0xBFB9_9999_9999_999A));
    }

    #[test]
    fn hex_digits_are_rounded_once() {
        let cases = [
            ("0x1", 0x3F80_0000),
            ("0x1p+0", 0x3F80_0000),
            ("0x1.8p3", 0x4140_0000),
            ("0x0p0", 0),
            ("0x1p-149", 1),
            ("0x1p-150", 0),
            ("0x1.8p-150", 1),
            ("0x1p-99999999", 0),
            ("0x1.000001p0", 0x3F80_0000),
            ("0x1.000003p0", 0x3F80_0002),
            ("0x1.00000100000000000000000000000000000000001p0", 0x3F80_0001),
            ("0x1.fffffep127", 0x7F7F_FFFF),
            ("0x123_4.8p-1", 0x4511_A400),
        ];
        for (text, bits) in cases {
            assert_eq!(F32.read(text), Some(bits), "{text}");
        }
        assert_eq!(F64.read("-0x1.5555555555555p-2"), Some(0xBFD5_5555_5555_5555));
    }

    #[test]
    fn what_is_no_float() {
        for text in
            ["", "-", ".5", "0x", "0x.8", "infinity", "NaN", "nan:0x0", "nan:0x800000", "1x", "e5"]
        {
            assert_eq!(F32.read(text), None, "{text}");
        }
        for text in ["1e39", "0x1p128", "0x1.ffffffp127", "0x1p99999999"] {
            assert_eq!(F32.read(text), None, "{text}");
        }
        assert_eq!(F64.read("nan:0x8000000000000").map(|bits| F64.text(bits)), Some("nan".into()));
    }

    #[test]
    fn underscores_stand_between_digits() {
        for text in ["1_000.5", "1_0e1_0", "0x1_0.8_0p1_0", "nan:0x40_0001"] {
            assert!(F32.read(text).is_some(), "{text}");
        }
        for text in
            ["1_", "_1", "1__0", "1_.5", "1._5", "1_e5", "1e_5", "0x_1", "0x1_p3", "nan:0x_1"]
        {
            assert_eq!(F32.read(text), None, "{text}");
        }
        assert_eq!(F32.read("nan:0x+1"), None);
    }

    /// Both ways, for patterns of every kind.
    #[test]
    fn every_pattern_is_read_back() {
        use plain::float::{DOUBLE, SINGLE};
        use plain::generate::float_pairs::pairs;
        for (bits, other) in pairs(5, SINGLE, 20_000) {
            for bits in [bits, other] {
                assert_eq!(F32.read(&F32.text(bits)), Some(bits), "{bits:08x}");
            }
        }
        for (bits, other) in pairs(5, DOUBLE, 20_000) {
            for bits in [bits, other] {
                assert_eq!(F64.read(&F64.text(bits)), Some(bits), "{bits:016x}");
            }
        }
    }
}
