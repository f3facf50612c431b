//! Floats of both widths as patterns of bits, worked out with whole numbers.
//!
//! A finite pattern is a significand times a power of two. An operation makes the
//! exact result, or one that rounds as the exact one does, and rounds it once: to
//! nearest, ties to even. The language's own floats are nowhere used.

use std::cmp::Ordering;

/// How the bits of a pattern are shared out: the sign, the exponent, the fraction.
#[derive(Clone, Copy, Debug, PartialEq, Eq)]
pub struct Format {
    pub exponent_bits: u32,
    pub fraction_bits: u32,
}

pub const SINGLE: Format = Format { exponent_bits: 8, fraction_bits: 23 };
pub const DOUBLE: Format = Format { exponent_bits: 11, fraction_bits: 52 };

/// What a pattern stands for; a finite one for significand times two to the exponent.
#[derive(Clone, Copy, Debug, PartialEq, Eq)]
enum Float {
    Nan,
    Infinite { negative: bool },
    Finite { negative: bool, significand: u128, exponent: i32 },
}

/// How far a lower summand is written out below the higher one.
const FAR: i32 = 64;
/// How many digits a quotient is written out to, and more.
const QUOTIENT_DIGITS: u32 = 70;

impl Format {
    fn sign(self) -> u64 {
        1 << (self.exponent_bits + self.fraction_bits)
    }

    /// Every bit of a pattern set.
    pub fn all_bits(self) -> u64 {
        self.sign() | (self.sign() - 1)
    }

    /// The exponent's field with all its bits set: infinities and NaNs.
    fn greatest_field(self) -> u64 {
        (1 << self.exponent_bits) - 1
    }

    /// The exponent of the least positive value.
    fn least_exponent(self) -> i32 {
        2 - (1 << (self.exponent_bits - 1)) - self.fraction_bits as i32
    }

    /// The lowest significand that has its leading digit.
    fn lead(self) -> u64 {
        1 << self.fraction_bits
    }

    pub fn canonical_nan(self) -> u64 {
        (self.greatest_field() << self.fraction_bits) + self.lead() / 2
    }

    fn infinity(self, negative: bool) -> u64 {
        self.signed(negative, self.greatest_field() << self.fraction_bits)
    }

    fn zero(self, negative: bool) -> u64 {
        self.signed(negative, 0)
    }

    fn signed(self, negative: bool, magnitude: u64) -> u64 {
        magnitude + if negative { self.sign() } else { 0 }
    }

    fn read(self, bits: u64) -> Float {
        let negative = bits & self.sign() != 0;
        let field = (bits >> self.fraction_bits) & self.greatest_field();
        let fraction = bits % self.lead();
        if field == self.greatest_field() {
            return if fraction == 0 { Float::Infinite { negative } } else { Float::Nan };
        }
        // A field of 0 has no leading digit and the exponent of a field of 1.
        let significand = fraction + if field == 0 { 0 } else { self.lead() };
        let exponent = self.least_exponent() + field.max(1) as i32 - 1;
        Float::Finite { negative, significand: u128::from(significand), exponent }
    }

    /// The pattern nearest to a number that is not 0; of two as near, the even one.
    fn round(self, negative: bool, number: u128, exponent: i32) -> u64 {
        let digits = (u128::BITS - number.leading_zeros()) as i32;
        // The weight of the last digit that is kept.
        let last = (exponent + digits - self.fraction_bits as i32 - 1).max(self.least_exponent());
        let significand = match last - exponent {
            dropped @ 1.. => rounded_quotient(number, dropped as u32),
            kept => (number << -kept) as u64,
        };
        self.compose(negative, significand, last)
    }

    /// The pattern of a significand that needs no more rounding, infinite where the
    /// greatest finite one is exceeded.
    fn compose(self, negative: bool, significand: u64, last: i32) -> u64 {
        // Rounded up to the next power of two: one digit more, which is 0.
        let carried = significand == 2 * self.lead();
        let (significand, last) =
            if carried { (self.lead(), last + 1) } else { (significand, last) };
        if significand < self.lead() {
            return self.signed(negative, significand);
        }
        let field = (last - self.least_exponent() + 1) as u64;
        if field >= self.greatest_field() {
            return self.infinity(negative);
        }
        self.signed(negative, (field << self.fraction_bits) + significand - self.lead())
    }

    pub fn add(self, left: u64, right: u64) -> u64 {
        match (self.read(left), self.read(right)) {
            (Float::Nan, _) | (_, Float::Nan) => self.canonical_nan(),
            (Float::Infinite { negative }, Float::Infinite { negative: other }) => {
                if negative == other {
                    self.infinity(negative)
                } else {
                    self.canonical_nan()
                }
            }
            (Float::Infinite { negative }, _) | (_, Float::Infinite { negative }) => {
                self.infinity(negative)
            }
            (
                Float::Finite { negative: left, significand: one, exponent: one_exponent },
                Float::Finite { negative: right, significand: other, exponent: other_exponent },
            ) => self.add_finite((left, one, one_exponent), (right, other, other_exponent)),
        }
    }

    /// Summands as sign, significand and exponent.
    fn add_finite(self, one: (bool, u128, i32), other: (bool, u128, i32)) -> u64 {
        if one.1 == 0 && other.1 == 0 {
            return self.zero(one.0 && other.0);
        }
        let (high, low) = if one.2 >= other.2 { (one, other) } else { (other, one) };
        let (high, low, exponent) = aligned(high, low);
        let sum = high + low;
        if sum == 0 {
            return self.zero(false);
        }
        self.round(sum < 0, sum.unsigned_abs(), exponent)
    }

    pub fn sub(self, left: u64, right: u64) -> u64 {
        self.add(left, self.neg(right))
    }

    /// Only the sign bit turns, of a NaN too.
    pub fn neg(self, bits: u64) -> u64 {
        bits ^ self.sign()
    }

    pub fn mul(self, left: u64, right: u64) -> u64 {
        let negative = (left ^ right) & self.sign() != 0;
        match (self.read(left), self.read(right)) {
            (Float::Nan, _) | (_, Float::Nan) => self.canonical_nan(),
            (Float::Infinite { .. }, Float::Finite { significand: 0, .. })
            | (Float::Finite { significand: 0, .. }, Float::Infinite { .. }) => {
                self.canonical_nan()
            }
            (Float::Infinite { .. }, _) | (_, Float::Infinite { .. }) => self.infinity(negative),
            (Float::Finite { significand: 0, .. }, _)
            | (_, Float::Finite { significand: 0, .. }) => self.zero(negative),
            (
                Float::Finite { significand: one, exponent: one_exponent, .. },
                Float::Finite { significand: other, exponent: other_exponent, .. },
            ) => self.round(negative, one * other, one_exponent + other_exponent),
        }
    }

    pub fn div(self, left: u64, right: u64) -> u64 {
        let negative = (left ^ right) & self.sign() != 0;
        match (self.read(left), self.read(right)) {
            (Float::Nan, _) | (_, Float::Nan) => self.canonical_nan(),
            (Float::Infinite { .. }, Float::Infinite { .. })
            | (Float::Finite { significand: 0, .. }, Float::Finite { significand: 0, .. }) => {
                self.canonical_nan()
            }
            (Float::Infinite { .. }, _) | (_, Float::Finite { significand: 0, .. }) => {
                self.infinity(negative)
            }
            (_, Float::Infinite { .. }) | (Float::Finite { significand: 0, .. }, _) => {
                self.zero(negative)
            }
            (
                Float::Finite { significand: one, exponent: one_exponent, .. },
                Float::Finite { significand: other, exponent: other_exponent, .. },
            ) => {
                let (quotient, written_out) = quotient_with_rest(one, other);
                self.round(negative, quotient, one_exponent - other_exponent - written_out)
            }
        }
    }

    /// None where a NaN stands; -0 equals +0.
    pub fn compare(self, left: u64, right: u64) -> Option<Ordering> {
        if self.read(left) == Float::Nan || self.read(right) == Float::Nan {
            return None;
        }
        Some(self.rank(left).cmp(&self.rank(right)))
    }

    /// The patterns without the sign stand in the order of their values.
    fn rank(self, bits: u64) -> i128 {
        let magnitude = i128::from(bits % self.sign());
        if bits & self.sign() == 0 {
            magnitude
        } else {
            -magnitude
        }
    }
}

/// The number without its last so many digits, rounded by them.
fn rounded_quotient(number: u128, dropped: u32) -> u64 {
    if dropped > u128::BITS {
        // Below half of what is kept.
        return 0;
    }
    let quotient = number.checked_shr(dropped).unwrap_or(0);
    let half = 1u128 << (dropped - 1);
    let rest = number - quotient.checked_shl(dropped).unwrap_or(0);
    let up = match rest.cmp(&half) {
        Ordering::Less => false,
        Ordering::Equal => quotient % 2 == 1,
        Ordering::Greater => true,
    };
    quotient as u64 + u64::from(up)
}

/// Two summands counted in the same power of two. Where the lower one lies far below,
/// it is less than a quarter of the higher one's last digit whatever it is, so one of
/// what is counted in stands for it: the sum lies between the same two patterns, on
/// the same side of their middle.
fn aligned(high: (bool, u128, i32), low: (bool, u128, i32)) -> (i128, i128, i32) {
    let signed = |negative: bool, number: u128| {
        if negative {
            -(number as i128)
        } else {
            number as i128
        }
    };
    let apart = high.2 - low.2;
    if apart <= FAR {
        return (signed(high.0, high.1 << apart), signed(low.0, low.1), low.2);
    }
    (signed(high.0, high.1 << FAR), signed(low.0, low.1.min(1)), high.2 - FAR)
}

/// The quotient of two numbers that are not 0, and how many digits it was written out
/// to. Its last digit is 1 where something was left: so it is no tie and no exact one.
fn quotient_with_rest(one: u128, other: u128) -> (u128, i32) {
    let room = (other.ilog2() + QUOTIENT_DIGITS) - one.ilog2();
    let scaled = one << room;
    let left = u128::from(!scaled.is_multiple_of(other));
    (2 * (scaled / other) + left, room as i32 + 1)
}
