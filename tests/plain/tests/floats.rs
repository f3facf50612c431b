//! The plain floats: vectors worked out by hand, and the processor's own floats on many
//! pairs.

use plain::float::{Format, DOUBLE, SINGLE};
use plain::generate::float_pairs::{edges, pairs};
use std::cmp::Ordering;

/// An operation's sign in the standard's words, the operands and the result.
type Vector = (&'static str, u64, u64, u64);

fn done(format: Format, operation: &str, left: u64, right: u64) -> u64 {
    match operation {
        "add" => format.add(left, right),
        "sub" => format.sub(left, right),
        "mul" => format.mul(left, right),
        "div" => format.div(left, right),
        other => panic!("{other} is no operation"),
    }
}

fn hold(format: Format, vectors: &[Vector]) {
    for &(operation, left, right, result) in vectors {
        let got = done(format, operation, left, right);
        assert_eq!(got, result, "{left:x} {operation} {right:x}: {got:x}, not {result:x}");
    }
}

/// Half of the last digit goes to the even neighbour, a little more goes up.
#[test]
fn ties_of_f32() {
    hold(
        SINGLE,
        &[
            // 1 + 2^-24, (1 + 2^-23) + 2^-24, 1 + (2^-24 + 2^-47).
            ("add", 0x3F80_0000, 0x3380_0000, 0x3F80_0000),
            ("add", 0x3F80_0001, 0x3380_0000, 0x3F80_0002),
            ("add", 0x3F80_0000, 0x3380_0001, 0x3F80_0001),
            // Below 1 the last digit is worth half: 1 - 2^-25 is a tie, 1 - 2^-24 exact.
            ("sub", 0x3F80_0000, 0x3300_0000, 0x3F80_0000),
            ("sub", 0x3F80_0000, 0x3300_0001, 0x3F7F_FFFF),
            ("sub", 0x3F80_0000, 0x3380_0000, 0x3F7F_FFFF),
            // Odd whole numbers above 2^24 lie in the middle: 2^24 + 1, 2^24 + 3.
            ("add", 0x4B80_0000, 0x3F80_0000, 0x4B80_0000),
            ("add", 0x4B80_0001, 0x3F80_0000, 0x4B80_0002),
            // The same below zero.
            ("add", 0xBF80_0001, 0xB380_0000, 0xBF80_0002),
            // (1 + 2^-23) x 1.5 = 1.5 + 1.5 x 2^-23: a tie, up to even.
            ("mul", 0x3F80_0001, 0x3FC0_0000, 0x3FC0_0002),
            // (1 + 3 x 2^-23) x 1.5 = 1.5 + 4.5 x 2^-23: a tie, down to even.
            ("mul", 0x3F80_0003, 0x3FC0_0000, 0x3FC0_0004),
            // (1 + 2^-23)^2 = 1 + 2 x 2^-23 + 2^-46; (2 - 2^-23)^2 = 4 - 2 x 2^-22 + 2^-46.
            ("mul", 0x3F80_0001, 0x3F80_0001, 0x3F80_0002),
            ("mul", 0x3FFF_FFFF, 0x3FFF_FFFF, 0x407F_FFFE),
            // A third is 1.0101 01.. x 2^-2: up at the 24th digit. A tenth likewise.
            ("div", 0x3F80_0000, 0x4040_0000, 0x3EAA_AAAB),
            ("div", 0xBF80_0000, 0x4040_0000, 0xBEAA_AAAB),
            ("div", 0x3F80_0000, 0x4120_0000, 0x3DCC_CCCD),
            ("div", 0x4040_0000, 0x4040_0000, 0x3F80_0000),
        ],
    );
}

#[test]
fn ties_of_f64() {
    hold(
        DOUBLE,
        &[
            ("add", 0x3FF0_0000_0000_0000, 0x3CA0_0000_0000_0000, 0x3FF0_0000_0000_0000),
            ("add", 0x3FF0_0000_0000_0001, 0x3CA0_0000_0000_0000, 0x3FF0_0000_0000_0002),
            ("add", 0x3FF0_0000_0000_0000, 0x3CA0_0000_0000_0001, 0x3FF0_0000_0000_0001),
            ("sub", 0x3FF0_0000_0000_0000, 0x3C90_0000_0000_0000, 0x3FF0_0000_0000_0000),
            ("sub", 0x3FF0_0000_0000_0000, 0x3C90_0000_0000_0001, 0x3FEF_FFFF_FFFF_FFFF),
            ("sub", 0x3FF0_0000_0000_0000, 0x3CA0_0000_0000_0000, 0x3FEF_FFFF_FFFF_FFFF),
            // 2^53 + 1, 2^53 + 3.
            ("add", 0x4340_0000_0000_0000, 0x3FF0_0000_0000_0000, 0x4340_0000_0000_0000),
            ("add", 0x4340_0000_0000_0001, 0x3FF0_0000_0000_0000, 0x4340_0000_0000_0002),
            ("mul", 0x3FF0_0000_0000_0001, 0x3FF8_0000_0000_0000, 0x3FF8_0000_0000_0002),
            ("mul", 0x3FF0_0000_0000_0003, 0x3FF8_0000_0000_0000, 0x3FF8_0000_0000_0004),
            ("mul", 0x3FFF_FFFF_FFFF_FFFF, 0x3FFF_FFFF_FFFF_FFFF, 0x400F_FFFF_FFFF_FFFE),
            // A third is 1.0101 .. 01|01.. x 2^-2: down at the 53rd digit. A tenth: up.
            ("div", 0x3FF0_0000_0000_0000, 0x4008_0000_0000_0000, 0x3FD5_5555_5555_5555),
            ("div", 0x3FF0_0000_0000_0000, 0x4024_0000_0000_0000, 0x3FB9_9999_9999_999A),
            // A tenth and a fifth, each a little too large, are more than 0.3.
            ("add", 0x3FB9_9999_9999_999A, 0x3FC9_9999_9999_999A, 0x3FD3_3333_3333_3334),
        ],
    );
}

/// Below the least normal value the last digit stays where it is.
#[test]
fn subnormals() {
    hold(
        SINGLE,
        &[
            ("add", 0x007F_FFFF, 0x0000_0001, 0x0080_0000),
            ("sub", 0x0080_0000, 0x0000_0001, 0x007F_FFFF),
            ("add", 0x007F_FFFF, 0x007F_FFFF, 0x00FF_FFFE),
            ("sub", 0x0080_0001, 0x0080_0000, 0x0000_0001),
            ("mul", 0x0080_0000, 0x3F00_0000, 0x0040_0000),
            // 2^22 + 1/2 of the least value, then 2^22 + 3/2.
            ("mul", 0x0080_0001, 0x3F00_0000, 0x0040_0000),
            ("mul", 0x0080_0003, 0x3F00_0000, 0x0040_0002),
            // The greatest subnormal times 1.5 is 12,582,910.5 of them: down to even.
            ("mul", 0x007F_FFFF, 0x3FC0_0000, 0x00BF_FFFE),
            // The least normal less half of the least value: up to even.
            ("mul", 0x00FF_FFFF, 0x3F00_0000, 0x0080_0000),
            ("div", 0x0000_0001, 0x4000_0000, 0x0000_0000),
            ("div", 0x8000_0001, 0x4000_0000, 0x8000_0000),
            ("div", 0x0000_0003, 0x4000_0000, 0x0000_0002),
            ("div", 0x0000_0001, 0x3FFF_FFFF, 0x0000_0001),
            ("mul", 0x0000_0001, 0x0000_0001, 0x0000_0000),
            ("mul", 0x0000_0001, 0x7F7F_FFFF, 0x34FF_FFFF),
            ("div", 0x0000_0001, 0x0000_0001, 0x3F80_0000),
        ],
    );
    hold(
        DOUBLE,
        &[
            ("add", 0x000F_FFFF_FFFF_FFFF, 0x0000_0000_0000_0001, 0x0010_0000_0000_0000),
            ("sub", 0x0010_0000_0000_0000, 0x0000_0000_0000_0001, 0x000F_FFFF_FFFF_FFFF),
            ("add", 0x000F_FFFF_FFFF_FFFF, 0x000F_FFFF_FFFF_FFFF, 0x001F_FFFF_FFFF_FFFE),
            ("mul", 0x0010_0000_0000_0001, 0x3FE0_0000_0000_0000, 0x0008_0000_0000_0000),
            ("mul", 0x0010_0000_0000_0003, 0x3FE0_0000_0000_0000, 0x0008_0000_0000_0002),
            ("mul", 0x001F_FFFF_FFFF_FFFF, 0x3FE0_0000_0000_0000, 0x0010_0000_0000_0000),
            ("div", 0x0000_0000_0000_0001, 0x4000_0000_0000_0000, 0x0000_0000_0000_0000),
            ("div", 0x0000_0000_0000_0003, 0x4000_0000_0000_0000, 0x0000_0000_0000_0002),
            ("div", 0x0000_0000_0000_0001, 0x3FFF_FFFF_FFFF_FFFF, 0x0000_0000_0000_0001),
            ("mul", 0x8000_0000_0000_0001, 0x0000_0000_0000_0001, 0x8000_0000_0000_0000),
        ],
    );
}

/// The greatest value is odd, so half a unit beyond it is infinite.
#[test]
fn overflow() {
    hold(
        SINGLE,
        &[
            ("add", 0x7F7F_FFFF, 0x7300_0000, 0x7F80_0000),
            ("add", 0x7F7F_FFFF, 0x72FF_FFFF, 0x7F7F_FFFF),
            ("add", 0xFF7F_FFFF, 0xF300_0000, 0xFF80_0000),
            ("sub", 0xFF7F_FFFF, 0x72FF_FFFF, 0xFF7F_FFFF),
            ("mul", 0x7F7F_FFFF, 0x4000_0000, 0x7F80_0000),
            ("mul", 0x7F7F_FFFF, 0xBF80_0001, 0xFF80_0000),
            ("div", 0x7F7F_FFFF, 0x3F7F_FFFF, 0x7F80_0000),
            ("div", 0x7F7F_FFFE, 0x3F7F_FFFF, 0x7F7F_FFFF),
            ("div", 0x3F80_0000, 0x0000_0001, 0x7F80_0000),
        ],
    );
    hold(
        DOUBLE,
        &[
            ("add", 0x7FEF_FFFF_FFFF_FFFF, 0x7C90_0000_0000_0000, 0x7FF0_0000_0000_0000),
            ("add", 0x7FEF_FFFF_FFFF_FFFF, 0x7C8F_FFFF_FFFF_FFFF, 0x7FEF_FFFF_FFFF_FFFF),
            ("sub", 0xFFEF_FFFF_FFFF_FFFF, 0x7C90_0000_0000_0000, 0xFFF0_0000_0000_0000),
            ("mul", 0x7FEF_FFFF_FFFF_FFFF, 0x4000_0000_0000_0000, 0x7FF0_0000_0000_0000),
            ("div", 0x3FF0_0000_0000_0000, 0x8000_0000_0000_0001, 0xFFF0_0000_0000_0000),
        ],
    );
}

/// A summand that lies far below the other changes nothing.
#[test]
fn far_apart() {
    hold(
        SINGLE,
        &[
            ("add", 0x3F80_0000, 0x0000_0001, 0x3F80_0000),
            ("sub", 0x3F80_0000, 0x0000_0001, 0x3F80_0000),
            ("add", 0x7F7F_FFFF, 0x0000_0001, 0x7F7F_FFFF),
            ("sub", 0x0000_0001, 0x7F7F_FFFF, 0xFF7F_FFFF),
        ],
    );
    hold(
        DOUBLE,
        &[
            ("add", 0x3FF0_0000_0000_0000, 0x0000_0000_0000_0001, 0x3FF0_0000_0000_0000),
            ("sub", 0x3FF0_0000_0000_0000, 0x0000_0000_0000_0001, 0x3FF0_0000_0000_0000),
            ("sub", 0x0000_0000_0000_0001, 0x7FEF_FFFF_FFFF_FFFF, 0xFFEF_FFFF_FFFF_FFFF),
        ],
    );
}

#[test]
fn zeros_and_their_signs() {
    hold(
        SINGLE,
        &[
            ("add", 0x8000_0000, 0x8000_0000, 0x8000_0000),
            ("add", 0x0000_0000, 0x8000_0000, 0x0000_0000),
            ("add", 0x8000_0000, 0x0000_0000, 0x0000_0000),
            ("sub", 0x8000_0000, 0x0000_0000, 0x8000_0000),
            ("sub", 0x8000_0000, 0x8000_0000, 0x0000_0000),
            ("sub", 0x0000_0000, 0x0000_0000, 0x0000_0000),
            // What cancels exactly is +0.
            ("sub", 0x3F80_0000, 0x3F80_0000, 0x0000_0000),
            ("add", 0xBF80_0000, 0x3F80_0000, 0x0000_0000),
            ("add", 0x8000_0000, 0x3F80_0000, 0x3F80_0000),
            ("mul", 0x8000_0000, 0x3F80_0000, 0x8000_0000),
            ("mul", 0x8000_0000, 0xBF80_0000, 0x0000_0000),
            ("div", 0x8000_0000, 0x3F80_0000, 0x8000_0000),
            ("div", 0x3F80_0000, 0xFF80_0000, 0x8000_0000),
            ("div", 0xBF80_0000, 0xFF80_0000, 0x0000_0000),
        ],
    );
    hold(
        DOUBLE,
        &[
            ("add", 0x8000_0000_0000_0000, 0x8000_0000_0000_0000, 0x8000_0000_0000_0000),
            ("sub", 0x3FF0_0000_0000_0000, 0x3FF0_0000_0000_0000, 0x0000_0000_0000_0000),
            ("sub", 0x8000_0000_0000_0000, 0x8000_0000_0000_0000, 0x0000_0000_0000_0000),
            ("mul", 0x8000_0000_0000_0000, 0x3FF0_0000_0000_0000, 0x8000_0000_0000_0000),
            ("div", 0x3FF0_0000_0000_0000, 0xFFF0_0000_0000_0000, 0x8000_0000_0000_0000),
        ],
    );
}

#[test]
fn infinities_and_division_by_zero() {
    hold(
        SINGLE,
        &[
            ("add", 0x7F80_0000, 0x7F80_0000, 0x7F80_0000),
            ("add", 0x7F80_0000, 0xFF7F_FFFF, 0x7F80_0000),
            ("sub", 0x3F80_0000, 0x7F80_0000, 0xFF80_0000),
            ("sub", 0x7F80_0000, 0xFF80_0000, 0x7F80_0000),
            ("mul", 0x7F80_0000, 0x8000_0001, 0xFF80_0000),
            ("div", 0xFF80_0000, 0x8000_0001, 0x7F80_0000),
            ("div", 0x3F80_0000, 0x0000_0000, 0x7F80_0000),
            ("div", 0x3F80_0000, 0x8000_0000, 0xFF80_0000),
            ("div", 0xBF80_0000, 0x0000_0000, 0xFF80_0000),
            ("div", 0xBF80_0000, 0x8000_0000, 0x7F80_0000),
            ("div", 0x7F80_0000, 0x8000_0000, 0xFF80_0000),
        ],
    );
    hold(
        DOUBLE,
        &[
            ("div", 0x3FF0_0000_0000_0000, 0x0000_0000_0000_0000, 0x7FF0_0000_0000_0000),
            ("div", 0x3FF0_0000_0000_0000, 0x8000_0000_0000_0000, 0xFFF0_0000_0000_0000),
            ("sub", 0x3FF0_0000_0000_0000, 0x7FF0_0000_0000_0000, 0xFFF0_0000_0000_0000),
        ],
    );
}

/// Every NaN result is the positive canonical one, whatever came in.
#[test]
fn nans() {
    let no_value = [
        ("sub", 0x7F80_0000, 0x7F80_0000),
        ("add", 0xFF80_0000, 0x7F80_0000),
        ("mul", 0x0000_0000, 0x7F80_0000),
        ("mul", 0xFF80_0000, 0x8000_0000),
        ("div", 0x0000_0000, 0x0000_0000),
        ("div", 0x8000_0000, 0x0000_0000),
        ("div", 0x7F80_0000, 0xFF80_0000),
        ("add", 0x7F80_0001, 0x0000_0000),
        ("sub", 0xFFC0_0001, 0x0000_0000),
        ("mul", 0x3F80_0000, 0xFF80_0001),
        ("div", 0xFFFF_FFFF, 0x7FFF_FFFF),
    ];
    hold(SINGLE, &no_value.map(|(operation, a, b)| (operation, a, b, 0x7FC0_0000)));
    let infinity = 0x7FF0_0000_0000_0000;
    let no_value = [
        ("sub", infinity, infinity),
        ("mul", infinity, 0),
        ("div", 0, 0),
        ("div", infinity, infinity),
        ("add", infinity + 1, 0),
        ("sub", 0, 0xFFF8_0000_0000_0001),
    ];
    hold(DOUBLE, &no_value.map(|(operation, a, b)| (operation, a, b, 0x7FF8_0000_0000_0000)));
}

#[test]
fn neg_turns_the_sign_bit() {
    for bits in [0, 1, 0x3F80_0000, 0x7F80_0000, 0x7F80_0001, 0x7FC0_0001, 0x7FFF_FFFF] {
        assert_eq!(SINGLE.neg(bits), 0x8000_0000 + bits);
        assert_eq!(SINGLE.neg(0x8000_0000 + bits), bits);
    }
    for bits in [0, 0x7FF0_0000_0000_0001, 0x7FF8_0000_0000_0000] {
        assert_eq!(DOUBLE.neg(bits), 0x8000_0000_0000_0000 + bits);
        assert_eq!(DOUBLE.neg(0x8000_0000_0000_0000 + bits), bits);
    }
}

#[test]
fn orders() {
    let rising =
        [0xFF80_0000, 0xFF7F_FFFF, 0xBF80_0000, 0x8000_0001, 0, 1, 0x3F80_0000, 0x7F80_0000];
    for (index, &left) in rising.iter().enumerate() {
        for (other, &right) in rising.iter().enumerate() {
            assert_eq!(SINGLE.compare(left, right), Some(index.cmp(&other)));
        }
    }
    assert_eq!(SINGLE.compare(0x8000_0000, 0), Some(Ordering::Equal));
    for nan in [0x7F80_0001, 0x7FC0_0000, 0xFFC0_0001] {
        assert_eq!(SINGLE.compare(nan, 0), None);
        assert_eq!(SINGLE.compare(nan, nan), None);
    }
    assert_eq!(DOUBLE.compare(0x8000_0000_0000_0000, 0), Some(Ordering::Equal));
    assert_eq!(DOUBLE.compare(0xBFF0_0000_0000_0000, 1), Some(Ordering::Less));
    assert_eq!(DOUBLE.compare(0x7FF8_0000_0000_0000, 0x7FF8_0000_0000_0000), None);
}

/// More than every edge with every edge.
const PAIRS: usize = 100_000;

/// The processor's result, where a NaN has its canonical pattern.
fn of_processor_32(operation: &str, left: u64, right: u64) -> u64 {
    let (left, right) = (f32::from_bits(left as u32), f32::from_bits(right as u32));
    let result = match operation {
        "add" => left + right,
        "sub" => left - right,
        "mul" => left * right,
        _ => left / right,
    };
    if result.is_nan() {
        return SINGLE.canonical_nan();
    }
    u64::from(result.to_bits())
}

fn of_processor_64(operation: &str, left: u64, right: u64) -> u64 {
    let (left, right) = (f64::from_bits(left), f64::from_bits(right));
    let result = match operation {
        "add" => left + right,
        "sub" => left - right,
        "mul" => left * right,
        _ => left / right,
    };
    if result.is_nan() {
        return DOUBLE.canonical_nan();
    }
    result.to_bits()
}

#[test]
fn the_processor_agrees() {
    for (format, of_processor) in
        [(SINGLE, of_processor_32 as fn(&str, u64, u64) -> u64), (DOUBLE, of_processor_64)]
    {
        for operation in ["add", "sub", "mul", "div"] {
            for (left, right) in pairs(operation.len() as u64 + 1, format, PAIRS) {
                let own = done(format, operation, left, right);
                let other = of_processor(operation, left, right);
                assert_eq!(own, other, "{left:x} {operation} {right:x}: {own:x}, not {other:x}");
            }
        }
    }
}

#[test]
fn the_processor_agrees_on_orders() {
    for (left, right) in pairs(2, SINGLE, PAIRS) {
        let of_processor = f32::from_bits(left as u32).partial_cmp(&f32::from_bits(right as u32));
        assert_eq!(SINGLE.compare(left, right), of_processor, "{left:x} {right:x}");
    }
    for (left, right) in pairs(2, DOUBLE, PAIRS) {
        let of_processor = f64::from_bits(left).partial_cmp(&f64::from_bits(right));
        assert_eq!(DOUBLE.compare(left, right), of_processor, "{left:x} {right:x}");
    }
}

/// The pairs meet what they are for: of each operation's results, many that are
/// subnormal, infinite by overflow, exact zeros by cancelling, NaNs.
#[test]
fn the_pairs_reach_every_kind_of_result() {
    for format in [SINGLE, DOUBLE] {
        assert!(edges(format).len().pow(2) < PAIRS / 10);
        let lead = 1 << format.fraction_bits;
        let infinity = format.canonical_nan() - lead / 2;
        let finite = |bits: u64| bits % (infinity + lead) < infinity;
        for operation in ["add", "sub", "mul", "div"] {
            let of_finite: Vec<u64> = pairs(3, format, PAIRS)
                .filter(|&(left, right)| finite(left) && finite(right))
                .map(|(left, right)| done(format, operation, left, right) % (infinity + lead))
                .collect();
            let subnormal = of_finite.iter().filter(|&&bits| 0 < bits && bits < lead).count();
            let infinite = of_finite.iter().filter(|&&bits| bits == infinity).count();
            let zero = of_finite.iter().filter(|&&bits| bits == 0).count();
            for (count, kind) in [(subnormal, "subnormal"), (infinite, "infinite"), (zero, "zero")]
            {
                assert!(count >= 100, "{operation} at {format:?}: {kind} only {count} times");
            }
        }
    }
}
