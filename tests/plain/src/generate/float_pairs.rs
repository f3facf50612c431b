//! Patterns of floats where operations change their ways, and pairs of patterns to do
//! them on: of these and of random ones, many close together.

use super::random::Random;
use crate::float::Format;

/// Each with either sign: zero, the least, both sides of the least normal one, one and
/// its neighbours, small whole numbers, where the last digit is worth one, the greatest
/// and half a unit beyond it, infinity, and NaNs, canonical, with payload, signalling.
pub fn edges(format: Format) -> Vec<u64> {
    let lead = 1u64 << format.fraction_bits;
    let field = |exponent: i64| (exponent as u64) * lead;
    let bias = (1i64 << (format.exponent_bits - 1)) - 1;
    let digits = i64::from(format.fraction_bits);
    let one = field(bias);
    let infinity = field(2 * bias + 1);
    let half = lead / 2;
    let near_zero = [0, 1, 2, 3, half, lead - 2, lead - 1, lead, lead + 1, lead + 3, 2 * lead];
    let near_one = [
        one - lead,
        one - 1,
        one,
        one + 1,
        one + 2,
        one + lead - 1,
        one + lead,
        one + lead * 3 / 2,
    ];
    let near_last_digit = [
        field(bias - digits - 2),
        field(bias - digits - 1),
        field(bias - digits - 1) + 1,
        field(bias - digits),
        field(bias + digits),
        field(bias + digits + 1) - 1,
        field(bias + digits + 1),
    ];
    let near_greatest = [
        field(2 * bias - digits - 1) - 1,
        field(2 * bias - digits - 1),
        field(2 * bias - digits),
        infinity - lead,
        infinity - 2,
        infinity - 1,
        infinity,
    ];
    let numbers = near_zero.into_iter().chain(near_one).chain(near_last_digit).chain(near_greatest);
    with_signs(format, numbers).chain(nans(format)).collect()
}

/// Canonical, with payload, signalling.
pub fn nans(format: Format) -> Vec<u64> {
    let quiet = format.canonical_nan();
    let payload = 1u64 << (format.fraction_bits - 1);
    let magnitudes = [quiet - payload + 1, quiet - 1, quiet, quiet + 1, quiet + payload - 1];
    with_signs(format, magnitudes.into_iter()).collect()
}

fn with_signs(format: Format, magnitudes: impl Iterator<Item = u64>) -> impl Iterator<Item = u64> {
    magnitudes.flat_map(move |magnitude| [magnitude, format.neg(magnitude)])
}

/// Every edge with every edge, then random ones: the same seed gives the same pairs.
pub fn pairs(seed: u64, format: Format, count: usize) -> impl Iterator<Item = (u64, u64)> {
    let edges = edges(format);
    let mut random = Random::new(seed);
    (0..count).map(move |index| match edges.get(index / edges.len()) {
        Some(&edge) => (edge, edges[index % edges.len()]),
        None => random_pair(&mut random, format, &edges),
    })
}

/// The second of a pair often lies near the first, so that digits cancel or are just lost.
pub fn random_pair(random: &mut Random, format: Format, edges: &[u64]) -> (u64, u64) {
    let first = random_pattern(random, format, edges);
    let other = random_pattern(random, format, edges);
    let lead = 1u64 << format.fraction_bits;
    let second = match random.below(6) {
        0 => first.wrapping_add(random.below(9) as u64).wrapping_sub(4),
        1 | 2 => {
            let reach = 2 * format.fraction_bits as usize + 6;
            let apart = (random.below(reach) as u64).wrapping_sub(reach as u64 / 2);
            (first - first % lead).wrapping_add(apart.wrapping_mul(lead)) + other % lead
        }
        _ => other,
    };
    let turned = if random.one_in(2) { format.neg(second) } else { second };
    let second = turned & format.all_bits();
    if random.one_in(2) {
        (first, second)
    } else {
        (second, first)
    }
}

/// Any bits; an edge; few digits of the fraction, so that ties are met.
pub fn random_pattern(random: &mut Random, format: Format, edges: &[u64]) -> u64 {
    let bits = random.draw() & format.all_bits();
    match random.below(6) {
        0 => random.pick(edges),
        1 | 2 => {
            let kept = random.below(format.fraction_bits as usize) as u32;
            bits >> kept << kept
        }
        3 => bits | ((1 << random.below(format.fraction_bits as usize)) - 1),
        _ => bits,
    }
}
