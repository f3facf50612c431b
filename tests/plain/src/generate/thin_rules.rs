//! Shapes of type rules: counts of functions, and rules 4 and 5 over several types.

use super::encode::Group;
use super::random::Random;
use super::thin::{about_section, alone, open_function, open_struct, section_of};
use super::value_types::{narrower, random_value_type, wider};
use crate::syntax::{Definition, ValueType};

/// A function below another: of its counts, of one more or less, or with an entry on
/// the other side, so that only the sum is the same.
pub fn counts_of_a_supertype(random: &mut Random) -> String {
    let before = random.below(3);
    let upper_in = values(random);
    let upper_out = values(random);
    let mut lower_in: Vec<ValueType> = upper_in.iter().map(|&v| wider(random, &[], v)).collect();
    let mut lower_out: Vec<ValueType> =
        upper_out.iter().map(|&v| narrower(random, &[], v)).collect();
    let extra = random_value_type(random, &[]);
    match random.below(10) {
        0 => lower_in.push(extra),
        1 => lower_in.insert(0, extra),
        2 => drop(lower_in.pop()),
        3 => lower_out.push(extra),
        4 => lower_out.insert(0, extra),
        5 => drop(lower_out.pop()),
        6 => lower_out.extend(lower_in.pop()),
        7 => lower_in.extend(lower_out.pop()),
        _ => (),
    }
    let mut types = vec![open_struct(None); before];
    types.push(open_function(upper_in, upper_out));
    let supertypes = vec![before as u32];
    types.push(Definition { supertypes, ..open_function(lower_in, lower_out) });
    let count = types.len();
    let section = section_of(random, &alone(types));
    about_section(random, &section, count)
}

fn values(random: &mut Random) -> Vec<ValueType> {
    (0..random.below(4)).map(|_| random_value_type(random, &[])).collect()
}

/// A type and its descriptor, from this number on, each below what is given.
fn pair(first: u32, above: Option<u32>, descriptor_above: Option<u32>) -> Vec<Definition> {
    vec![
        Definition { descriptor: Some(first + 1), ..open_struct(above) },
        Definition { describes: Some(first), ..open_struct(descriptor_above) },
    ]
}

/// Types that stand after a pair and a struct, which have the numbers 0, 1 and 2.
type Piece = fn(&mut Random, u32) -> Vec<Definition>;

fn sound(random: &mut Random, first: u32) -> Vec<Definition> {
    match random.below(3) {
        0 => pair(first, Some(0), Some(1)),
        1 => pair(first, Some(2), None),
        _ => vec![open_struct(Some(2))],
    }
}

fn against_rule_4(random: &mut Random, first: u32) -> Vec<Definition> {
    match random.below(4) {
        0 => pair(first, Some(0), None),
        1 => pair(first, Some(0), Some(2)),
        _ => vec![open_struct(Some(0))],
    }
}

fn against_rule_5(random: &mut Random, first: u32) -> Vec<Definition> {
    match random.below(5) {
        0 => pair(first, None, Some(1)),
        1 => pair(first, Some(2), Some(1)),
        2 => pair(first, None, Some(2)),
        _ => vec![open_struct(Some(1))],
    }
}

/// Refused by 13 at an earlier type than by 12, the other way round, or by neither.
pub fn rule_5_before_rule_4(random: &mut Random) -> String {
    let pieces: &[Piece] = match random.below(8) {
        0..=2 => &[against_rule_5, against_rule_4],
        3 => &[against_rule_5, sound, against_rule_4],
        4 => &[against_rule_4, against_rule_5],
        5 => &[sound, against_rule_4, sound, against_rule_5],
        _ => &[sound, sound],
    };
    let mut groups = vec![pair(0, None, None), vec![open_struct(None)]];
    let mut count = 3;
    for piece in pieces {
        let types = piece(random, count as u32);
        count += types.len();
        groups.push(types);
    }
    if random.one_in(2) {
        groups = vec![groups.concat()];
    }
    let groups: Vec<Group> =
        groups.into_iter().map(|definitions| Group { alone: true, definitions }).collect();
    let section = section_of(random, &groups);
    about_section(random, &section, count)
}

/// Where the three types and then their descriptors stand: a type before its own
/// descriptor, and each of a chain before the next.
const PLACES: [([usize; 3], [usize; 3]); 4] = [
    ([0, 2, 4], [1, 3, 5]),
    ([0, 1, 2], [3, 4, 5]),
    ([0, 1, 4], [2, 3, 5]),
    ([0, 2, 3], [1, 4, 5]),
];

/// A chain of three with descriptors: whole, or with a descriptor missing or below
/// another than its own type's supertype has.
pub fn rule_4_through_two(random: &mut Random) -> String {
    let (x, y) = random.pick(&PLACES);
    let mut types = vec![open_struct(None); 6];
    for step in 0..3 {
        types[x[step]].descriptor = Some(y[step] as u32);
        types[y[step]].describes = Some(x[step] as u32);
    }
    for step in 1..3 {
        types[x[step]].supertypes = vec![x[step - 1] as u32];
        types[y[step]].supertypes = vec![y[step - 1] as u32];
    }
    let mut without = |step: usize| {
        types[x[step]].descriptor = None;
        types[y[step]].describes = None;
    };
    match random.below(12) {
        0 => without(2),
        1 => {
            without(2);
            types[y[2]].supertypes.clear();
        }
        2 => types[y[2]].supertypes = vec![y[0] as u32],
        3 => types[y[2]].supertypes.clear(),
        4 => types[x[2]].supertypes = vec![x[0] as u32],
        5 => {
            types[x[2]].supertypes = vec![x[0] as u32];
            types[y[2]].supertypes = vec![y[0] as u32];
        }
        6 => {
            without(0);
            types[y[1]].supertypes.clear();
        }
        7 => without(1),
        _ => (),
    }
    let groups = [Group { alone: false, definitions: types }];
    let section = section_of(random, &groups);
    about_section(random, &section, 6)
}
