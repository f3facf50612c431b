//! The shapes of tests/thin.rs come up among generated requests, on both sides: told
//! from the requests and their answers alone.

use plain::generate::requests;
use plain::instruction_reader::{read_instruction, read_locals_entry};
use plain::lines::{answer_request, read_request};
use plain::number::Reader;
use plain::refusal::{Input, Refusal};
use plain::section_reader::read_section;
use plain::sizes;
use plain::syntax::{Form, Instruction, Type};

const COUNT: usize = 30_000;
const LEAST: usize = 10;

/// A request whose sections can be read, with its answer.
struct Asked {
    /// The library's and then the add-on's.
    types: Vec<Type>,
    code: Vec<Instruction>,
    answer: String,
}

impl Asked {
    fn of(request: &str) -> Option<Asked> {
        let request = read_request(request).ok()?;
        let mut types = Vec::new();
        read_section(&mut types, Input::Library, request.library()).ok()?;
        read_section(&mut types, Input::Addon, &request.section).ok()?;
        let mut code = Vec::new();
        if let Some((_, body)) = request.body() {
            // What cannot be read ends the list.
            let _ = read_code(body, &mut code);
        }
        Some(Asked { types, code, answer: answer_request(&request) })
    }

    fn refused(&self) -> bool {
        self.answer.starts_with("no ")
    }

    /// The refusal's place, where this is its number.
    fn place_of(&self, number: usize) -> Option<usize> {
        self.answer.strip_prefix(&format!("no {number} "))?.parse().ok()
    }

    fn supertype(&self, number: usize) -> Option<usize> {
        self.types[number].definition.supertype().map(|supertype| supertype as usize)
    }

    fn descriptor(&self, number: usize) -> Option<usize> {
        self.types[number].definition.descriptor.map(|descriptor| descriptor as usize)
    }

    fn any_type(&self, shape: impl Fn(usize) -> bool) -> bool {
        (0..self.types.len()).any(shape)
    }

    /// The counts of a function's lists.
    fn counts(&self, number: usize) -> Option<(usize, usize)> {
        match &self.types.get(number)?.definition.form {
            Form::Function { parameters, results } => Some((parameters.len(), results.len())),
            Form::Struct(_) => None,
        }
    }
}

fn read_code(body: &[u8], code: &mut Vec<Instruction>) -> Result<(), Refusal> {
    let mut reader = Reader::new(body);
    for _ in 0..reader.u32()? {
        read_locals_entry(&mut reader)?;
    }
    loop {
        code.push(read_instruction(&mut reader)?.instruction);
    }
}

/// A shape, and how it is told.
type Shape = (&'static str, fn(&Asked) -> bool);

fn ends_high(asked: &Asked) -> bool {
    asked.types.last().is_some_and(|last| last.end > 16_383)
}

fn over_100(asked: &Asked) -> bool {
    asked.any_type(|n| asked.counts(n).is_some_and(|(ins, outs)| ins + outs > 100))
}

/// A struct with as many fields as there can be, and a descriptor.
fn full_with_descriptor(asked: &Asked, number: u32) -> bool {
    asked.types.get(number as usize).is_some_and(|found| {
        let fields = found.definition.fields().map_or(0, <[_]>::len);
        fields == sizes::ENTRIES && found.definition.descriptor.is_some()
    })
}

fn last_field_read(asked: &Asked) -> bool {
    asked.code.iter().any(|instruction| match *instruction {
        Instruction::StructGet(number, 63) => full_with_descriptor(asked, number),
        _ => false,
    })
}

fn last_field_set(asked: &Asked) -> bool {
    asked.code.iter().any(|instruction| match *instruction {
        Instruction::StructSet(number, 63) => full_with_descriptor(asked, number),
        _ => false,
    })
}

/// A type near these names one of them; if it is refused, then for reach.
fn names_near(asked: &Asked, near: std::ops::RangeInclusive<u32>) -> bool {
    let names = |n: usize| asked.types[n].definition.numbers().iter().any(|m| near.contains(m));
    let reached = !asked.refused() || asked.place_of(6).is_some();
    reached && asked.types.len() > 190 && asked.any_type(names)
}

fn body_names_near(asked: &Asked, near: std::ops::RangeInclusive<u32>) -> bool {
    let reached = !asked.refused() || asked.place_of(6).is_some();
    let names = |instruction: &Instruction| match *instruction {
        Instruction::StructNewDefault(number) => near.contains(&number),
        Instruction::RefNull(heap) => heap.number().is_some_and(|n| near.contains(&n)),
        _ => false,
    };
    reached && asked.types.len() > 190 && asked.code.iter().any(names)
}

/// A function below a function, accepted with its counts or refused for other ones.
fn counts_and_supertype(asked: &Asked) -> bool {
    asked.any_type(|n| {
        let above = asked.supertype(n).and_then(|above| asked.counts(above));
        let (Some(own), Some(above)) = (asked.counts(n), above) else {
            return false;
        };
        (own != above) == asked.refused() && (own == above || asked.place_of(8) == Some(n))
    })
}

/// Of those refused: the counts differ and their sums do not.
fn sums_of_counts(asked: &Asked) -> bool {
    asked.any_type(|n| {
        let above = asked.supertype(n).and_then(|above| asked.counts(above));
        match (asked.counts(n), above) {
            (Some(own), Some(above)) => own != above && own.0 + own.1 == above.0 + above.1,
            _ => false,
        }
    })
}

fn against_rule_4(asked: &Asked, number: usize) -> bool {
    let above = asked.supertype(number).and_then(|above| asked.descriptor(above));
    let own = asked.descriptor(number).and_then(|own| asked.supertype(own));
    above.is_some() && own != above
}

fn rule_5_before_rule_4(asked: &Asked) -> bool {
    let place = asked.place_of(13);
    place.is_some_and(|place| asked.any_type(|n| n > place && against_rule_4(asked, n)))
}

/// Both types above have descriptors; if it is refused, then by rule 4 at this type.
fn rule_4_through_two(asked: &Asked) -> bool {
    asked.any_type(|n| {
        let described = |n: &usize| asked.types.get(*n).is_some() && asked.descriptor(*n).is_some();
        let above = asked.supertype(n).filter(described);
        let two_above = above.and_then(|above| asked.supertype(above)).filter(described);
        two_above.is_some() && (!asked.refused() || asked.place_of(12) == Some(n))
    })
}

const SMALL: [Shape; 5] = [
    ("parameters and results over 100", over_100),
    ("field 63 read", last_field_read),
    ("field 63 set", last_field_set),
    ("counts and a supertype's", counts_and_supertype),
    ("rule 4 through two supertypes", rule_4_through_two),
];

const LARGE: [Shape; 7] = [
    ("an end above 16,383", ends_high),
    ("a type near 200", |asked| names_near(asked, 195..=203)),
    ("a type near 255", |asked| names_near(asked, 250..=256)),
    ("a body and a type near 200", |asked| body_names_near(asked, 195..=203)),
    ("a body and a type near 255", |asked| body_names_near(asked, 250..=256)),
    ("a type near 1,023", |asked| names_near(asked, 1_018..=1_024)),
    ("a body and a type near 1,023", |asked| body_names_near(asked, 1_018..=1_024)),
];

const REFUSED: [Shape; 2] =
    [("counts of the same sum", sums_of_counts), ("13 before 12", rule_5_before_rule_4)];

fn asked(seed: u64, small: bool) -> Vec<Asked> {
    requests(seed, COUNT, small).filter_map(|request| Asked::of(&request)).collect()
}

/// How many are of the shape: accepted and refused.
fn sides(asked: &[Asked], shape: fn(&Asked) -> bool) -> (usize, usize) {
    let of_shape: Vec<&Asked> = asked.iter().filter(|asked| shape(asked)).collect();
    let refused = of_shape.iter().filter(|asked| asked.refused()).count();
    (of_shape.len() - refused, refused)
}

fn on_both_sides(asked: &[Asked], shapes: &[Shape]) {
    for (name, shape) in shapes {
        let (accepted, refused) = sides(asked, *shape);
        println!("{name}: {accepted} accepted, {refused} refused");
        assert!(accepted >= LEAST && refused >= LEAST, "{name}: {accepted} and {refused}");
    }
}

fn all_refused(asked: &[Asked], shapes: &[Shape]) {
    for (name, shape) in shapes {
        let (accepted, refused) = sides(asked, *shape);
        println!("{name}: {refused} refused");
        assert!(accepted == 0 && refused >= LEAST, "{name}: {accepted} and {refused}");
    }
}

#[test]
fn every_shape_comes_up() {
    let asked = asked(21, false);
    on_both_sides(&asked, &SMALL);
    on_both_sides(&asked, &LARGE);
    all_refused(&asked, &REFUSED);
}

#[test]
fn small_requests_have_the_small_shapes_alone() {
    let asked = asked(22, true);
    on_both_sides(&asked, &SMALL);
    all_refused(&asked, &REFUSED);
    for (name, shape) in LARGE {
        assert_eq!(sides(&asked, shape), (0, 0), "{name}");
    }
}
