//! Types of an add-on that stand over those of a library: below them, beside them with
//! clauses that name them, out of their reach. Accepted or refused.

use super::encode::Group;
use super::random::Random;
use super::thin::{open_function, open_struct, section_of};
use crate::lines::{Asked, Request};
use crate::syntax::{Abstract, Definition, Field, Form, Heap, ValueType};

/// The library's types: an open struct with its descriptor, an open struct that has a field
/// of the first, an open function that takes and gives the first, a final struct.
const DESCRIBED: u32 = 0;
const DESCRIPTOR: u32 = 1;
const HOLDER: u32 = 2;
const FUNCTION: u32 = 3;
const FINAL: u32 = 4;
/// The add-on's first type.
const FIRST: u32 = 5;

pub fn across(random: &mut Random) -> Request {
    let mut shared = library();
    let mut own = match random.below(6) {
        0 => below_described(random),
        1 => clauses(random),
        2 => below_holder(random),
        3 => below_function(random),
        4 => reach(random),
        _ => supertypes(random),
    };
    match random.below(12) {
        // The library names the add-on's first type.
        0 => shared[HOLDER as usize].form = one_field(ValueType::nullable(Heap::Defined(FIRST))),
        // A fault of the library that comes before any of the add-on's.
        1 => shared[FINAL as usize].supertypes = vec![DESCRIBED],
        _ => {}
    }
    own.push(open_function(Vec::new(), Vec::new()));
    let count = shared.len() + own.len();
    let (shared, own) = (in_groups(random, shared), in_groups(random, own));
    let (library, section) = (section_of(random, &shared), section_of(random, &own));
    let asked = match random.one_in(4) {
        true => Asked::TypeBytes(random.below(count + 1) as u32),
        false => Asked::Section,
    };
    Request { library: Some(library), section, asked }
}

fn library() -> Vec<Definition> {
    let first = ValueType::nullable(Heap::Defined(DESCRIBED));
    vec![
        Definition { descriptor: Some(DESCRIPTOR), ..open_struct(None) },
        Definition { describes: Some(DESCRIBED), ..open_struct(None) },
        Definition { form: one_field(first), ..open_struct(None) },
        open_function(vec![first], vec![first]),
        Definition { open: false, ..open_struct(None) },
    ]
}

/// The first two together and the others alone, or all in one group.
fn in_groups(random: &mut Random, mut definitions: Vec<Definition>) -> Vec<Group> {
    let first = if random.one_in(2) { 2 } else { definitions.len() };
    let rest = definitions.split_off(first);
    let alone = |definition| Group { alone: true, definitions: vec![definition] };
    let mut groups = vec![Group { alone: false, definitions }];
    groups.extend(rest.into_iter().map(alone));
    groups
}

fn one_field(value: ValueType) -> Form {
    Form::Struct(vec![Field { value, mutable: false }])
}

fn described(above: Option<u32>) -> Definition {
    Definition { descriptor: Some(FIRST + 1), ..open_struct(above) }
}

fn describing(above: Option<u32>) -> Definition {
    Definition { describes: Some(FIRST), ..open_struct(above) }
}

/// Rules 4 and 5, of a pair below the library's or of one type.
fn below_described(random: &mut Random) -> Vec<Definition> {
    match random.below(9) {
        0..=2 => vec![described(Some(DESCRIBED)), describing(Some(DESCRIPTOR))],
        3 => vec![described(Some(DESCRIBED)), describing(None)],
        4 => vec![described(None), describing(Some(DESCRIPTOR))],
        5 => vec![described(Some(DESCRIPTOR)), describing(Some(DESCRIBED))],
        6 => vec![open_struct(Some(DESCRIBED)), open_struct(None)],
        7 => vec![open_struct(Some(DESCRIPTOR)), open_struct(None)],
        _ => vec![described(None), describing(None)],
    }
}

/// Clauses that name the library's types, themselves, or what comes after.
fn clauses(random: &mut Random) -> Vec<Definition> {
    let number = random.pick(&[DESCRIBED, DESCRIPTOR, HOLDER, FUNCTION, FINAL, FIRST, FIRST + 1]);
    let mut own = open_struct(None);
    if random.one_in(6) {
        own = open_function(Vec::new(), Vec::new());
    }
    match random.one_in(2) {
        true => own.describes = Some(number),
        false => own.descriptor = Some(number),
    }
    vec![own, open_struct(None)]
}

/// Rule 2 of a field: what may stand for a nullable reference to the library's first type.
fn below_holder(random: &mut Random) -> Vec<Definition> {
    let value = near_first(random);
    let field = Field { value, mutable: random.one_in(8) };
    let below = Definition { form: Form::Struct(vec![field]), ..open_struct(Some(HOLDER)) };
    let mut below_first = vec![described(Some(DESCRIBED)), describing(Some(DESCRIPTOR))];
    below_first.push(below);
    below_first
}

/// Rule 2 of a function: parameters against, results along.
fn below_function(random: &mut Random) -> Vec<Definition> {
    let (parameter, result) = (near_first(random), near_first(random));
    let below = open_function(vec![parameter], vec![result]);
    let below = Definition { supertypes: vec![FUNCTION], ..below };
    vec![described(Some(DESCRIBED)), describing(Some(DESCRIPTOR)), below]
}

/// Types around the library's first: itself, exact, below it in the add-on, above, beside.
fn near_first(random: &mut Random) -> ValueType {
    let heaps = [
        Heap::Defined(DESCRIBED),
        Heap::Exact(DESCRIBED),
        Heap::Defined(FIRST),
        Heap::Exact(FIRST),
        Heap::Abstract(Abstract::Struct),
        Heap::Abstract(Abstract::None),
        Heap::Defined(HOLDER),
    ];
    let heap = random.pick(&heaps);
    match random.one_in(4) {
        true => ValueType::non_null(heap),
        false => ValueType::nullable(heap),
    }
}

/// The last number in reach, or the first that is not.
fn reach(random: &mut Random) -> Vec<Definition> {
    let number = random.pick(&[FIRST - 1, FIRST, FIRST + 1, FIRST + 2, FIRST + 3, u32::MAX]);
    let heap = random.pick(&[Heap::Defined(number), Heap::Exact(number)]);
    let named = ValueType::nullable(heap);
    let namer = match random.one_in(2) {
        true => Definition { form: one_field(named), ..open_struct(None) },
        false => open_function(vec![named], Vec::new()),
    };
    vec![namer, open_struct(None)]
}

/// Rule 1, and rule 2's forms: open or final, earlier or not, one or two.
fn supertypes(random: &mut Random) -> Vec<Definition> {
    let supertypes: &[u32] = match random.below(8) {
        0..=2 => &[HOLDER],
        3 => &[FINAL],
        4 => &[FIRST],
        5 => &[HOLDER, HOLDER],
        6 => &[FUNCTION],
        _ => &[FIRST + 1],
    };
    let form = one_field(ValueType::nullable(Heap::Defined(DESCRIBED)));
    let own = Definition { supertypes: supertypes.to_vec(), form, ..open_struct(None) };
    vec![own, open_struct(None)]
}
