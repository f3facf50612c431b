//! Requests of shapes that random trees hardly ever have. Each function makes one
//! shape, accepted or just refused.

use super::encode::{Group, Writer};
use super::random::Random;
use super::thin_high::{high_numbers, high_places};
use super::thin_lists::{last_field, parameters_and_results};
use super::thin_rules::{counts_of_a_supertype, rule_4_through_two, rule_5_before_rule_4};
use crate::lines::hex;
use crate::syntax::{Definition, Form, Instruction, ValueType};

/// The last six of these are never small.
pub fn thin_request(random: &mut Random, small: bool) -> String {
    match random.below(if small { 6 } else { 12 }) {
        0 | 1 => counts_of_a_supertype(random),
        2 => rule_5_before_rule_4(random),
        3 => rule_4_through_two(random),
        4 => parameters_and_results(random, small),
        5 => last_field(random, small),
        6..=9 => high_numbers(random),
        _ => high_places(random),
    }
}

/// An open struct without fields and clauses.
pub fn open_struct(supertype: Option<u32>) -> Definition {
    Definition {
        open: true,
        supertypes: supertype.into_iter().collect(),
        describes: None,
        descriptor: None,
        form: Form::Struct(Vec::new()),
    }
}

pub fn open_function(parameters: Vec<ValueType>, results: Vec<ValueType>) -> Definition {
    Definition { form: Form::Function { parameters, results }, ..open_struct(None) }
}

/// Definitions one by one, each a group of its own.
pub fn alone(definitions: Vec<Definition>) -> Vec<Group> {
    let group = |definition| Group { alone: true, definitions: vec![definition] };
    definitions.into_iter().map(group).collect()
}

pub fn section_of(random: &mut Random, groups: &[Group]) -> Vec<u8> {
    let mut writer = Writer::new(random);
    writer.section(groups);
    writer.bytes
}

pub fn body_of(random: &mut Random, locals: &[ValueType], code: &[Instruction]) -> Vec<u8> {
    let mut writer = Writer::new(random);
    writer.locals(locals);
    code.iter().for_each(|instruction| writer.instruction(instruction));
    writer.bytes
}

/// The section judged, or asked for one of the last of its types or the first absent.
pub fn about_section(random: &mut Random, section: &[u8], count: usize) -> String {
    if random.one_in(4) {
        let number = (count + 1).saturating_sub(random.between(1, 3));
        return format!("T {} {number}", hex(section));
    }
    format!("S {}", hex(section))
}

/// The body judged or run to its end or nearly so.
pub fn about_body(random: &mut Random, section: &[u8], function: usize, body: &[u8]) -> String {
    let (section, body) = (hex(section), hex(body));
    if random.one_in(3) {
        return format!("B {section} {function} {body}");
    }
    let budget = random.pick(&[1000, 1000, 1000, 64, 9, 4]);
    format!("R {section} {function} {body} {budget}")
}
