//! Requests and answers in lines, as docs/LAYOUT.md has them.

use crate::body::judge_body;
use crate::machine::{trial_run, Outcome, Run};
use crate::refusal::{Input, Refusal};
use crate::section::{definition_bytes, judge_section, EMPTY_LIBRARY};
use crate::state::{BlockKind, Object, OpenBlock, Value};
use crate::syntax::{Form, Type};
use std::fmt;

/// Why a line is no request.
type Why = &'static str;

/// The sections and what is asked of them.
#[derive(Clone, Debug, PartialEq, Eq)]
pub struct Request {
    /// None where the request has no word for it: then it is the empty one, and no answer
    /// says in which section something lies.
    pub library: Option<Vec<u8>>,
    pub section: Vec<u8>,
    pub asked: Asked,
}

#[derive(Clone, Debug, PartialEq, Eq)]
pub enum Asked {
    Section,
    TypeBytes(u32),
    Body(u32, Vec<u8>),
    Run(u32, Vec<u8>, u64),
}

impl Request {
    pub fn library(&self) -> &[u8] {
        self.library.as_deref().unwrap_or(EMPTY_LIBRARY)
    }

    /// The function's number and the body, where there is one.
    pub fn body(&self) -> Option<(u32, &[u8])> {
        match &self.asked {
            Asked::Section | Asked::TypeBytes(_) => None,
            Asked::Body(number, body) | Asked::Run(number, body, _) => Some((*number, body)),
        }
    }

    /// What an answer says about a section, where the request has a library.
    fn word(&self, input: Option<Input>) -> &'static str {
        match (&self.library, input) {
            (Some(_), Some(Input::Library)) => " library",
            (Some(_), Some(Input::Addon)) => " addon",
            _ => "",
        }
    }
}

/// The request as a line.
impl fmt::Display for Request {
    fn fmt(&self, to: &mut fmt::Formatter) -> fmt::Result {
        let library = self.library.as_ref().map_or(String::new(), |library| hex(library) + " ");
        let sections = library + &hex(&self.section);
        match &self.asked {
            Asked::Section => write!(to, "S {sections}"),
            Asked::TypeBytes(number) => write!(to, "T {sections} {number}"),
            Asked::Body(number, body) => write!(to, "B {sections} {number} {}", hex(body)),
            Asked::Run(number, body, budget) => {
                write!(to, "R {sections} {number} {} {budget}", hex(body))
            }
        }
    }
}

pub fn answer(line: &str) -> String {
    match read_request(line) {
        Ok(request) => answer_request(&request),
        Err(why) => format!("error {why}"),
    }
}

pub fn read_request(line: &str) -> Result<Request, Why> {
    let parts: Vec<&str> = line.split(' ').collect();
    match parts[..] {
        ["S", ref sections @ ..] => about(sections, Asked::Section),
        ["T", ref sections @ .., number] => {
            about(sections, Asked::TypeBytes(read_type_number(number)?))
        }
        ["B", ref sections @ .., number, body] => {
            about(sections, Asked::Body(read_type_number(number)?, read_bytes(body)?))
        }
        ["R", ref sections @ .., number, body, budget] => {
            let (number, body) = (read_type_number(number)?, read_bytes(body)?);
            about(sections, Asked::Run(number, body, read_number(budget)?))
        }
        _ => Err(NO_REQUEST),
    }
}

const NO_REQUEST: Why = "not a request";

/// The add-on's section, with a library before it or none.
fn about(sections: &[&str], asked: Asked) -> Result<Request, Why> {
    let (library, section) = match *sections {
        [section] => (None, section),
        [library, section] => (Some(read_bytes(library)?), section),
        _ => return Err(NO_REQUEST),
    };
    Ok(Request { library, section: read_bytes(section)?, asked })
}

pub fn read_bytes(text: &str) -> Result<Vec<u8>, Why> {
    if text == "-" {
        return Ok(Vec::new());
    }
    if text.is_empty() || !text.len().is_multiple_of(2) {
        return Err("bytes are pairs of hex digits, or -");
    }
    let digit = |digit: u8| char::from(digit).to_digit(16);
    let byte = |pair: &[u8]| Some((digit(pair[0])? * 16 + digit(pair[1])?) as u8);
    let bytes: Option<Vec<u8>> = text.as_bytes().chunks(2).map(byte).collect();
    bytes.ok_or("bytes are pairs of hex digits, or -")
}

fn read_type_number(text: &str) -> Result<u32, Why> {
    u32::try_from(read_number(text)?).map_err(|_| "a type number is below 2 to the 32")
}

fn read_number(text: &str) -> Result<u64, Why> {
    let all_digits = !text.is_empty() && text.bytes().all(|digit| digit.is_ascii_digit());
    if !all_digits {
        return Err("a number is decimal digits");
    }
    text.parse().map_err(|_| "a number is below 2 to the 64")
}

pub fn answer_request(request: &Request) -> String {
    judge_request(request).unwrap_or_else(|Refusal { number, place, input }| {
        format!("no {number} {place}{}", request.word(input))
    })
}

/// What is answered where nothing is refused.
pub fn judge_request(request: &Request) -> Result<String, Refusal> {
    let (library, section) = (request.library(), &request.section[..]);
    match &request.asked {
        Asked::Section => {
            judge_section(library, section).map(|types| accepted_section(request, &types))
        }
        Asked::TypeBytes(number) => definition_bytes(library, section, *number)
            .map(|(bytes, input)| format!("yes {}{}", hex(bytes), request.word(Some(input)))),
        Asked::Body(number, body) => judge_body(library, section, *number, body)
            .map(|body| format!("yes {}", body.code.len())),
        Asked::Run(number, body, budget) => {
            trial_run(library, section, *number, body, *budget).map(|run| ended_run(&run))
        }
    }
}

/// Bytes in lower case; none at all is `-`.
pub fn hex(bytes: &[u8]) -> String {
    if bytes.is_empty() {
        return "-".to_string();
    }
    let digit = |half: u8| char::from(b"0123456789abcdef"[usize::from(half)]);
    bytes.iter().flat_map(|byte| [digit(byte >> 4), digit(byte & 0x0F)]).collect()
}

fn joined<T>(items: &[T], separator: &str, write: impl Fn(&T) -> String) -> String {
    items.iter().map(write).collect::<Vec<_>>().join(separator)
}

fn accepted_section(request: &Request, types: &[Type]) -> String {
    if types.is_empty() {
        return "yes 0".to_string();
    }
    let row = |found: &Type| format!("{}{}", row(found), request.word(Some(found.input)));
    format!("yes {} {}", types.len(), joined(types, ";", row))
}

fn row(found: &Type) -> String {
    let definition = &found.definition;
    let form = match definition.form {
        Form::Struct(_) => "struct",
        Form::Function { .. } => "func",
    };
    let openness = if definition.open { "open" } else { "final" };
    format!(
        "{form} {openness} super={} describes={} descriptor={} {}..{}",
        number_or_none(definition.supertype()),
        number_or_none(definition.describes),
        number_or_none(definition.descriptor),
        found.start,
        found.end
    )
}

fn number_or_none<T: ToString>(number: Option<T>) -> String {
    number.map_or("-".to_string(), |number| number.to_string())
}

fn ended_run(run: &Run) -> String {
    let steps = run.steps;
    let state = state(run);
    match run.outcome {
        Outcome::Done => format!("done {steps} [{}] | {state}", values(&run.state.operands)),
        Outcome::Trap(code) => format!("trap {code} {} {steps} | {state}", run.place),
        Outcome::Spent => format!("spent {steps} | {state}"),
    }
}

fn state(run: &Run) -> String {
    let state = &run.state;
    let objects: Vec<(usize, &Object)> = state.heap.iter().enumerate().collect();
    format!(
        "place={} heap=[{}] locals=[{}] operands=[{}] blocks=[{}]",
        run.place,
        joined(&objects, ";", |(number, object)| object_text(*number, object)),
        joined(&state.locals, ",", |local| local.map_or("unset".to_string(), value)),
        values(&state.operands),
        joined(&state.blocks, ";", |block| block_text(run, block))
    )
}

fn object_text(number: usize, object: &Object) -> String {
    format!(
        "{number}:type={},desc={},fields=({})",
        object.type_number,
        number_or_none(object.descriptor),
        values(&object.fields)
    )
}

fn values(values: &[Value]) -> String {
    joined(values, ",", |&one| value(one))
}

fn value(value: Value) -> String {
    match value {
        Value::I32(number) => format!("i32:{number}"),
        Value::I64(number) => format!("i64:{number}"),
        Value::F32(bits) => format!("f32:{bits:08x}"),
        Value::F64(bits) => format!("f64:{bits:016x}"),
        Value::Null => "null".to_string(),
        Value::Object(number) => format!("obj:{number}"),
    }
}

fn block_text(run: &Run, block: &OpenBlock) -> String {
    let kind = match block.kind {
        BlockKind::Block => "block",
        BlockKind::Loop => "loop",
    };
    format!("{kind}@{}:height={}", run.code[block.opened_by].place, block.height)
}
