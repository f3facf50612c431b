//! Requests and answers in lines, as docs/LAYOUT.md has them.

use crate::ask::{self, AddOn};
use crate::commands::{input_member, run_members, table_members};
use crate::json::Json;
use crate::sections::Sections;
use crate::{error, hex};
use chelbugan::state::{Block, Object, Value};
use chelbugan::table::Row;
use chelbugan::{Ended, Input, Loader, Refusal, Run, State, Table};

/// Why a line is no request.
type Why = &'static str;

enum Request {
    Section(Sections),
    Type(Sections, u64),
    Body(AddOn),
    Run(AddOn, u64),
}

impl Request {
    /// Where a library was named, answers say in which section bytes lie.
    fn has_library(&self) -> bool {
        match self {
            Request::Section(sections) | Request::Type(sections, _) => sections.has_library(),
            Request::Body(add_on) | Request::Run(add_on, _) => add_on.sections.has_library(),
        }
    }
}

/// With a library for the requests that have none of their own. A line that is no request has an answer too, as an error.
pub fn answer(
    loader: &mut Loader,
    library: &Option<Vec<u8>>,
    line: &[u8],
) -> Result<String, String> {
    match read_request(line, library) {
        Ok(request) => Ok(answer_request(loader, &request)),
        Err(why) => Err(format!("error {why}")),
    }
}

const COMMENT: u8 = b'#';

/// A line up to its comment, without the white space before that. Nothing is left of a blank line.
pub fn without_comment(line: &[u8]) -> &[u8] {
    line.split(|&byte| byte == COMMENT).next().unwrap_or(line).trim_ascii_end()
}

/// The library's section may stand before the add-on's; how many words there are says whether it does.
fn read_request(line: &[u8], library: &Option<Vec<u8>>) -> Result<Request, Why> {
    let line = std::str::from_utf8(line).map_err(|_| "not text")?;
    if line.trim_ascii().is_empty() {
        return Err("a blank line; lines --comments passes over it");
    }
    if line.contains(char::from(COMMENT)) {
        return Err("a comment; lines --comments passes over it");
    }
    let parts: Vec<&str> = line.split(' ').collect();
    let after_section = match parts[0] {
        "S" => 0,
        "T" => 1,
        "B" => 2,
        "R" => 3,
        _ => return Err("not a request"),
    };
    let (sections, rest) = match parts.len().checked_sub(after_section + 1) {
        Some(1) => (Sections::new(library.clone(), read_bytes(parts[1])?), &parts[2..]),
        Some(2) => {
            let own = Some(read_bytes(parts[1])?);
            (Sections::new(own, read_bytes(parts[2])?), &parts[3..])
        }
        _ => return Err("not a request"),
    };
    match *rest {
        [] => Ok(Request::Section(sections)),
        [number] => Ok(Request::Type(sections, read_number(number)?)),
        [number, body] => Ok(Request::Body(read_add_on(sections, number, body)?)),
        [number, body, budget] => {
            Ok(Request::Run(read_add_on(sections, number, body)?, read_number(budget)?))
        }
        _ => Err("not a request"),
    }
}

fn read_add_on(sections: Sections, number: &str, body: &str) -> Result<AddOn, Why> {
    Ok(AddOn { sections, number: read_number(number)?, body: read_bytes(body)? })
}

fn read_bytes(text: &str) -> Result<Vec<u8>, Why> {
    match text {
        "-" => Ok(Vec::new()),
        "" => Err("no bytes at all are written -"),
        _ => hex::read(text),
    }
}

/// Decimal digits alone: no sign, no space.
pub fn read_number(text: &str) -> Result<u64, Why> {
    if text.is_empty() || !text.bytes().all(|digit| digit.is_ascii_digit()) {
        return Err("a number is decimal digits");
    }
    text.parse().map_err(|_| "a number is below 2 to the 64")
}

fn answer_request(loader: &mut Loader, request: &Request) -> String {
    let has_library = request.has_library();
    let answered = match request {
        Request::Section(sections) => {
            ask::section(loader, sections).map(|table| accepted(&table, has_library))
        }
        Request::Type(sections, number) => {
            ask::type_bytes(loader, sections, *number).map(|(bytes, input)| {
                format!("yes {}{}", hex::plain(bytes), word(Some(input), has_library))
            })
        }
        Request::Body(add_on) => ask::body(loader, add_on).map(|count| format!("yes {count}")),
        Request::Run(add_on, budget) => ask::run(loader, add_on, *budget).map(|run| ended(&run)),
    };
    answered.unwrap_or_else(|Refusal { number, place, input }| {
        format!("no {number} {place}{}", word(input, has_library))
    })
}

/// The word at an answer's end that says in which section a place or bytes lie.
fn word(input: Option<Input>, has_library: bool) -> String {
    match input {
        Some(input) if has_library => format!(" {input}"),
        _ => String::new(),
    }
}

/// The same as an object; a refusal has its number, its place and where it lies alone.
pub fn answer_json(
    loader: &mut Loader,
    library: &Option<Vec<u8>>,
    line: &[u8],
) -> Result<Json, Json> {
    let request = read_request(line, library).map_err(error)?;
    let has_library = request.has_library();
    let lies = |input: Option<Input>| input.filter(|_| has_library).map(input_member);
    let yes = |name, value| vec![("answer", "yes".into()), (name, value)];
    let answered = match &request {
        Request::Section(sections) => {
            ask::section(loader, sections).map(|table| table_members(&table, has_library))
        }
        Request::Type(sections, number) => {
            ask::type_bytes(loader, sections, *number).map(|(bytes, input)| {
                let bytes = yes("bytes", hex::plain(bytes).into());
                bytes.into_iter().chain(lies(Some(input))).collect()
            })
        }
        Request::Body(add_on) => {
            ask::body(loader, add_on).map(|count| yes("instructions", count.into()))
        }
        Request::Run(add_on, budget) => {
            ask::run(loader, add_on, *budget).map(|run| run_members(&add_on.body, &run))
        }
    };
    Ok(Json::Object(answered.unwrap_or_else(|Refusal { number, place, input }| {
        let no = [("answer", "no".into()), ("refusal", number.into()), ("place", place.into())];
        no.into_iter().chain(lies(input)).collect()
    })))
}

fn accepted(table: &Table, has_library: bool) -> String {
    let rows: Vec<String> =
        table.rows().map(|row| row_text(&row) + &word(Some(row.input()), has_library)).collect();
    match rows.is_empty() {
        true => "yes 0".to_string(),
        false => format!("yes {} {}", table.count(), rows.join(";")),
    }
}

fn row_text(row: &Row) -> String {
    let bytes = row.bytes();
    format!(
        "{} {} super={} describes={} descriptor={} {}..{}",
        if row.is_struct() { "struct" } else { "func" },
        if row.is_open() { "open" } else { "final" },
        number_or_none(row.supertype()),
        number_or_none(row.describes()),
        number_or_none(row.descriptor()),
        bytes.start,
        bytes.end
    )
}

fn ended(run: &Run) -> String {
    let state = state_text(&run.state);
    match run.ended {
        Ended::Done { steps, .. } => {
            format!("done {steps} [{}] | {state}", values(&run.state.operands()))
        }
        Ended::Trap { number, place, steps } => format!("trap {number} {place} {steps} | {state}"),
        Ended::Spent { steps } => format!("spent {steps} | {state}"),
    }
}

fn state_text(state: &State) -> String {
    let objects = state.objects();
    let objects = objects.iter().enumerate().map(|(number, object)| object_text(number, object));
    let locals = state.locals().into_iter().map(local_text);
    let blocks = state.blocks().into_iter().map(block_text);
    format!(
        "place={} heap=[{}] locals=[{}] operands=[{}] blocks=[{}]",
        state.place(),
        joined(objects, ";"),
        joined(locals, ","),
        values(&state.operands()),
        joined(blocks, ";")
    )
}

fn joined(texts: impl Iterator<Item = String>, separator: &str) -> String {
    texts.collect::<Vec<_>>().join(separator)
}

fn values(values: &[Value]) -> String {
    joined(values.iter().map(Value::to_string), ",")
}

fn object_text(number: usize, object: &Object) -> String {
    format!(
        "{number}:type={},desc={},fields=({})",
        object.type_number,
        number_or_none(object.descriptor),
        values(&object.fields)
    )
}

fn local_text(local: Option<Value>) -> String {
    local.map_or("unset".to_string(), |value| value.to_string())
}

fn block_text(block: Block) -> String {
    let kind = if block.is_loop { "loop" } else { "block" };
    format!("{kind}@{}:height={}", block.place, block.height)
}

fn number_or_none(number: Option<u16>) -> String {
    number.map_or("-".to_string(), |number| number.to_string())
}
