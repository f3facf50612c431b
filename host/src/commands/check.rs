//! A section, a body, or many sections judged, each after the library where one is named.

use super::{add_on_told, input_member, read_add_on, read_library, read_number, read_sections};
use super::{refusal_members, refused, say, say_json};
use crate::arguments::Arguments;
use crate::explain::section_refusal;
use crate::json::Json;
use crate::sections::Sections;
use crate::{ask, error, help, input, output, Outcome, Trouble};
use chelbugan::table::Row;
use chelbugan::{Input, Loader, Table};
use std::ffi::OsStr;

const NAME: &str = "check";

/// Two or three arguments are files where each of them is there; else the last of three is a type's number.
pub fn check(arguments: &Arguments, words: &[&OsStr]) -> Result<Outcome, Trouble> {
    let files = words.iter().all(|word| input::is_file(word));
    match words {
        [] => Err(help::missing(NAME, &[], &["SECTION"])),
        [section] => one(arguments, section),
        [section, body, number] if !files || read_number(number).is_ok() => {
            add_on(arguments, section, body, number)
        }
        [one, other] if !files && input::is_input(one) && input::is_input(other) => {
            Err(help::missing(NAME, &["SECTION", "BODY"], &["TYPE"]))
        }
        many => each(arguments, many),
    }
}

fn one(arguments: &Arguments, section: &OsStr) -> Result<Outcome, Trouble> {
    let sections = read_sections(arguments, section)?;
    match ask::section(&mut Loader::new(), &sections) {
        Err(refusal) => refused(arguments, NAME, refusal, &section_refusal(&sections, refusal)),
        Ok(_) if arguments.quiet => Ok(Outcome::Yes),
        Ok(table) if arguments.json => {
            say_json(NAME, table_members(&table, sections.has_library()))
        }
        Ok(table) => say(&accepted(&table, sections.has_library())),
    }
}

/// The sections' own refusal comes first; then every place is the body's.
fn add_on(
    arguments: &Arguments,
    section: &OsStr,
    body: &OsStr,
    number: &OsStr,
) -> Result<Outcome, Trouble> {
    let add_on = read_add_on(arguments, section, body, number)?;
    match ask::body(&mut Loader::new(), &add_on) {
        Err(refusal) => refused(arguments, NAME, refusal, &add_on_told(&add_on, refusal)),
        Ok(_) if arguments.quiet => Ok(Outcome::Yes),
        Ok(count) if arguments.json => {
            say_json(NAME, vec![("answer", "yes".into()), ("instructions", count.into())])
        }
        Ok(1) => say("yes: 1 instruction"),
        Ok(count) => say(&format!("yes: {count} instructions")),
    }
}

/// The worst of them is the answer. The library is read once: it may be standard input.
fn each(arguments: &Arguments, names: &[&OsStr]) -> Result<Outcome, Trouble> {
    let library = read_library(arguments)?;
    let mut loader = Loader::new();
    let mut worst = Outcome::Yes;
    let mut last = Outcome::Yes;
    for name in names {
        last = line(arguments, &mut loader, &library, name)?;
        worst = match (worst, last) {
            (Outcome::Trouble, _) | (_, Outcome::Trouble) => Outcome::Trouble,
            (Outcome::No, _) | (_, Outcome::No) => Outcome::No,
            _ => Outcome::Yes,
        };
    }
    // A number that was forgotten looks like two sections, the second of which is none.
    if names.len() == 2 && last == Outcome::No && !arguments.quiet && !arguments.json {
        output::complain("both were judged as sections; for a body, check SECTION BODY needs TYPE");
    }
    Ok(worst)
}

fn line(
    arguments: &Arguments,
    loader: &mut Loader,
    library: &Option<Vec<u8>>,
    name: &OsStr,
) -> Result<Outcome, Trouble> {
    let sections = match input::bytes(name) {
        Ok(section) => Sections::new(library.clone(), section),
        Err(trouble) => {
            match arguments.json {
                true => output::say(&error(&trouble).to_string())?,
                false => output::complain(&trouble),
            }
            return Ok(Outcome::Trouble);
        }
    };
    let name = &*name.to_string_lossy();
    let named = |members| [("input", Json::from(name))].into_iter().chain(members).collect();
    let has_library = sections.has_library();
    match ask::section(loader, &sections) {
        Ok(table) => {
            match (arguments.json, arguments.quiet) {
                (true, _) => drop(say_json(NAME, named(table_members(&table, has_library)))?),
                (_, true) => (),
                _ => output::say(&format!("{name}: yes: {}", types(&table, has_library)))?,
            }
            Ok(Outcome::Yes)
        }
        Err(refusal) => {
            let told = section_refusal(&sections, refusal);
            match (arguments.json, arguments.quiet) {
                (true, _) => drop(say_json(NAME, named(refusal_members(refusal, &told)))?),
                (_, true) => (),
                _ => output::say(&format!("{name}: {}", told.line()))?,
            }
            Ok(Outcome::No)
        }
    }
}

fn of_library(table: &Table) -> usize {
    table.rows().filter(|row| row.input() == Input::Library).count()
}

/// "3 types, 1 of the library"
pub fn types(table: &Table, has_library: bool) -> String {
    let all = match table.count() {
        1 => "1 type".to_string(),
        count => format!("{count} types"),
    };
    match has_library {
        true => format!("{all}, {} of the library", of_library(table)),
        false => all,
    }
}

fn accepted(table: &Table, has_library: bool) -> String {
    let mut text = format!("yes: {}\n", types(table, has_library));
    let before = of_library(table);
    for (number, row) in table.rows().enumerate() {
        text += &format!("  type {number}{}: {}\n", own(&row, number, before), described(&row));
    }
    text
}

/// What a type is in its own section, where the library has types.
fn own(row: &Row, number: usize, before: usize) -> String {
    match (row.input(), before) {
        (Input::Library, _) => " of the library".to_string(),
        (Input::Addon, 0) => String::new(),
        (Input::Addon, _) => format!(", the add-on's type {}", number - before),
    }
}

fn described(row: &Row) -> String {
    let mut parts = vec![if row.is_open() { "open" } else { "final" }.to_string()];
    let named = [
        ("supertype", row.supertype()),
        ("describes", row.describes()),
        ("descriptor", row.descriptor()),
    ];
    for (what, number) in named {
        parts.extend(number.map(|number| format!("{what} {number}")));
    }
    let bytes = row.bytes();
    format!("{}, {}, bytes {} to {}", form(row), parts.join(", "), bytes.start, bytes.end - 1)
}

fn form(row: &Row) -> String {
    if row.is_struct() {
        return format!("struct ({})", texts(&row.fields()).join(", "));
    }
    let (taken, given) = (texts(&row.parameters()), texts(&row.results()));
    format!("function ({}) -> ({})", taken.join(", "), given.join(", "))
}

fn texts<T: ToString>(items: &[T]) -> Vec<String> {
    items.iter().map(T::to_string).collect()
}

pub fn table_members(table: &Table, has_library: bool) -> Vec<(&'static str, Json)> {
    let rows = table.rows().enumerate().map(|(number, row)| row_json(number, &row, has_library));
    vec![("answer", "yes".into()), ("types", Json::List(rows.collect()))]
}

/// Where a library was named, with the section that holds the bytes.
fn row_json(number: usize, row: &Row, has_library: bool) -> Json {
    let bytes = row.bytes();
    let form = if row.is_struct() { "struct" } else { "function" };
    let mut members = vec![
        ("number", number.into()),
        ("form", form.into()),
        ("open", row.is_open().into()),
        ("supertype", row.supertype().into()),
        ("describes", row.describes().into()),
        ("descriptor", row.descriptor().into()),
        ("from", bytes.start.into()),
        ("to", bytes.end.into()),
    ];
    members.extend(has_library.then(|| input_member(row.input())));
    if row.is_struct() {
        members.push(("fields", texts(&row.fields()).into()));
    } else {
        members.push(("parameters", texts(&row.parameters()).into()));
        members.push(("results", texts(&row.results()).into()));
    }
    Json::Object(members)
}
