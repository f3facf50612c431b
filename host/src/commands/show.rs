//! Bytes shown to a person, as a listing or as text, and text made into bytes. None of it judges.

use super::{put, put_bytes, read_library, say_json};
use crate::arguments::Arguments;
use crate::json::Json;
use crate::read::section::read_library as library_of;
use crate::read::{Fault, Padding};
use crate::{dump as listing, help, hex, input, output, text, Outcome, Trouble};
use std::ffi::OsStr;

/// Which of the two, and the input. A body has no types, so that a library would say nothing of it.
fn chosen<'w>(
    arguments: &Arguments,
    command: &str,
    words: &[&'w OsStr],
    input: [&str; 2],
) -> Result<(bool, &'w OsStr), Trouble> {
    let [of_section, of_body] = input;
    let Some((which, rest)) = words.split_first() else {
        return Err(help::missing(command, &[], &["section or body", "its bytes"]));
    };
    let which = &*which.to_string_lossy();
    let (is_section, wanted) = match which {
        "section" => (true, of_section),
        "body" if arguments.library.is_some() && command != "assemble" => {
            return Err(format!(
                "{command} body takes no library: a body defines no types\n{}",
                help::use_of(command)
            ))
        }
        "body" => (false, of_body),
        other => {
            return Err(format!(
                "{command} needs section or body before its bytes, and {other} is neither\n{}",
                help::use_of(command)
            ))
        }
    };
    match rest {
        [] => Err(help::missing(command, &[which], &[wanted])),
        [input] => Ok((is_section, input)),
        [_, extra, ..] => Err(help::too_many(command, &extra.to_string_lossy())),
    }
}

fn of(is_section: bool) -> (&'static str, Json) {
    ("of", if is_section { "section" } else { "body" }.into())
}

/// How many types the library has, where one is named; or where it cannot be read.
fn types_before(arguments: &Arguments) -> Result<Result<usize, Fault>, Trouble> {
    let Some(bytes) = read_library(arguments)? else { return Ok(Ok(0)) };
    let read = library_of(&bytes, Padding::Noted);
    Ok(match read.fault {
        Some((_, fault)) => Err(fault),
        None => Ok(read.types.len()),
    })
}

/// Bytes with their listing.
struct Listed {
    bytes: Vec<u8>,
    listing: listing::Listing,
}

/// No where a listing breaks off at a byte that fits nowhere.
pub fn dump(arguments: &Arguments, words: &[&OsStr]) -> Result<Outcome, Trouble> {
    let (is_section, input) = chosen(arguments, "dump", words, ["SECTION", "BODY"])?;
    let (library, before) = match read_library(arguments)? {
        Some(bytes) => {
            let (listing, count) = listing::library(&bytes);
            (Some(Listed { bytes, listing }), count)
        }
        None => (None, 0),
    };
    let bytes = input::bytes(input)?;
    let listing = match is_section {
        true => listing::section(&bytes, before),
        false => listing::body(&bytes),
    };
    let own = Listed { bytes, listing };
    if arguments.json {
        say_json("dump", dump_members(is_section, library.as_ref(), &own))?;
    } else if !arguments.quiet {
        put(arguments, &dump_text(library.as_ref(), &own))?;
    }
    match is_whole(library.as_ref(), &own) {
        true => Ok(Outcome::Yes),
        false => Ok(Outcome::No),
    }
}

fn is_whole(library: Option<&Listed>, own: &Listed) -> bool {
    let whole = |listed: &Listed| listed.listing.fault.is_none();
    whole(own) && library.is_none_or(whole)
}

/// The library's bytes first, and each of the two by its name where there are two.
fn dump_text(library: Option<&Listed>, own: &Listed) -> String {
    let text = |listed: &Listed| listing::text(&listed.bytes, &listed.listing);
    match library {
        None => text(own),
        Some(library) => format!("the library\n{}\nthe add-on\n{}", text(library), text(own)),
    }
}

/// The library's listing stands as an object of its own where there is one.
fn dump_members(
    is_section: bool,
    library: Option<&Listed>,
    own: &Listed,
) -> Vec<(&'static str, Json)> {
    let answer = if is_whole(library, own) { "yes" } else { "no" };
    let mut members = vec![("answer", answer.into()), of(is_section)];
    members.extend(listed_members(own));
    members.extend(library.map(|it| ("library", Json::Object(listed_members(it)))));
    members
}

fn listed_members(listed: &Listed) -> Vec<(&'static str, Json)> {
    let Listed { bytes, listing } = listed;
    let items = listing.lines.iter().map(|line| {
        Json::Object(vec![
            ("from", line.bytes.start.into()),
            ("to", line.bytes.end.into()),
            ("depth", line.indent.into()),
            ("bytes", hex::plain(&bytes[line.bytes.clone()]).into()),
            ("text", line.text.as_str().into()),
        ])
    });
    let rest = listing.fault.as_ref().map(|(from, fault)| {
        Json::Object(vec![
            ("from", (*from).into()),
            ("place", fault.place.into()),
            ("why", fault.why.as_str().into()),
            ("bytes", hex::plain(&bytes[*from..]).into()),
        ])
    });
    vec![
        ("length", bytes.len().into()),
        ("items", Json::List(items.collect())),
        ("broken", rest.unwrap_or(Json::Null)),
    ]
}

/// No where the bytes cannot be read; then nothing is printed.
pub fn print(arguments: &Arguments, words: &[&OsStr]) -> Result<Outcome, Trouble> {
    let (is_section, input) = chosen(arguments, "print", words, ["SECTION", "BODY"])?;
    let before = match types_before(arguments)? {
        Ok(before) => before,
        Err(fault) => return unprinted(arguments, "library", &fault),
    };
    let bytes = input::bytes(input)?;
    let (printed, what) = match is_section {
        true => (text::print_section(&bytes, before), "section"),
        false => (text::print_body(&bytes), "body"),
    };
    match printed {
        Ok(printed) if arguments.json => say_json(
            "print",
            vec![("answer", "yes".into()), of(is_section), ("text", printed.into())],
        ),
        Ok(printed) => put(arguments, &printed),
        Err(fault) => unprinted(arguments, what, &fault),
    }
}

fn unprinted(arguments: &Arguments, of: &'static str, fault: &Fault) -> Result<Outcome, Trouble> {
    match arguments.json {
        true => drop(say_json(
            "print",
            vec![
                ("answer", "no".into()),
                ("of", of.into()),
                ("place", fault.place.into()),
                ("cause", fault.why.as_str().into()),
            ],
        )?),
        false => {
            let whose = if of == "library" { " of the library" } else { "" };
            let (place, why) = (fault.place, &fault.why);
            output::complain(&format!("byte {place}{whose}: {why}; dump lists the bytes"));
        }
    }
    Ok(Outcome::No)
}

pub fn assemble(arguments: &Arguments, words: &[&OsStr]) -> Result<Outcome, Trouble> {
    let (is_section, input) = chosen(arguments, "assemble", words, ["TEXT", "TEXT"])?;
    let before = types_before(arguments)?
        .map_err(|fault| format!("byte {} of the library: {}", fault.place, fault.why))?;
    let read = input::words(input)?;
    if !is_section && arguments.library.is_some() && !text::is_module(&read) {
        let why = "assemble body takes a library with a (module ..) alone: a body defines no types";
        return Err(format!("{why}\n{}", help::use_of("assemble")));
    }
    let bytes = match is_section {
        true => text::assemble_section(&read, before),
        false => text::assemble_body(&read, before),
    };
    let bytes = bytes.map_err(|fault| fault.to_string())?;
    match arguments.json {
        true => say_json(
            "assemble",
            vec![("answer", "yes".into()), of(is_section), ("bytes", hex::plain(&bytes).into())],
        ),
        false => put_bytes(arguments, &bytes, &hex::spaced(&bytes)),
    }
}
