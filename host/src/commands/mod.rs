//! What each command does: read the input, ask the loader, write for a person or as JSON.

mod check;
mod explain;
mod lines;
mod run;
mod show;

pub use check::{table_members, types};
pub use run::members as run_members;

use crate::arguments::Arguments;
use crate::ask::AddOn;
use crate::explain::{body_refusal, refusals, section_refusal, Told};
use crate::json::Json;
use crate::sections::{self, Sections};
use crate::{
    ask, completions, help, hex, input, lines as protocol, manual, output, Outcome, Trouble,
};
use chelbugan::{Input, Loader, Refusal};
use std::borrow::Cow;
use std::ffi::{OsStr, OsString};

pub fn obey(arguments: &Arguments) -> Result<Outcome, Trouble> {
    let words: Vec<&OsStr> = arguments.words.iter().map(OsString::as_os_str).collect();
    if arguments.version {
        return version(arguments);
    }
    let Some((&command, rest)) = words.split_first() else {
        return match arguments.help {
            true => page(arguments, help::all()),
            false => Err(format!("no command was given\n{}", help::use_of(""))),
        };
    };
    let command = &*command.to_string_lossy();
    let texts: Vec<Cow<str>> = rest.iter().map(|word| word.to_string_lossy()).collect();
    let texts: Vec<&str> = texts.iter().map(|text| &**text).collect();
    if arguments.help {
        return page_of(arguments, command);
    }
    match command {
        "check" => check::check(arguments, rest),
        "run" => {
            run::run(arguments, exactly(command, rest, &["SECTION", "BODY", "TYPE", "BUDGET"])?)
        }
        "type" => type_bytes(arguments, exactly(command, rest, &["SECTION", "NUMBER"])?),
        "explain" => explain::explain(arguments, &texts),
        "dump" => show::dump(arguments, rest),
        "print" => show::print(arguments, rest),
        "assemble" => show::assemble(arguments, rest),
        "lines" => lines::lines(arguments, exactly(command, rest, &[])?),
        "help" => match texts[..] {
            [] => page(arguments, help::all()),
            ["man"] => page(arguments, manual::page()),
            [shell] if completions::SHELLS.contains(&shell) => {
                page(arguments, completions::of(shell))
            }
            [command] => page_of(arguments, command),
            [_, extra, ..] => Err(help::too_many("help", extra)),
        },
        _ => Err(unknown(command)),
    }
}

fn unknown(command: &str) -> Trouble {
    let meant = help::near(command).map_or(String::new(), |near| format!("; {near} is one"));
    format!("there is no command {command}{meant}\n{}", help::use_of(""))
}

fn page_of(arguments: &Arguments, command: &str) -> Result<Outcome, Trouble> {
    let found = help::command(command).ok_or_else(|| unknown(command))?;
    page(arguments, help::page(found))
}

fn page(arguments: &Arguments, text: String) -> Result<Outcome, Trouble> {
    match arguments.json {
        true => say_json("help", vec![("text", text.into())]),
        false => say(&text),
    }
}

fn version(arguments: &Arguments) -> Result<Outcome, Trouble> {
    match arguments.json {
        true => say_json("version", vec![("version", help::version().into())]),
        false => say(&format!("chelbugan {}", help::version())),
    }
}

/// As many arguments as there are names for.
fn exactly<'w>(
    command: &str,
    words: &'w [&'w OsStr],
    names: &[&str],
) -> Result<&'w [&'w OsStr], Trouble> {
    if words.len() < names.len() {
        let (given, wanted) = names.split_at(words.len());
        return Err(help::missing(command, given, wanted));
    }
    match words.get(names.len()) {
        Some(extra) => Err(help::too_many(command, &extra.to_string_lossy())),
        None => Ok(words),
    }
}

fn say(text: &str) -> Result<Outcome, Trouble> {
    output::say(text)?;
    Ok(Outcome::Yes)
}

/// What was made, in the file that was named or on standard output.
fn put(arguments: &Arguments, text: &str) -> Result<Outcome, Trouble> {
    match named_output(arguments) {
        Some(file) => output::write(file, format!("{}\n", text.trim_end()).as_bytes())?,
        None => output::say(text)?,
    }
    Ok(Outcome::Yes)
}

/// Bytes that were made; a file gets what it is read as again, digits where its name ends in .hex.
fn put_bytes(arguments: &Arguments, bytes: &[u8], digits: &str) -> Result<Outcome, Trouble> {
    match named_output(arguments) {
        Some(file) if input::is_hex_file(file) && !arguments.raw => return put(arguments, digits),
        Some(file) => output::write(file, bytes)?,
        None if arguments.raw => output::say_bytes(bytes)?,
        None => output::say(digits)?,
    }
    Ok(Outcome::Yes)
}

/// `-` is standard output.
fn named_output(arguments: &Arguments) -> Option<&OsStr> {
    arguments.output.as_deref().filter(|file| *file != "-")
}

/// One object a line; the first member names the command.
fn say_json(command: &'static str, members: Vec<(&'static str, Json)>) -> Result<Outcome, Trouble> {
    let all = [("command", command.into())].into_iter().chain(members).collect();
    say(&Json::Object(all).to_string())
}

fn read_number(word: &OsStr) -> Result<u64, Trouble> {
    let text = word.to_string_lossy();
    protocol::read_number(&text).map_err(|why| format!("{text}: {why}"))
}

fn read_library(arguments: &Arguments) -> Result<Option<Vec<u8>>, Trouble> {
    arguments.library.as_deref().map(input::bytes).transpose()
}

fn read_sections(arguments: &Arguments, section: &OsStr) -> Result<Sections, Trouble> {
    Ok(Sections::new(read_library(arguments)?, input::bytes(section)?))
}

fn read_add_on(
    arguments: &Arguments,
    section: &OsStr,
    body: &OsStr,
    number: &OsStr,
) -> Result<AddOn, Trouble> {
    let (sections, body) = (read_sections(arguments, section)?, input::bytes(body)?);
    Ok(AddOn { sections, body, number: read_number(number)? })
}

/// Whose refusal it is shows in the sections judged alone.
fn add_on_told(add_on: &AddOn, refusal: Refusal) -> Told {
    match ask::section(&mut Loader::new(), &add_on.sections) {
        Ok(_) => body_refusal(add_on, refusal),
        Err(of_section) => {
            let mut told = section_refusal(&add_on.sections, of_section);
            let whose = match told.of {
                "library" => "library",
                _ => "section",
            };
            told.text += &format!("  the {whose} itself is refused; the body was not looked at\n");
            told
        }
    }
}

fn refused(
    arguments: &Arguments,
    command: &'static str,
    refusal: Refusal,
    told: &Told,
) -> Result<Outcome, Trouble> {
    if arguments.json {
        say_json(command, refusal_members(refusal, told))?;
    } else if !arguments.quiet {
        output::say(&told.whole())?;
    }
    Ok(Outcome::No)
}

fn refusal_members(refusal: Refusal, told: &Told) -> Vec<(&'static str, Json)> {
    let mut members = vec![
        ("answer", "no".into()),
        ("of", told.of.into()),
        ("refusal", refusal.number.into()),
        ("place", refusal.place.into()),
        ("place_is", told.place_is.into()),
    ];
    members.extend(told.own_number.map(|own| ("own_number", own.into())));
    members.push(("meaning", refusals::title(refusal.number).into()));
    members.push(("cause", told.cause().into()));
    members.extend(told.mended.as_ref().map(|bytes| ("mended", hex::plain(bytes).into())));
    members
}

/// Where a library was named, the answer says which section holds the bytes: after them, as a comment, so that they can be
/// read back.
fn type_bytes(arguments: &Arguments, words: &[&OsStr]) -> Result<Outcome, Trouble> {
    let sections = read_sections(arguments, words[0])?;
    let number = read_number(words[1])?;
    match ask::type_bytes(&mut Loader::new(), &sections, number) {
        Err(refusal) => refused(arguments, "type", refusal, &section_refusal(&sections, refusal)),
        Ok(_) if arguments.quiet => Ok(Outcome::Yes),
        Ok((bytes, input)) if arguments.json => {
            let mut members = vec![
                ("answer", "yes".into()),
                ("number", number.into()),
                ("bytes", hex::plain(bytes).into()),
            ];
            members.extend(sections.has_library().then(|| input_member(input)));
            say_json("type", members)
        }
        Ok((bytes, input)) if sections.has_library() => {
            let digits = format!("{} # of {}", hex::spaced(bytes), sections::words(input));
            put_bytes(arguments, bytes, &digits)
        }
        Ok((bytes, _)) => put_bytes(arguments, bytes, &hex::spaced(bytes)),
    }
}

/// In which section something lies.
pub fn input_member(input: Input) -> (&'static str, Json) {
    ("input", input.to_string().into())
}
