//! The program `chelbugan`: judges sections and bodies, with a library of types before them or without, makes trial runs, hands
//! out types' bytes, and shows bytes to people.
//!
//! Exit status: 0 yes, 1 no, 2 bad usage or unreadable input.

mod arguments;
mod ask;
mod commands;
mod completions;
mod dump;
mod explain;
mod help;
mod hex;
mod input;
mod json;
mod lines;
mod manual;
mod output;
mod read;
mod recheck;
mod sections;
mod syntax;
mod text;

#[cfg(test)]
mod agreement;

use arguments::Arguments;
use json::Json;
use std::ffi::OsString;
use std::process::ExitCode;

/// What a command came to.
#[derive(Clone, Copy, PartialEq, Eq)]
pub enum Outcome {
    Yes,
    No,
    /// One of several inputs could not be read, and was told of.
    Trouble,
}

/// Bad usage, or input that cannot be read: words for a person.
pub type Trouble = String;

fn main() -> ExitCode {
    let given: Vec<OsString> = std::env::args_os().skip(1).collect();
    let json = arguments::is_json(&given);
    match Arguments::read(&given).and_then(|arguments| commands::obey(&arguments)) {
        Ok(Outcome::Yes) => ExitCode::from(0),
        Ok(Outcome::No) => ExitCode::from(1),
        Ok(Outcome::Trouble) => ExitCode::from(2),
        Err(trouble) => troubled(&trouble, json),
    }
}

fn troubled(trouble: &str, json: bool) -> ExitCode {
    match json {
        true => drop(output::say(&error(trouble).to_string())),
        false => output::complain(trouble),
    }
    ExitCode::from(2)
}

pub fn error(trouble: &str) -> Json {
    Json::Object(vec![("answer", "error".into()), ("message", trouble.into())])
}
