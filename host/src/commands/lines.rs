//! Requests in lines, answered one by one.

use super::read_library;
use crate::arguments::Arguments;
use crate::output::written;
use crate::{help, input, lines, Outcome, Trouble};
use chelbugan::Loader;
use std::ffi::OsStr;
use std::io::{self, BufRead, BufReader, BufWriter, Write};

/// Answers go out whenever no further request is waiting, so that a script can talk to and fro. A reader that went away ends
/// it. No where a line was no request; a refusal is an answer like any other.
pub fn lines(arguments: &Arguments, _: &[&OsStr]) -> Result<Outcome, Trouble> {
    let library = library(arguments)?;
    let mut requests = BufReader::new(io::stdin().lock());
    let mut answers = BufWriter::new(io::stdout().lock());
    let mut loader = Loader::new();
    let mut line = Vec::new();
    let mut outcome = Outcome::Yes;
    let read = |error: io::Error| format!("standard input cannot be read: {error}");
    while requests.read_until(b'\n', &mut line).map_err(read)? > 0 {
        let mut said = Ok(());
        if let Some(request) = request(arguments, &line) {
            let answer = match arguments.json {
                true => lines::answer_json(&mut loader, &library, request)
                    .map(|answer| answer.to_string())
                    .map_err(|error| error.to_string()),
                false => lines::answer(&mut loader, &library, request),
            };
            let answer = answer.unwrap_or_else(|error| {
                outcome = Outcome::No;
                error
            });
            said = writeln!(answers, "{answer}");
        }
        let last = requests.buffer().is_empty();
        if !written(said.and_then(|_| if last { answers.flush() } else { Ok(()) }))? {
            return Ok(outcome);
        }
        line.clear();
    }
    written(answers.flush())?;
    Ok(outcome)
}

/// Without the line's end, CR LF too. Only where comments are asked for is a line without a request passed over: whoever counts
/// answers counts lines.
fn request<'l>(arguments: &Arguments, line: &'l [u8]) -> Option<&'l [u8]> {
    let line = match line {
        [line @ .., b'\r', b'\n'] | [line @ .., b'\n'] => line,
        line => line,
    };
    match arguments.comments {
        true => Some(lines::without_comment(line)).filter(|line| !line.is_empty()),
        false => Some(line),
    }
}

/// Of the requests that have none of their own.
fn library(arguments: &Arguments) -> Result<Option<Vec<u8>>, Trouble> {
    if arguments.library.as_deref().is_some_and(input::is_standard_input) {
        let why = "lines reads its requests from standard input, which cannot be the library too";
        return Err(format!("{why}\n{}", help::use_of("lines")));
    }
    read_library(arguments)
}
