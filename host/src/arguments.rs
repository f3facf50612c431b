//! The words of the command line: options, wherever they stand, and the rest in order.

use crate::{help, Trouble};
use std::ffi::{OsStr, OsString};
use std::os::unix::ffi::OsStrExt;

#[derive(Default)]
pub struct Arguments {
    /// The command and what follows it.
    pub words: Vec<OsString>,
    pub json: bool,
    pub quiet: bool,
    pub help: bool,
    pub version: bool,
    pub raw: bool,
    pub page: bool,
    pub fail_on_trap: bool,
    pub trace: bool,
    pub comments: bool,
    /// Of `--library`: an input like any other.
    pub library: Option<OsString>,
    /// Of `-o`: where what is made goes.
    pub output: Option<OsString>,
}

const LIBRARY: &str = "--library";
const OUTPUT: &str = "--output";

/// Whether answers are written as JSON, of a call that cannot be read too.
pub fn is_json(given: &[OsString]) -> bool {
    given.iter().take_while(|argument| *argument != "--").any(|argument| argument == "--json")
}

impl Arguments {
    /// Behind `--` nothing is an option.
    pub fn read(given: &[OsString]) -> Result<Arguments, Trouble> {
        let mut arguments = Arguments::default();
        let mut given = given.iter();
        while let Some(argument) = given.next() {
            if let Some(value) = value_of(argument, LIBRARY) {
                arguments.set_library(Some(value))?;
                continue;
            }
            if let Some(value) = value_of(argument, OUTPUT) {
                arguments.set_output(Some(value))?;
                continue;
            }
            // A name that is no text is no option; what is shown of it has marks for what is none.
            match &*argument.to_string_lossy() {
                "--" => break,
                "--json" => arguments.json = true,
                "--quiet" | "-q" => arguments.quiet = true,
                "--help" | "-h" => arguments.help = true,
                "--version" | "-V" => arguments.version = true,
                "--raw" => arguments.raw = true,
                "--page" => arguments.page = true,
                "--fail-on-trap" => arguments.fail_on_trap = true,
                "--trace" => arguments.trace = true,
                "--comments" => arguments.comments = true,
                LIBRARY => arguments.set_library(given.next().map(OsString::as_os_str))?,
                "-o" | OUTPUT => arguments.set_output(given.next().map(OsString::as_os_str))?,
                option if option.starts_with("--") => {
                    let use_ = "use: chelbugan help lists the commands and their options";
                    return Err(format!("there is no option {option}\n{use_}"));
                }
                _ => arguments.words.push(argument.clone()),
            }
        }
        arguments.words.extend(given.cloned());
        arguments.fitting()
    }

    /// What follows is the input, whatever it looks like: `-` is standard input, and `''` no bytes at all.
    fn set_library(&mut self, value: Option<&OsStr>) -> Result<(), Trouble> {
        let value = value.ok_or_else(|| format!("{LIBRARY} needs FILE\n{}", help::LIBRARY_USE))?;
        match self.library.replace(value.to_os_string()) {
            None => Ok(()),
            Some(_) => Err(format!("{LIBRARY} can be given once\n{}", help::LIBRARY_USE)),
        }
    }

    fn set_output(&mut self, value: Option<&OsStr>) -> Result<(), Trouble> {
        let value = value.filter(|value| !value.is_empty());
        let value = value.ok_or_else(|| format!("-o needs FILE\n{}", help::OUTPUT_USE))?;
        match self.output.replace(value.to_os_string()) {
            None => Ok(()),
            Some(_) => Err(format!("-o can be given once\n{}", help::OUTPUT_USE)),
        }
    }

    /// Options that say nothing of the command are told, not passed over.
    fn fitting(self) -> Result<Arguments, Trouble> {
        if self.quiet && self.json {
            return Err("--quiet and --json cannot both be obeyed".to_string());
        }
        if self.quiet && self.trace {
            return Err("--quiet and --trace cannot both be obeyed".to_string());
        }
        for (given, option) in [(self.quiet, "--quiet"), (self.json, "--json")] {
            if given && self.output.is_some() {
                return Err(format!("{option} and -o cannot both be obeyed"));
            }
        }
        let command = self.words.first().and_then(|word| word.to_str()).unwrap_or("");
        let given = [
            (self.quiet, "--quiet"),
            (self.raw, "--raw"),
            (self.page, "--page"),
            (self.fail_on_trap, "--fail-on-trap"),
            (self.trace, "--trace"),
            (self.comments, "--comments"),
            (self.library.is_some(), LIBRARY),
            (self.output.is_some(), OUTPUT),
        ];
        for (given, option) in given {
            let known = help::COMMANDS.iter().any(|row| row.name == command);
            if given && known && !help::takes(command, option) {
                let option = if option == OUTPUT { "-o" } else { option };
                return Err(format!("{command} has no option {option}\n{}", help::use_of(command)));
            }
        }
        Ok(self)
    }
}

/// What stands behind `--option=`.
fn value_of<'a>(argument: &'a OsStr, option: &str) -> Option<&'a OsStr> {
    let rest = argument.as_bytes().strip_prefix(option.as_bytes())?;
    rest.strip_prefix(b"=").map(OsStr::from_bytes)
}

#[cfg(test)]
mod tests {
    use super::*;

    /// The list that completions and the manual are made from has every option that is read here, and no other.
    #[test]
    fn the_list_has_every_option() {
        let (source, _) =
            include_str!("arguments.rs").split_once("#[cfg(test)]").expect("its tests");
        let quoted = source.split('"').skip(1).step_by(2);
        let mut read: Vec<&str> = quoted
            .filter(|text| text.starts_with('-') && text.len() > 1 && *text != "--")
            .filter(|text| !text.contains(' '))
            .collect();
        read.sort();
        read.dedup();
        let mut listed: Vec<&str> =
            help::FLAGS.iter().flat_map(|flag| flag.short.into_iter().chain([flag.name])).collect();
        listed.sort();
        assert_eq!(read, listed);
    }
}
