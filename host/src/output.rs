//! What is said on standard output, in colour where a person looks at it.

use crate::Trouble;
use std::ffi::OsStr;
use std::io::{self, ErrorKind, IsTerminal, Write};

/// A reader that went away is no trouble: the verdict's exit status stands.
pub fn say(text: &str) -> Result<(), Trouble> {
    let painted;
    let text = match in_colour() {
        true => {
            painted = paint(text.trim_end());
            &painted
        }
        false => text.trim_end(),
    };
    let mut out = io::stdout().lock();
    written(writeln!(out, "{text}").and_then(|_| out.flush())).map(|_| ())
}

/// Bytes as they are.
pub fn say_bytes(bytes: &[u8]) -> Result<(), Trouble> {
    let mut out = io::stdout().lock();
    written(out.write_all(bytes).and_then(|_| out.flush())).map(|_| ())
}

/// A file, made or written over.
pub fn write(file: &OsStr, content: &[u8]) -> Result<(), Trouble> {
    let name = file.to_string_lossy();
    std::fs::write(file, content).map_err(|error| format!("{name}: cannot be written: {error}"))
}

/// Whether anybody still reads.
pub fn written(result: io::Result<()>) -> Result<bool, Trouble> {
    match result {
        Ok(()) => Ok(true),
        Err(error) if error.kind() == ErrorKind::BrokenPipe => Ok(false),
        Err(error) => Err(format!("the answer could not be written: {error}")),
    }
}

/// On standard error; nobody may be there.
pub fn complain(trouble: &str) {
    let _ = writeln!(io::stderr().lock(), "chelbugan: {trouble}");
}

fn in_colour() -> bool {
    let set = |name| std::env::var_os(name).is_some_and(|value| !value.is_empty());
    let dumb = std::env::var_os("TERM").is_some_and(|value| value == "dumb");
    io::stdout().is_terminal() && !set("NO_COLOR") && !dumb
}

const GREEN: &str = "\x1b[32m";
const RED: &str = "\x1b[31m";
const YELLOW: &str = "\x1b[33m";
const PLAIN: &str = "\x1b[0m";

/// The verdict at the start of a line, or behind a file's name, and the marks under bytes.
fn paint(text: &str) -> String {
    let lines: Vec<String> = text.lines().map(paint_line).collect();
    lines.join("\n")
}

fn paint_line(line: &str) -> String {
    if line.contains("^^") && line.chars().all(|mark| matches!(mark, ' ' | '^')) {
        return format!("{RED}{line}{PLAIN}");
    }
    let verdicts =
        [("yes:", GREEN), ("no:", RED), ("done ", GREEN), ("trap ", YELLOW), ("spent ", YELLOW)];
    for (word, colour) in verdicts {
        let at = match line.find(&format!(": {word}")) {
            _ if line.starts_with(word) => 0,
            Some(at) if !line.starts_with(' ') && word.ends_with(':') => at + 2,
            _ => continue,
        };
        let end = at + word.trim_end().len();
        return format!("{}{colour}{}{PLAIN}{}", &line[..at], &line[at..end], &line[end..]);
    }
    line.to_string()
}

#[cfg(test)]
mod tests {
    use super::*;

    #[test]
    fn verdicts_and_marks_are_painted() {
        assert_eq!(paint("yes: 3 types\n  type 0"), "\x1b[32myes:\x1b[0m 3 types\n  type 0");
        assert_eq!(paint("a.hex: no: refusal 5"), "a.hex: \x1b[31mno:\x1b[0m refusal 5");
        assert_eq!(paint("  ^^ ^^"), "\x1b[31m  ^^ ^^\x1b[0m");
        assert_eq!(paint("trap 44 at byte 7"), "\x1b[33mtrap\x1b[0m 44 at byte 7");
        assert_eq!(paint("  type no: 1"), "  type no: 1");
    }
}
