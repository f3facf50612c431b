//! Runs the program `chelbugan`, and looks at what it said.
#![allow(dead_code)] // each test file uses its own part

pub mod json;

use plain::lines::Request;
use std::io::Write;
use std::path::PathBuf;
use std::process::{Command, Stdio};

pub struct Said {
    pub status: i32,
    pub out: String,
    pub err: String,
}

pub fn chelbugan(arguments: &[&str]) -> Said {
    chelbugan_fed(arguments, b"")
}

pub fn chelbugan_fed(arguments: &[&str], input: &[u8]) -> Said {
    let mut program = Command::new(env!("CARGO_BIN_EXE_chelbugan"));
    program.args(arguments).stdin(Stdio::piped()).stdout(Stdio::piped()).stderr(Stdio::piped());
    let mut running = program.spawn().expect("the program starts");
    let mut requests = running.stdin.take().expect("its input is a pipe");
    let input = input.to_vec();
    // It may answer before it has read all, so that both pipes have to move.
    let feeder = std::thread::spawn(move || drop(requests.write_all(&input)));
    let ended = running.wait_with_output().expect("the program ends");
    feeder.join().expect("its input was written");
    Said {
        status: ended.status.code().expect("it was not killed"),
        out: String::from_utf8(ended.stdout).expect("it writes text"),
        err: String::from_utf8(ended.stderr).expect("it writes text"),
    }
}

/// A file of this test's own, removed when it is dropped.
pub struct OwnFile(PathBuf);

impl OwnFile {
    pub fn new(name: &str, content: &[u8]) -> OwnFile {
        let path = std::env::temp_dir().join(format!("chelbugan-{}-{name}", std::process::id()));
        std::fs::write(&path, content).expect("a file can be written");
        OwnFile(path)
    }

    pub fn name(&self) -> &str {
        self.0.to_str().expect("its name is text")
    }
}

impl Drop for OwnFile {
    fn drop(&mut self) {
        let _ = std::fs::remove_file(&self.0);
    }
}

pub fn yes(arguments: &[&str]) -> String {
    let Said { status, out, err } = chelbugan(arguments);
    assert_eq!((status, err.as_str()), (0, ""), "{arguments:?}: {out}");
    out
}

pub fn no(arguments: &[&str]) -> String {
    let Said { status, out, err } = chelbugan(arguments);
    assert_eq!((status, err.as_str()), (1, ""), "{arguments:?}: {out}");
    out
}

/// The words on standard error; nothing is said on standard output.
pub fn misused(arguments: &[&str]) -> String {
    let Said { status, out, err } = chelbugan(arguments);
    assert_eq!((status, out.as_str()), (2, ""), "{arguments:?}: {err}");
    err
}

/// The line of bytes and the marks below it, both without their margin.
pub fn line_and_marks(said: &str, bytes: &str) -> (String, String) {
    let at = said.find(bytes).unwrap_or_else(|| panic!("{bytes} is not in\n{said}"));
    let margin = at - said[..at].rfind('\n').map_or(0, |end| end + 1);
    let mut lines = said[at - margin..].lines();
    let line = lines.next().expect("the line of bytes")[margin..].to_string();
    let marks = lines.next().expect("the marks").get(margin..).unwrap_or("").to_string();
    (line, marks)
}

/// The marks stand under these of the bytes and under no others.
pub fn assert_marked(said: &str, bytes: &str, marked: &str) {
    let (line, marks) = line_and_marks(said, bytes);
    let from = line.find(marked).expect("the marked bytes are on the line");
    let wanted = " ".repeat(from) + &vec!["^^"; marked.split(' ').count()].join(" ");
    assert_eq!(marks, wanted, "{said}");
}

/// Bytes as an argument; none at all is the empty one, since `-` is standard input.
pub fn hex(bytes: &[u8]) -> String {
    bytes.iter().map(|byte| format!("{byte:02x}")).collect()
}

/// The arguments that stand for a request's sections: the library where it has one, then the add-on's.
pub fn section_arguments(request: &Request) -> Vec<String> {
    let library = request.library.iter().map(|library| format!("--library={}", hex(library)));
    library.chain([hex(&request.section)]).collect()
}

/// A command with arguments of both kinds.
pub fn asked(command: &[&str], sections: &[String], rest: &[&str]) -> Said {
    let sections = sections.iter().map(String::as_str);
    let all = command.iter().copied().chain(sections).chain(rest.iter().copied());
    chelbugan(&all.collect::<Vec<_>>())
}
