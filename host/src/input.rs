//! Inputs of the command line: hex digits, the name of a file, or standard input.

use crate::recheck::INPUT_BYTES;
use crate::{hex, text, Trouble};
use std::ffi::OsStr;
use std::fs::File;
use std::io::Read;
use std::path::Path;
use std::sync::atomic::{AtomicBool, Ordering};

/// One byte more than the greatest input, so that a longer one is refused as such and a huge file is not read whole.
const READ_AT_MOST: u64 = INPUT_BYTES as u64 + 1;

/// The same in hex, with white space and comments to spare.
const READ_TEXT_AT_MOST: u64 = 16 * READ_AT_MOST;

/// What `print` makes of the greatest input, with room for comments.
const READ_WORDS_AT_MOST: u64 = 8 * 1_048_576;

const STANDARD_INPUT: &str = "-";

/// Says that hex digits follow.
const HEX: &str = "hex:";

/// `-` is standard input, hex digits themselves, no bytes at all the empty argument; anything else names a file.
/// So does what is no text, whatever bytes it has.
pub fn bytes(word: &OsStr) -> Result<Vec<u8>, Trouble> {
    let Some(argument) = word.to_str() else { return file(word) };
    if argument.is_empty() {
        return Ok(Vec::new());
    }
    if argument == STANDARD_INPUT {
        return standard_input();
    }
    if let Some(digits) = argument.strip_prefix(HEX) {
        return match digits {
            STANDARD_INPUT => hex_text(argument, read_standard_input(READ_TEXT_AT_MOST)?),
            _ => hex::read_text(digits).map_err(|fault| format!("{argument}: {fault}")),
        };
    }
    if hex::is_meant(argument) {
        return hex_digits(argument);
    }
    file(word)
}

/// Whether an argument can be read at all, as a file or otherwise.
pub fn is_input(word: &OsStr) -> bool {
    let Some(argument) = word.to_str() else { return is_file(word) };
    let known = argument.is_empty() || argument == STANDARD_INPUT || argument.starts_with(HEX);
    known || hex::is_meant(argument) || is_file(word)
}

/// Whether an argument stands for standard input.
pub fn is_standard_input(word: &OsStr) -> bool {
    let named = |argument: &str| argument.strip_prefix(HEX).unwrap_or(argument) == STANDARD_INPUT;
    word.to_str().is_some_and(named)
}

/// Whether an argument names a file that is there.
pub fn is_file(argument: &OsStr) -> bool {
    Path::new(argument).exists()
}

/// Whether a file of this name holds hex digits.
pub fn is_hex_file(name: &OsStr) -> bool {
    name.as_encoded_bytes().ends_with(b".hex")
}

fn hex_digits(argument: &str) -> Result<Vec<u8>, Trouble> {
    match (hex::read_text(argument), is_file(OsStr::new(argument))) {
        (Ok(_), true) => Err(format!(
            "{argument} is the name of a file and is hex digits; write ./{argument} for the file, \
             {HEX}{argument} for the bytes"
        )),
        (Ok(bytes), false) => Ok(bytes),
        (Err(_), true) => file(OsStr::new(argument)),
        (Err(fault), false) => Err(format!("{argument}: {fault}")),
    }
}

fn file(name: &OsStr) -> Result<Vec<u8>, Trouble> {
    let is_text = is_hex_file(name);
    let content = match is_file(name) {
        true => read_file(name, if is_text { READ_TEXT_AT_MOST } else { READ_AT_MOST })?,
        false => return Err(neither(&name.to_string_lossy())),
    };
    match is_text {
        true => hex_text(&name.to_string_lossy(), content),
        false => Ok(content),
    }
}

/// Bytes with a slip of the hand look like pairs apart from each other: then where it is.
fn neither(name: &str) -> Trouble {
    if text::is_meant(name) {
        let why = "this is WebAssembly text: chelbugan assemble makes bytes of it";
        return format!("{name}: no such file, and not hex digits; {why}");
    }
    let slip = hex::read_text(name).err().filter(|_| name.contains([' ', ',']));
    let slip = slip.map_or(String::new(), |fault| format!(" ({fault})"));
    format!("{name}: no such file, and not hex digits{slip}")
}

/// Hex digits where it is text of them, else the bytes themselves; see `hex::is_text`.
fn standard_input() -> Result<Vec<u8>, Trouble> {
    let mut content = read_standard_input(READ_TEXT_AT_MOST)?;
    if hex::is_text(&content) {
        return hex_text("standard input", content);
    }
    content.truncate(READ_AT_MOST as usize);
    Ok(content)
}

static WAS_READ: AtomicBool = AtomicBool::new(false);

fn read_standard_input(at_most: u64) -> Result<Vec<u8>, Trouble> {
    if WAS_READ.swap(true, Ordering::Relaxed) {
        return Err("standard input can stand for one input alone".to_string());
    }
    let mut content = Vec::new();
    let read = std::io::stdin().lock().take(at_most).read_to_end(&mut content);
    read.map_err(|error| format!("standard input cannot be read: {error}"))?;
    Ok(content)
}

fn hex_text(name: &str, content: Vec<u8>) -> Result<Vec<u8>, Trouble> {
    let text = text_of(name, content, READ_TEXT_AT_MOST)?;
    hex::read_text(&text).map_err(|fault| format!("{name}: {fault}"))
}

fn text_of(name: &str, content: Vec<u8>, at_most: u64) -> Result<String, Trouble> {
    if content.len() as u64 == at_most {
        return Err(format!("{name}: longer than {} characters", at_most - 1));
    }
    String::from_utf8(content).map_err(|_| format!("{name}: not text"))
}

/// WebAssembly's text: of a file, of standard input, or the argument itself, which is no name of a file then: it begins with a
/// parenthesis, or there is white space in it, or it is empty.
pub fn words(word: &OsStr) -> Result<String, Trouble> {
    let argument = &*word.to_string_lossy();
    if argument == STANDARD_INPUT {
        let content = read_standard_input(READ_WORDS_AT_MOST)?;
        return text_of("standard input", content, READ_WORDS_AT_MOST);
    }
    let text =
        argument.is_empty() || argument.starts_with('(') || argument.contains(char::is_whitespace);
    if text && !is_file(word) {
        return Ok(argument.to_string());
    }
    let content = read_file(word, READ_WORDS_AT_MOST)?;
    text_of(argument, content, READ_WORDS_AT_MOST)
}

fn read_file(name: &OsStr, at_most: u64) -> Result<Vec<u8>, Trouble> {
    let shown = &*name.to_string_lossy();
    let file = File::open(name).map_err(|error| unread(shown, &error))?;
    let mut content = Vec::new();
    file.take(at_most).read_to_end(&mut content).map_err(|error| unread(shown, &error))?;
    Ok(content)
}

fn unread(name: &str, error: &std::io::Error) -> Trouble {
    match error.kind() {
        std::io::ErrorKind::NotFound => format!("{name}: no such file"),
        _ => format!("{name}: cannot be read: {error}"),
    }
}
