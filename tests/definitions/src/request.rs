//! A request line: the two sections, what is asked of them, and the bytes in both.

pub struct Request {
    /// None where the line has no word for it. Then no answer says in which section something lies.
    pub library: Option<Vec<u8>>,
    pub section: Vec<u8>,
    pub asked: Asked,
}

pub enum Asked {
    Section,
    Type { number: u64 },
    Body { number: u64, body: Vec<u8> },
    Run { number: u64, body: Vec<u8>, budget: u64 },
}

/// A library of no types, which a line without one means.
const EMPTY_LIBRARY: &[u8] = &[0];

impl Request {
    pub fn parse(line: &str) -> Result<Request, String> {
        let parts: Vec<&str> = line.split(' ').collect();
        let (sections, asked) = match parts.as_slice() {
            ["S", sections @ ..] => (sections, Asked::Section),
            ["T", sections @ .., n] => (sections, Asked::Type { number: number(n)? }),
            ["B", sections @ .., n, body] => (sections, Asked::Body { number: number(n)?, body: bytes(body)? }),
            ["R", sections @ .., n, body, budget] => {
                (sections, Asked::Run { number: number(n)?, body: bytes(body)?, budget: number(budget)? })
            }
            _ => return Err(NO_REQUEST.to_string()),
        };
        match sections {
            [section] => Ok(Request { library: None, section: bytes(section)?, asked }),
            [library, section] => Ok(Request { library: Some(bytes(library)?), section: bytes(section)?, asked }),
            _ => Err(NO_REQUEST.to_string()),
        }
    }

    pub fn library(&self) -> &[u8] {
        self.library.as_deref().unwrap_or(EMPTY_LIBRARY)
    }
}

const NO_REQUEST: &str = "no such request";

fn number(text: &str) -> Result<u64, String> {
    if !text.bytes().all(|c| c.is_ascii_digit()) {
        return Err(format!("not a number: {text}"));
    }
    text.parse().map_err(|_| format!("not a number: {text}"))
}

fn bytes(hex: &str) -> Result<Vec<u8>, String> {
    if hex == "-" {
        return Ok(Vec::new());
    }
    if hex.is_empty() || !hex.len().is_multiple_of(2) || !hex.bytes().all(|c| c.is_ascii_hexdigit()) {
        return Err("not hex".to_string());
    }
    Ok((0..hex.len()).step_by(2).map(|i| u8::from_str_radix(&hex[i..i + 2], 16).unwrap_or(0)).collect())
}
