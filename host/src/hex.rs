//! Bytes as hex digits, read and written.

use std::fmt;

/// Pairs of digits with nothing between them.
pub fn read(text: &str) -> Result<Vec<u8>, &'static str> {
    let digits: Option<Vec<u8>> =
        text.chars().map(|digit| digit.to_digit(16).map(|value| value as u8)).collect();
    let digits = digits.ok_or("bytes are hex digits")?;
    if digits.len() % 2 == 1 {
        return Err("the number of hex digits is odd");
    }
    Ok(digits.chunks(2).map(|pair| pair[0] * 16 + pair[1]).collect())
}

/// Where text is no hex digits, both counted from 1.
#[derive(Debug)]
pub struct Fault {
    pub line: usize,
    pub column: usize,
    pub why: String,
}

impl fmt::Display for Fault {
    fn fmt(&self, to: &mut fmt::Formatter) -> fmt::Result {
        write!(to, "line {}, column {}: {}", self.line, self.column, self.why)
    }
}

/// The mark that some programs put before a text.
const MARK: char = '\u{FEFF}';

/// Pairs of digits, together or apart: white space and commas stand between them, 0x before them, comments from # to the end of
/// a line.
pub fn read_text(text: &str) -> Result<Vec<u8>, Fault> {
    let text = text.strip_prefix(MARK).unwrap_or(text);
    let mut bytes = Vec::new();
    for (index, line) in text.split('\n').enumerate() {
        for (column, word) in words(without_comment(line)) {
            let fault = |column, why| Fault { line: index + 1, column, why };
            read_word(word, &mut bytes).map_err(|(at, why)| fault(column + at, why))?;
        }
    }
    Ok(bytes)
}

fn without_comment(line: &str) -> &str {
    line.split('#').next().unwrap_or("")
}

fn is_between(character: char) -> bool {
    matches!(character, ' ' | '\t' | '\r' | '\n' | ',')
}

/// The words of a line with their columns, counted from 1.
fn words(line: &str) -> impl Iterator<Item = (usize, &str)> {
    let mut column = 1;
    line.split(is_between).filter_map(move |word| {
        let at = column;
        column += word.chars().count() + 1;
        (!word.is_empty()).then_some((at, word))
    })
}

fn without_prefix(word: &str) -> &str {
    word.strip_prefix("0x").or(word.strip_prefix("0X")).unwrap_or(word)
}

/// Or how far into the word it goes wrong, and why.
fn read_word(word: &str, bytes: &mut Vec<u8>) -> Result<(), (usize, String)> {
    let digits = without_prefix(word);
    let before = word.len() - digits.len();
    if let Some(at) = digits.chars().position(|digit| !digit.is_ascii_hexdigit()) {
        let other = digits.chars().nth(at).unwrap_or(' ');
        return Err((before + at, format!("`{}` is no hex digit", other.escape_default())));
    }
    let pairs = read(digits).map_err(|_| odd(word, digits.len()))?;
    if pairs.is_empty() {
        return Err((0, format!("`{word}` has no hex digits")));
    }
    bytes.extend(pairs);
    Ok(())
}

fn odd(word: &str, count: usize) -> (usize, String) {
    match count {
        1 => (0, format!("`{word}` is one hex digit; a byte is two")),
        _ => (0, format!("the number of hex digits is odd ({count}); a byte is two")),
    }
}

/// Whether text is meant as hex digits, right or wrong: nothing else stands in it, and some digit does.
pub fn is_meant(text: &str) -> bool {
    let text = text.strip_prefix(MARK).unwrap_or(text);
    let meant = |character: char| {
        is_between(character) || character.is_ascii_hexdigit() || matches!(character, 'x' | 'X')
    };
    let lines = || text.split('\n').map(without_comment);
    lines().all(|line| line.chars().all(meant))
        && lines().any(|line| line.chars().any(|it| it.is_ascii_hexdigit()))
}

/// What begins a group or a definition.
const BEGINS: [u8; 7] = [0x4C, 0x4D, 0x4E, 0x4F, 0x50, 0x5F, 0x60];

/// Whether bytes are hex digits in text. No such bytes are a section or a body that the loader would accept: a section's
/// second byte begins a group or a definition, and a body's last one is 0B, which is no text.
pub fn is_text(bytes: &[u8]) -> bool {
    let Ok(text) = std::str::from_utf8(bytes) else { return false };
    let plain = |it: char| !it.is_control() || matches!(it, '\t' | '\r' | '\n');
    let begins = bytes.get(1).is_some_and(|second| BEGINS.contains(second));
    !begins && text.chars().all(plain) && is_meant(text)
}

/// Two digits a byte, in lower case.
pub fn plain(bytes: &[u8]) -> String {
    bytes.iter().map(|byte| format!("{byte:02x}")).collect()
}

pub fn spaced(bytes: &[u8]) -> String {
    bytes.iter().map(|byte| format!("{byte:02x}")).collect::<Vec<_>>().join(" ")
}

#[cfg(test)]
mod tests {
    use super::*;

    fn fault(text: &str) -> (usize, usize) {
        let fault = read_text(text).expect_err(text);
        (fault.line, fault.column)
    }

    #[test]
    fn what_is_read() {
        for text in [
            "014E00",
            "01 4e 00",
            "0x01, 0x4E, 0x00",
            "01,4E,00",
            "0x014E00",
            "\u{FEFF}01 4E\r\n00\r\n",
            "# remark, with 0g\n01 4E # more\n\t00",
        ] {
            assert_eq!(read_text(text).expect(text), [0x01, 0x4E, 0x00]);
        }
        assert_eq!(read_text("").expect("nothing"), []);
        assert_eq!(read_text("# nothing").expect("nothing"), []);
    }

    #[test]
    fn where_it_goes_wrong() {
        assert_eq!(fault("1 5F 0"), (1, 1));
        assert_eq!(fault("01 5F 0"), (1, 7));
        assert_eq!(fault("01\r\n5g"), (2, 2));
        assert_eq!(fault("01 # x\n0x0g"), (2, 4));
        assert_eq!(fault("01 0x"), (1, 4));
        assert_eq!(fault("014"), (1, 1));
    }

    /// Text that could be a section's bytes is not taken for hex digits.
    #[test]
    fn text_is_told_from_bytes() {
        assert!(is_text(b"01 5F 00\n"));
        assert!(is_text(b"# a remark\n01"));
        assert!(is_text(b"\xEF\xBB\xBF00"));
        assert!(!is_text(b""));
        assert!(!is_text(b"# a remark alone"));
        assert!(!is_text(b"#N00\n00"));
        assert!(!is_text(b"#_\n00"));
        assert!(!is_text(b"00\x0b"));
        assert!(!is_text(b"\0asm"));
    }
}
