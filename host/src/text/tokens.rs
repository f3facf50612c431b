//! Text as parentheses and words, with where each stands.

use crate::syntax::float::{without_underscores, Width};
use std::fmt;

#[derive(Debug)]
pub struct Fault {
    pub line: usize,
    pub column: usize,
    pub why: String,
}

impl fmt::Display for Fault {
    fn fmt(&self, to: &mut fmt::Formatter) -> fmt::Result {
        write!(to, "line {}, column {}: {}", self.line, self.column, self.why)
    }
}

#[derive(Clone, Copy, Debug)]
pub struct Token<'a> {
    pub text: &'a str,
    pub line: usize,
    pub column: usize,
}

/// Comments are left out: from ;; to the end of a line, and (; .. ;), one in another too.
pub fn tokens(text: &str) -> Result<Vec<Token<'_>>, Fault> {
    let text = text.strip_prefix('\u{FEFF}').unwrap_or(text);
    let mut cut = Cut { text, at: 0, line: 1, column: 1 };
    let mut found = Vec::new();
    while let Some(token) = cut.next()? {
        found.push(token);
    }
    Ok(found)
}

struct Cut<'a> {
    text: &'a str,
    at: usize,
    line: usize,
    column: usize,
}

impl<'a> Cut<'a> {
    fn rest(&self) -> &'a str {
        &self.text[self.at..]
    }

    fn pass(&mut self, character: char) {
        self.at += character.len_utf8();
        self.column += 1;
        if character == '\n' {
            self.line += 1;
            self.column = 1;
        }
    }

    fn pass_while(&mut self, wanted: fn(char) -> bool) {
        while let Some(character) = self.rest().chars().next().filter(|&it| wanted(it)) {
            self.pass(character);
        }
    }

    fn next(&mut self) -> Result<Option<Token<'a>>, Fault> {
        loop {
            self.pass_while(char::is_whitespace);
            if self.rest().starts_with(";;") {
                self.pass_while(|character| character != '\n');
            } else if self.rest().starts_with("(;") {
                self.comment()?;
            } else {
                break;
            }
        }
        let Some(first) = self.rest().chars().next() else { return Ok(None) };
        let (from, line, column) = (self.at, self.line, self.column);
        self.pass(first);
        if !matches!(first, '(' | ')') {
            self.pass_while(|it| !it.is_whitespace() && !matches!(it, '(' | ')' | ';'));
        }
        Ok(Some(Token { text: &self.text[from..self.at], line, column }))
    }

    fn comment(&mut self) -> Result<(), Fault> {
        let (line, column) = (self.line, self.column);
        let mut depth = 0;
        loop {
            let rest = self.rest();
            let Some(first) = rest.chars().next() else {
                return Err(Fault { line, column, why: "this comment is not closed".to_string() });
            };
            let (opens, closes) = (rest.starts_with("(;"), rest.starts_with(";)"));
            self.pass(first);
            if opens || closes {
                self.pass(';');
                depth += opens as usize;
                depth -= closes as usize;
            }
            if depth == 0 {
                return Ok(());
            }
        }
    }
}

/// Tokens taken one after the other.
pub struct Words<'a> {
    tokens: Vec<Token<'a>>,
    at: usize,
}

impl<'a> Words<'a> {
    pub fn new(text: &'a str) -> Result<Words<'a>, Fault> {
        Ok(Words { tokens: tokens(text)?, at: 0 })
    }

    pub fn all(&self) -> &[Token<'a>] {
        &self.tokens
    }

    pub fn peek(&self) -> Option<&'a str> {
        self.tokens.get(self.at).map(|token| token.text)
    }

    /// The word behind a parenthesis that opens here.
    pub fn opens(&self) -> Option<&'a str> {
        match self.peek() {
            Some("(") => self.tokens.get(self.at + 1).map(|token| token.text),
            _ => None,
        }
    }

    pub fn fault(&self, why: impl Into<String>) -> Fault {
        self.fault_at(self.at, why)
    }

    /// At a word that was taken.
    pub fn fault_at(&self, at: usize, why: impl Into<String>) -> Fault {
        let token = self.tokens.get(at).or(self.tokens.last());
        let (line, column) = token.map_or((1, 1), |token| (token.line, token.column));
        Fault { line, column, why: why.into() }
    }

    /// Where the next word stands among all.
    pub fn at(&self) -> usize {
        self.at
    }

    pub fn go_to(&mut self, at: usize) {
        self.at = at;
    }

    /// Past a part in parentheses that opens here; what is in it is not looked at.
    pub fn pass_over(&mut self) -> Result<(), Fault> {
        let opened = self.at;
        let mut depth = 0;
        loop {
            match self.take() {
                Some("(") => depth += 1,
                Some(")") => depth -= 1,
                Some(_) => (),
                None => return Err(self.fault_at(opened, "this parenthesis is not closed")),
            }
            if depth == 0 {
                return Ok(());
            }
        }
    }

    /// What stands here instead of what is wanted.
    pub fn unexpected(&self, wanted: &str) -> Fault {
        let behind = self.opens().map(|word| format!("({word}"));
        match behind.as_deref().or(self.peek()) {
            Some(text) => self.fault(format!("{wanted} is wanted here, and not `{text}`")),
            None => self.fault(format!("{wanted} is wanted behind this, and the text ends")),
        }
    }

    pub fn take(&mut self) -> Option<&'a str> {
        let text = self.peek()?;
        self.at += 1;
        Some(text)
    }

    pub fn takes(&mut self, text: &str) -> bool {
        let there = self.peek() == Some(text);
        self.at += there as usize;
        there
    }

    /// A parenthesis and the word behind it.
    pub fn takes_open(&mut self, word: &str) -> bool {
        let there = self.opens() == Some(word);
        self.at += 2 * there as usize;
        there
    }

    pub fn wants(&mut self, text: &str) -> Result<(), Fault> {
        match self.takes(text) {
            true => Ok(()),
            false => Err(self.unexpected(&format!("`{text}`"))),
        }
    }

    /// A name, as `$0`.
    pub fn name(&mut self) -> Option<&'a str> {
        let name = self.peek().filter(|text| text.starts_with('$'))?;
        self.at += 1;
        Some(name)
    }

    pub fn number(&mut self, what: &str) -> Result<u32, Fault> {
        let number = self.peek().and_then(read_unsigned).ok_or_else(|| self.unexpected(what))?;
        self.at += 1;
        Ok(number)
    }

    /// An integer of so many bits; one above the greatest with a sign has the same bits as a negative one.
    pub fn constant(&mut self, bits: u32) -> Result<i64, Fault> {
        let number = self.peek().and_then(|text| read_constant(text, bits));
        let number = number.ok_or_else(|| self.unexpected(&format!("a number of {bits} bits")))?;
        self.at += 1;
        Ok(number)
    }

    /// The bits of a float.
    pub fn float(&mut self, width: &Width) -> Result<u64, Fault> {
        let bits = self.peek().and_then(|text| width.read(text));
        let bits = bits.ok_or_else(|| self.unexpected("a float"))?;
        self.at += 1;
        Ok(bits)
    }
}

pub fn read_unsigned(text: &str) -> Option<u32> {
    read_digits(text).and_then(|number| u32::try_from(number).ok())
}

/// Decimal, or hex digits behind 0x.
fn read_digits(text: &str) -> Option<u64> {
    let digits = without_underscores(text)?;
    let (digits, radix) = match digits.strip_prefix("0x") {
        Some(hex) => (hex, 16),
        None => (&digits[..], 10),
    };
    // No sign, which Rust would read.
    if !digits.starts_with(|first: char| first.is_digit(radix)) {
        return None;
    }
    u64::from_str_radix(digits, radix).ok()
}

/// Of 32 bits from -2^31 to 2^32 - 1, of 64 likewise.
fn read_constant(text: &str, bits: u32) -> Option<i64> {
    let (negative, digits) = match text.strip_prefix('-') {
        Some(digits) => (true, digits),
        None => (false, text.strip_prefix('+').unwrap_or(text)),
    };
    let number = i128::from(read_digits(digits)?);
    let number = if negative { -number } else { number };
    let within = (-(1i128 << (bits - 1))..1i128 << bits).contains(&number);
    // The low bits, with the sign that they have at this width.
    within.then_some(((number << (128 - bits)) >> (128 - bits)) as i64)
}
