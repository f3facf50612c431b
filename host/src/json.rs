//! JSON, written on one line.

use std::fmt;

pub enum Json {
    Null,
    Yes(bool),
    Number(u64),
    Text(String),
    List(Vec<Json>),
    Object(Vec<(&'static str, Json)>),
}

impl From<&str> for Json {
    fn from(text: &str) -> Json {
        Json::Text(text.to_string())
    }
}

impl From<String> for Json {
    fn from(text: String) -> Json {
        Json::Text(text)
    }
}

impl From<u64> for Json {
    fn from(number: u64) -> Json {
        Json::Number(number)
    }
}

impl From<usize> for Json {
    fn from(number: usize) -> Json {
        Json::Number(number as u64)
    }
}

impl From<u16> for Json {
    fn from(number: u16) -> Json {
        Json::Number(u64::from(number))
    }
}

impl From<bool> for Json {
    fn from(yes: bool) -> Json {
        Json::Yes(yes)
    }
}

impl<T: Into<Json>> From<Option<T>> for Json {
    fn from(value: Option<T>) -> Json {
        value.map_or(Json::Null, Into::into)
    }
}

impl<T: Into<Json>> From<Vec<T>> for Json {
    fn from(values: Vec<T>) -> Json {
        Json::List(values.into_iter().map(Into::into).collect())
    }
}

impl fmt::Display for Json {
    fn fmt(&self, to: &mut fmt::Formatter) -> fmt::Result {
        match self {
            Json::Null => write!(to, "null"),
            Json::Yes(yes) => write!(to, "{yes}"),
            Json::Number(number) => write!(to, "{number}"),
            Json::Text(text) => quoted(to, text),
            Json::List(items) => {
                write!(to, "[")?;
                for (index, item) in items.iter().enumerate() {
                    write!(to, "{}{item}", if index > 0 { "," } else { "" })?;
                }
                write!(to, "]")
            }
            Json::Object(members) => {
                write!(to, "{{")?;
                for (index, (name, value)) in members.iter().enumerate() {
                    write!(to, "{}\"{name}\":{value}", if index > 0 { "," } else { "" })?;
                }
                write!(to, "}}")
            }
        }
    }
}

fn quoted(to: &mut fmt::Formatter, text: &str) -> fmt::Result {
    write!(to, "\"")?;
    for character in text.chars() {
        match character {
            '"' => write!(to, "\\\"")?,
            '\\' => write!(to, "\\\\")?,
            '\n' => write!(to, "\\n")?,
            '\t' => write!(to, "\\t")?,
            control if control.is_control() => write!(to, "\\u{:04x}", control as u32)?,
            other => write!(to, "{other}")?,
        }
    }
    write!(to, "\"")
}
