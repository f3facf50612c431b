//! JSON read, and held to a schema: as much of both as the program's answers and docs/answers.schema.json use.

#[derive(Clone, Debug, PartialEq)]
pub enum Json {
    Null,
    Yes(bool),
    Number(String),
    Text(String),
    List(Vec<Json>),
    Object(Vec<(String, Json)>),
}

impl Json {
    pub fn get(&self, name: &str) -> Option<&Json> {
        match self {
            Json::Object(members) => members.iter().find(|it| it.0 == name).map(|it| &it.1),
            _ => None,
        }
    }

    pub fn text(&self, name: &str) -> &str {
        match self.get(name) {
            Some(Json::Text(text)) => text,
            other => panic!("{name} is {other:?}"),
        }
    }
}

pub fn read(text: &str) -> Json {
    let mut reader = Reader { text, at: 0 };
    let value = reader.value();
    reader.space();
    assert_eq!(reader.at, text.len(), "something stands behind the value: {text}");
    value
}

struct Reader<'a> {
    text: &'a str,
    at: usize,
}

impl Reader<'_> {
    fn space(&mut self) {
        while self.next().is_some_and(char::is_whitespace) {
            self.at += 1;
        }
    }

    fn next(&self) -> Option<char> {
        self.text[self.at..].chars().next()
    }

    fn takes(&mut self, word: &str) -> bool {
        self.space();
        let there = self.text[self.at..].starts_with(word);
        self.at += if there { word.len() } else { 0 };
        there
    }

    fn wants(&mut self, word: &str) {
        assert!(self.takes(word), "{word} is wanted at {} of {}", self.at, self.text);
    }

    fn value(&mut self) -> Json {
        if self.takes("null") {
            return Json::Null;
        }
        for (word, value) in [("true", true), ("false", false)] {
            if self.takes(word) {
                return Json::Yes(value);
            }
        }
        if self.takes("[") {
            return Json::List(self.entries("]", Reader::value));
        }
        if self.takes("{") {
            return Json::Object(self.entries("}", |reader| {
                reader.wants("\"");
                let name = reader.string();
                reader.wants(":");
                (name, reader.value())
            }));
        }
        if self.takes("\"") {
            return Json::Text(self.string());
        }
        let from = self.at;
        while self.next().is_some_and(|it| it.is_ascii_digit() || it == '-') {
            self.at += 1;
        }
        assert!(self.at > from, "no value at {from} of {}", self.text);
        Json::Number(self.text[from..self.at].to_string())
    }

    fn entries<T>(&mut self, close: &str, read: fn(&mut Self) -> T) -> Vec<T> {
        let mut entries = Vec::new();
        while !self.takes(close) {
            if !entries.is_empty() {
                self.wants(",");
            }
            entries.push(read(self));
        }
        entries
    }

    fn string(&mut self) -> String {
        let mut text = String::new();
        loop {
            let next = self.next().expect("a string is closed");
            self.at += next.len_utf8();
            match next {
                '"' => return text,
                '\\' => {
                    let escape = self.next().expect("an escape");
                    self.at += 1;
                    text.push(match escape {
                        'n' => '\n',
                        't' => '\t',
                        'u' => {
                            self.at += 4;
                            let digits = &self.text[self.at - 4..self.at];
                            let code = u32::from_str_radix(digits, 16).expect("hex digits");
                            char::from_u32(code).expect("a character")
                        }
                        other => other,
                    });
                }
                control if (control as u32) < 0x20 => panic!("a bare control character"),
                other => text.push(other),
            }
        }
    }
}

/// What of the schema a value does not keep, if anything.
pub fn fault(value: &Json, schema: &Json, root: &Json) -> Option<String> {
    let Json::Object(rules) = schema else { panic!("a schema is an object") };
    rules.iter().find_map(|(name, rule)| broken(value, name, rule, schema, root))
}

fn broken(value: &Json, name: &str, rule: &Json, schema: &Json, root: &Json) -> Option<String> {
    match (name, rule) {
        ("$ref", Json::Text(path)) => {
            let name = path.strip_prefix("#/$defs/").expect("a definition");
            let found = root.get("$defs").and_then(|defs| defs.get(name)).expect(name);
            fault(value, found, root).map(|why| format!("{name}: {why}"))
        }
        ("anyOf", Json::List(schemas)) => {
            let faults: Option<Vec<String>> =
                schemas.iter().map(|schema| fault(value, schema, root)).collect();
            faults.map(|all| format!("none of: {}", all.join("; ")))
        }
        ("type", Json::Text(kind)) => (!is(value, kind)).then(|| format!("no {kind}")),
        ("type", Json::List(kinds)) => {
            let some = kinds.iter().any(|kind| matches!(kind, Json::Text(kind) if is(value, kind)));
            (!some).then(|| "of no such type".to_string())
        }
        ("const", wanted) => (value != wanted).then(|| format!("not {wanted:?}")),
        ("enum", Json::List(all)) => (!all.contains(value)).then(|| format!("{value:?} is new")),
        ("required", Json::List(names)) => names.iter().find_map(|name| match name {
            Json::Text(name) if value.get(name).is_none() => Some(format!("{name} is missing")),
            _ => None,
        }),
        ("properties", Json::Object(members)) => members.iter().find_map(|(name, schema)| {
            fault(value.get(name)?, schema, root).map(|why| format!("{name}: {why}"))
        }),
        ("additionalProperties", Json::Yes(false)) => {
            let known = schema.get("properties").expect("properties");
            let Json::Object(members) = value else { return None };
            let new = members.iter().find(|(name, _)| known.get(name).is_none());
            new.map(|(name, _)| format!("{name} is not in the schema"))
        }
        ("items", schema) => match value {
            Json::List(items) => items.iter().find_map(|item| fault(item, schema, root)),
            _ => None,
        },
        ("pattern", Json::Text(pattern)) => match value {
            Json::Text(text) if !fits(text, pattern) => Some(format!("{text} is no {pattern}")),
            _ => None,
        },
        ("minimum" | "title" | "$schema" | "$defs", _) => None,
        _ => panic!("{name} is not read here"),
    }
}

fn is(value: &Json, kind: &str) -> bool {
    match value {
        Json::Null => kind == "null",
        Json::Yes(_) => kind == "boolean",
        Json::Number(_) => kind == "integer",
        Json::Text(_) => kind == "string",
        Json::List(_) => kind == "array",
        Json::Object(_) => kind == "object",
    }
}

/// Whether a text is what the schema's patterns say: letters before a colon, a minus that may be missing, and digits, decimal
/// ones or so many in hex.
fn fits(text: &str, pattern: &str) -> bool {
    let (word, rest) = pattern[1..pattern.len() - 1].split_once(':').expect("a word and a colon");
    let Some(number) = text.strip_prefix(word).and_then(|text| text.strip_prefix(':')) else {
        return false;
    };
    let (number, rest) = match rest.strip_prefix("-?") {
        Some(rest) => (number.strip_prefix('-').unwrap_or(number), rest),
        None => (number, rest),
    };
    match rest.strip_prefix("[0-9a-f]") {
        Some(count) => {
            let count: usize = count.trim_matches(['{', '}']).parse().expect("a count");
            number.len() == count && number.chars().all(|digit| digit.is_ascii_hexdigit())
        }
        None => !number.is_empty() && number.chars().all(|digit| digit.is_ascii_digit()),
    }
}
