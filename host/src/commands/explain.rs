//! A refusal or a trap by its number.

use super::{read_number, say, say_json};
use crate::arguments::Arguments;
use crate::explain::accepted::{self, Row};
use crate::explain::refusals::{self, Entry, Example};
use crate::json::Json;
use crate::{help, Outcome, Trouble};
use std::ffi::OsStr;

const NAME: &str = "explain";

pub fn explain(arguments: &Arguments, words: &[&str]) -> Result<Outcome, Trouble> {
    if arguments.page {
        return say(&refusals::page());
    }
    match words {
        ["accepted"] if arguments.json => {
            let rows = |rows: Vec<Row>| Json::List(rows.into_iter().map(row_json).collect());
            let accepted = ("accepted", rows(accepted::accepted()));
            say_json(NAME, vec![accepted, ("not_accepted", rows(accepted::not_accepted()))])
        }
        ["accepted"] => say(&accepted::page()),
        [] if arguments.json => {
            let all = refusals::ENTRIES.iter().map(|entry| Json::Object(members(entry)));
            say_json(NAME, vec![("numbers", Json::List(all.collect()))])
        }
        [] => say(&refusals::list()),
        [number] => {
            let entry =
                refusals::entry(read_number(OsStr::new(number))?).ok_or_else(|| unknown(number))?;
            match arguments.json {
                true => say_json(NAME, members(entry)),
                false => say(&refusals::text(entry)),
            }
        }
        [_, extra, ..] => Err(help::too_many(NAME, extra)),
    }
}

fn row_json(row: Row) -> Json {
    Json::Object(vec![
        ("kind", row.kind.into()),
        ("bytes", row.bytes.replace(' ', "").into()),
        ("name", row.name.into()),
        ("follows", row.follows.into()),
    ])
}

fn unknown(number: &str) -> Trouble {
    format!("there is no refusal or trap {number}\nthere are {}", refusals::NUMBERS)
}

fn members(entry: &Entry) -> Vec<(&'static str, Json)> {
    let examples = entry.examples.iter().map(example_json);
    vec![
        ("number", entry.number.into()),
        ("kind", entry.kind().into()),
        ("title", entry.title.into()),
        ("meaning", entry.means.into()),
        ("place", entry.place.into()),
        ("rule", entry.rule.into()),
        ("examples", Json::List(examples.collect())),
    ]
}

fn example_json(example: &Example) -> Json {
    Json::Object(vec![
        ("call", example.broken.command().into()),
        ("answer", example.broken.answer().into()),
        ("why", example.why.into()),
        ("mended", example.mended.command().into()),
        ("mend", example.mend.into()),
    ])
}
