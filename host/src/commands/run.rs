//! A trial run.

use super::{add_on_told, read_add_on, read_number, refused, say, say_json};
use crate::arguments::Arguments;
use crate::explain::trace::{self, Step};
use crate::explain::{self, refusals};
use crate::json::Json;
use crate::{ask, hex, Outcome, Trouble};
use chelbugan::state::{Block, Object, Value};
use chelbugan::{Ended, Loader, Run, State};
use std::ffi::OsStr;

const NAME: &str = "run";

/// A run that traps or is spent is a yes: the add-on was accepted (docs/DECISIONS.md). Whoever wants another exit status for
/// a trap says so.
pub fn run(arguments: &Arguments, words: &[&OsStr]) -> Result<Outcome, Trouble> {
    let add_on = read_add_on(arguments, words[0], words[1], words[2])?;
    let budget = read_number(words[3])?;
    let mut loader = Loader::new();
    match ask::run(&mut loader, &add_on, budget) {
        Err(refusal) => refused(arguments, NAME, refusal, &add_on_told(&add_on, refusal)),
        Ok(run) => {
            let (trapped, steps) = match run.ended {
                Ended::Trap { steps, .. } => (true, steps),
                Ended::Done { steps, .. } | Ended::Spent { steps } => (false, steps),
            };
            let traced = arguments.trace.then(|| trace::steps(&add_on, steps));
            if arguments.json {
                let trace = traced.map(|steps| ("trace", trace_json(&add_on.body, &steps)));
                say_json(NAME, members(&add_on.body, &run).into_iter().chain(trace).collect())?;
            } else if !arguments.quiet {
                let trace = traced.map_or(String::new(), |steps| trace::text(&steps));
                say(&(trace + &explain::ended(&add_on.body, &run)))?;
            }
            match trapped && arguments.fail_on_trap {
                true => Ok(Outcome::No),
                false => Ok(Outcome::Yes),
            }
        }
    }
}

fn trace_json(body: &[u8], steps: &[Step]) -> Json {
    let step = |step: &Step| {
        Json::Object(vec![
            ("step", step.number.into()),
            ("place", step.line.bytes.start.into()),
            ("bytes", hex::plain(&body[step.line.bytes.clone()]).into()),
            ("text", step.line.text.as_str().into()),
            ("operands", values(&step.operands)),
        ])
    };
    Json::List(steps.iter().map(step).collect())
}

pub fn members(body: &[u8], run: &Run) -> Vec<(&'static str, Json)> {
    let mut members = vec![("answer", "yes".into())];
    match run.ended {
        Ended::Done { steps, .. } => {
            members.push(("ended", "done".into()));
            members.push(("steps", steps.into()));
            members.push(("results", values(&run.state.operands())));
        }
        Ended::Trap { number, place, steps } => {
            members.push(("ended", "trap".into()));
            members.push(("steps", steps.into()));
            members.push(("trap", number.into()));
            members.push(("place", place.into()));
            members.push(("meaning", refusals::title(number).into()));
            let why = explain::trap::cause(body, number, place as usize, &run.state);
            members.push(("cause", why.unwrap_or(refusals::title(number).to_string()).into()));
        }
        Ended::Spent { steps } => {
            members.push(("ended", "spent".into()));
            members.push(("steps", steps.into()));
        }
    }
    members.push(("state", state(&run.state)));
    members
}

fn state(state: &State) -> Json {
    let locals = state.locals().into_iter().map(|local| local.map(|value| value.to_string()));
    Json::Object(vec![
        ("place", state.place().into()),
        ("objects", Json::List(state.objects().iter().map(object).collect())),
        ("locals", locals.collect::<Vec<_>>().into()),
        ("operands", values(&state.operands())),
        ("blocks", Json::List(state.blocks().iter().map(block).collect())),
    ])
}

/// As the lines of docs/LAYOUT.md write them.
fn values(values: &[Value]) -> Json {
    values.iter().map(Value::to_string).collect::<Vec<_>>().into()
}

fn object(object: &Object) -> Json {
    Json::Object(vec![
        ("type", object.type_number.into()),
        ("descriptor", object.descriptor.into()),
        ("fields", values(&object.fields)),
    ])
}

fn block(block: &Block) -> Json {
    let kind = if block.is_loop { "loop" } else { "block" };
    Json::Object(vec![
        ("kind", kind.into()),
        ("place", block.place.into()),
        ("height", block.height.into()),
    ])
}
