//! Generated requests have branching casts of all four forms whose target is not below
//! the source, accepted and refused, taken and not: told from the requests, their
//! answers and their runs alone.

use plain::generate::requests;
use plain::instruction_reader::{read_instruction, read_locals_entry};
use plain::lines::{answer_request, read_request, Request};
use plain::machine::trial_run;
use plain::number::Reader;
use plain::order::{heap_below, row_of, top_of};
use plain::refusal::Refusal;
use plain::section::judge_section;
use plain::syntax::{BranchingCast, Heap, Instruction, Placed, Type};
use std::collections::BTreeMap;

const COUNT: usize = 30_000;
const LEAST: usize = 10;

const FORMS: [&str; 4] =
    ["br_on_cast", "br_on_cast_fail", "br_on_cast_desc_eq", "br_on_cast_desc_eq_fail"];

fn form(cast: &BranchingCast) -> &'static str {
    FORMS[2 * usize::from(cast.by_descriptor) + usize::from(cast.fail)]
}

/// A request for a body whose section is accepted.
struct Asked {
    request: Request,
    types: Vec<Type>,
    code: Vec<Placed>,
    answer: String,
}

impl Asked {
    fn of(request: &str) -> Option<Asked> {
        let request = read_request(request).ok()?;
        let (_, body) = request.body()?;
        let types = judge_section(request.library(), &request.section).ok()?;
        let mut code = Vec::new();
        // What cannot be read ends the list.
        let _ = read_code(body, &mut code);
        let answer = answer_request(&request);
        Some(Asked { request, types, code, answer })
    }

    fn refused(&self) -> bool {
        self.answer.starts_with("no ")
    }

    fn in_reach(&self, heap: Heap) -> bool {
        heap.number().is_none_or(|number| (number as usize) < self.types.len())
    }

    /// The branching casts whose types are there, with their places.
    fn casts(&self) -> Vec<(usize, BranchingCast)> {
        let casts = self.code.iter().filter_map(|placed| match placed.instruction {
            Instruction::BranchingCast(cast) => Some((placed.place, cast)),
            _ => None,
        });
        let there = |cast: &BranchingCast| {
            self.in_reach(cast.source.heap) && self.in_reach(cast.target.heap)
        };
        casts.filter(|(_, cast)| there(cast)).collect()
    }

    fn below(&self, lower: Heap, upper: Heap) -> bool {
        heap_below(&self.types, lower, upper)
    }

    fn one_hierarchy(&self, cast: &BranchingCast) -> bool {
        top_of(&self.types, cast.source.heap) == top_of(&self.types, cast.target.heap)
    }

    /// Of one hierarchy, and the target's heap type not below the source's.
    fn not_below(&self, cast: &BranchingCast) -> bool {
        self.one_hierarchy(cast) && !self.below(cast.target.heap, cast.source.heap)
    }

    /// Whether the cast was seen to branch, and to fall through, within so many steps.
    fn ways(&self, place: usize) -> (bool, bool) {
        let after = self.code.iter().map(|placed| placed.place).find(|&other| other > place);
        let (library, section) = (self.request.library(), &self.request.section);
        let (number, body) = self.request.body().expect("it has one");
        let places: Vec<usize> = (0..24)
            .map_while(|budget| trial_run(library, section, number, body, budget).ok())
            .map(|run| run.place)
            .collect();
        let mut ways = (false, false);
        for step in places.windows(2).filter(|step| step[0] == place && step[1] != place) {
            if Some(step[1]) == after {
                ways.1 = true;
            } else {
                ways.0 = true;
            }
        }
        ways
    }
}

fn read_code(body: &[u8], code: &mut Vec<Placed>) -> Result<(), Refusal> {
    let mut reader = Reader::new(body);
    for _ in 0..reader.u32()? {
        read_locals_entry(&mut reader)?;
    }
    loop {
        code.push(read_instruction(&mut reader)?);
    }
}

fn bottom(heap: Heap) -> bool {
    matches!(heap, Heap::Abstract(heap) if row_of(heap).bottom == heap)
}

fn exact(heap: Heap) -> bool {
    matches!(heap, Heap::Exact(_))
}

/// A shape, and how it is told.
type Shape = (&'static str, fn(&Asked, &BranchingCast) -> bool);

const ACCEPTED: [Shape; 8] = [
    ("target not below source, neither null", |asked, cast| {
        asked.not_below(cast) && !cast.source.nullable && !cast.target.nullable
    }),
    ("target not below source, source nullable", |asked, cast| {
        asked.not_below(cast) && cast.source.nullable && !cast.target.nullable
    }),
    ("target not below source, target nullable", |asked, cast| {
        asked.not_below(cast) && !cast.source.nullable && cast.target.nullable
    }),
    ("target not below source, both nullable", |asked, cast| {
        asked.not_below(cast) && cast.source.nullable && cast.target.nullable
    }),
    ("only null is not below", |asked, cast| {
        asked.below(cast.target.heap, cast.source.heap)
            && cast.target.nullable
            && !cast.source.nullable
    }),
    ("neither below the other", |asked, cast| {
        asked.not_below(cast) && !asked.below(cast.source.heap, cast.target.heap)
    }),
    ("a bottom as source", |asked, cast| asked.not_below(cast) && bottom(cast.source.heap)),
    ("an exact type", |asked, cast| {
        asked.not_below(cast) && (exact(cast.source.heap) || exact(cast.target.heap))
    }),
];

const REFUSED: [Shape; 2] = [
    ("two hierarchies", |asked, cast| !asked.one_hierarchy(cast)),
    ("target not below source, not taken", |asked, cast| asked.not_below(cast)),
];

type Counts = BTreeMap<(&'static str, &'static str), usize>;

fn count(counts: &mut Counts, asked: &Asked) {
    for (place, cast) in asked.casts() {
        let refused_here = asked.answer == format!("no 25 {place}");
        let shapes: &[Shape] = match asked.refused() {
            true if refused_here => &REFUSED,
            true => &[],
            false => &ACCEPTED,
        };
        for (name, shape) in shapes {
            if shape(asked, &cast) {
                *counts.entry((name, form(&cast))).or_default() += 1;
            }
        }
        if !asked.refused() && asked.not_below(&cast) {
            let (taken, falls) = asked.ways(place);
            *counts.entry(("taken", form(&cast))).or_default() += usize::from(taken);
            *counts.entry(("falls through", form(&cast))).or_default() += usize::from(falls);
        }
        // No other refusal lets two hierarchies by.
        assert!(asked.refused() || asked.one_hierarchy(&cast));
    }
}

#[test]
fn every_shape_comes_up_in_every_form() {
    for (seed, small) in [(31, false), (32, true)] {
        let mut counts = Counts::new();
        let asked = requests(seed, COUNT, small).filter_map(|request| Asked::of(&request));
        asked.for_each(|asked| count(&mut counts, &asked));
        let names = ACCEPTED.iter().chain(&REFUSED).map(|&(name, _)| name);
        for name in names.chain(["taken", "falls through"]) {
            for form in FORMS {
                let seen = counts.get(&(name, form)).copied().unwrap_or(0);
                println!("{form}, {name}: {seen}, small: {small}");
                assert!(seen >= LEAST, "{form}, {name}: {seen}, small: {small}");
            }
        }
    }
}
