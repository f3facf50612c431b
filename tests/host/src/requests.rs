//! Requests: those of the plain checker's generator. Now and then the sections of a body are judged alone, most often with a
//! byte or two spoilt; and a body that was to be judged is run, so that runs meet every size that bodies meet.

use crate::memory;
use chelbugan::EMPTY_LIBRARY;
use plain::generate::random::Random;
use plain::generate::{self, spoil_bytes::spoil_bytes};
use plain::{lines, sizes};
use std::fmt;

/// The two sections, and what is asked of them.
#[derive(Clone, Debug)]
pub struct Request {
    /// None where the request has no library: the loader is then handed the one without types.
    pub library: Option<Vec<u8>>,
    pub section: Vec<u8>,
    pub asked: Asked,
}

/// By each call of the loader.
#[derive(Clone, Debug)]
pub enum Asked {
    Section,
    Type(u64),
    Body(u64, Vec<u8>),
    /// With its budget.
    Run(u64, Vec<u8>, u64),
}

/// As many as are taken, the same for the same seed.
pub fn generated(seed: u64) -> impl Iterator<Item = Request> {
    let mut random = Random::new(seed ^ 0x5EC7);
    generate::requests(seed, usize::MAX, false).map(move |line| {
        let request = lines::read_request(&line).expect("the generator writes requests");
        varied(&mut random, request)
    })
}

/// The same without their libraries, for what a loader without libraries answered.
pub fn without_libraries(seed: u64) -> impl Iterator<Item = Request> {
    generated(seed).map(|request| Request { library: None, ..request })
}

fn varied(random: &mut Random, request: lines::Request) -> Request {
    let lines::Request { library, section, asked } = request;
    let request = |asked| Request { library, section, asked };
    match asked {
        lines::Asked::Section => request(Asked::Section),
        lines::Asked::TypeBytes(number) => request(Asked::Type(number.into())),
        lines::Asked::Body(function, _) | lines::Asked::Run(function, ..) if random.one_in(5) => {
            about_sections(random, request(Asked::Section), function)
        }
        lines::Asked::Body(function, body) => request(match random.one_in(3) {
            true => Asked::Run(function.into(), body, any_budget(random)),
            false => Asked::Body(function.into(), body),
        }),
        lines::Asked::Run(function, body, budget) => {
            request(Asked::Run(function.into(), body, budget))
        }
    }
}

/// A few steps, as many as fill the operands or open all blocks, more than a body without loops takes, or around the size.
fn any_budget(random: &mut Random) -> u64 {
    let budget = match random.below(4) {
        0 => random.below(24),
        1 => random.below(sizes::OPERANDS + 8),
        2 => sizes::INPUT_BYTES,
        _ => sizes::BUDGET as usize + random.below(2),
    };
    budget as u64
}

/// The sections of a body alone, or asked for one of their types.
fn about_sections(random: &mut Random, mut request: Request, function: u32) -> Request {
    for _ in 0..random.below(4) {
        match &mut request.library {
            Some(library) if random.one_in(2) => spoil_bytes(random, library),
            _ => spoil_bytes(random, &mut request.section),
        }
    }
    if random.one_in(4) {
        request.asked = Asked::Type(random.below(function as usize + 2) as u64);
    }
    request
}

impl Request {
    /// Judge a section that has no library.
    pub fn section(section: &[u8]) -> Request {
        Request { library: None, section: section.to_vec(), asked: Asked::Section }
    }

    pub fn type_of(section: &[u8], number: u64) -> Request {
        Request { asked: Asked::Type(number), ..Request::section(section) }
    }

    pub fn body(section: &[u8], number: u64, body: &[u8]) -> Request {
        Request { asked: Asked::Body(number, body.to_vec()), ..Request::section(section) }
    }

    pub fn run(section: &[u8], number: u64, body: &[u8], budget: u64) -> Request {
        Request { asked: Asked::Run(number, body.to_vec(), budget), ..Request::section(section) }
    }

    /// The same with a library before the section.
    pub fn after(self, library: &[u8]) -> Request {
        Request { library: Some(library.to_vec()), ..self }
    }

    /// The library that the loader is handed.
    pub fn library(&self) -> &[u8] {
        self.library.as_deref().unwrap_or(EMPTY_LIBRARY)
    }

    /// What is judged, for a tally of the answers.
    pub fn kind(&self) -> &'static str {
        match self.asked {
            Asked::Section => "sections",
            Asked::Type(_) => "types",
            Asked::Body(..) => "bodies",
            Asked::Run(..) => "runs",
        }
    }

    /// How many buffers its call is lent.
    pub fn buffers(&self) -> usize {
        match self.asked {
            Asked::Section | Asked::Type(_) => 3,
            Asked::Body(..) => 4,
            Asked::Run(..) => memory::BUFFERS,
        }
    }
}

/// The request as a line (docs/LAYOUT.md).
impl fmt::Display for Request {
    fn fmt(&self, to: &mut fmt::Formatter) -> fmt::Result {
        let hex = lines::hex;
        let library = self.library.as_ref().map_or(String::new(), |bytes| hex(bytes) + " ");
        let sections = library + &hex(&self.section);
        match &self.asked {
            Asked::Section => write!(to, "S {sections}"),
            Asked::Type(number) => write!(to, "T {sections} {number}"),
            Asked::Body(number, body) => write!(to, "B {sections} {number} {}", hex(body)),
            Asked::Run(number, body, budget) => {
                write!(to, "R {sections} {number} {} {budget}", hex(body))
            }
        }
    }
}
