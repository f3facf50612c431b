//! The least of many samples, the loader's and the plain checker's in turn: other work on the machine only adds to a time.

use crate::inputs::{Input, Numbers, Size};
use chelbugan::calls::{self, Ended};
use plain::refusal::Refusal;
use std::hint::black_box;
use std::time::{Duration, Instant};

/// Rounds over all inputs, so that a while of other work does not fall on all samples of one.
pub const ROUNDS: usize = 3;
/// In each round.
const SAMPLES: usize = 15;
const SAMPLE_TIME: Duration = Duration::from_millis(3);

/// An input with the nanoseconds that each takes for it.
pub struct Row {
    pub what: &'static str,
    pub kind: &'static str,
    pub size: Size,
    pub amount: usize,
    pub numbers: Option<Numbers>,
    pub loader: f64,
    pub plain: f64,
}

impl Row {
    /// Nanoseconds for each byte or step.
    pub fn for_each(&self, nanoseconds: f64) -> f64 {
        nanoseconds / self.amount as f64
    }

    /// Millions of steps a second.
    pub fn speed(&self, nanoseconds: f64) -> f64 {
        1000.0 / self.for_each(nanoseconds)
    }

    pub fn ratio(&self) -> f64 {
        self.loader / self.plain
    }

    /// Of two rounds.
    pub fn least(self, other: Row) -> Row {
        Row { loader: self.loader.min(other.loader), plain: self.plain.min(other.plain), ..self }
    }
}

/// The buffers that the loader is lent, cleared before the first call and by the loader itself in each.
struct Lent {
    rows: Vec<u16>,
    shared: Vec<u16>,
    codes: Vec<u16>,
    work: Vec<u32>,
    ends: Vec<u16>,
    counts: Vec<u64>,
    objects: Vec<u16>,
    cells: Vec<u64>,
    locals: Vec<u64>,
    operands: Vec<u64>,
    blocks: Vec<u16>,
}

impl Lent {
    fn new() -> Lent {
        Lent {
            rows: vec![0; calls::ROWS],
            shared: vec![0; calls::SHARED],
            codes: vec![0; calls::CODES],
            work: vec![0; calls::WORK],
            ends: vec![0; calls::ENDS],
            counts: vec![0; calls::COUNTS],
            objects: vec![0; calls::OBJECTS],
            cells: vec![0; calls::CELLS],
            locals: vec![0; calls::LOCALS],
            operands: vec![0; calls::OPERANDS],
            blocks: vec![0; calls::BLOCKS],
        }
    }

    fn run_memory(&mut self) -> calls::RunMemory<'_> {
        calls::RunMemory {
            rows: &mut self.rows,
            shared: &mut self.shared,
            codes: &mut self.codes,
            work: &mut self.work,
            ends: &mut self.ends,
            counts: &mut self.counts,
            objects: &mut self.objects,
            cells: &mut self.cells,
            locals: &mut self.locals,
            operands: &mut self.operands,
            blocks: &mut self.blocks,
        }
    }

    /// The count of types or of instructions, or the steps.
    fn judge(&mut self, input: &Input) -> Result<u64, calls::Refusal> {
        let (library, section) = (input.library(), &input.section[..]);
        let Lent { rows, shared, codes, work, .. } = self;
        let Some((number, body)) = &input.body else {
            return calls::judge_section(library, section, rows, shared, codes);
        };
        let number = u64::from(*number);
        match input.budget {
            None => calls::judge_body(library, section, body, number, rows, shared, codes, work),
            Some(budget) => {
                let memory = &mut self.run_memory();
                calls::try_run(library, section, body, number, budget, memory).map(steps)
            }
        }
    }
}

fn steps(ended: Ended) -> u64 {
    match ended {
        Ended::Done { steps, .. } | Ended::Trap { steps, .. } | Ended::Spent { steps } => steps,
    }
}

/// The same by the plain checker.
fn judge_plainly(input: &Input) -> Result<usize, Refusal> {
    let (library, section) = (input.library(), &input.section[..]);
    let Some((number, body)) = &input.body else {
        return plain::section::judge_section(library, section).map(|types| types.len());
    };
    match input.budget {
        None => {
            let judged = plain::body::judge_body(library, section, *number, body);
            judged.map(|body| body.code.len())
        }
        Some(budget) => {
            let run = plain::machine::trial_run(library, section, *number, body, budget);
            run.map(|run| run.steps as usize)
        }
    }
}

pub fn measure(input: &Input) -> Row {
    let mut lent = Lent::new();
    same_answer(input, &mut lent);
    let mut loader = || {
        let _ = black_box(lent.judge(black_box(input)));
    };
    let mut plain = || {
        let _ = black_box(judge_plainly(black_box(input)));
    };
    let calls = (calls_for(&mut loader), calls_for(&mut plain));
    let mut samples = (Vec::new(), Vec::new());
    for _ in 0..SAMPLES {
        samples.0.push(sample(&mut loader, calls.0));
        samples.1.push(sample(&mut plain, calls.1));
    }
    Row {
        what: input.what(),
        kind: input.kind,
        size: input.size,
        amount: input.amount(),
        numbers: input.numbers,
        loader: least(samples.0),
        plain: least(samples.1),
    }
}

/// `input<tab>microseconds<tab>microseconds`, of the loader alone: the least of the samples, which other work disturbs least,
/// and their median.
pub fn loader_alone(input: &Input) -> String {
    let mut lent = Lent::new();
    same_answer(input, &mut lent);
    let mut loader = || {
        let _ = black_box(lent.judge(black_box(input)));
    };
    let calls = calls_for(&mut loader);
    let samples: Vec<f64> = (0..SAMPLES).map(|_| sample(&mut loader, calls) / 1000.0).collect();
    format!("{input}\t{:.2}\t{:.2}", least(samples.clone()), median(samples))
}

/// The input, after one call that is a function of its own.
pub fn call_once(input: &Input) -> String {
    chelbugan_bench_one_call(&mut Lent::new(), input);
    input.to_string()
}

/// A counter of instructions finds it by its name.
#[no_mangle]
#[inline(never)]
extern "Rust" fn chelbugan_bench_one_call(lent: &mut Lent, input: &Input) {
    let _ = black_box(lent.judge(black_box(input)));
}

/// What is timed is the right answer, the same from both.
fn same_answer(input: &Input, lent: &mut Lent) {
    let loader = lent.judge(input).map(|count| count as usize);
    let loader = loader.map_err(|no| (no.number as usize, no.place as usize));
    let plain = judge_plainly(input).map_err(|no| (no.number as usize, no.place));
    let wanted = input.answer.map_err(|no| (no.number as usize, no.place));
    assert_eq!(loader, wanted, "the loader on: {input}");
    assert_eq!(plain, wanted, "the plain checker on: {input}");
}

/// How many calls fill a sample; it warms up as well.
fn calls_for(call: &mut impl FnMut()) -> usize {
    let started = Instant::now();
    let mut calls = 0;
    while started.elapsed() < SAMPLE_TIME {
        call();
        calls += 1;
    }
    calls
}

/// Nanoseconds a call.
fn sample(call: &mut impl FnMut(), calls: usize) -> f64 {
    let started = Instant::now();
    for _ in 0..calls {
        call();
    }
    started.elapsed().as_nanos() as f64 / calls as f64
}

pub fn least(samples: Vec<f64>) -> f64 {
    samples.into_iter().fold(f64::INFINITY, f64::min)
}

/// The upper one where two lie in the middle.
pub fn median(mut samples: Vec<f64>) -> f64 {
    samples.sort_by(f64::total_cmp);
    samples[samples.len() / 2]
}
