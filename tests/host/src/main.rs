//! The program `host_tests`: compares the loader with the plain checker, and its float operations with the processor's, on
//! as many requests or pairs as asked for.

use host_tests::compare::Comparison;
use host_tests::floats;
use host_tests::guarded::Guarded;
use host_tests::requests::{self, Request};
use std::process::ExitCode;

const USE: &str = "use: host_tests compare SEED COUNT
     host_tests without-libraries SEED COUNT   the same requests without their libraries
     host_tests floats SEED COUNT              COUNT pairs for each operation and width
     host_tests touch before | touch behind    touches a guard page, and so must die of it";

fn main() -> ExitCode {
    let arguments: Vec<String> = std::env::args().skip(1).collect();
    let arguments: Vec<&str> = arguments.iter().map(String::as_str).collect();
    match arguments[..] {
        ["compare", seed, count] => match (seed.parse(), count.parse()) {
            (Ok(seed), Ok(count)) => compare(seed, count, requests::generated(seed)),
            _ => refuse_use(),
        },
        ["without-libraries", seed, count] => match (seed.parse(), count.parse()) {
            (Ok(seed), Ok(count)) => compare(seed, count, requests::without_libraries(seed)),
            _ => refuse_use(),
        },
        ["floats", seed, count] => match (seed.parse(), count.parse()) {
            (Ok(seed), Ok(count)) => compare_floats(seed, count),
            _ => refuse_use(),
        },
        ["touch", side @ ("before" | "behind")] => touch(side),
        _ => refuse_use(),
    }
}

fn refuse_use() -> ExitCode {
    eprintln!("{USE}");
    ExitCode::from(2)
}

/// Stops at the first difference, with the request line that anyone can ask both programs again.
fn compare(seed: u64, count: usize, requests: impl Iterator<Item = Request>) -> ExitCode {
    let mut comparison = Comparison::new(seed);
    for request in requests.take(count) {
        if let Err(difference) = comparison.ask(&request) {
            println!("{request}\n{difference}");
            return ExitCode::FAILURE;
        }
    }
    let tally = comparison.tally();
    println!("the loader and the plain checker agree on {count} requests and every lent word");
    print!("{tally}");
    ExitCode::SUCCESS
}

/// Stops at the first difference, with the operands in hex.
fn compare_floats(seed: u64, count: usize) -> ExitCode {
    for operation in &floats::OPERATIONS {
        if let Err(difference) = floats::compare(operation, seed, count) {
            println!("{difference}");
            return ExitCode::FAILURE;
        }
        println!("{}: the loader and the processor agree on {count} pairs", operation.name);
    }
    ExitCode::SUCCESS
}

fn touch(side: &str) -> ExitCode {
    let memory = Guarded::<u16>::ending_at_guard(16);
    let place = memory.as_slice().as_ptr();
    let outside = match side {
        "behind" => place.wrapping_add(16),
        _ => Guarded::<u16>::starting_after_guard(16).as_slice().as_ptr().wrapping_sub(1),
    };
    // SAFETY: none. This read is to be stopped by the guard page; the tests see that it is.
    let read = unsafe { outside.read_volatile() };
    println!("read {read} where a guard page should be");
    ExitCode::SUCCESS
}
