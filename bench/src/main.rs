//! Times the proved loader and the plain checker on the same inputs, side by side. Writes docs/BENCH.md and
//! its plots.
//!
//! `bench loader` times the loader alone and writes no file: a line for each input with the least time of many and their
//! median. `bench once` calls it once on each input, for bench/count-instructions. `bench compare` asks two programs, each
//! linked with another archive, for both, for bench/compare-archives. `bench frames` adds up the frames of an archive's listing,
//! for bench/figures. `bench limits` times the slowest inputs alone, for this machine's line of docs/EMBEDDING.md, which the whole
//! benchmark writes too. TEXT takes the inputs that have it in their names. With
//! CHELBUGAN_BENCH_WITHOUT_LIBRARIES set, inputs that have a library are left out: archives of version 1 know of none.

mod compare;
mod frames;
mod inputs;
mod limits;
mod machine;
mod measure;
mod page;
mod plot;

use inputs::Input;
use measure::Row;
use std::io;
use std::path::Path;

fn main() -> io::Result<()> {
    let arguments: Vec<String> = std::env::args().skip(1).collect();
    match &arguments.iter().map(String::as_str).collect::<Vec<_>>()[..] {
        [] => write_the_page(),
        ["loader", text @ ..] if text.len() <= 1 => {
            named(text).for_each(|input| println!("{}", measure::loader_alone(&input)));
            Ok(())
        }
        ["once", text @ ..] if text.len() <= 1 => {
            named(text).for_each(|input| println!("{}", measure::call_once(&input)));
            Ok(())
        }
        ["compare", before, after, text @ ..] if text.len() <= 1 => {
            let inputs: Vec<Input> = named(text).collect();
            print!("{}", compare::compared([before, after], text, &inputs)?);
            Ok(())
        }
        ["limits"] => {
            let rows = measured(limits::inputs());
            write_limits([&rows[0..1], &rows[1..2], &rows[2..3]])
        }
        ["frames", listing] => {
            let frames = frames::of(&std::fs::read_to_string(listing)?);
            for (call, bytes) in frames.map_err(io::Error::other)? {
                println!("{call} {bytes}");
            }
            Ok(())
        }
        _ => Err(io::Error::other(USE)),
    }
}

const USE: &str =
    "use: bench, bench loader [TEXT], bench once [TEXT], bench compare BEFORE AFTER [TEXT], bench limits, or bench frames LISTING";

/// With this text in their names; all inputs where there is none.
fn named(text: &[&str]) -> impl Iterator<Item = Input> {
    let text = text.concat();
    let with_libraries = std::env::var_os("CHELBUGAN_BENCH_WITHOUT_LIBRARIES").is_none();
    let bodies = inputs::of_bodies().into_iter();
    let all = inputs::of_sections().into_iter().chain(inputs::of_libraries()).chain(bodies);
    let all = all.chain(inputs::of_numbers()).chain(inputs::of_runs());
    all.filter(move |input| with_libraries || input.library.is_none())
        .filter(move |input| input.to_string().contains(&text))
}

fn write_the_page() -> io::Result<()> {
    let docs = Path::new(env!("CARGO_MANIFEST_DIR")).join("../docs");
    let sections = measured(inputs::of_sections());
    let libraries = measured(inputs::of_libraries());
    let bodies = measured(inputs::of_bodies());
    let numbers = measured(inputs::of_numbers());
    let runs = measured(inputs::of_runs());
    let measured_on = format!("Version {}, {}", version(), machine::kind());
    let page = page::page(&measured_on, &sections, &libraries, &bodies, &numbers, &runs);
    std::fs::write(docs.join("BENCH.md"), &page)?;
    write_limits([&sections, &bodies, &runs])?;
    let plots = [
        ("bench-sections.svg", plot::plot(&plot::SECTIONS, &inputs::sections::KINDS, &sections)),
        ("bench-bodies.svg", plot::plot(&plot::BODIES, &inputs::bodies::KINDS, &bodies)),
        ("bench-runs.svg", plot::plot(&plot::RUNS, &inputs::runs::KINDS, &runs)),
    ];
    for (name, plot) in plots {
        std::fs::write(docs.join(name), plot)?;
    }
    println!("{}\n{}", page::table("Section", &sections), page::table("Input", &libraries));
    println!("{}", page::table("Body", &bodies));
    print!("{}\n{}", page::number_table(&numbers), page::run_table(&runs));
    Ok(())
}

fn write_limits(rows: [&[Row]; 3]) -> io::Result<()> {
    let file = Path::new(env!("CARGO_MANIFEST_DIR")).join("../docs/EMBEDDING.md");
    let page = std::fs::read_to_string(&file)?;
    let page = limits::put(&page, &machine::kind(), &version(), rows);
    std::fs::write(file, page.ok_or_else(|| io::Error::other("the page has no place for times"))?)
}

/// Of the archive, as `2.0.0`.
fn version() -> String {
    let version = chelbugan::calls::version();
    format!("{}.{}.{}", version / 10_000, version / 100 % 100, version % 100)
}

fn measured(inputs: Vec<Input>) -> Vec<Row> {
    let rounds = (0..measure::ROUNDS).map(|_| inputs.iter().map(measure::measure).collect());
    let least = |one: Vec<Row>, other: Vec<Row>| {
        one.into_iter().zip(other).map(|(row, again)| row.least(again)).collect()
    };
    rounds.reduce(least).unwrap_or_default()
}
