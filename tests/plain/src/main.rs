//! The program `plain`: lines, generate and tally.

use plain::{generate, lines, tally};
use std::io::{self, BufRead, Read, Write};

const USE: &str = "use: plain lines | plain generate SEED COUNT [small] | plain tally";

fn main() -> io::Result<()> {
    let arguments: Vec<String> = std::env::args().skip(1).collect();
    let arguments: Vec<&str> = arguments.iter().map(String::as_str).collect();
    match arguments[..] {
        ["lines"] => answer_lines(),
        ["generate", seed, count] => generate_lines(seed, count, false),
        ["generate", seed, count, "small"] => generate_lines(seed, count, true),
        ["tally"] => write_tally(),
        _ => refuse_use(),
    }
}

fn refuse_use() -> io::Result<()> {
    eprintln!("{USE}");
    std::process::exit(2)
}

/// One answer a line; a line that is no text is answered like any other.
fn answer_lines() -> io::Result<()> {
    let mut output = io::BufWriter::new(io::stdout().lock());
    for line in io::stdin().lock().split(b'\n') {
        let line = line?;
        writeln!(output, "{}", lines::answer(&String::from_utf8_lossy(&line)))?;
        output.flush()?;
    }
    Ok(())
}

fn generate_lines(seed: &str, count: &str, small: bool) -> io::Result<()> {
    let (Ok(seed), Ok(count)) = (seed.parse::<u64>(), count.parse::<usize>()) else {
        return refuse_use();
    };
    let mut output = io::BufWriter::new(io::stdout().lock());
    for request in generate::requests(seed, count, small) {
        writeln!(output, "{request}")?;
    }
    output.flush()
}

fn write_tally() -> io::Result<()> {
    let mut answers = String::new();
    io::stdin().lock().read_to_string(&mut answers)?;
    let mut output = io::BufWriter::new(io::stdout().lock());
    for (kind, count) in tally::tally(answers.lines()) {
        writeln!(output, "{kind}: {count}")?;
    }
    output.flush()
}
